#!/usr/bin/env python3
"""Brings this repository's own definitions and lemmas to today's spelling: words in snake case, facts in camel case.

A name with a dash that a file of specs/ or proofs/ declares, or that a use line gives, is renamed wherever it stands in contracts, specs, proofs
and must-fail edits. Names that the toolchain makes (goals, invariants) keep their dashes. Run once, after port.py.
"""
import pathlib
import re
import sys

CRATES = pathlib.Path(__file__).resolve().parents[1] / "crates"

MADE = re.compile(r"(returns|loop|invariant|decreases|ghost|law|bounds|slice|overflow)-")

DECLARED = re.compile(r"\s*(?:(?:abbrev|unfoldable|pub|data|record)\s+)*([^\s:(){}]+(?: [^\s:(){}]+)*) :(?:\s|$)")

TOKEN = re.compile(r"[^\s(){}\[\],;.]+")


def files(*suffixes):
    for path in sorted(CRATES.rglob("*")):
        if path.suffix in suffixes and "out" not in path.parts:
            yield path


def declared():
    names = set()
    for path in files(".antt"):
        for line in path.read_text().splitlines():
            found = DECLARED.match(line)
            names.update(found.group(1).split() if found else [])
    for path in files(".antt", ".rt"):
        for line in path.read_text().splitlines():
            if line.startswith(("use ", "ghost use ")):
                names.update(re.findall(r" as ([^\s,;}]+)", line))
    return names


def respelled(name):
    if name[0].isupper():
        return "".join(part[0].upper() + part[1:] for part in name.split("-"))
    return name.replace("-", "_")


def main():
    names = declared()
    new = {name: respelled(name) for name in names if "-" in name and not MADE.match(name)}
    together = [name for name in new.values() if name in names or list(new.values()).count(name) > 1]
    if together:
        sys.exit(f"names that fall together: {together}")
    for path in files(".antt", ".rt", ".edit"):
        comment = "--" if path.suffix == ".antt" else "//"
        lines = []
        for line in path.read_text().split("\n"):
            words = line.lstrip().startswith(comment)
            lines.append(line if words else TOKEN.sub(lambda t: new.get(t[0], t[0]), line))
        path.write_text("\n".join(lines))


main()
