#!/usr/bin/env python3
"""Holds crates.txt against the crates: which edges nothing uses, and what each program stands on.

An edge is used where the name of the library occurs in src/, specs/ or proofs/ of the crate. Prints each edge that nothing
uses, each crate of crates/ without a line and each line without a crate, each library that no crate stands on (laws that
are leaves are meant to be), and for each program how many of the repository's crates it stands on. Ends with 1 where an
edge isn't used, or where lines and crates differ.

usage: bin/check_crates.py [--below NAME]   with --below: the crates on which the crate stands, one a line"""
import re
import sys
from pathlib import Path

ROOT = Path(__file__).resolve().parent.parent
CRATES = ROOT / "crates"
LINE = re.compile(r"^(\w+)[^:#]*:(.*)$", re.MULTILINE)
PARTS = ("src", "specs", "proofs")


def edges():
    """The crates in the order of crates.txt, each with the libraries of its line."""
    return {name: below.split() for name, below in LINE.findall((ROOT / "crates.txt").read_text(encoding="utf-8"))}


def words_of(crate):
    """The words of a crate's files."""
    files = (file for part in PARTS for file in (CRATES / crate / part).rglob("*") if file.suffix in (".rt", ".antt"))
    return {word for file in files for word in re.findall(r"\w+", file.read_text(encoding="utf-8"))}


def below(crate, lines):
    """The repository's crates on which a crate stands."""
    found, left = set(), [crate]
    while left:
        for name in lines.get(left.pop(), []):
            if name in lines and name not in found:
                found.add(name)
                left.append(name)
    return found


def main():
    lines = edges()
    if sys.argv[1:2] == ["--below"]:
        print("\n".join(sorted(below(sys.argv[2], lines))))
        return 0
    faults = []
    for crate, libraries in lines.items():
        words = words_of(crate)
        faults += [f"{crate}: nothing uses {name}" for name in libraries if name not in words]
    folders = {folder.name for folder in CRATES.iterdir() if (folder / "src").is_dir()}
    faults += [f"{name}: no line in crates.txt" for name in sorted(folders - set(lines))]
    faults += [f"{name}: no such crate" for name in sorted(set(lines) - folders)]
    print("\n".join(faults))
    programs = [name for name in lines if (CRATES / name / "src/main.rt").is_file()]
    used = {name for libraries in lines.values() for name in libraries}
    print("nothing stands on: " + ", ".join(name for name in lines if name not in used and name not in programs))
    for name in programs:
        print(f"{name} stands on {len(below(name, lines))} crates")
    print(f"{len(lines)} crates, {sum(map(len, lines.values()))} edges, {len(faults)} faults")
    return 1 if faults else 0


if __name__ == "__main__":
    sys.exit(main())
