#!/usr/bin/env python3
"""Prints which crates and files name something: what a change of its kind touches.

usage: bin/touched.py [--crates] NAME..   with --crates: the crates alone, each with the number of its files

A NAME is a word of the code or of definitions, as `ArrayLen`, or a path, as `Code::Elem`, of which the last word counts. Names are
looked for as whole words in src/, specs/ and proofs/ of all crates, lowest crate first; comments count, too. Below each crate stand
its files, and behind each file the names that it has where more than one was asked for. docs/HOWTO.md says which names to ask for.
Ends with 1 where a name is nowhere."""
import re
import sys
from pathlib import Path

ROOT = Path(__file__).resolve().parent.parent
CRATES = ROOT / "crates"
LINE = re.compile(r"^(\w+)[^:#]*:", re.MULTILINE)
PARTS = ("specs", "src", "proofs")


def files_of(crate):
    for part in PARTS:
        yield from (file for file in sorted((CRATES / crate / part).rglob("*")) if file.suffix in (".rt", ".antt"))


def main():
    words = [word.split("::")[-1] for word in sys.argv[1:] if word != "--crates"]
    if not words:
        print(__doc__.split("\n\n")[1], file=sys.stderr)
        return 64
    patterns = {word: re.compile(rf"\b{re.escape(word)}\b") for word in words}
    met, crates, files = set(), 0, 0
    for crate in LINE.findall((ROOT / "crates.txt").read_text(encoding="utf-8")):
        found = []
        for file in files_of(crate):
            text = file.read_text(encoding="utf-8")
            named = [word for word, pattern in patterns.items() if pattern.search(text)]
            if named:
                found.append((file.relative_to(CRATES / crate), named))
                met.update(named)
        if found:
            crates, files = crates + 1, files + len(found)
            print(f"{crate}: {len(found)}")
            if "--crates" not in sys.argv[1:]:
                for file, named in found:
                    print(f"  {file}" + (f"  ({', '.join(named)})" if len(words) > 1 else ""))
    print(f"{files} files in {crates} crates")
    for word in words:
        if word not in met:
            print(f"{word}: no file has this name", file=sys.stderr)
    return 0 if met == set(words) else 1


if __name__ == "__main__":
    sys.exit(main())
