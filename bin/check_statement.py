#!/usr/bin/env python3
"""Compares docs/STATEMENT.md with the definitions on which the clauses of the top call rest.

Follows the imports of the contracts of crates/nullcheck_top/src/top.rt and src/law.rt through the specs/ folders of
all crates, but for the standard library and the ported crates, which stand elsewhere. Types that the code declares
(specs.declared) are counted apart: they are read where src/ declares them. Prints for each crate its files with their
lines, what the page names but isn't reached, or leaves out, and each number of lines of the page that isn't that of its row's
files, also of the rows of the other programs. Prints each definition in these files above which no comment says what it is. Ends with 1
where there is such a difference, or such a definition.

usage: bin/check_statement.py [--write]   with --write: puts the numbers of lines into the page
"""
import re
import sys
from pathlib import Path

ROOT = Path(__file__).resolve().parent.parent
CRATES = ROOT / "crates"
PAGE = ROOT / "docs" / "STATEMENT.md"
STARTS = [CRATES / "nullcheck_top/src/top.rt", CRATES / "nullcheck_top/src/law.rt"]
IMPORT = re.compile(r"^\s*(?:pub )?(?:ghost )?use Rattle\.(\w+)\.specs\.([\w.]+)", re.MULTILINE)
# A row of the other programs, or of the shorter road: folders, each with the names of files in it, and a number of lines.
BESIDE = re.compile(r"^(\| )((?:`\w+/specs/`: [^|;]*;? ?)+)( \| )(\d+)( \|)", re.MULTILINE)
# The first line of a definition, at the top, in a module or in a mutual block, and of a record, whose members follow.
HEAD = re.compile(r"^ *(?:(?:abbrev|unfoldable|data|record|pub) +)+(?!mutual\b)[^\s:]+ *[:({]")
RECORD = re.compile(r"^ *(?:pub +)?record\b.*\bwhere$")
NAMED = re.compile(r"`(\w+)/specs/(\{[\w,]+\}|\w+)\.antt`")


def spec_of(crate, path):
    """The file of specs/ that an import names, where it names one: its last parts may be names inside the file."""
    parts = path.strip(".").split(".")
    for count in range(len(parts), 0, -1):
        file = CRATES / crate / "specs" / ("/".join(parts[:count]) + ".antt")
        if file.is_file():
            return file
    return None


def closure():
    """The files that the contracts reach, and the types of the code among what they import."""
    files, types, left = set(), set(), list(STARTS)
    while left:
        for crate, path in IMPORT.findall(left.pop().read_text(encoding="utf-8")):
            if path.startswith("declared."):
                if (CRATES / crate).is_dir():
                    types.add((crate, path.split(".")[1]))
                continue
            file = spec_of(crate, path)
            if file is not None and file not in files:
                files.add(file)
                left.append(file)
    return files, types


def named():
    """The files that the page names."""
    found = set()
    for crate, names in NAMED.findall(PAGE.read_text(encoding="utf-8")):
        found.update(CRATES / crate / "specs" / f"{name}.antt" for name in names.strip("{}").split(","))
    return found


def uncommented(file):
    """The heads of the file's definitions, with their lines, above which no comment stands; members of records aren't definitions."""
    lines = file.read_text(encoding="utf-8").splitlines()
    record, found = None, []
    for number, line in enumerate(lines):
        indent = len(line) - len(line.lstrip())
        if line.strip() and record is not None and indent <= record:
            record = None
        if record is None and HEAD.match(line) and not (number and lines[number - 1].lstrip().startswith("--")):
            found.append((number + 1, line.strip()))
        if RECORD.match(line):
            record = indent
    return found


def lines_of(file):
    return len(file.read_text(encoding="utf-8").splitlines())


def named_in(text):
    """The files that a text names."""
    return {CRATES / crate / "specs" / f"{name}.antt" for crate, names in NAMED.findall(text) for name in names.strip("{}").split(",")}


def with_numbers(page, reached):
    """The page with the number of lines in each row, and with the number of all files and their lines."""

    def row(found):
        files = [file for file in named_in(found[2]) if file.is_file()]
        return f"{found[1]}{found[2]}{sum(map(lines_of, files))}{found[4]}" if files else found[0]

    page = re.sub(r"^(\| \d+ \|)(.*`\w+/specs/.*\| )(\d+)( \|)", row, page, flags=re.MULTILINE)
    def row_beside(found):
        parts = re.findall(r"`(\w+)/specs/`: ([^;|]*)", found[2])
        files = [CRATES / crate / "specs" / f"{name}.antt" for crate, names in parts for name in re.findall(r"`(\w+)`", names)]
        missing = [file for file in files if not file.is_file()]
        for file in missing:
            print(f"no such file: {file.relative_to(CRATES)}")
        return found[0] if missing else f"{found[1]}{found[2]}{found[3]}{sum(map(lines_of, files))}{found[5]}"

    page = BESIDE.sub(row_beside, page)
    lines = sum(map(lines_of, reached))
    return re.sub(r"^\d+ files, \d+ lines, so some \d+ pages", f"{len(reached)} files, {lines} lines, so some {round(lines / 50)} pages", page, flags=re.MULTILINE)


def main():
    reached, types = closure()
    for crate in sorted({file.parent.parent.name for file in reached}):
        files = sorted(file for file in reached if file.parent.parent.name == crate)
        parts = ", ".join(f"{file.stem} {lines_of(file)}" for file in files)
        print(f"{crate}: {sum(map(lines_of, files))} = {parts}")
    print(f"{len(reached)} files, {sum(map(lines_of, reached))} lines; {len(types)} files of src/ declare types that they use:")
    print("  " + ", ".join(f"{crate}/src/{module}.rt" for crate, module in sorted(types)))
    differences = 0
    for text, files in (("reached, not named", reached - named()), ("named, not reached", named() - reached)):
        for file in sorted(files):
            print(f"{text}: {file.relative_to(CRATES)}")
            differences += 1
    for file in sorted(named()):
        for number, head in uncommented(file):
            print(f"no comment: {file.relative_to(CRATES)}:{number}: {head[:80]}")
            differences += 1
    page = PAGE.read_text(encoding="utf-8")
    wanted = with_numbers(page, reached)
    if "--write" in sys.argv[1:]:
        PAGE.write_text(wanted, encoding="utf-8")
    else:
        for one, other in zip(page.splitlines(), wanted.splitlines()):
            if one != other:
                print(f"numbers: {one[:80]} .. wants {other[:80]}")
                differences += 1
    return 1 if differences else 0


if __name__ == "__main__":
    sys.exit(main())
