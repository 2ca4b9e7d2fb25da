#!/usr/bin/env python3
"""Holds docs/CODES.md against definitions: the table of what reporters say of each code against jn_base/specs/Messages.antt, and the headings
against the anchors of jn_reporters/specs/Anchors.antt.

Prints each row and each anchor that differs, and ends with 1 where there is one, or where a code has no row or no heading.
"""
import re
import sys
from pathlib import Path

ROOT = Path(__file__).resolve().parent.parent
DEFINED = re.compile(r'^(code_name|code_message|code_cure|code_anchor) (\w+) = codes "((?:[^"\\]|\\.)*)"$', re.MULTILINE)
ROW = re.compile(r"^\| `([A-Z0-9-]+)` \| (.*) \| (.*) \|$", re.MULTILINE)


def texts_of(file):
    """Each definition's texts, by the code's variant."""
    found = {}
    for name, variant, text in DEFINED.findall((ROOT / file).read_text(encoding="utf-8")):
        found.setdefault(name, {})[variant] = re.sub(r"\\(.)", r"\1", text)
    return found


HEADING = re.compile(r"^##+ (.*)$", re.MULTILINE)
RANGE = re.compile(r"`([A-Z]+)(\d+)` to `\1(\d+)`")


def anchors_of(page):
    """Each code's anchor as GitHub makes it of the heading that names the code; `L1` to `L7` names each one between."""
    found = {}
    for heading in HEADING.findall(page):
        codes = re.findall(r"`([A-Z0-9-]+)`", heading)
        for letter, first, last in RANGE.findall(heading):
            codes += [f"{letter}{number}" for number in range(int(first), int(last) + 1)]
        anchor = re.sub(r"[^\w\- ]", "", heading.lower()).replace(" ", "-")
        for code in codes:
            # A code's own heading comes behind that of its group.
            found[code] = anchor
    return found


def main():
    names = texts_of("crates/jn_base/specs/Codes.antt")["code_name"]
    words = texts_of("crates/jn_base/specs/Messages.antt")
    page = (ROOT / "docs/CODES.md").read_text(encoding="utf-8")
    table = page[page.index("## What reporters say") :]
    told = {code: (message, cure) for code, message, cure in ROW.findall(table)}
    wrong = 0
    for variant, code in names.items():
        wanted = words["code_message"][variant], words["code_cure"][variant]
        if told.pop(code, None) != wanted:
            print(f"{code}: docs/CODES.md should say `{wanted[0]}` and `{wanted[1]}`")
            wrong += 1
    for code in told:
        print(f"{code}: docs/CODES.md has a row, and there is no such code")
        wrong += 1
    anchors = texts_of("crates/jn_reporters/specs/Anchors.antt")["code_anchor"]
    headings = anchors_of(page)
    for variant, code in names.items():
        if anchors.get(variant) != headings.get(code):
            print(f"{code}: its heading in docs/CODES.md has the anchor `{headings.get(code)}`")
            wrong += 1
    sys.exit(1 if wrong else 0)


main()
