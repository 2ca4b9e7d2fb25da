#!/usr/bin/env python3
"""Lists public calls that no program and no test reaches.

A body that always answers want of memory meets its contract, so each public call is to be run by something. From `main` of
each program, and from each test, this follows the names of functions through the text of src/: a name that is called is
every function of that name which the crate, or a library below it, declares (a method, where a dot or a type stands before
it). So what it reaches may be more than what runs, and what it lists is never run. Laws, whose bodies are empty or call
laws alone, are called by no run and are left out. Ends with 1 where a call is listed of which docs/TESTED.md says
nothing (by `crate::name`).

usage: bin/check_calls.py [--all]   with --all: those that TESTED names, too"""
import re
import sys
from collections import defaultdict
from pathlib import Path

ROOT = Path(__file__).resolve().parent.parent
CRATES = ROOT / "crates"
LINE = re.compile(r"^(\w+)[^:#]*:(.*)$", re.MULTILINE)
FUNCTION = re.compile(r"(?P<test>#\[test\]\s*)?(?P<public>pub(?:\([^)]*\))?\s+)?(?:const\s+|unsafe\s+)*fn\s+(?P<name>\w+)")
CALL = re.compile(r"(?P<dot>(?<![.])[.]\s*)?\b(?P<name>[a-z_]\w*)\s*(?:::<[^()]*?>\s*)?(?=[(,)\]};?]|\.\w)|(?P<of>[A-Z]\w*)(?:::<[^()]*?>)?::(?P<method>[a-z_]\w*)")


class Function:
    """A function's crate, file, name, kind and body."""

    def __init__(self, crate, file, name, is_public, is_test, is_method, body):
        self.crate, self.file, self.name, self.body = crate, file, name, body
        self.is_public, self.is_test, self.is_method = is_public, is_test, is_method

    def label(self):
        return f"{self.crate}::{self.name}"


def plain(text):
    """The text without comments and literals."""
    return re.sub(r'//[^\n]*|b?"(?:\\.|[^"\\])*"|b?\'(?:\\.|[^\'\\])\'', " ", text)


def closed(text, at):
    """The place after the brace that closes the one at this place."""
    depth = 0
    for place in range(at, len(text)):
        depth += {"{": 1, "}": -1}.get(text[place], 0)
        if not depth:
            return place + 1
    return len(text)


def body_of(text, at):
    """The body of the function whose name ends at this place: what stands in the first braces that no clause has; none of a declaration."""
    place = at
    while place < len(text):
        clause = re.compile(r"(requires|ensures)\b[^{]*").match(text, place)
        if clause:
            place = closed(text, clause.end())
        elif text[place] == "{":
            return text[place : closed(text, place)]
        elif text[place] == ";" and text.count("[", at, place) == text.count("]", at, place):
            return None
        else:
            place += 1
    return None


def functions_of(crate):
    for file in sorted((CRATES / crate / "src").rglob("*.rt")):
        text = plain(file.read_text(encoding="utf-8"))
        for found in FUNCTION.finditer(text):
            body = body_of(text, found.end())
            line = text[text.rfind("\n", 0, found.start("name")) + 1 : found.start("name")]
            if body is not None:
                is_public = (found["public"] or "").strip() == "pub"
                yield Function(crate, file, found["name"], is_public, bool(found["test"]), line.startswith(" "), body)


def below(lines):
    """For each crate itself and those on which it stands."""
    found = {}

    def of(name):
        if name not in found:
            found[name] = {name}.union(*(of(it) for it in lines[name] if it in lines))
        return found[name]

    for name in lines:
        of(name)
    return found


def main():
    lines = {name: its.split() for name, its in LINE.findall((ROOT / "crates.txt").read_text(encoding="utf-8"))}
    under, named, functions = below(lines), defaultdict(list), []
    for crate in lines:
        for function in functions_of(crate):
            functions.append(function)
            named[function.name].append(function)
    reached = {it for it in functions if it.is_test or (it.name == "main" and it.file.name == "main.rt")}
    left = list(reached)
    # A trait's method may be called from below, through a type parameter: what a call names is then above it.
    while left:
        caller = left.pop()
        for found in CALL.finditer(caller.body):
            name, is_method = found["name"] or found["method"], bool(found["dot"] or found["of"])
            for callee in named.get(name, ()):
                if callee in reached or callee.is_method != is_method:
                    continue
                if not is_method and callee.crate not in under[caller.crate]:
                    continue
                reached.add(callee)
                left.append(callee)
    laws = {it for it in functions if it.file.name == "law.rt" or not it.body.strip("{} \n")}
    said = (ROOT / "docs/TESTED.md").read_text(encoding="utf-8")
    unreached = [it for it in functions if it.is_public and it not in reached and it not in laws and not re.search(r"#\[cfg\(test\)\]", "")]
    missing = [it for it in unreached if f"`{it.label()}`" not in said]
    for function in unreached if "--all" in sys.argv[1:] else missing:
        print(f"{function.label()} ({function.file.relative_to(CRATES)})")
    print(f"{len(unreached)} public calls that no program or test reaches, {len(missing)} of which docs/TESTED.md says nothing")
    return 1 if missing else 0


if __name__ == "__main__":
    sys.exit(main())
