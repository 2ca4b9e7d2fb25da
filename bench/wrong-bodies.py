#!/usr/bin/env python3
"""Tries wrong bodies that the gate leaves out: each must be refused by its crate's contracts.

usage: bench/wrong-bodies.py [NAME..]

A wrong body is a file crates/NAME/wrong-bodies/*.edit, in the form of a must-fail edit (docs/CONTRIBUTING.md). They stand
where a try is dear: the gate tries those of the folders must-fail alone. This makes a copy of the repository whose
must-fail folders are the folders wrong-bodies of the crates that are named, or of all, and runs `rt ci` there for these
crates; what it proves on the way is kept for the gate. A line for each wrong body says whether it was refused. Ends with 1
where one wasn't, or couldn't be tried."""
import pathlib
import re
import shutil
import subprocess
import sys
import tempfile

ROOT = pathlib.Path(__file__).resolve().parent.parent


def copy_to(copy, names):
    """The tracked files, with the wrong bodies of these crates as the only must-fail edits."""
    listed = subprocess.run(["git", "ls-files", "-z"], cwd=ROOT, check=True, capture_output=True, text=True).stdout
    for name in filter(None, listed.split("\0")):
        source, parts = ROOT / name, name.split("/")
        if not source.is_file() or "must-fail" in parts:
            continue
        if "wrong-bodies" in parts:
            if parts[1] not in names:
                continue
            name = name.replace("/wrong-bodies/", "/must-fail/")
        (copy / name).parent.mkdir(parents=True, exist_ok=True)
        shutil.copy2(source, copy / name)


def main():
    every = sorted(folder.parent.name for folder in (ROOT / "crates").glob("*/wrong-bodies") if any(folder.glob("*.edit")))
    names = sys.argv[1:] or every
    unknown = [name for name in names if name not in every]
    if unknown:
        print(f"no wrong bodies: {' '.join(unknown)}", file=sys.stderr)
        return 64
    wanted = {f"{name}/{edit.stem}" for name in names for edit in (ROOT / "crates" / name / "wrong-bodies").glob("*.edit")}
    with tempfile.TemporaryDirectory() as folder:
        copy = pathlib.Path(folder) / ROOT.name
        copy_to(copy, names)
        subprocess.run(["git", "init", "-q"], cwd=copy, check=True)
        run = subprocess.Popen(["rt", "ci", *names], cwd=copy, stdout=subprocess.PIPE, stderr=subprocess.STDOUT, text=True, errors="replace")
        refused = set()
        for line in run.stdout:
            sys.stderr.write(line)
            found = re.search(r"must-fail (\w+)/(\w+)\.edit: refused", line)
            if found:
                refused.add(f"{found.group(1)}/{found.group(2)}")
        run.wait()
    for name in sorted(wanted):
        print(f"{name}: {'refused' if name in refused else 'NOT REFUSED'}")
    print(f"{len(wanted & refused)} of {len(wanted)} wrong bodies refused")
    return 0 if wanted <= refused else 1


if __name__ == "__main__":
    sys.exit(main())
