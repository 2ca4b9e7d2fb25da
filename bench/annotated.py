#!/usr/bin/env python3
"""Annotates the files of the cases and examples, and checks them again. It isn't part of the gate.

Usage: bench/annotated.py ANNOTATOR CHECKER
       bench/annotated.py --times ANNOTATOR CHECKER [DIVISOR]
  ANNOTATOR  a built nullcheck_annotate: crates/nullcheck_annotate/out/nullcheck_annotate
  CHECKER    a built nullcheck: crates/nullcheck/out/nullcheck
  DIVISOR    divides the sizes of bench/whole.sh's shapes (1)

Each file is taken alone, under both choices of members that are inferred, without options, with `--imports` and with `--terse`. Where it
has annotated texts, its diff is applied by `git apply` to one copy and `--write` writes another: both have the same bytes; the checker ends
with the same status on it as on the file, with rows of the same codes at the same tokens, and at the same lines but for those that were added
before; and nothing would change a second time. Where positions are left without words the status is 1, and all else is so. Files that are
refused stay refused. Prints each file that does otherwise, and how many did what; ends with 1 where one did otherwise.

Times: for each shape a check with four workers and its annotating, the best of three, and their ratio, at the whole size and at half.
"""

import collections
import itertools
import pathlib
import re
import shutil
import subprocess
import sys
import tempfile
import time

ROOT = pathlib.Path(__file__).resolve().parent.parent
ROW = re.compile(rb"^([^:]+):(\d+):(\d+): (\S+)$")
TOKEN = re.compile(rb"[A-Za-z_$][A-Za-z_$0-9]*|\d+|\"[^\"]*\"|\S")


def run(words, folder):
    return subprocess.run(words, cwd=folder, stdin=subprocess.DEVNULL, stdout=subprocess.PIPE, stderr=subprocess.PIPE, check=False)


def rows(text, report, added=0):
    """Code, line and token of each row of a report; behind lines that were added, by the lines of before."""
    lines = re.split(rb"\r\n|\r|\n", text)
    found = []
    for line in report.split(b"\n"):
        row = ROW.match(line)
        if row:
            number, column = int(row.group(2)), int(row.group(3))
            shown = lines[number - 1].decode("utf-8", "replace") if number <= len(lines) else ""
            token = TOKEN.match(shown[column - 1:].encode("utf-8", "replace"))
            found.append((row.group(4), number - added, token.group(0) if token else b""))
    return found


def parted(shown):
    """A diff, and after it what is said of the positions that are left without words."""
    first = re.search(rb"^[^\n]*: NO-SPELLING\n", shown, re.M)
    return (shown[:first.start()], shown[first.start():]) if first else (shown, b"")


def differs(annotator, checker, folder, name, infer, options):
    """What the annotating of a file did, and what is wrong with it."""
    choice = ["--infer", infer]
    annotating = [annotator, *choice, *options]
    old = pathlib.Path(folder, name).read_bytes()
    before = run([checker, *choice, name], folder)
    shown = run([*annotating, name], folder)
    if shown.returncode == 2:
        return "refused", None if before.returncode == 2 and before.stdout == shown.stdout else "refused by one alone"
    diff, left = parted(shown.stdout)
    if shown.returncode == 1 and not left:
        return "without texts", None if before.returncode in (0, 1) else "its check ends otherwise"
    if shown.returncode != (1 if left else 0):
        return "faults", f"ended with {shown.returncode}"
    with tempfile.TemporaryDirectory() as other:
        shutil.copy(pathlib.Path(folder, name), other)
        if diff:
            patch = subprocess.run(["git", "apply", "--unsafe-paths", "-"], cwd=other, input=diff, stderr=subprocess.PIPE, check=False)
            if patch.returncode != 0:
                return "annotated", f"git apply: {patch.stderr[:200]!r}"
        applied = pathlib.Path(other, name).read_bytes()
        pathlib.Path(other, name).write_bytes(old)
        wrote = run([*annotating, "--write", name], other)
        new = pathlib.Path(other, name).read_bytes()
        if wrote.returncode != shown.returncode or new != applied:
            return "annotated", "--write and the diff differ"
        after = run([checker, *choice, name], other)
        again = run([*annotating, name], other)
    added = len(re.findall(rb"\r\n|\r|\n", new)) - len(re.findall(rb"\r\n|\r|\n", old))
    if after.returncode != before.returncode or rows(old, before.stdout) != rows(new, after.stdout, added):
        return "annotated", f"rows differ: {before.stdout[:200]!r} {after.stdout[:200]!r}"
    if parted(again.stdout)[0] or again.returncode != shown.returncode:
        return "annotated", "something would change again"
    if left:
        return "annotated in part", None
    return "annotated" if new != old else "unchanged", None


def try_all(annotator, checker):
    did = collections.Counter()
    wrong = 0
    with tempfile.TemporaryDirectory() as folder:
        for path in sorted((ROOT / "crates/nullcheck_cases/data").glob("*.java")) + sorted((ROOT / "examples").glob("*.java")):
            shutil.copy(path, folder)
            for infer, options in itertools.product(("private", "package"), ([], ["--imports"], ["--terse"])):
                what, fault = differs(annotator, checker, folder, path.name, infer, options)
                did[what] += 1
                if fault:
                    wrong += 1
                    print(f"{path.name}, {' '.join([infer, *options])}: {fault}")
    print(", ".join(f"{count} {what}" for what, count in sorted(did.items())) + f"; {wrong} otherwise")
    return 1 if wrong or not did["annotated"] else 0


def best(words, folder):
    seconds = []
    for _ in range(3):
        begin = time.monotonic()
        subprocess.run(words, cwd=folder, stdin=subprocess.DEVNULL, stdout=subprocess.DEVNULL, stderr=subprocess.DEVNULL, check=False)
        seconds.append(time.monotonic() - begin)
    return min(seconds)


def time_shapes(annotator, checker, divisor):
    with tempfile.TemporaryDirectory() as folder:
        for size, part in (("half", 2 * divisor), ("whole", divisor)):
            subprocess.run([ROOT / "bench" / "whole.sh", "--files", pathlib.Path(folder, size), str(part)], check=True)
        print(f"{'shape':12} {'check':>8} {'annotate':>9} {'ratio':>6} {'grows':>6}")
        for path in sorted(pathlib.Path(folder, "whole").iterdir()):
            if not path.is_dir():
                continue
            half = pathlib.Path(folder, "half", path.name)
            files = sorted(file.name for file in path.glob("*.java"))
            halves = sorted(file.name for file in half.glob("*.java"))
            check = best([checker, *files], path)
            taken = best([annotator, *files], path)
            grown = taken / best([annotator, *halves], half)
            print(f"{path.name:12} {check:7.3f}s {taken:8.3f}s {taken / check:6.2f} {grown:6.2f}")
    return 0


def main(words):
    if words[:1] == ["--times"] and len(words) in (3, 4):
        annotator, checker = (str(pathlib.Path(word).resolve()) for word in words[1:3])
        return time_shapes(annotator, checker, int(words[3]) if len(words) == 4 else 1)
    if len(words) == 2 and not words[0].startswith("-"):
        return try_all(*(str(pathlib.Path(word).resolve()) for word in words))
    print(__doc__.split("\n\n")[1], file=sys.stderr)
    return 64


if __name__ == "__main__":
    sys.exit(main(sys.argv[1:]))
