#!/usr/bin/env python3
"""Runs the programs that write files with their requests for memory refused. It isn't part of the gate.

Usage: bench/refused.py ANNOTATOR CERTIFIER
  ANNOTATOR  a built nullcheck_annotate: crates/nullcheck_annotate/out/nullcheck_annotate
  CERTIFIER  a built nullcheck_cert: crates/nullcheck_cert/out/nullcheck_cert

bench/memory.c, compiled by `cc` and preloaded, refuses the k-th request for memory, or all from the k-th on, for up to some 1,500
of the k of a run. Each run ends as without a refusal, with the same bytes; or with 7 and nothing written; or, where a file couldn't
be put in place, with 6; behind 6 and 7 each file is as it was, and no file is left beside it. Prints a line for each command, and
each run that ended otherwise; ends with 1 where one did.
"""

import collections
import concurrent.futures
import os
import pathlib
import shutil
import struct
import subprocess
import sys
import tempfile

ROOT = pathlib.Path(__file__).resolve().parent.parent
MOST = 1500
ALL = 1 << 40


class Run:
    """How a run ended: status, output, requests, and what stands in its folder."""

    def __init__(self, library, words, files, first, last):
        with tempfile.TemporaryDirectory() as folder:
            for file in files:
                shutil.copy(file, folder)
            count = pathlib.Path(folder, "count")
            count.write_bytes(bytes(8))
            refusing = {"REFUSED_FROM": str(first), "REFUSED_TO": str(last), "REFUSED_COUNT": str(count),
                        "REFUSED_SECONDS": "20", "LD_PRELOAD": library}
            ended = subprocess.run(words, cwd=folder, env={**os.environ, **refusing}, stdin=subprocess.DEVNULL,
                                   stdout=subprocess.PIPE, stderr=subprocess.PIPE, check=False)
            self.status = ended.returncode
            self.output = ended.stdout
            self.requests = struct.unpack("<Q", count.read_bytes())[0]
            count.unlink()
            self.files = {path.name: path.read_bytes() for path in pathlib.Path(folder).iterdir()}


def is_as_said(run, whole, before):
    if run.status == whole.status:
        return run.output == whole.output and run.files == whole.files
    if run.status == 7:
        return run.output == b"" and run.files == before
    return run.status == 6 and run.files == before


def refuse_each(name, library, words, files):
    """Tries a command; how many runs ended otherwise."""
    whole = Run(library, words, files, 0, 0)
    before = {path.name: path.read_bytes() for path in files}
    numbers = range(1, whole.requests + 1, max(1, whole.requests // MOST))

    def refused(number):
        return [(number, last, Run(library, words, files, number, last)) for last in (number, ALL)]

    statuses = collections.Counter()
    wrong = 0
    with concurrent.futures.ThreadPoolExecutor() as pool:
        for runs in pool.map(refused, numbers):
            for number, last, run in runs:
                statuses[run.status] += 1
                if not is_as_said(run, whole, before):
                    wrong += 1
                    print(f"{name}, request {number} to {last}: ended with {run.status}: {run.output[:100]!r}")
    ends = ", ".join(f"{count} with {status}" for status, count in sorted(statuses.items()))
    print(f"{name}: {whole.requests} requests, {sum(statuses.values())} runs: {ends}; {wrong} otherwise")
    return wrong


def main(words):
    if len(words) != 2 or words[0].startswith("-"):
        print(__doc__.split("\n\n")[1], file=sys.stderr)
        return 64
    annotator, certifier = (str(pathlib.Path(word).resolve()) for word in words)
    parcels, stack = ROOT / "examples/Parcels.java", ROOT / "examples/Stack.java"
    with tempfile.TemporaryDirectory() as folder:
        library = str(pathlib.Path(folder, "memory.so"))
        subprocess.run(["cc", "-O2", "-shared", "-fPIC", ROOT / "bench/memory.c", "-o", library, "-ldl", "-lpthread"], check=True)
        cert = pathlib.Path(folder, "stack.cert")
        subprocess.run([certifier, "write", cert, stack], check=True)
        wrong = refuse_each("annotate", library, [annotator, "--infer", "package", parcels.name], [parcels])
        wrong += refuse_each("annotate --write", library, [annotator, "--infer", "package", "--write", parcels.name], [parcels])
        wrong += refuse_each("write", library, [certifier, "write", "new.cert", stack.name], [stack])
        wrong += refuse_each("check", library, [certifier, "check", cert.name, stack.name], [stack, cert])
    return 1 if wrong else 0


if __name__ == "__main__":
    sys.exit(main(sys.argv[1:]))
