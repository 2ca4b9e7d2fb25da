#!/usr/bin/env python3
"""Times a built program on shapes of files that nobody writes by hand, each beside its half.

Usage: bench/shapes.py PROGRAM [NAME..]
  PROGRAM  a built nullcheck: crates/nullcheck/out/nullcheck, as `rt ci` or bin/nullcheck leaves it
  NAME     times the shapes whose names begin so alone; `list` lists them

Each shape is one piece of text that grows with a number, and as many copies of it as it takes until a run of one worker
needs 0.05 s of a processor, user and system time together. Then the number alone is halved, and the best of five runs of
both is taken (of up to thirty where the ratio is too large). Where the bytes are more than doubled with the number, the
ratio is that of doubled bytes. Where the limits of the subset (docs/LANGUAGE.md) come first, the shape is too short to
be judged, and its ratio stands in parentheses. bench/shape_texts.py has the shapes.

Prints for each shape its number, its copies, its bytes, the seconds of the half and of the whole, their ratio, what 1
MiB of it takes in multiples of 1 MiB of members, and the last line of the report. Ends with 1 where a ratio is greater
than 2.3, a multiple greater than 20, a run ended by a signal or took more than 60 s, or a report isn't the one that the
shape is made for."""

import math
import os
import resource
import signal
import subprocess
import sys
import tempfile

from shape_texts import SHAPES

FLOOR = 0.05
MOST_RATIO = 2.3
CLEAR_RATIO = 2.8
MOST_TIMES = 20
SECONDS = 60
MIB = 1048576
RUNS = 5
ROUNDS = 6


def files_of(folder, make, n, copies):
    """Writes the copies into files of at most 1 MiB; gives their names and bytes, or None where they are too large."""
    names, total = [], 0
    text = []
    size = 0

    def close():
        name = f"{folder}/S{len(names)}.java"
        with open(name, "w") as file:
            file.write("".join(text))
        names.append(name)

    for k in range(copies):
        piece = make(n, k)
        if len(piece) > MIB:
            return None
        if size + len(piece) > MIB:
            close()
            text.clear()
            size = 0
        text.append(piece)
        size += len(piece)
        total += len(piece)
        if total > 4 * MIB:
            return None
    close()
    return names, total


def limit_time():
    resource.setrlimit(resource.RLIMIT_CPU, (SECONDS, SECONDS))
    resource.setrlimit(resource.RLIMIT_CORE, (0, 0))


def run(program, words, names, folder):
    """One run: the seconds of its user and system time, its status (below 0 a signal), and its last line."""
    out = f"{folder}/out"
    with open(out, "wb") as file:
        child = subprocess.Popen([program, "--workers", "1", *words, *names], stdout=file, stderr=subprocess.STDOUT, preexec_fn=limit_time)
        _, status, used = os.wait4(child.pid, 0)
        child.returncode = os.waitstatus_to_exitcode(status)
    with open(out, "rb") as file:
        file.seek(max(0, os.path.getsize(out) - 200))
        lines = file.read().decode(errors="replace").splitlines()
    return used.ru_utime + used.ru_stime, child.returncode, lines[-1] if lines else ""


class Sized:
    """A shape's files of one size, and their best time."""
    def __init__(self, program, shape, n, copies):
        self.program = program
        self.words = shape[6]
        self.folder = tempfile.TemporaryDirectory()
        self.made = files_of(self.folder.name, shape[1], n, copies)
        self.best = None
        self.status = None
        self.said = ""

    def time(self, runs=1):
        for _ in range(runs):
            seconds, self.status, self.said = run(self.program, self.words, self.made[0], self.folder.name)
            if self.best is None or seconds < self.best:
                self.best = seconds
            if self.status < 0:
                break
        return self.best

    def close(self):
        self.folder.cleanup()


def whole_of(program, shape):
    """The shape at the size at which it takes long enough, or at its greatest one; with its number and its copies."""
    name, make, n, limit, most, says, _ = shape
    copies = 1
    found = Sized(program, shape, n, copies)
    while True:
        seconds = found.time()
        if found.status >= 0 and seconds >= FLOOR * 1.1:
            seconds = found.time(RUNS - 1)
        if found.status < 0 or seconds >= FLOOR * 1.1:
            return found, n, copies
        times_more = 2 if seconds > FLOOR / 3 else 4 if seconds > FLOOR / 8 else 8
        for more in (times_more, 2):
            larger = None
            if n * more <= limit:
                larger = (n * more, copies)
            elif n * 2 <= limit:
                larger = (n * 2, copies)
            elif n < limit:
                larger = (limit, copies)
            if larger:
                next_one = Sized(program, shape, *larger)
                if next_one.made:
                    break
                next_one.close()
            if copies * more <= most:
                larger = (n, copies * more)
                next_one = Sized(program, shape, *larger)
                if next_one.made:
                    break
                next_one.close()
            next_one = None
        if next_one is None:
            return found, n, copies
        found.close()
        found = next_one
        n, copies = larger


def growth(half, whole):
    """How much more time is needed where the bytes double: some shapes have more than twice the text at twice the number."""
    ratio = whole.best / half.best
    more = whole.made[1] / half.made[1]
    return ratio ** (1 / math.log2(more)) if more > 2.2 else ratio


def main():
    words = sys.argv[1:]
    if not words or not os.access(words[0], os.X_OK):
        print(__doc__.split("\n\n")[1], file=sys.stderr)
        sys.exit(64)
    program = os.path.realpath(words[0])
    chosen = [it for it in SHAPES if len(words) < 2 or any(it[0].startswith(word) for word in words[1:])]
    if words[1:] == ["list"]:
        for it in SHAPES:
            print(it[0])
        return
    measure = None
    failures = []
    print(f"{'shape':32} {'number':>8} {'copies':>6} {'bytes':>8} {'s half':>7} {'s':>7} {'ratio':>7} {'1 MiB':>6}  last line", flush=True)
    members = SHAPES[0]
    count = 64
    while True:
        sized = Sized(program, members, count * 2, 1)
        if not sized.made:
            break
        sized.close()
        count *= 2
    sized = Sized(program, members, count, 1)
    measure = sized.time(RUNS) / sized.made[1] * MIB
    sized.close()
    print(f"1 MiB of members takes {measure:.3f} s", flush=True)
    for it in chosen:
        name, make, _, _, _, says, _ = it
        whole, n, copies = whole_of(program, it)
        half = Sized(program, it, n // 2, copies)
        ratio = None
        for done in range(ROUNDS):
            if whole.status is not None and whole.status < 0:
                break
            half.time(RUNS)
            whole.time(RUNS)
            ratio = growth(half, whole)
            if ratio <= MOST_RATIO or (done > 0 and ratio > CLEAR_RATIO):
                break
        wrong = []
        for one in (half, whole):
            if one.status is not None and one.status < 0:
                wrong.append(f"signal {signal.Signals(-one.status).name}")
            elif one.status is not None and not one.said.startswith(says):
                wrong.append(f"isn't {says}")
        short = whole.best < FLOOR
        if ratio is not None and ratio > MOST_RATIO and not short:
            wrong.append("grows")
        multiple = whole.best / whole.made[1] * MIB / measure
        if multiple > MOST_TIMES and not short:
            wrong.append("dear")
        shown = "-" if ratio is None else f"({ratio:.2f})" if short else f"{ratio:.2f}"
        before = "-" if half.best is None else f"{half.best:.3f}"
        print(f"{name:32} {n:8} {copies:6} {whole.made[1]:8} {before:>7} {whole.best:7.3f} {shown:>7} {multiple:6.1f}  {whole.said[:40]}"
              + ("  <- " + ", ".join(sorted(set(wrong))) if wrong else ""), flush=True)
        if wrong:
            failures.append(name)
        whole.close()
        half.close()
    print(f"{len(chosen)} shapes; {len(failures)} grow, are dear or fail" + (": " + ", ".join(failures) if failures else ""))
    sys.exit(1 if failures else 0)


if __name__ == "__main__":
    main()
