#!/usr/bin/env python3
"""Checks certificates that somebody changed, and times `write` and `check` beside a check. It isn't part of the gate.

Usage: bench/certificates.py CERTIFIER [EXAMPLES]
       bench/certificates.py --times CERTIFIER CHECKER [DIVISOR]
  CERTIFIER  a built nullcheck_cert: crates/nullcheck_cert/out/nullcheck_cert
  EXAMPLES   how many of the accepted files of examples/ are tried (5)
  CHECKER    a built nullcheck: crates/nullcheck/out/nullcheck
  DIVISOR    divides the sizes of bench/whole.sh's shapes (1)

Changed certificates: each byte of an example's certificate is given each of eight other values; the certificate is cut
behind each of its bytes, and made longer; it is checked with other files, with an older text and with the other choice of
members that are inferred. Each run may take a second of processor, and ends with 0, 1 or, where files are refused, 2: a
changed certificate may hold, too, and what holds is proved. What else a run does is printed. Then one line says how many runs
ended with which status; ends with 1 where one ended otherwise.

Times: for each shape, and for its half, a check with one worker, `write` and `check`, the best of three, the certificate's
size, and the ratio of `check` to a check.
"""

import collections
import concurrent.futures
import os
import pathlib
import resource
import shutil
import subprocess
import sys
import tempfile
import time

ROOT = pathlib.Path(__file__).resolve().parent.parent
VALUES = (0, 1, 2, 6, 10, 127, 128, 255)
SECONDS = 1
MEMORY = 1 << 30


def limited():
    """A second of processor and a gigabyte for the run that begins."""
    resource.setrlimit(resource.RLIMIT_CPU, (SECONDS, SECONDS + 1))
    resource.setrlimit(resource.RLIMIT_AS, (MEMORY, MEMORY))


def run(words, folder, limit=True):
    return subprocess.run(
        words, cwd=folder, stdin=subprocess.DEVNULL, stdout=subprocess.PIPE, stderr=subprocess.PIPE,
        preexec_fn=limited if limit else None, check=False)


def changed(cert):
    """Each change of a certificate, with its name."""
    for at in range(len(cert)):
        for value in VALUES:
            if cert[at] != value:
                yield f"byte {at} is {value}", cert[:at] + bytes([value]) + cert[at + 1:]
    for length in range(len(cert)):
        yield f"cut at {length}", cert[:length]
    for more in (1, 2, 8, 1000, 1 << 20):
        yield f"{more} bytes more", cert + bytes(more)
    yield "twice", cert + cert
    yield "the largest counts", cert[:8] + b"\xff" * (len(cert) - 8)


class Tally:
    """How runs ended, and what is wrong with those that ended otherwise."""

    def __init__(self):
        self.statuses = collections.Counter()
        self.wrong = 0

    def take(self, name, ended, statuses):
        self.statuses[ended.returncode] += 1
        lines = ended.stdout.count(b"\n")
        told = lines == 1 or ended.returncode == 2
        if ended.returncode not in statuses or not told or ended.stderr:
            self.wrong += 1
            print(f"{name}: ended with {ended.returncode}: {ended.stdout[:200]!r} {ended.stderr[:200]!r}")


def check(certifier, folder, cert, words, number, choice=()):
    """Checks these bytes as a certificate of the files, with a choice of members that are inferred."""
    name = f"changed{number % 64}.cert"
    path = pathlib.Path(folder, name)
    path.write_bytes(cert)
    return run([certifier, "check", *choice, name, *words], folder)


def accepted(certifier, folder, count):
    """The first examples that are accepted, with their certificates."""
    found = []
    for path in sorted((ROOT / "examples").glob("*.java")):
        shutil.copy(path, folder)
        ended = run([certifier, "write", path.stem + ".cert", path.name], folder)
        if ended.returncode == 0:
            found.append((path.name, pathlib.Path(folder, path.stem + ".cert").read_bytes()))
        if len(found) == count:
            break
    return found


def change_all(certifier, name, cert, tally):
    """Tries each change, a few at once, each in a folder of its own."""
    jobs = os.cpu_count() or 1

    def part(first):
        results = []
        with tempfile.TemporaryDirectory() as folder:
            shutil.copy(ROOT / "examples" / name, folder)
            for number, (change, text) in enumerate(changed(cert)):
                if number % jobs == first:
                    results.append((change, check(certifier, folder, text, [name], number)))
        return results

    with concurrent.futures.ThreadPoolExecutor(jobs) as pool:
        for results in pool.map(part, range(jobs)):
            for change, ended in results:
                tally.take(f"{name}, {change}", ended, (0, 1))


def others(certifier, folder, found, tally):
    """Certificates of other files, of an older text and of the other choice of members that are inferred."""
    for name, _ in found:
        for other, cert in found:
            if other != name:
                tally.take(f"{name} by the certificate of {other}", check(certifier, folder, cert, [name], 0), (0, 1))
    for name, cert in found:
        text = pathlib.Path(folder, name).read_text(encoding="utf-8")
        older = pathlib.Path(folder, "Older" + name)
        older.write_text(text + "\nclass OlderThanThat { int more() { return 1; } }\n", encoding="utf-8")
        tally.take(f"{name}, older", check(certifier, folder, cert, [older.name], 0), (1, 2))
        tally.take(f"{name}, the other choice", check(certifier, folder, cert, [name], 0, ("--infer", "package")), (0, 1))


def change_examples(certifier, count):
    tally = Tally()
    with tempfile.TemporaryDirectory() as folder:
        found = accepted(certifier, folder, count)
        for name, cert in found:
            tally.take(f"{name}, as written", check(certifier, folder, cert, [name], 0), (0,))
            change_all(certifier, name, cert, tally)
            print(f"{name}: {len(cert)} bytes")
        others(certifier, folder, found, tally)
    ends = ", ".join(f"{count} with {status}" for status, count in sorted(tally.statuses.items()))
    print(f"{sum(tally.statuses.values())} runs: {ends}; {tally.wrong} otherwise")
    return 1 if tally.wrong or not found else 0


def best(words, folder, times=3):
    """The least seconds of some runs, and the greatest memory of them in MiB."""
    seconds = []
    memory = 0
    for _ in range(times):
        begin = time.monotonic()
        process = subprocess.Popen(words, cwd=folder, stdin=subprocess.DEVNULL, stdout=subprocess.DEVNULL)
        _, status, usage = os.wait4(process.pid, 0)
        seconds.append(time.monotonic() - begin)
        memory = max(memory, usage.ru_maxrss / 1024)
        process.returncode = os.waitstatus_to_exitcode(status)
    return min(seconds), memory


def time_folder(certifier, checker, folder):
    """Times a check, `write` and `check` of the files of a folder; none where they aren't accepted."""
    files = sorted(path.name for path in pathlib.Path(folder).glob("*.java"))
    written = run([certifier, "write", "shape.cert", *files], folder, limit=False)
    if written.returncode != 0:
        return None
    whole = best([checker, "--workers", "1", *files], folder)
    write = best([certifier, "write", "shape.cert", *files], folder, times=1)
    check_only = best([certifier, "check", "shape.cert", *files], folder)
    return whole, write, check_only, pathlib.Path(folder, "shape.cert").stat().st_size


def time_shapes(certifier, checker, divisor):
    with tempfile.TemporaryDirectory() as folder:
        for size, part in (("half", 2 * divisor), ("whole", divisor)):
            subprocess.run([ROOT / "bench" / "whole.sh", "--files", pathlib.Path(folder, size), str(part)], check=True)
        print(f"{'shape':24} {'check':>8} {'write':>14} {'certified':>15} {'of a check':>10} {'grows':>6} {'bytes':>10}")
        for path in sorted(pathlib.Path(folder, "whole").iterdir()):
            if not path.is_dir():
                continue
            half = time_folder(certifier, checker, pathlib.Path(folder, "half", path.name))
            full = time_folder(certifier, checker, path)
            if half is None or full is None:
                print(f"{path.name:24} is rejected")
                continue
            (whole, _), (write, memory), (certified, least), size = full
            print(f"{path.name:24} {whole:7.3f}s {write:7.3f}s {memory:4.0f}M {certified:7.3f}s {least:5.0f}M "
                  f"{certified / whole:10.2f} {certified / half[2][0]:6.2f} {size:10}")
    return 0


def main(words):
    if words[:1] == ["--times"] and len(words) in (3, 4):
        certifier, checker = (str(pathlib.Path(word).resolve()) for word in words[1:3])
        return time_shapes(certifier, checker, int(words[3]) if len(words) == 4 else 1)
    if len(words) in (1, 2) and not words[0].startswith("-"):
        return change_examples(str(pathlib.Path(words[0]).resolve()), int(words[1]) if len(words) == 2 else 5)
    print(__doc__.split("\n\n")[1], file=sys.stderr)
    return 64


if __name__ == "__main__":
    sys.exit(main(sys.argv[1:]))
