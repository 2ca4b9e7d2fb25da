#!/usr/bin/env python3
"""Runs the gate and says what it cost, by crate and by kind of work.

usage: bench/gate.py [NAME..]

Runs `rt ci` with the names at the repository's top, whose output goes to standard error, and looks twice a second at the
toolchain's processes. At the end it prints, for each crate, the processor minutes (user and system) of its proof, its tests,
its must-fail edits and its programs, the dearest crate first, and their sum; then the user and system time of all that it
started, as the operating system counts it, in which `rt` itself is too. What was kept from earlier runs isn't proved again
and costs nothing: for the whole price, use a machine on which nothing is kept. The exit status is that of `rt ci`."""
import collections
import os
import re
import resource
import subprocess
import sys
import time

TOOLS = ("rattle", "clang", "rattle-link", "rattle-x64", "rattle-test")
TICKS = os.sysconf("SC_CLK_TCK")
KINDS = ("proof", "tests", "edits", "program")


def stat_of(pid):
    """The name, the parent and the processor seconds of a process, with those of its children that ended."""
    text = open(f"/proc/{pid}/stat").read()
    name = text[text.index("(") + 1 : text.rindex(")")]
    fields = text[text.rindex(")") + 2 :].split()
    return name, fields[1], fields[19], sum(map(int, fields[11:15])) / TICKS


def kind_of(words, folder):
    """The crate and the kind of work of a command in its folder."""
    named = words[words.index("--crate-name") + 1] if "--crate-name" in words else None
    found = re.search(r"/crates/([a-z_0-9]+)", folder) or re.search(r"/crates/([a-z_0-9]+)", " ".join(words))
    crate = named or (found and found.group(1)) or "(other)"
    if any("rt-edit" in it for it in (folder, *words)):
        return crate, "edits"
    if "--test" in words:
        return crate, "tests"
    if not words or not words[0].endswith("/rattle") or "src/main.rt" in words:
        return crate, "program"
    return crate, "proof"


def look(seen):
    """Notes each process of the toolchain that isn't another one's part."""
    for pid in filter(str.isdigit, os.listdir("/proc")):
        try:
            name, parent, start, seconds = stat_of(pid)
            if name not in TOOLS:
                continue
            if stat_of(parent)[0] == name:
                continue
            key = pid, start
            if key not in seen:
                words = open(f"/proc/{pid}/cmdline").read().split("\0")
                seen[key] = [kind_of(words, os.readlink(f"/proc/{pid}/cwd")), 0.0]
            seen[key][1] = max(seen[key][1], seconds)
        except (OSError, ValueError):
            continue


def show(seen, minutes):
    """The table, in minutes."""
    table = collections.defaultdict(lambda: dict.fromkeys(KINDS, 0.0))
    for (crate, kind), seconds in seen.values():
        table[crate][kind] += seconds / 60
    print(f"{'crate':24}" + "".join(f"{kind:>10}" for kind in KINDS) + f"{'sum':>10}")
    sums = dict.fromkeys(KINDS, 0.0)
    for crate, row in sorted(table.items(), key=lambda it: -sum(it[1].values())):
        print(f"{crate:24}" + "".join(f"{row[kind]:10.1f}" for kind in KINDS) + f"{sum(row.values()):10.1f}")
        for kind in KINDS:
            sums[kind] += row[kind]
    print(f"{'all':24}" + "".join(f"{sums[kind]:10.1f}" for kind in KINDS) + f"{sum(sums.values()):10.1f}")
    used = resource.getrusage(resource.RUSAGE_CHILDREN)
    print(f"{used.ru_utime / 60:.1f} minutes of user time and {used.ru_stime / 60:.1f} of system time")
    print(f"{minutes:.1f} minutes by the clock")


def main():
    os.chdir(os.path.join(os.path.dirname(os.path.abspath(__file__)), ".."))
    began = time.time()
    gate = subprocess.Popen(["rt", "ci", *sys.argv[1:]], stdout=sys.stderr)
    seen = {}
    while gate.poll() is None:
        look(seen)
        time.sleep(0.5)
    show(seen, (time.time() - began) / 60)
    sys.exit(gate.returncode)


if __name__ == "__main__":
    main()
