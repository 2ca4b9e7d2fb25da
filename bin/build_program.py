#!/usr/bin/env python3
"""Proves the crates that a program stands on, each once, on all processors, and builds it.

usage: build_program.py NAME
  NAME  a program of crates/, such as nullcheck

A crate is proved as soon as those below it are, several side by side, and one that most others wait for by several processes.
Two commands of rt in one checkout wait for each other, so each runs in a lane: a copy of the sources, cut to those crates, in
a folder that is removed at the end. The lanes and the checkout share the libraries that were built, by second names of their
files. What was proved before and hasn't changed isn't proved again.

bin/run_program calls it, one at a time. It says on standard error how far it is. Its status is 0 where the program stands at
crates/NAME/out/NAME, made from the sources that were there at the start, and 70 where it doesn't.
"""

import fcntl
import math
import os
import shutil
import signal
import subprocess
import sys
import time
from dataclasses import dataclass, field

PROGRAM = sys.argv[1] if len(sys.argv) == 2 else ""
ROOT = os.path.dirname(os.path.dirname(os.path.realpath(__file__)))
# Folders of a crate that a proof reads.
PARTS = ("src", "specs", "proofs")
# The greatest number of processes for one crate: more take memory, and save little.
MOST_JOBS = 4
# The greatest number of lanes: no more crates than that are ready at a time.
MOST_LANES = 12
# Bytes of memory that a process is likely to take.
PROCESS_MEMORY = 2_000_000_000
# Lines that a crate counts for beside its own, since each check has a start.
START_LINES = 100
# Seconds of a processor that a proof takes for each of these lines (docs/TIMES.md).
LINE_SECONDS = 0.14
# Signals that end a build.
SIGNALS = (signal.SIGINT, signal.SIGTERM, signal.SIGHUP)
UNAVAILABLE = 70
USAGE = 64


class Failure(Exception):
    """The program can't be built; the text says why."""


@dataclass
class Crate:
    name: str
    # Its line of crates.txt.
    line: str
    # The repository's crates that it names.
    uses: list
    # All that it stands on.
    below: set = field(default_factory=set)
    # Its work, in lines of code.
    work: int = 0
    # Its work and that of the longest chain of crates that wait for it.
    chain: int = 0


@dataclass
class Run:
    crate: Crate
    lane: int
    jobs: int
    process: subprocess.Popen


def say(text):
    print(f"{PROGRAM}: {text}", file=sys.stderr, flush=True)


def read_crates():
    """The crates of crates.txt by name."""
    found = {}
    with open(f"{ROOT}/crates.txt", encoding="utf-8") as file:
        for line in file:
            head, colon, uses = line.partition("#")[0].partition(":")
            if colon:
                found[head.split()[0]] = Crate(head.split()[0], line.strip(), uses.split())
    for crate in found.values():
        crate.uses = [it for it in crate.uses if it in found]
    return found


def lines_of(name):
    count = 0
    for at, _, files in os.walk(f"{ROOT}/crates/{name}/src"):
        for file in files:
            with open(f"{at}/{file}", "rb") as text:
                count += text.read().count(b"\n")
    return count


def needed_crates():
    """The program's crate and all that it stands on, lowest first."""
    known, order = read_crates(), []

    def visit(crate):
        if crate in order:
            return
        for name in crate.uses:
            visit(known[name])
            crate.below |= {name} | known[name].below
        crate.work = START_LINES + lines_of(crate.name)
        order.append(crate)

    if PROGRAM not in known:
        raise Failure(f"crates.txt has no line for {PROGRAM}")
    visit(known[PROGRAM])
    for crate in reversed(order):
        above = [it.chain for it in order if crate.name in it.uses]
        crate.chain = crate.work + max(above, default=0)
    return order


def free_memory():
    with open("/proc/meminfo", encoding="ascii") as file:
        for line in file:
            if line.startswith("MemAvailable:"):
                return 1024 * int(line.split()[1])
    return PROCESS_MEMORY


def processes_at_once():
    """As many as there are processors, and as memory holds."""
    return max(1, min(len(os.sched_getaffinity(0)), free_memory() // PROCESS_MEMORY))


def link_or_copy(one, other):
    try:
        os.link(one, other)
    except OSError:
        shutil.copy2(one, other)


def link_tree(source, target):
    shutil.copytree(source, target, copy_function=link_or_copy)


class Lanes:
    """Copies of the sources of some crates, in each of which one command of rt works at a time."""

    def __init__(self, crates, count):
        self.crates, self.count = crates, count
        self.room = f"{ROOT}/crates/{PROGRAM}/out/build"
        # (a build that was killed leaves its own)
        shutil.rmtree(self.room, ignore_errors=True)
        os.makedirs(self.room)

    def fill(self):
        for lane in range(self.count):
            top = self.top(lane)
            os.makedirs(top)
            with open(f"{top}/crates.txt", "w", encoding="utf-8") as file:
                file.writelines(f"{it.line}\n" for it in self.crates)
            if os.path.isfile(f"{ROOT}/HANDLES"):
                shutil.copyfile(f"{ROOT}/HANDLES", f"{top}/HANDLES")
            for crate in self.crates:
                self.fill_crate(lane, crate.name)

    def fill_crate(self, lane, name):
        """Copies the sources into the first lane, from which the others have them, so that all are the same text."""
        folder = self.folder(lane, name)
        source = self.folder(0, name) if lane else f"{ROOT}/crates/{name}"
        for part in PARTS:
            if os.path.isdir(f"{source}/{part}"):
                shutil.copytree(f"{source}/{part}", f"{folder}/{part}", copy_function=link_or_copy if lane else shutil.copyfile)
        os.makedirs(f"{folder}/out", exist_ok=True)
        # (rt looks whether a library is one of this text)
        if os.path.isfile(f"{ROOT}/crates/{name}/out/rlib/stamp"):
            link_tree(f"{ROOT}/crates/{name}/out/rlib", f"{folder}/out/rlib")

    def top(self, lane):
        return f"{self.room}/{lane}"

    def folder(self, lane, name):
        return f"{self.top(lane)}/crates/{name}"

    def log(self, name):
        return f"{self.room}/{name}.log"

    def start(self, crate, lane, jobs):
        command = ["rt", "run" if crate.name == PROGRAM else "lib", "--jobs", str(jobs)]
        with open(self.log(crate.name), "wb") as log:
            process = subprocess.Popen(command, cwd=self.folder(lane, crate.name), stdin=subprocess.DEVNULL, stdout=log, stderr=subprocess.STDOUT, start_new_session=True)
        return Run(crate, lane, jobs, process)

    def share(self, name, lane):
        """Gives the other lanes and the checkout the library that was built in a lane."""
        built = f"{self.folder(lane, name)}/out/rlib"
        for other in range(self.count):
            if other != lane:
                shutil.rmtree(f"{self.folder(other, name)}/out/rlib", ignore_errors=True)
                link_tree(built, f"{self.folder(other, name)}/out/rlib")
        self.keep(name, lane, ("rlib", "incremental"))

    def keep(self, name, lane, parts):
        """Gives the checkout what was kept in a lane, unless another rt works there."""
        crate = os.open(f"{ROOT}/crates/{name}", os.O_RDONLY)
        try:
            fcntl.flock(crate, fcntl.LOCK_EX | fcntl.LOCK_NB)
            for part in parts:
                self.keep_part(f"{self.folder(lane, name)}/out/{part}", f"{ROOT}/crates/{name}/out", part)
        except BlockingIOError:
            pass
        finally:
            os.close(crate)

    def keep_part(self, kept, out, part):
        if not os.path.isdir(kept):
            return
        os.makedirs(out, exist_ok=True)
        link_tree(kept, f"{self.room}/kept")
        shutil.rmtree(f"{out}/{part}", ignore_errors=True)
        os.rename(f"{self.room}/kept", f"{out}/{part}")

    def remove(self):
        shutil.rmtree(self.room, ignore_errors=True)


class Build:
    """Proves crates in an order that ends soon."""

    def __init__(self, crates, lanes, processes):
        self.crates, self.lanes, self.processes = crates, lanes, processes
        self.left, self.done, self.runs = list(crates), set(), []
        self.again = []
        self.started = time.monotonic()

    def minutes(self):
        return f"{(time.monotonic() - self.started) / 60:.1f} minutes"

    def ready(self):
        """The crates whose libraries are there, first those with the longest chain behind them."""
        found = [it for it in self.left if it.below <= self.done]
        return sorted(found, key=lambda it: -it.chain)

    def jobs_for(self, crate, idle, ready):
        """More than one where processors idle, or where what waits for the crate takes longer than all else together."""
        work = sum(it.work for it in self.left)
        hurry = math.ceil(crate.chain * self.processes / work - 0.1)
        return max(1, min(MOST_JOBS, idle, max(idle // ready, hurry)))

    def start_ready(self):
        ready = self.ready()
        for at, crate in enumerate(ready):
            idle = self.processes - sum(it.jobs for it in self.runs)
            if idle < 1 or len(self.runs) == self.lanes.count:
                return
            self.start(crate, self.jobs_for(crate, idle, len(ready) - at))

    def start(self, crate, jobs):
        lane = next(it for it in range(self.lanes.count) if all(run.lane != it for run in self.runs))
        self.left.remove(crate)
        self.runs.append(self.lanes.start(crate, lane, jobs))

    def run(self):
        while len(self.done) < len(self.crates):
            if self.again and not self.runs:
                self.start(self.again[0], 1)
            elif not self.again:
                self.start_ready()
            time.sleep(0.1)
            for run in [it for it in self.runs if it.process.poll() is not None]:
                self.runs.remove(run)
                self.end(run)

    def end(self, run):
        name, status = run.crate.name, run.process.returncode
        if self.is_built(run):
            if name != PROGRAM:
                self.lanes.share(name, run.lane)
            self.done.add(name)
            self.again = [it for it in self.again if it is not run.crate]
            say(f"{len(self.done)} of {len(self.crates)}: {name}, {self.minutes()} so far")
        elif status not in (1, 2) and run.crate not in self.again:
            # Most likely killed for memory: once more, with nothing beside it.
            self.left.append(run.crate)
            self.again.append(run.crate)
        else:
            raise Failure(f"{name} is not proved, or not built (status {status}):\n{self.tail_of(name)}")

    def is_built(self, run):
        # (the program itself ends with another status, as it is run on no words)
        if run.crate.name == PROGRAM:
            return os.path.isfile(self.built_program(run.lane))
        return run.process.returncode == 0

    def built_program(self, lane):
        return f"{self.lanes.folder(lane, PROGRAM)}/out/{PROGRAM}"

    def tail_of(self, name):
        with open(self.lanes.log(name), encoding="utf-8", errors="replace") as log:
            return "".join(log.readlines()[-40:])

    def stop(self):
        """Ends the commands that still run."""
        for run in self.runs:
            try:
                os.killpg(run.process.pid, signal.SIGTERM)
            except ProcessLookupError:
                pass
        for run in self.runs:
            run.process.wait()


def install(lanes, as_of):
    """Puts the program into place, with the time of the sources that it is made from, and the names of its crates beside it."""
    out = f"{ROOT}/crates/{PROGRAM}/out"
    built = next(it for it in (f"{lanes.folder(lane, PROGRAM)}/out/{PROGRAM}" for lane in range(lanes.count)) if os.path.isfile(it))
    with open(f"{lanes.room}/crates", "w", encoding="utf-8") as file:
        file.writelines(f"{it.name}\n" for it in lanes.crates)
    shutil.copy2(built, f"{lanes.room}/{PROGRAM}")
    os.utime(f"{lanes.room}/{PROGRAM}", (as_of, as_of))
    os.replace(f"{lanes.room}/crates", f"{out}/{PROGRAM}.crates")
    os.replace(f"{lanes.room}/{PROGRAM}", f"{out}/{PROGRAM}")


def is_kept(crate):
    """Whether a build before this one left the crate's library; where its text changed since, it is proved again."""
    return os.path.isfile(f"{ROOT}/crates/{crate.name}/out/rlib/stamp")


def forecast(crates, processes):
    """How much there is to prove, and how long that is likely to take."""
    left = [it for it in crates if not is_kept(it)]
    seconds = LINE_SECONDS * max(sum(it.work for it in left) / processes, longest_chain(left))
    if not left:
        return f"building the program: its {len(crates)} crates were proved before, and those that changed are proved again"
    return (
        f"proving and building the program: {len(left)} of its {len(crates)} crates are to be proved, {processes} at a time, which takes"
        f" some {max(1, round(seconds / 60))} minutes; a build that is interrupted goes on where it was"
    )


def longest_chain(left):
    """The greatest work of crates of which each waits for the one before; they are given lowest first."""
    chains = {}
    for crate in left:
        chains[crate.name] = crate.work + max((chains[it] for it in crate.uses if it in chains), default=0)
    return max(chains.values(), default=0)


def build():
    as_of = time.time()
    if not shutil.which("rt"):
        raise Failure("the command rt, which proves and builds it, isn't on the PATH")
    crates, processes = needed_crates(), processes_at_once()
    lanes = Lanes(crates, min(processes, MOST_LANES))
    work = Build(crates, lanes, processes)
    try:
        lanes.fill()
        say(forecast(crates, processes))
        work.run()
        install(lanes, as_of)
    finally:
        # (a second signal mustn't leave the folder behind)
        for number in SIGNALS:
            signal.signal(number, signal.SIG_IGN)
        work.stop()
        lanes.remove()


def interrupted(number, frame):
    raise Failure("the build was interrupted")


def main():
    if not PROGRAM:
        print("usage: build_program.py NAME", file=sys.stderr)
        return USAGE
    for number in SIGNALS:
        signal.signal(number, interrupted)
    try:
        build()
    except (Failure, OSError, shutil.Error) as error:
        say(f"the program could not be built: {error}")
        return UNAVAILABLE
    return 0


sys.exit(main())
