#!/usr/bin/env python3
"""Times of rechecks beside a fresh check, on 4,096 classes in 64 files.

Usage: bench/recheck.py PROGRAM [RUNS]

PROGRAM is a built nullcheck_recheck. A script sets all files and checks them; others go on with so many edits and checks more. What an edit costs is the
difference, for each edit, and its share is of what the first check costs, without what it takes to read the script alone. Each script is run RUNS times (3),
in turn, and the best counts. The report of each last check is held against that of a fresh one. Two programs: one whose members are all annotated by what
they are, and one whose private members are inferred.
"""
import os
import subprocess
import sys
import tempfile
import time

FILES, CLASSES, EDITS = 64, 64, 8

CLASS = """class C{k} {{
  private C{k} next;
  int n;
  C{k}(String t) {{ }}
  private C{k} one(C{k} o) {{ return two(o); }}
  private C{k} two(C{k} o) {{ return three(o); }}
  private C{k} three(C{k} o) {{ if (n == 0) {{ return next; }} return o; }}
  int five(int[] a) {{ int sum = 0; for (int x : a) {{ sum += x; }} return sum; }}
  int six(int n) {{ int m = n; if (m > n) {{ m = m - n; }} return m; }}
  void run() {{ {run} }}
}}
"""
PLAIN = """class C{k} {{
  int n;
  int one(int o) {{ return two(o); }}
  int two(int o) {{ return three(o); }}
  int three(int o) {{ if (n == 0) {{ return o; }} return n; }}
  int four(C{k} c) {{ return c.one(n); }}
  int five(int[] a) {{ int sum = 0; for (int x : a) {{ sum += x; }} return sum; }}
  int six(int n) {{ int m = n; if (m > n) {{ m = m - n; }} return m; }}
  void run() {{ {run} }}
}}
"""
# what stands in `run` of the edited class, before an edit and behind it, one after the other; the middle file's middle class is edited
PROGRAMS = {
    "inferred": (CLASS, "next = one(next);"),
    "annotated": (PLAIN, "n = one(n);"),
}
BODIES = {
    "inferred": ["if (next != null) {{ next = one(next); }}", "next = one(next); n = {i};"],
    "annotated": ["n = two(n);", "n = one(n); n = {i};"],
}


def text(shape, run, file, edited=None):
    """A file's text; the class in its middle has another body where an edit is told."""
    middle = FILES // 2 * CLASSES + CLASSES // 2
    parts = []
    for k in range(file * CLASSES, (file + 1) * CLASSES):
        parts.append(shape.format(k=k, run=edited if edited is not None and k == middle else run))
    return "".join(parts)


def edits_of(name, kind):
    """The texts of the edited file, edit by edit."""
    shape, run = PROGRAMS[name]
    file = FILES // 2
    texts = []
    for i in range(EDITS):
        if kind == "a body":
            texts.append(text(shape, run, file, BODIES[name][i % 2].format(i=i)))
        elif kind == "a body, with a new name":
            texts.append(text(shape, run, file, f"int fresh{i} = n; n = fresh{i};"))
        elif kind == "a member's head":
            texts.append(text(shape, run, file).replace("int six(int n)", f"int six(int n, int more{', int most' * (i % 2)})", 1))
        elif kind == "a line above a file's classes":
            texts.append("\n" * (i + 1) + text(shape, run, file))
        else:
            texts.append(text(shape, run, file))
    return texts


def write(folder, name, content):
    with open(os.path.join(folder, name), "w", encoding="utf-8") as out:
        out.write(content)


def run(program, folder, script):
    """Seconds, MiB and the output of a run."""
    before = time.perf_counter()
    done = subprocess.run(["/usr/bin/env", "time", "-f", "%M", program, script], cwd=folder, capture_output=True, text=True)
    took = time.perf_counter() - before
    if done.returncode not in (0, 1):
        sys.exit(f"{script}: status {done.returncode}: {done.stderr}")
    return took, int(done.stderr.split()[-1]) / 1024, done.stdout


def main(program, runs):
    program = os.path.abspath(program)
    kinds = ["a body", "a body, with a new name", "a line above a file's classes", "a member's head", "nothing"]
    print(f"{'program':10} {'edit':32} {'fresh':>8} {'again':>8} {'share':>7} {'MiB':>6}")
    for name, (shape, body) in PROGRAMS.items():
        with tempfile.TemporaryDirectory() as folder:
            for file in range(FILES):
                write(folder, f"F{file:02}.java", text(shape, body, file))
            sets = "".join(f"set F{file:02}.java F{file:02}.java\n" for file in range(FILES))
            edited = f"F{FILES // 2:02}.java"
            scripts = {"nothing read": "", "first": sets + "check\n"}
            for kind in kinds:
                lines = sets + "check\n"
                for i, content in enumerate(edits_of(name, kind)):
                    file = f"{kind.replace(' ', '_').replace(',', '')}{i}"
                    write(folder, file, content)
                    lines += f"set {edited} {file}\ncheck\n"
                scripts[kind] = lines
                last = f"{kind.replace(' ', '_').replace(',', '')}{EDITS - 1}"
                scripts["fresh " + kind] = sets.replace(f"set {edited} {edited}", f"set {edited} {last}") + "check\n"
            for i, (script, lines) in enumerate(scripts.items()):
                write(folder, f"script{i}", lines)
            best, memory, output = {}, {}, {}
            for _ in range(runs):
                for i, script in enumerate(scripts):
                    took, mib, said = run(program, folder, f"script{i}")
                    best[script] = min(best.get(script, took), took)
                    memory[script], output[script] = mib, said
            fresh = best["first"] - best["nothing read"]
            for kind in kinds:
                again = (best[kind] - best["first"]) / EDITS
                rows = [[line for line in output[script].splitlines() if not line.startswith("checked ")] for script in (kind, "fresh " + kind)]
                if rows[0][-len(rows[1]):] != rows[1]:
                    sys.exit(f"{name}, {kind}: the last check isn't as a fresh one")
                print(f"{name:10} {kind:32} {fresh:8.3f} {again:8.3f} {again / fresh:7.2f} {memory[kind]:6.0f}")
            print(f"{name:10} {'a check alone':32} {'':8} {'':8} {'':7} {memory['first']:6.0f}")


if __name__ == "__main__":
    if len(sys.argv) not in (2, 3):
        print(__doc__, file=sys.stderr)
        sys.exit(64)
    main(sys.argv[1], int(sys.argv[2]) if len(sys.argv) == 3 else 3)
