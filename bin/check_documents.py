#!/usr/bin/env python3
"""Holds README.md and docs/ against the repository.

Looks that each file, crate, module and definition that a page names in backticks exists; that each link to a file or a
heading holds; that README's list of crates is the one that bin/list_crates.py makes; that each example is named; that names
which docs/HOWTO.md gives to bin/touched.py are there; that the files of docs/GLOSSARY.md have their terms' names; that
numbers of kinds and of crates above each other are so; that the table of wrong bodies in docs/PROVING.md and the folders
must-fail and wrong-bodies have the same; and, for each indented block of README.md and docs/INTEGRATION.md that begins with
a command of bin/ whose program is built, that its output is what stands below it (a line `..` stands for any lines). Prints
what doesn't hold, and ends with 1 where something doesn't.

usage: bin/check_documents.py [--commands]   with --commands: runs the blocks, too, with the programs that are built"""
import re
import subprocess
import sys
from pathlib import Path

ROOT = Path(__file__).resolve().parent.parent
CRATES = ROOT / "crates"
PAGES = [ROOT / "README.md", *sorted((ROOT / "docs").glob("*.md"))]
CRATE = re.compile(r"^(\w+)[^:#]*:", re.MULTILINE)
# Names in backticks that are others': of build tools and of a user's own folders.
FOREIGN = {"always_run", "sh_test", "rules_java", "rules_cc", "rules_shell", "remote_coverage_tools", "src/main/java/demo/Orders.java", "nullcheck/bin/nullcheck"}


def crates():
    return CRATE.findall((ROOT / "crates.txt").read_text(encoding="utf-8"))


def spread(name):
    """The names that a name with braces stands for, as `specs/{A,B}.antt`."""
    found = re.match(r"([^{}]*)\{([^{}]*)\}(.*)$", name)
    if not found:
        return [name]
    return [it for part in found[2].split(",") for it in spread(found[1] + part + found[3])]


def backticked(text):
    """What stands in backticks outside of indented and fenced blocks, with its line."""
    fenced = False
    for number, line in enumerate(text.splitlines(), 1):
        if line.lstrip().startswith("```"):
            fenced = not fenced
        if not fenced and not line.startswith("    "):
            for found in re.findall(r"`([^`]+)`", line):
                yield number, found


def is_path(name):
    return re.fullmatch(r"[\w.{},/-]+/[\w.{},/*-]*|[\w-]+\.(?:rt|antt|md|py|sh|txt|edit)", name) is not None


def has_path(name):
    """Whether there is such a file or folder, below the repository, crates/, or a folder of some crate."""
    name = name.rstrip("/")
    if any((ROOT / top / name).exists() for top in ("", "crates", "docs", "bin", "bench", "examples")):
        return True
    return any(True for part in ("", "src/", "specs/", "proofs/") for end in ("", ".antt", ".rt") for _ in CRATES.glob(f"*/{part}{name}{end}"))


def words_of_code():
    """All words of the sources, definitions and proofs, of data of cases, and of scripts."""
    found = set()
    for file in CRATES.rglob("*"):
        if file.suffix in (".rt", ".antt") and "out" not in file.parts:
            found.update(re.findall(r"\w+", file.read_text(encoding="utf-8")))
    return found


def check_names(known, words):
    names = set(known)
    for page in PAGES:
        for line, name in backticked(page.read_text(encoding="utf-8")):
            for it in spread(name) if is_path(name) else [name]:
                if it in FOREIGN or "/out/" in it:
                    continue
                where = f"{page.relative_to(ROOT)}:{line}: `{name}`"
                if is_path(it):
                    if re.match(r"(crates|docs|bin|bench|examples|specs|src|proofs|jn_\w+|nullcheck\w*)/", it) and "*" not in it and not re.search(r"\b(NAME|PROGRAM|OUT)\b", it) and not has_path(it):
                        yield f"{where}: no such file"
                elif re.fullmatch(r"(jn_\w+|nullcheck_\w+)(::\w+)*", it):
                    first, *rest = it.split("::")
                    if first not in names and first not in words:
                        yield f"{where}: no such crate"
                    yield from (f"{where}: no word {part}" for part in rest if part not in words)
                elif re.fullmatch(r"[A-Za-z_]\w*(::\w+)+", it):
                    yield from (f"{where}: no word {part}" for part in it.split("::") if part not in words and part not in ("std", "crate", "mem", "thread"))
                elif re.fullmatch(r"[a-z]+(_[a-z]+)+|(Is|Are|Has|Never)[A-Z]\w+", it) and it not in words:
                    if not any(it in file.name for file in (ROOT / "bin").iterdir()) and it not in Path(ROOT / "docs/PROVING.md").read_text(encoding="utf-8"):
                        yield f"{where}: nothing has this name"


def anchor(heading):
    return re.sub(r"[^\w\- ]", "", heading.strip().lower()).replace(" ", "-")


def check_links():
    for page in PAGES:
        text = page.read_text(encoding="utf-8")
        for number, line in enumerate(text.splitlines(), 1):
            for target in re.findall(r"\]\(([^)]+)\)", line):
                if re.match(r"\w+:", target):
                    continue
                file, _, heading = target.partition("#")
                other = (page.parent / file).resolve() if file else page
                if not other.exists():
                    yield f"{page.relative_to(ROOT)}:{number}: {target}: no such file"
                elif heading and heading not in {anchor(it) for it in re.findall(r"^#+ (.*)$", other.read_text(encoding="utf-8"), re.MULTILINE)}:
                    yield f"{page.relative_to(ROOT)}:{number}: {target}: no such heading"


def check_crates():
    run = subprocess.run([ROOT / "bin/list_crates.py"], capture_output=True, text=True, check=False)
    yield from run.stdout.splitlines()


def check_examples():
    pages = "".join(page.read_text(encoding="utf-8") for page in PAGES)
    for file in sorted((ROOT / "examples").glob("*.java")):
        if not re.search(rf"`(?:examples/)?{file.stem}(?:\.java)?`|examples/{file.name}", pages):
            yield f"examples/{file.name}: no page names it"


def check_touched(words):
    """The names that pages give to bin/touched.py are there."""
    for page in PAGES:
        for line, command in backticked(page.read_text(encoding="utf-8")):
            if command.startswith("bin/touched.py ") and "NAME" not in command:
                yield from (f"{page.relative_to(ROOT)}:{line}: nothing is called {word}" for word in command.split()[1:] if word not in words)


def check_glossary():
    """Each file of docs/GLOSSARY.md has the names that stand after it."""
    for number, line in enumerate((ROOT / "docs/GLOSSARY.md").read_text(encoding="utf-8").splitlines(), 1):
        crate = ""
        for files, names in re.findall(r"`([\w.{},/]+\.(?:antt|rt))`: ((?:`\w+`(?:, )?)+)", line):
            crate = files.split("/")[0] if (CRATES / files.split("/")[0] / "src").is_dir() else crate
            paths = [CRATES / top / it for it in spread(files) for top in ("", crate, f"{crate}/specs")]
            text = "".join(path.read_text(encoding="utf-8") for path in paths if path.is_file())
            yield from (f"docs/GLOSSARY.md:{number}: {files} has no {name}" for name in re.findall(r"\w+", names) if not re.search(rf"\b{name}\b", text))


def variants(file, name):
    """How many variants an enum of the code has."""
    text = (CRATES / file).read_text(encoding="utf-8")
    body = re.search(rf"pub enum {name} \{{\n(.*?)^\}}", text, re.MULTILINE | re.DOTALL)[1]
    return len(re.findall(r"^    [A-Z]\w*", body, re.MULTILINE))


def chain(crate, lines, found):
    """How many crates stand one above the other up to this one."""
    if crate not in found:
        found[crate] = 1 + max((chain(it, lines, found) for it in lines[crate].split() if it in lines), default=0)
    return found[crate]


def check_counts():
    """Numbers that the repository gives."""
    lines = dict(re.findall(r"^(\w+)[^:#]*:(.*)$", (ROOT / "crates.txt").read_text(encoding="utf-8"), re.MULTILINE))
    counts = [
        (r"\b(\d+) kinds of rows", variants("jn_base/src/code.rt", "Code")),
        (r"\b(\d+) kinds\b(?! of rows)", variants("jn_points/src/point.rt", "PointKind")),
        (r"\((\d+) for `nullcheck`,", chain("nullcheck", lines, {})),
        (r", (\d+) for the language server\)", chain("nullcheck_lsp", lines, {})),
    ]
    for page in PAGES:
        for number, line in enumerate(page.read_text(encoding="utf-8").splitlines(), 1):
            for pattern, count in counts:
                yield from (f"{page.relative_to(ROOT)}:{number}: {said}, and there are {count}" for said in re.findall(pattern, line) if int(said) != count)


def check_edits():
    page = (ROOT / "docs/PROVING.md").read_text(encoding="utf-8")
    there = {f"{file.parent.parent.name}: {file.stem}" for folder in ("must-fail", "wrong-bodies") for file in CRATES.glob(f"*/{folder}/*.edit")}
    for edit in sorted(there):
        crate, name = edit.split(": ")
        if f"`{name}`" not in page:
            yield f"docs/PROVING.md: no row for {crate}'s {name}"
    for crate, names in re.findall(r"(\b(?:jn|nullcheck)_\w+): ((?:`\w+`(?:, )?)+)", page):
        for name in re.findall(r"`(\w+)`", names):
            if f"{crate}: {name}" not in there and "|" in page[max(0, page.find(f"{crate}: `{name}`") - 400) : page.find(f"{crate}: `{name}`")]:
                yield f"docs/PROVING.md: {crate} has no wrong body {name}"


def blocks(text):
    """Indented lines that are a command of bin/ by themselves, each with the indented block that follows it, if one does."""
    lines = text.splitlines()
    for at, line in enumerate(lines):
        is_alone = not any(0 <= it < len(lines) and lines[it].startswith("    ") for it in (at - 1, at + 1))
        if not line.startswith("    bin/") or not is_alone:
            continue
        end = at + 1
        while end < len(lines) and (not lines[end].strip() or lines[end].startswith("    ")) and not lines[end].startswith("    bin/"):
            end += 1
        wanted = "\n".join(it[4:] for it in lines[at + 1 : end]).strip("\n")
        yield line.strip(), wanted or None


def matches(wanted, given):
    """Whether the text is as wanted but for blanks at line ends, where `..` alone on a line stands for any lines."""
    given = "\n".join(line.rstrip() for line in given.splitlines()).strip("\n")
    parts = [re.escape("\n".join(it.rstrip() for it in part.splitlines()).strip("\n")) for part in re.split(r"^\s*[.]{2}\s*$", wanted, flags=re.MULTILINE)]
    return re.fullmatch(r"[\s\S]*".join(parts), given) is not None


def check_commands():
    for page in (ROOT / "README.md", ROOT / "docs/INTEGRATION.md"):
        for command, wanted in blocks(page.read_text(encoding="utf-8")):
            name = re.match(r"bin/(\w+)", command)[1]
            if wanted is None or re.search(r"\b(FILE|CERT|SCRIPT|N|NAME)\b", command):
                continue
            if not any((CRATES / name / "out" / it).is_file() for it in (name, f"{name}.unproved")):
                continue
            plain = command.replace(" --unproved", "")
            proved = (CRATES / name / "out" / name).is_file()
            run = subprocess.run(plain if proved else plain.replace(f"bin/{name}", f"bin/{name} --unproved", 1), shell=True, cwd=ROOT, capture_output=True, text=True, check=False)
            if not matches(wanted, run.stdout):
                yield f"{page.relative_to(ROOT)}: {command}: writes\n{run.stdout}"


def main():
    words = words_of_code()
    faults = [*check_names(crates(), words), *check_links(), *check_crates(), *check_examples(), *check_touched(words), *check_glossary(), *check_counts(), *check_edits()]
    if "--commands" in sys.argv[1:]:
        faults += check_commands()
    print("\n".join(faults))
    print(f"{len(faults)} faults")
    return 1 if faults else 0


if __name__ == "__main__":
    sys.exit(main())
