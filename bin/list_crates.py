#!/usr/bin/env python3
"""Makes README's list of crates from the crates, and holds README against it.

Each crate has a line: its name, the first sentence of its head (`//!` of src/lib.rt or src/main.rt), and what carries it, at
most three names. These are what CARRIED says; or the calls and laws of the crate that its head names, and the types that it
links to; or, where there are none, the public functions that src/lib.rt declares or hands on, those that the most other crates
use first; or, where there are none, all public functions in that order, at most two. A law stands behind them where the crate
has one and none is among them. Areas are the comment lines of crates.txt, crates stand in its order. Ends with 1 where README
has another list between its two marks, where a crate has no head, or where CARRIED has a name that isn't there.

usage: bin/list_crates.py [--write]   with --write: puts the list into README.md"""
import re
import sys
from collections import Counter
from pathlib import Path

ROOT = Path(__file__).resolve().parent.parent
CRATES = ROOT / "crates"
PAGE = ROOT / "README.md"
BEGIN, END = "<!-- crates: bin/list_crates.py --write -->", "<!-- end of crates -->"
LINE = re.compile(r"^(\w+)[^:#]*:")
FUNCTION = re.compile(r"^pub (?:const )?fn (\w+)", re.MULTILINE)
TYPE = re.compile(r"^pub (?:struct|enum|trait|type) (\w+)", re.MULTILINE)
IMPORT = re.compile(r"^\s*(?:pub )?use (\w+)::([^;]*);", re.MULTILINE)
# Words that begin a sentence and are written with a capital anywhere.
PROPER = ("Java", "JSON", "UTF")
# The area whose uses don't count, and whose crates carry nothing.
CASES = "Cases, tests, times"
MOST, FEW = 3, 2
# What carries a crate whose head names no call, and whose calls in most use are only helpers.
CARRIED = {
    "jn_index": ("IsIndex", "with_bodies"),
    "jn_trees": ("too_deep", "names_are_found_by_their_numbers"),
    "jn_front": ("parse_files", "files_have_one_front"),
    "jn_heads": ("heads", "slots_by"),
    "jn_declaration_rules": ("circle_rows", "clash_rows"),
    "jn_classtable": ("build", "tables_without_rows_are_regular"),
    "jn_scopes": ("meaning", "type_of"),
    "jn_program": ("lower", "lower_others"),
    "jn_dataflow": ("solve",),
    "jn_assigned": ("unassigned",),
    "jn_basecheck": ("base_check",),
    "jn_env": ("join_is_least", "find_keys"),
    "jn_transfer": ("transfer", "entry", "transfer_is_monotone"),
    "jn_heap": ("NeverNull",),
    "jn_tree_world": ("start", "binary"),
    "jn_tree_simple": ("declaration", "returned", "effects"),
    "jn_checks": ("checks", "override_rows"),
    "jn_cert": ("check_cert", "write_cert", "refused_certificates_do_not_hold"),
    "jn_cert_judge": ("judge",),
    "jn_lsp_messages": ("read_message", "write_reply"),
    "nullcheck_cert_check": ("check", "certified_files_are_accepted"),
    "nullcheck_cert_write": ("write_cert",),
}


def areas():
    """The areas of crates.txt, each with its crates; its first comment is the file's head."""
    found = []
    for line in (ROOT / "crates.txt").read_text(encoding="utf-8").splitlines():
        if line.startswith("# "):
            found.append((line[2:].strip(), []))
        elif LINE.match(line):
            found[-1][1].append(LINE.match(line)[1])
    return [(area, crates) for area, crates in found if crates]


def head(crate):
    """The text of the crate's head."""
    for name in ("lib.rt", "main.rt"):
        file = CRATES / crate / "src" / name
        if file.is_file():
            lines = file.read_text(encoding="utf-8").splitlines()
            return " ".join(line[3:].strip() for line in lines if line.startswith("//!"))
    return ""


def first_sentence(text):
    sentence = re.split(r"\.(?:\s|$)", re.sub(r"\[(`[^`]+`)\]", r"\1", text))[0]
    is_name = sentence.startswith(PROPER) or sentence[1:2].isupper()
    return sentence if is_name else sentence[:1].lower() + sentence[1:]


def declared(crate, pattern):
    """The crate's public functions or types, laws first, then those of lib.rt, in the order of the text."""
    files = sorted((CRATES / crate / "src").rglob("*.rt"), key=lambda file: (file.stem != "law", file.name != "lib.rt", file))
    return list(dict.fromkeys(name for file in files for name in pattern.findall(file.read_text(encoding="utf-8"))))


def laws_of(crate):
    file = CRATES / crate / "src/law.rt"
    return FUNCTION.findall(file.read_text(encoding="utf-8")) if file.is_file() else []


def named_in_head(crate, functions):
    """The calls and laws that the head names, and the types that it links to."""
    text = head(crate)
    own = [path.split("::")[-1] for path in re.findall(r"`((?:\w+::)*\w+)`", text) if not path.startswith(("jn_", "nullcheck"))]
    links = set(re.findall(r"\[`(?:\w+::)*(\w+)`\]", text))
    types = declared(crate, TYPE)
    return [it for it in own if it in functions] + [it for it in own if it in links and it in types]


def handed_on(crate):
    """The functions, and then the types, of the crate's own that src/lib.rt declares or hands on."""
    file = CRATES / crate / "src/lib.rt"
    text = file.read_text(encoding="utf-8") if file.is_file() else ""
    uses = re.findall(r"^pub use (?!jn_|nullcheck)(?:\w+::)+(\{[^}]*\}|\w+);", text, re.MULTILINE)
    named = [word for use in uses for word in re.findall(r"\w+", use)]
    return FUNCTION.findall(text) + [it for it in named if it[0].islower()], TYPE.findall(text) + [it for it in named if it[0].isupper()]


def uses(crates):
    """For each crate how many others import each name of it."""
    found = {}
    for crate in crates:
        named = set()
        for file in (CRATES / crate / "src").rglob("*.rt"):
            for library, path in IMPORT.findall(file.read_text(encoding="utf-8")):
                named.update((library, word) for word in re.findall(r"\w+", path))
        for library, word in named:
            found.setdefault(library, Counter())[word] += 1
    return found


def carriers(crate, used):
    """The names of what carries the crate."""
    if crate in CARRIED:
        return CARRIED[crate]
    functions, laws, counts = declared(crate, FUNCTION), laws_of(crate), used.get(crate, Counter())

    def in_use(names):
        return sorted(names, key=lambda name: -counts[name])[:FEW]

    calls, types = handed_on(crate)
    found = named_in_head(crate, functions) or in_use(calls) or in_use(functions) or types[:FEW]
    law = [] if set(found) & set(laws) else in_use(laws)[:1]
    return list(dict.fromkeys(found[: MOST - len(law)] + law))[:MOST]


def is_there(crate, name):
    """Whether the crate has a word of this name in its code or its definitions."""
    files = (file for part in ("src", "specs") for file in (CRATES / crate / part).rglob("*.*"))
    return any(re.search(rf"\b{name}\b", file.read_text(encoding="utf-8")) for file in files)


def listed():
    """The list, line by line."""
    used = uses([crate for area, crates in areas() if area != CASES for crate in crates])
    for area, crates in areas():
        yield from (f"**{area}**", "")
        for crate in crates:
            names = [] if area == CASES or (CRATES / crate / "src/main.rt").is_file() else carriers(crate, used)
            carried = ". " + ", ".join(f"`{name}`" for name in names) if names else ""
            yield f"- `{crate}`: {first_sentence(head(crate))}{carried}"
        yield ""


def main():
    page = PAGE.read_text(encoding="utf-8")
    if BEGIN not in page or END not in page:
        print(f"README.md: the marks {BEGIN} and {END} are missing")
        return 1
    before, rest = page.split(BEGIN, 1)
    wanted = before + BEGIN + "\n\n" + "\n".join(listed()) + END + rest.split(END, 1)[1]
    bare = [crate for _, crates in areas() for crate in crates if not first_sentence(head(crate))]
    for crate in bare:
        print(f"{crate}: no head")
    gone = [f"{crate}: {name}" for crate, names in CARRIED.items() for name in names if not is_there(crate, name)]
    for name in gone:
        print(f"CARRIED has {name}, which isn't there")
    if "--write" in sys.argv[1:]:
        PAGE.write_text(wanted, encoding="utf-8")
        return 1 if bare or gone else 0
    if wanted != page:
        print("README.md: the list of crates isn't that of the crates: bin/list_crates.py --write")
    return 1 if bare or gone or wanted != page else 0


if __name__ == "__main__":
    sys.exit(main())
