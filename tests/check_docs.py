#!/usr/bin/env python3
"""Holds the documents and each crate's list of files to what is there.

Usage: check_docs.py

Prints a line for each place that is wrong, and last `N passed, M failed`, where each check counts as one.
"""

import re
import subprocess
import sys
import tempfile
from pathlib import Path

ROOT = Path(__file__).resolve().parent.parent
CRATES = ROOT / "crates"
DOCS = ROOT / "docs"
CHANGING = DOCS / "CHANGING.md"
DEFINITIONS = DOCS / "DEFINITIONS.md"
BUILT_IN = CRATES / "ssb_catalog" / "specs" / "BuiltIn.antt"
CATALOG = ROOT / "examples" / "ssb.catalog"

# Of all documents but DEFINITIONS, which grows as the definitions do.
MOST_WORDS = 21_000
MOST_HEAD_LINES = 12

# What no limit of the product stands in: what only tests, measures or shows, and the texts of the benchmark's queries.
NO_LIMITS = {"ssb_tests", "ssb_refusals", "ssb_bench", "ssb_example"}
BENCHMARK = ("benchmark.rt", "Benchmark.antt")

QUOTED = re.compile(r"`([^`]+)`")
ITEM = re.compile(r"[A-Za-z_][\w]*")
LINK = re.compile(r"\]\(([^)#\s]+)(?:#[^)]*)?\)")
DATE = re.compile(r"\b20\d\d-\d\d-\d\d\b")
NUMBER = re.compile(r"(?<![\w.])\d[\d_]*(?![\w])")
ENDINGS = (".rt", ".antt", ".md", ".py", ".sql", ".svg", ".catalog", ".txt")
FOLDERS = {"crates", "docs", "examples", "tests", "bench", "src", "specs", "proofs"}


def documents():
    """The documents that a reader is given."""
    return [ROOT / "README.md", *sorted(DOCS.glob("*.md")), ROOT / "bench" / "README.md", ROOT / "tests" / "README.md"]


def text_of(path):
    """What a file holds."""
    return path.read_text(encoding="utf-8")


def shown(path):
    """A path as a reader names it."""
    return path.relative_to(ROOT)


def rows_of(text):
    """The rows of a document's tables, each with its cells and the heading that it stands under."""
    heading = ""
    for line in text.splitlines():
        if line.startswith("#"):
            heading = line
        elif line.startswith("|") and not line.startswith("|---"):
            yield heading, [cell.strip() for cell in line.strip().strip("|").split(" | ")]


def found(name):
    """The file or folder that a document means by a path, or None."""
    for base in (CRATES, ROOT):
        if (base / name).exists():
            return base / name
    return None


def has_word(path, word):
    """Whether a file has a word."""
    return re.search(rf"(?<!\w){re.escape(word)}(?!\w)", text_of(path)) is not None


def wrong_in_changes():
    """What a row of CHANGING names that is not there: a file, or an item in the file before it."""
    for _, cells in rows_of(text_of(CHANGING)):
        last = None
        for name in QUOTED.findall(" ".join(cells[1:])):
            if "/" in name:
                last = found(name)
                if last is None:
                    yield f"{cells[0]}: no {name}"
            elif name.startswith("ssb_") and not (CRATES / name).is_dir() and (last is None or not has_word(last, name)):
                yield f"{cells[0]}: no crate {name}"
            elif ITEM.fullmatch(name) and not (CRATES / name).is_dir() and last and last.is_file() and not has_word(last, name):
                yield f"{cells[0]}: no {name} in {shown(last)}"


def code_lines(path):
    """The lines of a source without comments, and without powers of 2."""
    for line in text_of(path).splitlines():
        if not line.lstrip().startswith(("//", "--")):
            yield re.sub(r"2 \^ \d+", "", line)


def numbers_in(path):
    """The numbers that the code of a file spells."""
    return {int(number.replace("_", "")) for line in code_lines(path) for number in NUMBER.findall(line)}


def sources():
    """The definitions and the code that limits stand in."""
    for crate in sorted(CRATES.iterdir()):
        if crate.name not in NO_LIMITS:
            files = sorted([*crate.glob("src/**/*.rt"), *crate.glob("specs/**/*.antt")])
            yield from (path for path in files if crate.name != "ssb_words" or path.name not in BENCHMARK)


def limits():
    """Each number of CHANGING's limits, with the files and the crates that have it."""
    places = {}
    for heading, cells in rows_of(text_of(CHANGING)):
        if heading == "## Limits" and cells[1] != "Number":
            names = {name for name in QUOTED.findall(cells[2]) if "/" in name or (CRATES / name).is_dir()}
            places.setdefault(int(cells[1]), set()).update(names)
    return places


def wrong_in_limits():
    """Where a limit's number stands and is not listed, or is listed and does not stand."""
    places = limits()
    seen = {(number, place): False for number, names in places.items() for place in names if "/" in place}
    for path in sources():
        name = str(path.relative_to(CRATES))
        for number in numbers_in(path) & set(places):
            if (number, name) in seen:
                seen[number, name] = True
            elif path.relative_to(CRATES).parts[0] not in places[number]:
                yield f"{number} stands in {name}, which no row of its limits has"
    for (number, name), stands in seen.items():
        # A row of one limit may also name what spells it in another way.
        if not stands and "u32::MAX" not in text_of(CRATES / name):
            yield f"{number} does not stand in {name}"


def root_of(crate):
    """The root file of a crate."""
    return next(path for path in (crate / "src" / "lib.rt", crate / "src" / "main.rt") if path.exists())


def files_listed(crate):
    """The files that the head of a crate's root lists: the code under `Files:`, the definitions under `Definitions:`."""
    head = text_of(root_of(crate)).split("#![tactic(auto)]")[0]
    for line in re.sub(r"\n//!   ", " ", head).splitlines():
        for label, folder, ending in (("Files", "src", ".rt"), ("Definitions", "specs", ".antt")):
            if line.startswith(f"//! - {label}: "):
                yield from (f"{folder}/{name}{ending}" for name in QUOTED.findall(line))


def wrong_in_file_lists():
    """Files that a crate lists and does not have, and those that it has and does not list; heads that are long."""
    for crate in sorted(path for path in CRATES.iterdir() if (path / "src").is_dir()):
        listed = set(files_listed(crate))
        yield from (f"{crate.name} lists {name}, which is not there" for name in listed if not (crate / name).exists())
        for path in sorted([*crate.glob("src/**/*.rt"), *crate.glob("specs/**/*.antt")]):
            if path.name not in ("lib.rt", "main.rt", "Lib.antt") and str(path.relative_to(crate)) not in listed:
                yield f"{crate.name} does not list {path.relative_to(crate)}"
        length = text_of(root_of(crate)).count("//!")
        if root_of(crate).name == "lib.rt" and length > MOST_HEAD_LINES:
            yield f"{crate.name}'s head has {length} lines"


def wrong_in_definitions():
    """Names that DEFINITIONS gives a file that does not have them."""
    for heading, cells in rows_of(text_of(DEFINITIONS)):
        folders = [ROOT / name for name in QUOTED.findall(heading)]
        if cells[-1] == "File" or not folders or not cells[-1].startswith("`"):
            continue
        files = [folder / name for folder in folders for name in QUOTED.findall(cells[-1]) if (folder / name).exists()]
        if not files:
            yield f"{cells[0]}: no {cells[-1]}"
        for name in QUOTED.findall(cells[0]):
            if not any(has_word(path, name) for path in files):
                yield f"no {name} in {', '.join(str(shown(path)) for path in files)}"


def is_there(document, name):
    """Whether a path stands below the repository, the document's folder, or some crate."""
    return found(name) is not None or (document.parent / name).exists() or any(CRATES.glob(f"*/{name}"))


def wrong_in_links():
    """Links and paths of documents that lead nowhere."""
    for document in documents():
        text = text_of(document)
        for name in LINK.findall(text):
            if "://" not in name and not (document.parent / name).exists():
                yield f"{shown(document)} links to {name}"
        prose = re.sub(r"^```.*?^```", "", text, flags=re.MULTILINE | re.DOTALL)
        for name in QUOTED.findall(prose):
            if "/" in name and name.endswith(ENDINGS) and name.split("/")[0] in FOLDERS and not is_there(document, name):
                yield f"{shown(document)} names {name}"


def program_crates():
    """The program's crates: those that it stands on by crates.txt, and itself."""
    lines = [line.split(":", 1) for line in text_of(ROOT / "crates.txt").splitlines() if line and line[0] != "#"]
    below = {left.split()[0]: right.split() for left, right in lines}
    crates = ["ssb_cli"]
    for crate in crates:
        crates += [name for name in below[crate] if name in below and name not in crates]
    return crates


def columns_of(table):
    """The records that a catalog has for a table, by the definition of the built-in one."""
    roles = {"int_key": "int|key", "nullable_int": "int|null", "nullable_text": "text|null"}
    body = re.search(rf"\n{table}_columns =\n(.*?)\n\n", text_of(BUILT_IN), re.DOTALL)[1]
    return [f"{table}|{name}|{roles[rule]}" for rule, name in re.findall(r'(\w+) "(\w+)"', body)]


def wrong_in_catalog():
    """Whether the catalog among the examples is the built-in one."""
    tables = re.findall(r"\n(\w+)_columns =\n", text_of(BUILT_IN))
    if [line for table in tables for line in columns_of(table)] != text_of(CATALOG).splitlines():
        yield f"{shown(CATALOG)} is not {shown(BUILT_IN)}"


def wrong_in_picture():
    """Whether the picture is what its script makes."""
    with tempfile.TemporaryDirectory() as folder:
        path = Path(folder) / "architecture.svg"
        subprocess.run([sys.executable, str(DOCS / "picture.py"), str(path)], check=True)
        if text_of(path) != text_of(DOCS / "architecture.svg"):
            yield "docs/architecture.svg is not what docs/picture.py makes"


def wrong_in_counts():
    """Whether GUARANTEES and README count edits, tests, rows and crates as they are."""
    edits = len(list(CRATES.glob("*/must-fail/*.edit")))
    tests = sum(text_of(path).count("#[test]") for path in CRATES.glob("ssb_tests/src/**/*.rt"))
    cases = len(list(ROOT.glob("tests/rows/*/*.json")))
    for path, words in (
        (DOCS / "GUARANTEES.md", f"tries {edits} edits, {tests} tests and {cases} rows"),
        (ROOT / "README.md", f"the program's {len(program_crates())} crates"),
    ):
        if words not in text_of(path):
            yield f"{shown(path)} does not say: {words}"


def wrong_in_length():
    """Whether the documents are too long to be read."""
    words = sum(len(text_of(path).split()) for path in documents() if path != DEFINITIONS)
    if words >= MOST_WORDS:
        yield f"the documents without {DEFINITIONS.name} have {words} words"


def wrong_in_dates():
    """Dates: documents say what is."""
    for document in documents():
        for number, line in enumerate(text_of(document).splitlines(), 1):
            if DATE.search(line):
                yield f"{shown(document)}:{number} has a date"


CHECKS = [
    wrong_in_changes, wrong_in_limits, wrong_in_file_lists, wrong_in_definitions, wrong_in_links, wrong_in_catalog,
    wrong_in_picture, wrong_in_counts, wrong_in_length, wrong_in_dates,
]


def main():
    """Makes each check, and gives the exit status."""
    failed = 0
    for check in CHECKS:
        wrong = list(check())
        for place in wrong:
            print(place)
        failed += bool(wrong)
    print(f"{len(CHECKS) - failed} passed, {failed} failed")
    return 1 if failed else 0


if __name__ == "__main__":
    sys.exit(main())
