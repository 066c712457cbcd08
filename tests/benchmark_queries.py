"""The thirteen queries' texts, read from the program's definitions."""

import re
from pathlib import Path

SOURCE = Path(__file__).resolve().parent.parent / "crates" / "ssb_words" / "specs" / "Benchmark.antt"

# A definition's clause: its name, what it takes, and all that follows.
CLAUSE = re.compile(r"^(q\d_\d|sales_\w+)((?: \w+)*) =\n?((?: .*\n)+)", re.M)


def clauses(source):
    """By its name, what each clause takes, and its lines and names in their order."""
    found = {}
    for name, takes, body in CLAUSE.findall(source):
        parts = [(line, word) for line, word in re.findall(r'"([^"]*)"|\b(sales_\w+|conditions?)\b', body)]
        found[name] = (takes.split(), parts)
    return found


def lines_of(found, name, given):
    """The lines of a clause, with these lines in the place of what it takes."""
    takes, parts = found[name]
    lines = []
    for at, (line, word) in enumerate(parts):
        if line:
            lines.append(line)
        elif word in takes:
            lines.extend(given)
        else:
            return lines_of(found, word, [line for line, _ in parts[at + 1 :]])
    return lines


def thirteen():
    """The texts by their names, as `--name` takes them."""
    found = clauses(SOURCE.read_text(encoding="utf-8"))
    return {
        name.upper().replace("_", "."): "".join(line + "\n" for line in lines_of(found, name, []))
        for name in found
        if name.startswith("q")
    }
