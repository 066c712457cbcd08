#!/usr/bin/env python3
"""Makes the table files of `ssb`, and their catalog, from CSV files whose first line has the columns' names.

Usage: catalog_from_csv.py FOLDER FACTS.csv [DIMENSION.csv:KEY ..]

Each CSV file becomes FOLDER/NAME.tbl, where NAME is its own; KEY is the column of a dimension that fact rows
refer to. A column whose fields are all whole numbers of 64 bits, or empty, is an `int`; any other is a `text`.
Where a name or a field can't stand in these files, one line says so, and nothing is written.
"""

import csv
import re
import sys
from pathlib import Path

NAME = re.compile(r"[A-Za-z]\w{0,127}", re.ASCII)
INT = re.compile(r"-?[0-9]+")
INT_VALUES = range(-(2 ** 63), 2 ** 63)
MOST_BYTES = 4096


class Unfit(Exception):
    """What can't stand in a table's file or a catalog."""


def is_int(field):
    """Whether a field is a number of 64 bits."""
    return INT.fullmatch(field) is not None and int(field) in INT_VALUES


def check(field, place):
    """Refuses a field that no table's file can hold."""
    if re.search(r"[|\r\n]", field):
        raise Unfit(f"{place}: a bar or a line end in a field")
    if len(field.encode()) > MOST_BYTES:
        raise Unfit(f"{place}: more than {MOST_BYTES} bytes in a field")


def read(path):
    """The names of the columns of a CSV file, and its rows."""
    with open(path, encoding="utf-8-sig", newline="") as lines:
        names, *rows = [row for row in csv.reader(lines) if row] or [[""]]
    for name in [path.stem, *names]:
        if not NAME.fullmatch(name):
            raise Unfit(f"{path}: no name of a table or a column: {name!r}")
    for number, row in enumerate(rows, 1):
        if len(row) != len(names):
            raise Unfit(f"{path}, row {number}: {len(row)} fields under {len(names)} names")
        for field in row:
            check(field, f"{path}, row {number}")
    return names, rows


def records(table, names, rows, key):
    """The catalog's lines of a table."""
    for at, name in enumerate(names):
        held = [row[at] for row in rows if row[at]]
        kind = "int" if held and all(map(is_int, held)) else "text"
        yield f"{table}|{name}|{kind}|{'key' if name == key else 'null'}\n"


def main(words):
    """Converts the files that the words name, and gives the exit status."""
    if len(words) < 2:
        print(__doc__.strip(), file=sys.stderr)
        return 2
    folder, tables, catalog = Path(words[0]), {}, []
    try:
        for word in words[1:]:
            name, _, key = word.partition(":")
            path = Path(name)
            names, rows = read(path)
            if key and key not in names:
                raise Unfit(f"{path}: no column {key}")
            catalog += records(path.stem, names, rows, key)
            tables[path.stem.lower()] = "".join("|".join(row) + "|\n" for row in rows)
    except (OSError, UnicodeError, csv.Error, Unfit) as error:
        print(error, file=sys.stderr)
        return 1
    folder.mkdir(parents=True, exist_ok=True)
    for table, content in tables.items():
        (folder / f"{table}.tbl").write_text(content, encoding="utf-8", newline="")
    (folder / "catalog").write_text("".join(catalog), encoding="utf-8", newline="")
    return 0


if __name__ == "__main__":
    sys.exit(main(sys.argv[1:]))
