#!/usr/bin/env python3
"""Writes a script that makes and fills the tables of a folder on another engine.

Usage: export.py ENGINE FOLDER [--catalog FILE]

ENGINE is `postgresql` (for psql), `clickhouse` (for sh, which calls clickhouse-client) or `spark` (for
spark-sql). FOLDER has the tables' files; the catalog is `FOLDER/catalog` where none is given. Files are read
as docs/FORMATS.md has them: nothing is quoted, an empty field is null, and a bar may close a record.
"""

import argparse
import shlex
import sys
from pathlib import Path
from typing import NamedTuple

BAR = "|"


class Column(NamedTuple):
    """A column of the catalog: its name, `int` or `text`, and `key`, `need` or `null`."""

    name: str
    kind: str
    role: str


def tables_of(catalog):
    """The columns of each table that a catalog names, in its order."""
    tables = {}
    for line in catalog.read_text(encoding="utf-8-sig").splitlines():
        if line:
            table, name, kind, role = line.split(BAR)[:4]
            tables.setdefault(table.lower(), []).append(Column(name.lower(), kind, role))
    return tables


def list_of(parts):
    """The parts of a list, each on a line of its own."""
    return ",\n".join(f"    {part}" for part in parts)


def postgresql(table, columns, path):
    """A table of PostgreSQL, and its file's lines as COPY reads a text."""
    kinds = {"int": "bigint", "text": 'text collate "C"'}
    roles = {"key": " primary key", "need": " not null", "null": ""}
    names = list_of(f'"{column.name}" {kinds[column.kind]}{roles[column.role]}' for column in columns)
    # What COPY would not read as the record's fields: a byte order mark, CR before LF, empty lines, the closing
    # bar, and backslashes, which are letters here.
    steps = (
        r'NR == 1 { sub(/^\357\273\277/, "") } { sub(/\r$/, "") } '
        rf'NF > {len(columns)} {{ sub(/[|]$/, "") }} {{ gsub(/\\/, "&&") }} $0 != ""'
    )
    lines = shlex.join(["awk", f"-F{BAR}", steps, str(path)]).replace("'", "''")
    copy = rf"""\copy "{table}" from program 'LC_ALL=C {lines}' with (delimiter '{BAR}', null '')"""
    return f'create table "{table}" (\n{names}\n);\n{copy}\nanalyze "{table}";\n'


def fields_of(columns, int_of, text_of):
    """The columns of a select list, each by the place of its field in a line, from 0."""
    for place, column in enumerate(columns):
        field = int_of(place) if column.kind == "int" else text_of(place)
        yield f"{field} as `{column.name}`"


def clickhouse(table, columns, path):
    """A table of ClickHouse, and its file's lines cut at their bars."""
    kinds = {"int": "Int64", "text": "String"}
    names = list_of(
        f"`{column.name}` {f'Nullable({kinds[column.kind]})' if column.role == 'null' else kinds[column.kind]}"
        for column in columns
    )
    order = next((f"`{column.name}`" for column in columns if column.role == "key"), "tuple()")

    def int_of(place):
        # Older versions read the number of a null, too.
        field = f"f[{place + 1}]"
        return f"if({field} = '', null, toInt64(if({field} = '', '0', {field})))"

    fields = list_of(fields_of(columns, int_of, lambda place: f"nullIf(f[{place + 1}], '')"))
    create = f"create table `{table}` (\n{names}\n) engine = MergeTree order by {order}"
    lines = rf"select splitByChar('{BAR}', replaceRegexpAll(line, '^\xEF\xBB\xBF|\r$', '')) as f"
    insert = (
        f"insert into `{table}` select\n{fields}\nfrom (\n    {lines}\n"
        "    from input('line String') where line not in ('', '\\r')\n) format LineAsString"
    )
    # Else a null in a column that takes none would become 0 or an empty text.
    client = "clickhouse-client --insert_null_as_default 0 --query"
    return f"{client} {shlex.quote(create)}\n{client} {shlex.quote(insert)} < {shlex.quote(str(path))}\n"


def spark(table, columns, path):
    """A table of Spark, from its file's lines cut at their bars; a field that is no number ends the script."""
    fields = list_of(fields_of(
        columns, lambda place: f"cast(nullif(f[{place}], '') as bigint)", lambda place: f"nullif(f[{place}], '')"
    ))
    lines = f"select split(regexp_replace(value, '^\\uFEFF', ''), '[{BAR}]', -1) as f"
    return (
        f"create table `{table}` using parquet as select\n{fields}\nfrom (\n    {lines}\n"
        f"    from text.`{path}` where value <> ''\n);\n"
    )


ENGINES = {
    "postgresql": (postgresql, ""),
    "clickhouse": (clickhouse, "set -e\n"),
    "spark": (spark, "set spark.sql.ansi.enabled = true;\n"),
}


def script(engine, folder, catalog=None):
    """The script that makes and fills a folder's tables on an engine."""
    made, head = ENGINES[engine]
    tables = tables_of(catalog or folder / "catalog")
    return head + "".join(made(table, columns, folder / f"{table}.tbl") for table, columns in tables.items())


def main(words):
    """Prints the script that the words ask for."""
    parser = argparse.ArgumentParser(description=__doc__.split("\n", 1)[0])
    parser.add_argument("engine", choices=ENGINES)
    parser.add_argument("folder", type=Path, metavar="FOLDER")
    parser.add_argument("--catalog", type=Path, metavar="FILE")
    given = parser.parse_args(words)
    print(script(given.engine, given.folder.resolve(), given.catalog), end="")


if __name__ == "__main__":
    main(sys.argv[1:])
