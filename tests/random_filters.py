#!/usr/bin/env python3
"""Tries 2,000 random conditions, of a fixed seed, against SQLite.

Usage: random_filters.py [PROGRAM]

PROGRAM is crates/ssb_cli/out/ssb_cli where it is left out. It answers all of them in one session, by one worker and
by several over small morsels, over a table whose columns take one, two, four and eight bytes a number, with nulls and
both ends of 64 bits, and over a dimension. A count and a sum of row numbers tell which rows are kept.

It prints a line for each condition that PROGRAM answers otherwise, and last the counts.
"""

import random
import sqlite3
import subprocess
import sys
import tempfile
from pathlib import Path

ROOT = Path(__file__).resolve().parent.parent
PROGRAM = ROOT / "crates" / "ssb_cli" / "out" / "ssb_cli"
SECONDS = 120

SEED = 19920101
CONDITIONS = 2000
ROWS = 1500

# How each session works.
SETTINGS = [["--workers", "1"], ["--workers", "3", "--morsel", "10", "--parts", "2", "--batch", "4"]]

GREATEST = 2**63 - 1

# What each column of the fact table holds beside nulls, some of it often. No literal spells the least number.
NUMBERS = {
    "b": [-128, 127, -3, 0, 2, 7, 8, 9],
    "c": [-32768, 32767, *range(-300, 300, 7)],
    "d": [-(2**31), 2**31 - 1, *range(-70000, 70000, 913)],
    "e": [-GREATEST - 1, -GREATEST, GREATEST, GREATEST - 1, 0, 5 * 10**9, -5 * 10**9],
    "j": range(1, 60),
}
TEXTS = {"s": ["AIR", "FOB", "MAIL", "RAIL", "REG AIR", "SHIP", "TRUCK"]}

# The dimension: a key for most numbers of `j`, a number and a text.
KEYS = [key for key in range(1, 60) if key % 7]
AGES = [1, 2, 3, 50, 60, 70000]
NAMES = ["ASIA", "EUROPE", "AFRICA"]
DIMENSION = {"k": KEYS, "n": AGES, "t": NAMES}

CATALOG = """\
f|a|int|need
f|b|int|null
f|c|int|null
f|d|int|null
f|e|int|null
f|j|int|null
f|s|text|null
g|k|int|key
g|n|int|null
g|t|text|null
"""


def tables(chance):
    """The rows of the fact table and of the dimension."""
    columns = [*NUMBERS.values(), *TEXTS.values()]
    facts = [
        [row, *(None if chance.random() < 0.15 else chance.choice(values) for values in columns)]
        for row in range(1, ROWS + 1)
    ]
    dimension = [
        [key, *(None if chance.random() < 0.2 else chance.choice(values) for values in (AGES, NAMES))] for key in KEYS
    ]
    return {"f": facts, "g": dimension}


def literal(chance, values):
    """One of these values, or a number beside one, as SQL spells it."""
    value = chance.choice(values)
    if isinstance(value, str):
        return f"'{chance.choice([value, value, value[:2], value + ' '])}'"
    return str(max(-GREATEST, min(GREATEST, value + chance.choice([0, 0, 0, -1, 1]))))


def test(chance, columns):
    """A test of one column, mostly with literals."""
    name, values = chance.choice(list(columns.items()))
    negated = chance.choice(["", "", "not "])
    one, other = literal(chance, values), literal(chance, values)
    sign = chance.choice(["=", "=", "<>", "<", "<=", ">", ">="])
    listed = ", ".join(literal(chance, values) for _ in range(chance.choice([1, 2, 3, 8, 40])))
    forms = [
        f"{name} {sign} {one}",
        f"{name} {sign} {one}",
        f"{one} {sign} {name}",
        f"{name} {negated}between {one} and {other}",
        f"{name} {negated}in ({listed})",
        f"{name} is {negated}null",
    ]
    if isinstance(values[0], int) and chance.random() < 0.1:
        forms = [f"{name} {sign} {chance.choice([key for key, held in columns.items() if isinstance(held[0], int)])}"]
    return chance.choice(forms)


def condition(chance, columns, depth):
    """A condition over some columns: of one, or of several, so deep at most."""
    if depth == 0 or chance.random() < 0.25:
        return test(chance, columns)
    kind = chance.choice(["or", "or", "and", "not"])
    if kind == "not":
        return f"not ({condition(chance, columns, depth - 1)})"
    parts = [condition(chance, columns, depth - 1) for _ in range(chance.choice([2, 2, 3, 6]))]
    return "(" + f" {kind} ".join(parts) + ")"


def query(chance):
    """A query: over the fact table alone or joined, its conjuncts of one column or of any."""
    facts = {**NUMBERS, **TEXTS}
    conjuncts = []
    for _ in range(chance.choice([1, 1, 2, 4])):
        name = chance.choice(list(facts))
        columns = {name: facts[name]} if chance.random() < 0.7 else facts
        conjuncts.append(condition(chance, columns, chance.choice([1, 2, 3])))
    tables_named = "f"
    if chance.random() < 0.3:
        tables_named = "f, g"
        columns = DIMENSION if chance.random() < 0.7 else {**facts, **DIMENSION}
        conjuncts = ["j = k", condition(chance, columns, 2), *conjuncts]
    return f"select count(*), sum(a) from {tables_named} where {' and '.join(conjuncts)}"


def fields(row):
    """The line of a row: nothing for a null."""
    return "|".join("" if value is None else str(value) for value in row)


def wanted(rows, queries):
    """What SQLite answers to each query."""
    with sqlite3.connect(":memory:") as base:
        base.execute("create table f (a integer, b integer, c integer, d integer, e integer, j integer, s text)")
        base.execute("create table g (k integer, n integer, t text)")
        for name, some in rows.items():
            base.executemany(f"insert into {name} values ({', '.join('?' * len(some[0]))})", some)
        return [fields(base.execute(text).fetchone()) for text in queries]


def answers(program, folder, settings, text):
    """The lines that a session of these queries writes."""
    words = [program, "shell", "--data", folder, "--catalog", folder / "catalog", *settings]
    ended = subprocess.run(words, input=text, capture_output=True, text=True, timeout=SECONDS, check=False)
    if ended.returncode != 0 or ended.stderr:
        raise SystemExit(f"{' '.join(settings)}: status {ended.returncode}, {ended.stderr[:500]}")
    return ended.stdout.splitlines()


def main(words):
    """Tries the conditions."""
    program = Path(words[0]).resolve() if words else PROGRAM
    chance = random.Random(SEED)
    rows = tables(chance)
    queries = [query(chance) for _ in range(CONDITIONS)]
    told = wanted(rows, queries)
    passed = failed = 0
    with tempfile.TemporaryDirectory() as name:
        folder = Path(name)
        (folder / "catalog").write_text(CATALOG, encoding="utf-8")
        for table, some in rows.items():
            text = "".join(fields(row) + "\n" for row in some)
            (folder / f"{table}.tbl").write_text(text, encoding="utf-8")
        for settings in SETTINGS:
            seen = answers(program, folder, settings, "".join(f"{text};\n" for text in queries))
            if len(seen) != len(queries):
                raise SystemExit(f"{' '.join(settings)}: {len(seen)} answers to {len(queries)} queries")
            for text, line, want in zip(queries, seen, told):
                if line == want:
                    passed += 1
                else:
                    failed += 1
                    print(f"{' '.join(settings)}: {text}: {line}, wanted {want}")
    print(f"{passed} passed, {failed} failed")
    return 1 if failed else 0


if __name__ == "__main__":
    sys.exit(main(sys.argv[1:]))
