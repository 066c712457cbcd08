#!/usr/bin/env python3
"""Plants changes in the benchmark's queries, and holds the rows of tests/rows/benchmark against SQLite.

Usage: mutate_queries.py [PROGRAM]

These are the rows over the tables of examples/thirteen. Each must want what SQLite answers to its query,
whose text stands in the program's definitions. Then the text is changed in one place: a literal, a column,
a comparison, an order key, an operator of arithmetic, a conjunct, a group column. SQLite answers each
changed query over the tables of each row of the query, and in one row the answer must be another, or
none. What is left out because it means the same over every table, `same_for_all` says. With PROGRAM, it
answers each changed query too: as SQLite does, or it refuses to bind it.

Not changed: names given by AS, the order of FROM, and words that only spell the query otherwise.
"""

import itertools
import re
import sqlite3
import subprocess
import sys
import tempfile
from pathlib import Path
from typing import NamedTuple

import run_rows
from benchmark_queries import thirteen

TABLES = run_rows.ROOT / "examples" / "thirteen"
ROWS = run_rows.ROWS / "benchmark"

TOKEN = re.compile(r"'(?:[^']|'')*'|[a-z_]\w*|\d+|<>|<=|>=|[-(),;+*=<>]")
COMPARISONS = ["=", "<>", "<", "<=", ">", ">="]
OPERATORS = ["+", "-", "*"]
KINDS = {"int": "integer", "text": "text"}


class Refused(Exception):
    """A query that has no answer."""


class Key(NamedTuple):
    """A key of ORDER BY: the name of a select column, and whether the greatest comes first."""

    name: str
    down: bool


class Query(NamedTuple):
    """A query by its parts. An item is the tokens of a select column and its name, or none."""

    items: list
    tables: list
    where: list
    groups: list
    order: list

    def text(self):
        """The query as SQL."""
        items = [" ".join(tokens) + (f" as {name}" if name else "") for tokens, name in self.items]
        parts = ["select", ", ".join(items), "from", ", ".join(self.tables), "where", *self.where]
        if self.groups:
            parts += ["group by", ", ".join(self.groups)]
        return " ".join(parts)

    def whole_text(self):
        """The query as SQL, with its order."""
        keys = [key.name + (" desc" if key.down else "") for key in self.order]
        return self.text() + (" order by " + ", ".join(keys) if keys else "")

    def names(self):
        """The name by which ORDER BY knows each select column, or none."""
        return [name or (tokens[0] if len(tokens) == 1 else None) for tokens, name in self.items]


def split(tokens, *marks):
    """The tokens in parts: at each mark that stands in no parentheses, and is no AND of a BETWEEN."""
    parts, depth, between = [[]], 0, False
    for token in tokens:
        depth += (token == "(") - (token == ")")
        if token in marks and depth == 0 and not between:
            parts.append([])
            continue
        between = token == "between" or (between and token != "and")
        parts[-1].append(token)
    return parts


def read_query(text):
    """The query of a text."""
    tokens = TOKEN.findall(text)
    rest = [token for token in tokens if token not in (";", "by")]
    parts = {"group": [], "order": []}
    head = None
    for token in rest:
        if token in ("select", "from", "where", "group", "order"):
            head = parts.setdefault(token, [])
        else:
            head.append(token)
    items = []
    for item in split(parts["select"], ","):
        named = len(item) > 2 and item[-2] == "as"
        items.append((item[:-2], item[-1]) if named else (item, None))
    order = [Key(key[0], key[-1] == "desc") for key in split(parts["order"], ",") if key]
    groups = [token for token in parts["group"] if token != ","]
    tables = [token for token in parts["from"] if token != ","]
    return Query(items, tables, parts["where"], groups, order)


# Changes. Each gives pairs: what is changed, and the changed thing.


class Catalog:
    """The columns of each table with their types, and the texts that stand in each text column."""

    def __init__(self, tables, rows):
        self.tables = tables
        self.kinds = {name: kind for columns in tables.values() for name, kind in columns.items()}
        self.texts = {
            name: sorted({row[place] for row in rows[table]} - {None})
            for table, columns in tables.items()
            for place, (name, kind) in enumerate(columns.items()) if kind == "text"
        }

    def others(self, column, tables):
        """The other columns of the same type in some tables."""
        for table in tables:
            for name, kind in self.tables[table].items():
                if name != column and kind == self.kinds[column]:
                    yield name


def other_texts(literal, standing):
    """Text literals beside one: its neighbours, its beginning, longer ones, and each that stands."""
    text = literal[1:-1]
    last = text[-1]
    near = [text[:-1] + chr(ord(last) + 1), text[:-1] + chr(ord(last) - 1), text[:-1], text + " ", text + "~"]
    for other in dict.fromkeys([*near, text.lower(), text.capitalize(), *standing]):
        if other != text:
            yield f"'{other}'"


def other_tokens(token, before, tables, catalog):
    """What one token is changed to. `before` is the column that was named last before it."""
    if token.isdigit():
        return list(dict.fromkeys([str(int(token) + 1), str(int(token) - 1), "0"]))
    if token.startswith("'"):
        return list(other_texts(token, catalog.texts[before]))
    if token in catalog.kinds:
        return list(catalog.others(token, tables))
    if token in COMPARISONS:
        return [other for other in COMPARISONS if other != token]
    if token in OPERATORS:
        return [other for other in OPERATORS if other != token]
    return {"and": ["or"], "or": ["and"], "between": ["not between"], "sum": ["count"]}.get(token, [])


def changed_tokens(tokens, tables, catalog):
    """A list of tokens with one of them changed."""
    column = None
    for place, token in enumerate(tokens):
        if token in catalog.kinds:
            column = token
        for other in other_tokens(token, column, tables, catalog):
            yield f"{token} at {place + 1} to {other}", tokens[:place] + [other] + tokens[place + 1:]


def joined(parts, word):
    """Parts with a word between them."""
    return [token for part in parts for token in (word, *part)][1:]


def changed_tests(tokens):
    """A condition with one test left out or negated, at any depth."""
    for word in ("or", "and"):
        parts = split(tokens, word)
        if len(parts) > 1:
            for place, part in enumerate(parts):
                name = " ".join(part)
                yield f"without {name}", joined(parts[:place] + parts[place + 1:], word)
                for what, other in changed_tests(part):
                    yield what, joined(parts[:place] + [other] + parts[place + 1:], word)
            return
    if tokens[0] == "(":
        for what, other in changed_tests(tokens[1:-1]):
            yield what, ["(", *other, ")"]
        return
    yield f"not {' '.join(tokens)}", ["not", "(", *tokens, ")"]
    if "between" in tokens:
        column, low, high = tokens[0], tokens[2], tokens[4]
        for below, above in ((">", "<="), (">=", "<"), (">", "<")):
            yield f"{column} {below} {low} and {above} {high}", [column, below, low, "and", column, above, high]
        yield f"{column} from {low}", [column, ">=", low]
        yield f"{column} to {high}", [column, "<=", high]
        yield f"{column} between {high} and {low}", [column, "between", high, "and", low]


def swapped(parts):
    """A list with two of its parts in each other's place."""
    for first, second in itertools.combinations(range(len(parts)), 2):
        other = list(parts)
        other[first], other[second] = parts[second], parts[first]
        yield f"{first + 1} and {second + 1} swapped", other


def changed_where(query, catalog):
    """A query with its condition changed."""
    for what, where in changed_tokens(query.where, query.tables, catalog):
        yield f"where: {what}", query._replace(where=where)
    for what, where in changed_tests(query.where):
        yield f"where: {what}", query._replace(where=where)


def changed_items(query, catalog):
    """A query with its select list changed."""
    for place, (tokens, name) in enumerate(query.items):
        rest = query.items[:place], query.items[place + 1:]
        for what, other in changed_tokens(tokens, query.tables, catalog):
            yield f"select: {what}", query._replace(items=rest[0] + [(other, name)] + rest[1])
        yield f"select: without {place + 1}", query._replace(items=rest[0] + rest[1])
        inner = tokens[2:-1]
        if len(inner) == 3:
            left, operator, right = inner
            for other in ([left], [right], *([[right, operator, left]] if operator == "-" else [])):
                item = ([*tokens[:2], *other, ")"], name)
                yield f"select: {' '.join(other)}", query._replace(items=rest[0] + [item] + rest[1])
    for what, items in swapped(query.items):
        yield f"select: {what}", query._replace(items=items)


def renamed(query, column, other):
    """A query with another column in the select list, the groups and the order."""
    def exchange(name):
        return other if name == column else name
    return query._replace(
        items=[(list(map(exchange, tokens)), name) for tokens, name in query.items],
        groups=list(map(exchange, query.groups)),
        order=[Key(exchange(key.name), key.down) for key in query.order],
    )


def changed_groups(query, catalog):
    """A query with its groups changed: in GROUP BY alone, and wherever the column is shown too."""
    for place, column in enumerate(query.groups):
        rest = query.groups[:place], query.groups[place + 1:]
        left = query._replace(groups=rest[0] + rest[1])
        yield f"group by: without {column}", left
        yield f"select and group by: without {column}", left._replace(
            items=[item for item in query.items if item[0] != [column]],
            order=[key for key in query.order if key.name != column],
        )
        for table in query.tables:
            for other in catalog.tables[table]:
                if other != column:
                    groups = rest[0] + [other] + rest[1]
                    yield f"group by: {column} to {other}", query._replace(groups=groups)
                    yield f"everywhere: {column} to {other}", renamed(query, column, other)
    if query.groups:
        yield "without group by", query._replace(groups=[])


def changed_order(query):
    """A query with its order changed."""
    for place, key in enumerate(query.order):
        rest = query.order[:place], query.order[place + 1:]
        yield f"order by: without {key.name}", query._replace(order=rest[0] + rest[1])
        others = [Key(key.name, not key.down)]
        for name in query.names():
            if name is not None and name != key.name:
                others += [Key(name, key.down), Key(name, not key.down)]
        for other in others:
            what = f"{key.name} to {other.name} {'desc' if other.down else 'asc'}"
            yield f"order by: {what}", query._replace(order=rest[0] + [other] + rest[1])
    for what, order in swapped(query.order):
        yield f"order by: {what}", query._replace(order=order)
    for some in range(1, len(query.order)):
        yield f"order by: the first {some} alone", query._replace(order=query.order[:some])
    if query.order:
        yield "without order by", query._replace(order=[])


def changed(query, catalog):
    """Each query that differs from a query in one place."""
    yield from changed_where(query, catalog)
    yield from changed_items(query, catalog)
    yield from changed_groups(query, catalog)
    yield from changed_order(query)


# Answers


def in_order(value):
    """What values are ordered by: nulls least, numbers by size, texts by their bytes."""
    if value is None:
        return (0,)
    return (1, value.encode() if isinstance(value, str) else value)


def judge(query):
    """Refuses what SQLite takes and the query language does not."""
    if not any(len(tokens) > 1 for tokens, _ in query.items) and not query.groups:
        raise Refused("no aggregate and no group")
    for tokens, _ in query.items:
        if len(tokens) == 1 and tokens[0] not in query.groups:
            raise Refused(f"{tokens[0]} is not grouped")
    for key in query.order:
        if key.name not in query.names():
            raise Refused(f"no select column {key.name}")


def answer(base, query):
    """The text of a query's answer: by SQLite, and ordered by the rules of docs/SQL.md."""
    judge(query)
    try:
        rows = base.execute(query.text()).fetchall()
    except sqlite3.Error as error:
        raise Refused(str(error)) from None
    rows.sort(key=lambda row: [in_order(value) for value in row])
    for key in reversed(query.order):
        place = query.names().index(key.name)
        rows.sort(key=lambda row: in_order(row[place]), reverse=key.down)
    return "".join("|".join("" if v is None else str(v) for v in row) + "\n" for row in rows)


def same_for_all(query, other):
    """Whether a changed query means the same over every table, for one of these reasons.

    Rows that agree in all keys of ORDER BY come by all select columns, from left to right. So two
    orders are the same where they are once those are put behind the keys, and three things are left
    out: a key that comes a second time; one that WHERE holds to one value; and what follows once every
    group column is there, because no two rows agree in them all.
    """
    return other._replace(order=[]) == query._replace(order=[]) and full_order(other) == full_order(query)


def full_order(query):
    """The keys that decide the order of a query's rows."""
    seen = {
        part[0] for part in split(query.where, "and")
        if len(part) == 3 and part[1] == "=" and not part[2].isidentifier()
    }
    keys = []
    names = [Key(name or str(place), False) for place, name in enumerate(query.names())]
    for key in [*query.order, *names]:
        if key.name not in seen and not seen.issuperset(query.groups):
            seen.add(key.name)
            keys.append(key)
    return keys


# Rows


class Case(NamedTuple):
    """A row: its name, what it wants, and its tables, in a folder and in SQLite."""

    name: str
    wanted: str
    folder: Path
    base: sqlite3.Connection


def read_table(path, kinds):
    """The rows of a table's file, whose lines end in a bar."""
    rows = []
    for line in path.read_text(encoding="utf-8").splitlines():
        fields = line.split("|")[:-1]
        rows.append([
            None if field == "" else int(field) if kind == "int" else field
            for field, kind in zip(fields, kinds, strict=True)
        ])
    return rows


def read_tables(tables, folder):
    """The rows of each table."""
    return {
        table: read_table(folder / f"{table}.tbl", columns.values())
        for table, columns in tables.items()
    }


def base_of(tables, rows):
    """The tables in SQLite."""
    base = sqlite3.connect(":memory:")
    for table, columns in tables.items():
        spelt = ", ".join(f"{name} {KINDS[kind]}" for name, kind in columns.items())
        base.execute(f"create table {table} ({spelt})")
        marks = ", ".join("?" * len(columns))
        base.executemany(f"insert into {table} values ({marks})", rows[table])
    return base


def read_cases(tables, folder):
    """The rows of each of the queries over the tables, by the query's name."""
    cases = {}
    for number, path in enumerate(sorted(ROWS.glob("*.json"))):
        row = run_rows.read_row(path)
        if row["base"] != TABLES.name:
            continue
        place = folder / str(number)
        place.mkdir()
        run_rows.lay_out(row, place)
        data = place / run_rows.DATA
        base = base_of(tables, read_tables(tables, data))
        cases.setdefault(row["words"][-1], []).append(Case(path.stem, row["output"], data, base))
    return cases


def read_columns():
    """The columns of each table, with their types."""
    tables = {}
    for line in (TABLES / "catalog").read_text(encoding="utf-8").splitlines():
        table, column, kind, _role = line.split("|")
        tables.setdefault(table, {})[column] = kind
    return tables


def answer_or_none(base, query):
    """The text of a query's answer, or none where it has none."""
    try:
        return answer(base, query)
    except Refused:
        return None


def is_as_told(program, case, query, told):
    """Whether a program answers a query as SQLite told, or refuses it: to read only what has no answer."""
    path = case.folder / "query.sql"
    path.write_text(query.whole_text(), encoding="utf-8")
    ended = subprocess.run(
        [program, "run", "--data", case.folder, "--query", path], capture_output=True, text=True, check=False
    )
    refusals = "ssb: B" if told is not None else ("ssb: B", "ssb: S1")
    if ended.returncode == 1 and ended.stderr.startswith(refusals):
        return not ended.stdout
    return ended.returncode == 0 and ended.stdout == told


def check(query, cases, catalog, program):
    """What is wrong with one query and its rows, and how many checks there were."""
    wrong = [
        f"{case.name} wants {case.wanted!r}, SQLite answers {answer(case.base, query)!r}"
        for case in cases if answer(case.base, query) != case.wanted
    ]
    count = len(cases)
    for what, other in changed(query, catalog):
        if same_for_all(query, other):
            continue
        count += 1
        told = [answer_or_none(case.base, other) for case in cases]
        if all(one == case.wanted for case, one in zip(cases, told)):
            wrong.append(f"{what}: no other answer")
        if program is not None:
            for case, one in zip(cases, told):
                if not is_as_told(program, case, other, one):
                    wrong.append(f"{what}: {case.name}: SQLite answers {one!r}, the program something else")
    return wrong, count


def main(words):
    """Checks all queries, and gives the exit status."""
    if len(words) > 1:
        print(__doc__.strip(), file=sys.stderr)
        return 2
    program = Path(words[0]).resolve() if words else None
    tables = read_columns()
    catalog = Catalog(tables, read_tables(tables, TABLES))
    checks = failed = 0
    texts = thirteen()
    with tempfile.TemporaryDirectory() as folder:
        cases = read_cases(tables, Path(folder))
        for name, text in texts.items():
            query = read_query(text)
            wrong, count = check(query, cases.pop(name, []), catalog, program)
            checks += count
            failed += len(wrong)
            for line in wrong:
                print(f"{name}: {line}")
    for name in cases:
        print(f"{name}: a row of no query")
    failed += len(cases)
    print(f"{checks - failed} passed, {failed} failed")
    return 1 if failed or not texts else 0


if __name__ == "__main__":
    sys.exit(main(sys.argv[1:]))
