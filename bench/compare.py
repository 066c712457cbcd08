#!/usr/bin/env python3
"""Runs the thirteen queries and the examples on PostgreSQL too, and compares the rows with those of `ssb`.

Usage: compare.py [FOLDER..] [--ssb PROGRAM]

The tables and texts are those of `examples`; of each further FOLDER, tables as `make_tables.py` makes them, the
thirteen are run. `export.py` gives PostgreSQL its tables. A line tells how the rows of a query compare; an answer
with other rows ends the script with status 1.
"""

import argparse
import sys
import tempfile
from pathlib import Path

import engines
import measure
from measure import thirteen

EXAMPLES = measure.ROOT / "examples"
THREADS = 4
OTHER = "OTHER ROWS"


def texts_in(folder):
    """The query texts of a folder, by their files' names."""
    return {path.stem: path.read_text(encoding="utf-8") for path in sorted(folder.glob("*.sql"))}


def runs(folders):
    """Each folder with its catalog and the texts that are run over it."""
    yield EXAMPLES / "small", None, texts_in(EXAMPLES / "small")
    yield EXAMPLES / "star", EXAMPLES / "ssb.catalog", texts_in(EXAMPLES / "star")
    for folder in [EXAMPLES / "thirteen", *folders]:
        yield folder, None, thirteen()


def rows_of(engine, folder, catalog, texts):
    """The rows of each text on an engine."""
    with tempfile.TemporaryDirectory() as out:
        return engine.session(folder.resolve(), texts, Path(out), catalog).rows


def likeness(ours, theirs):
    """How the rows of two answers compare."""
    if sorted(ours) != sorted(theirs):
        return OTHER
    return f"{len(ours)} rows, the same" + ("" if ours == theirs else ", in another order")


def main(words):
    """Compares all, and gives the exit status."""
    parser = argparse.ArgumentParser(description=__doc__.split("\n", 1)[0])
    parser.add_argument("folders", nargs="*", type=Path, metavar="FOLDER")
    parser.add_argument("--ssb", **measure.OPTIONS["--ssb"])
    given = parser.parse_args(words)
    ssb, server = engines.Ssb(given.ssb, THREADS), engines.PostgreSQL(THREADS)
    for engine in (ssb, server):
        if not engine.is_there():
            raise SystemExit(f"{engine.name} is not there")
    other = 0
    try:
        for folder, catalog, texts in runs(given.folders):
            ours, theirs = (rows_of(engine, folder, catalog, texts) for engine in (ssb, server))
            for name in texts:
                told = likeness(ours[name], theirs[name])
                other += told == OTHER
                print(f"{folder.name} {name}: {told}")
    except engines.Failed as failed:
        raise SystemExit(str(failed)) from None
    finally:
        server.close()
    return 1 if other else 0


if __name__ == "__main__":
    sys.exit(main(sys.argv[1:]))
