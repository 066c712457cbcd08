#!/usr/bin/env python3
"""Sets `ssb` beside other engines: the thirteen queries from files to answer, and by themselves.

Usage: peers.py FOLDER [--runs N] [--threads N] [--ssb PROGRAM] [--picture FILE]

FOLDER has the benchmark's tables, as `make_tables.py FOLDER --scale S` makes them. Beside `ssb` run sqlite3,
PostgreSQL and R's data.table, as far as they are there (Debian's packages sqlite3, postgresql and
r-cran-data.table). In one session each engine loads the files and answers the thirteen one after the other;
sessions run in turns, and a figure is the least of N. Each answer must have the rows of `ssb`'s.
`--picture` draws the figures to a file.
"""

import argparse
import sys
import tempfile
from pathlib import Path

import chart
import engines
import measure
from measure import thirteen


def parsed(words):
    """What the words say."""
    parser = argparse.ArgumentParser(description=__doc__.split("\n", 1)[0])
    parser.add_argument("folder", **measure.OPTIONS["folder"])
    parser.add_argument("--runs", **{**measure.OPTIONS["--runs"], "default": 3})
    parser.add_argument("--threads", **{**measure.NUMBER, "default": 4, "help": "of engines that have several"})
    parser.add_argument("--ssb", **measure.OPTIONS["--ssb"])
    parser.add_argument("--picture", type=Path, metavar="FILE")
    given = parser.parse_args(words)
    if not given.ssb.is_file():
        raise SystemExit(f"no program at {given.ssb}: `./ssb --help` builds it")
    if not (given.folder / "catalog").is_file():
        raise SystemExit(f"no tables at {given.folder}: make_tables.py makes them")
    return given


def found(given):
    """The engines that are there; of each other one a line says so."""
    everything = [
        engines.Ssb(given.ssb, given.threads), engines.DataTable(given.threads), engines.PostgreSQL(given.threads),
        engines.Sqlite(),
    ]
    there = []
    for engine in everything:
        if engine.is_there():
            there.append(engine)
        else:
            print(f"left out, as it is not there: {engine.name} (Debian's {engine.package})")
    return there


def one_session(engine, folder, texts):
    """A session of an engine, with its rows in a folder for the time being."""
    with tempfile.TemporaryDirectory() as out:
        return engine.session(folder, texts, Path(out))


def check_rows(name, session, wanted):
    """Ends the script where some query has not these rows, in whatever order the engine puts ties."""
    for query, rows in wanted.items():
        if sorted(session.rows[query]) != sorted(rows):
            raise SystemExit(f"{name}: {query} has {len(session.rows[query])} rows that are not those of ssb")


def all_sessions(there, given, texts):
    """The sessions of each engine, in turns."""
    sessions = {engine.name: [] for engine in there}
    for turn in range(given.runs):
        for engine in there[:: 1 if turn % 2 == 0 else -1]:
            sessions[engine.name].append(one_session(engine, given.folder.resolve(), texts))
    wanted = sessions[engines.Ssb.name][0].rows
    for name, some in sessions.items():
        for session in some:
            check_rows(name, session, wanted)
    return sessions


def figures(sessions, texts):
    """Each engine's least seconds: of the load, of each query, and of the whole session."""
    return {
        name: {
            "load": min(session.load for session in some),
            "whole": min(session.whole for session in some),
            **{query: min(session.queries[query] for session in some) for query in texts},
        }
        for name, some in sessions.items()
    }


def print_figures(least, texts):
    """Prints the figures of all engines, and those of others against ssb's."""
    ours = least[engines.Ssb.name]
    others = [name for name in least if name != engines.Ssb.name]

    def row(label, key):
        cells = (f"{least[name][key]:.3f} ({least[name][key] / ours[key]:.1f})" for name in others)
        return [label, f"{ours[key]:.3f}", *cells]

    rows = [row("all from files to answers", "whole"), row("load", "load"), *(row(name, name) for name in texts)]
    measure.print_table(["Seconds (times ssb's)", engines.Ssb.name, *others], rows)


def main(words):
    """Measures, compares and draws."""
    given = parsed(words)
    texts = thirteen()
    there = found(given)
    measure.print_setting(given, f"{given.folder}, {given.threads} threads")
    try:
        sessions = all_sessions(there, given, texts)
    except engines.Failed as failed:
        raise SystemExit(str(failed)) from None
    finally:
        for engine in there:
            if isinstance(engine, engines.PostgreSQL):
                engine.close()
    least = figures(sessions, texts)
    print_figures(least, texts)
    if given.picture:
        given.picture.write_text(chart.drawn(least, list(texts)), encoding="utf-8")


if __name__ == "__main__":
    main(sys.argv[1:])
