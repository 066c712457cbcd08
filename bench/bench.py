#!/usr/bin/env python3
"""Measures the time and the memory of loading tables, answering queries and reading their texts.

Usage: bench.py load FOLDER [--old PROGRAM]
       bench.py query FOLDER [--old PROGRAM] [--queries NAME..] [--morsels N..] [--times N]
       bench.py answer FOLDER [--old PROGRAM] [--queries NAME..] [--morsels N..] [--times N]
       bench.py groups FOLDER [--old PROGRAM] [--old-ssb PROGRAM] [--queries NAME..] [--morsels N..] [--times N]
       bench.py threads FOLDER [--queries NAME..] [--workers N..] [--parts N..] [--morsels N..]
                                [--batches N..] [--times N]
       bench.py session FOLDER [--old PROGRAM] [--tiny N]
       bench.py written FOLDER [--old-ssb PROGRAM] [--queries NAME..] [--times N]
       bench.py check

Each takes [--runs N] [--ssb PROGRAM] [--ssb-bench PROGRAM] too. FOLDER has tables and their catalog, as
`make_tables.py FOLDER --scale S` makes them. Programs run in turns; a figure is the least of N runs.
"""

import itertools
import statistics
import sys
import tempfile
from pathlib import Path

import measure
import sessions
from measure import NEW, OLD, WORKERS, thirteen

ALONE = "alone"

# What `load` runs: `ssb_bench read`, `ssb run` of two queries, and `ssb_bench load` by its threads.
BARE = "bare reading of the fact file"
COUNT = "select count(*) from lineorder\n"
NAME = "Q2.1"
COUNTING = f"counting all rows, {WORKERS} workers"
ANSWERING = f"{NAME}, {WORKERS} workers"
THREADS = [1, 2, 4, 8]

# What `query` and `threads` answer beside the benchmark's queries.
JOINS = "from lineorder, date, part where lo_orderdate = d_datekey and lo_partkey = p_partkey"
CUSTOMERS = "from lineorder, customer where lo_custkey = c_custkey"
TEXTS = {
    "count": COUNT,
    "joins-counted": f"select count(*) {JOINS}\n",
    "joins-grouped": f"select sum(lo_revenue), d_year, p_brand1 {JOINS} group by d_year, p_brand1\n",
    "sum-number": "select sum(lo_revenue) from lineorder\n",
    "min-number": "select min(lo_revenue) from lineorder\n",
    "max-number": "select max(lo_revenue) from lineorder\n",
    "min-text": "select min(lo_shipmode) from lineorder\n",
    "max-text": "select max(lo_shipmode) from lineorder\n",
    "sum-joined": f"select sum(c_custkey) {CUSTOMERS}\n",
    "max-joined-text": f"select max(c_name) {CUSTOMERS}\n",
}

# What `groups` answers: few and many groups, of joined rows and of the fact table's own, and sums without GROUP BY.
FACTS = "from lineorder"
ALL_JOINS = (
    "from lineorder, date, customer, supplier, part where lo_orderdate = d_datekey and lo_custkey = c_custkey "
    "and lo_suppkey = s_suppkey and lo_partkey = p_partkey"
)


def grouped(columns, rows, more=""):
    """A query of the revenue of each group of rows, and more of each."""
    return f"select {columns}, sum(lo_revenue){more} {rows} group by {columns}"


GROUPINGS = {
    "joins-grouped": TEXTS["joins-grouped"],
    "extremes-grouped": f"select min(p_name), max(p_name), d_year, p_brand1 {JOINS} group by d_year, p_brand1\n",
    "four-columns": grouped("d_year, c_nation, s_region, p_mfgr", ALL_JOINS, ", count(*)"),
    "c_phone": grouped("c_phone", CUSTOMERS),
    "lo_custkey": grouped("lo_custkey", FACTS),
    "lo_orderkey": f"{grouped('lo_orderkey', FACTS)} having sum(lo_revenue) > 40000000",
    "sum-number": TEXTS["sum-number"],
    "sum-product": "select sum(lo_extendedprice * lo_discount) from lineorder\n",
}

# The workers and the batches by which `groups` answers, from one part; an old program takes batches of 1.
SHARES = [(1, 1), (1, 64), (4, 64)]

# Behind each list a filter of a later column, which keeps no row: what is timed is then the list's own filter.
LATER = "lo_shipmode = 'NONE'"


def listed(column, numbers, between, test):
    """A query whose condition is the tests of a column by each of some numbers, with a word between them."""
    tests = f" {between} ".join(f"{column} {test} {number}" for number in numbers)
    return f"select count(*) from lineorder where ({tests}) and {LATER}\n"


def among(column, literals, negated=""):
    """A query whose condition is a list of literals."""
    return f"select count(*) from lineorder where {column} {negated}in ({','.join(map(str, literals))}) and {LATER}\n"


# What `answer` answers beside the benchmark's queries: long lists over one column.
LISTS = {
    "1,000-by-or": listed("lo_partkey", range(1, 5001, 5), "or", "="),
    "1,000-by-in": among("lo_partkey", range(1, 5001, 5)),
    "7,000-by-in": among("lo_partkey", range(1, 21001, 3)),
    "2,500-unequal": listed("lo_custkey", range(1, 5001, 2), "and", "<>"),
    "500-sparse": among("lo_revenue", range(90000, 10090000, 20000)),
    "4,000-sparse": among("lo_revenue", range(90000, 10090000, 2500)),
    "4,000-not-in": among("lo_revenue", range(90000, 10090000, 2500), "not "),
    "4,000-odd": among("lo_orderkey", [*range(1, 7999, 2), 2000000, 4000000]),
    "1,000-texts": among("lo_orderpriority", ["'1-URGENT'", "'5-LOW'", *(f"'NO {at}'" for at in range(998))]),
}

# Beside which sum the time of a least or a greatest value stands.
SUMS = {
    "min-number": "sum-number",
    "max-number": "sum-number",
    "min-text": "sum-number",
    "max-text": "sum-number",
    "max-joined-text": "sum-joined",
}

# What `check` reads.
CATALOG = "t|a|int|null\n"
SHORT = "a short text"
SHORT_TEXT = "select count(*) from t"
MAX_BYTES = 65536


def line_count(path):
    """How many lines a file has."""
    with open(path, "rb") as lines:
        return sum(1 for _ in lines)


def load_commands(given, programs, query):
    """Each command of `load`: those of `ssb` by the program and what it does."""
    commands = {BARE: [given.ssb_bench, "read", given.folder / "lineorder.tbl"]}
    for program, path in programs.items():
        run = [path, "run", "--data", given.folder, "--workers", WORKERS]
        commands[program, COUNTING] = [*run, "--query", query]
        commands[program, ANSWERING] = [*run, "--name", NAME]
    for count in THREADS:
        commands[count] = [given.ssb_bench, "load", given.folder, count]
    return commands


def check_load(runs, programs, rows):
    """Ends the script where a count is not that of the rows, or an answer is not that of the first run."""
    answer = runs[NEW, ANSWERING][0].output
    measure.check_outputs(BARE, runs[BARE], f"{rows}\n")
    for program in programs:
        measure.check_outputs(f"{program}, {COUNTING}", runs[program, COUNTING], f"{rows}\n")
        measure.check_outputs(f"{program}, {ANSWERING}", runs[program, ANSWERING], answer)


def memory(runs, size):
    """Two columns: the least peak memory in MB, and as a part of the size of all files."""
    peak = measure.least_peak(runs)
    return [f"{peak / 1e6:.1f}", f"{peak / size:.2f}"]


def print_runs(runs, size):
    """Prints what the new `ssb` takes against the bare reading."""
    bare = measure.least_seconds(runs[BARE])
    rows = []
    for name, some in ((BARE, runs[BARE]), *((name, runs[NEW, name]) for name in (COUNTING, ANSWERING))):
        took = measure.least_seconds(some)
        rows.append([name, f"{took:.3f}", f"{took / bare:.2f}", *memory(some, size)])
    measure.print_table(["Run", "Seconds", "Against bare reading", "Peak memory, MB", "Of all files"], rows)


def print_threads(runs, size):
    """Prints what loading alone takes in several threads against one."""
    one = measure.least_told(runs[THREADS[0]])
    rows = []
    for count in THREADS:
        took = measure.least_told(runs[count])
        rows.append([str(count), f"{took:.1f}", f"{took / one:.2f}", *memory(runs[count], size)])
    head = ["Threads", "Milliseconds of loading", f"Against {THREADS[0]}", "Peak memory, MB", "Of all files"]
    measure.print_table(head, rows)


def figures(runs):
    """The least and the median seconds of some runs, the same of processors, and the least peak in MB."""
    seconds = [run.seconds for run in runs]
    processor = [run.processor for run in runs]
    least_and_median = [pick(values) for values in (seconds, processor) for pick in (min, statistics.median)]
    return [*least_and_median, measure.least_peak(runs) / 1e6]


def print_old(runs):
    """Prints what the new `ssb` takes against the old one."""
    rows = []
    for name in (COUNTING, ANSWERING):
        old, new = figures(runs[OLD, name]), figures(runs[NEW, name])
        ratios = [ours / theirs for ours, theirs in zip(new, old)]
        for program, values in ((OLD, old), (NEW, new), ("new / old", ratios)):
            rows.append([name, program, *(f"{value:.3f}" for value in values)])
    head = ["Seconds, least", "Median", "Of processors, least", "Median", "Peak memory, MB"]
    measure.print_table(["Run", "Program", *head], rows)


def load(given, texts):
    """Loading: against reading the fact file bare, in threads, and by an old ssb."""
    fact = given.folder / "lineorder.tbl"
    rows = line_count(fact)
    size = sum(path.stat().st_size for path in given.folder.glob("*.tbl"))
    measure.print_setting(given, f"{rows:,} fact rows, files of {size / 1e6:.1f} MB")
    programs = measure.programs_of(given.ssb, given.old)
    query = measure.write_texts(texts, {COUNTING: COUNT})[COUNTING]
    runs = measure.run_all(load_commands(given, programs, query), given.runs)
    check_load(runs, programs, rows)
    print_runs(runs, size)
    print_threads(runs, size)
    if given.old:
        print_old(runs)


def answering(program, word, given, path, morsel, *shared):
    """The command that answers a query again and again: by one thread alone, or by workers, from parts, in batches.

    The word says from where on: `run` over a job that is there, `answer` from the query's text.
    """
    return [program, word, given.folder, path, morsel, given.times, *shared]


def against(new, old):
    """The milliseconds and the peak memory of some answering runs against those of others."""
    ratios = [least(new) / least(old) for least in (measure.least_told, measure.least_peak)]
    return [f"{ratio:.2f}" for ratio in ratios]


def least_of_all(given, commands):
    """The least milliseconds of each answering command."""
    measure.print_setting(given, f"{given.folder}, {given.times} answers a run")
    return {key: measure.least_told(runs) for key, runs in measure.run_all(commands, given.runs).items()}


def query(given, texts):
    """Answers over loaded tables by one worker: for sizes of a morsel, and by an old ssb_bench."""
    paths = measure.paths_of(given, texts, {**thirteen(), **TEXTS})
    first, *others = given.morsels
    commands = {}
    for name, path in paths.items():
        commands |= {(name, morsel): answering(given.ssb_bench, "run", given, path, morsel) for morsel in given.morsels}
        if given.old:
            commands[name, OLD] = answering(given.old, "run", given, path, first)
    found = least_of_all(given, commands)
    rows = []
    for name in paths:
        base = found[name, first]
        ratios = [found[name, morsel] / base for morsel in others]
        ratios += [base / found[name, OLD]] if given.old else []
        by_sum = f"{base / found[SUMS[name], first]:.2f}" if SUMS.get(name) in paths else ""
        rows.append([name, f"{base:.2f}", *(f"{ratio:.2f}" for ratio in ratios), by_sum])
    head = ["Query", f"Milliseconds in morsels of {first:,}", *(f"{morsel:,} / {first:,}" for morsel in others)]
    measure.print_table([*head, *(["new / old"] if given.old else []), "Against its sum"], rows)


def answer(given, texts):
    """Answers from the text on, whose job is made each time, by one worker, long lists too, and by an old ssb_bench."""
    paths = measure.paths_of(given, texts, {**thirteen(), **LISTS})
    rows = line_count(given.folder / "lineorder.tbl")
    morsel = given.morsels[0]
    programs = measure.programs_of(given.ssb_bench, given.old)
    commands = {
        (name, program): answering(path, "answer", given, paths[name], morsel)
        for name in paths
        for program, path in programs.items()
    }
    measure.print_setting(given, f"{rows:,} fact rows, {given.times} answers a run, morsels of {morsel:,}")
    runs = measure.run_all(commands, given.runs)
    took = {key: measure.least_told(some) for key, some in runs.items()}
    table = []
    for name in paths:
        row = [name, f"{took[name, NEW]:.2f}", f"{1e6 * took[name, NEW] / rows:.2f}"]
        table.append(row + (against(runs[name, NEW], runs[name, OLD]) if given.old else []))
    head = ["Query", "Milliseconds", "Nanoseconds a fact row"]
    measure.print_table([*head, *(["new / old", "Peak memory, new / old"] if given.old else [])], table)
    ratios = [took[name, NEW] / took[name, OLD] for name in paths if given.old and name in thirteen()]
    if ratios:
        print(f"\nnew / old, geometric mean of {len(ratios)} of the thirteen: {statistics.geometric_mean(ratios):.2f}")


def check_rows(given, texts, paths):
    """Ends the script where a session of some queries has other rows by other workers, batches or builds."""
    session_path = texts / "session.sql"
    session_path.write_text(";\n".join(path.read_text(encoding="utf-8") for path in paths.values()), encoding="utf-8")
    commands = {
        f"{name}, {workers} workers, batch {batch}": sessions.shell(
            program, given.folder, session_path, "--morsel", given.morsels[0], "--workers", workers, "--batch", batch
        )
        for name, program in measure.programs_of(given.ssb, given.old_ssb).items()
        for workers, batch in SHARES
    }
    runs = measure.run_all(commands, 1)
    wanted = next(iter(runs.values()))[0].output
    for name, some in runs.items():
        measure.check_outputs(name, some, wanted)


def groups(given, texts):
    """Groupings and sums from the text on, by workers in batches, and by an old ssb_bench; ssb's rows are compared."""
    paths = measure.paths_of(given, texts, GROUPINGS)
    morsel = given.morsels[0]
    commands = {}
    for (name, path), (workers, batch) in itertools.product(paths.items(), SHARES):
        command = answering(given.ssb_bench, "answer", given, path, morsel, workers, 1, batch)
        commands[name, NEW, workers, batch] = command
        if given.old:
            commands[name, OLD, workers] = answering(given.old, "answer", given, path, morsel, workers, 1, 1)
    measure.print_setting(given, f"{given.folder}, {given.times} answers a run, morsels of {morsel:,}")
    check_rows(given, texts, paths)
    runs = measure.run_all(commands, given.runs)
    rows = []
    for name, (workers, batch) in itertools.product(paths, SHARES):
        new = runs[name, NEW, workers, batch]
        row = [name, str(workers), str(batch), f"{measure.least_told(new):.2f}", f"{measure.least_peak(new) / 1e6:.1f}"]
        rows.append(row + (against(new, runs[name, OLD, workers]) if given.old else []))
    head = ["Query", "Workers", "Batch", "Milliseconds", "Peak memory, MB"]
    measure.print_table([*head, *(["new / old", "Peak memory, new / old"] if given.old else [])], rows)


def threads(given, texts):
    """Answers over loaded tables by workers in threads, against one thread alone."""
    paths = measure.paths_of(given, texts, {**thirteen(), **TEXTS})
    choices = list(itertools.product(given.workers, given.parts, given.morsels, given.batches))
    commands = {}
    for name, path in paths.items():
        for morsel in given.morsels:
            commands[name, ALONE, morsel] = answering(given.ssb_bench, "run", given, path, morsel)
        for workers, parts, morsel, batch in choices:
            command = answering(given.ssb_bench, "run", given, path, morsel, workers, parts, batch)
            commands[name, workers, parts, morsel, batch] = command
    found = least_of_all(given, commands)
    first = given.morsels[0]
    rows = []
    for name in paths:
        ratios = [found[name, *choice] / found[name, ALONE, choice[2]] for choice in choices]
        rows.append([name, f"{found[name, ALONE, first]:.2f}", *(f"{ratio:.2f}" for ratio in ratios)])
    head = [f"{workers} of {parts}, {batch} of {morsel:,}" for workers, parts, morsel, batch in choices]
    measure.print_table(["Query", f"Milliseconds alone, in morsels of {first:,}", *head], rows)


def filled(first, again, last):
    """A text of at most MAX_BYTES: the first part, another as often as there is room, the last."""
    times = (MAX_BYTES - len(first) - len(last)) // len(again)
    return first + again * times + last


def checked_texts():
    """What `check` reads: the short text, and each of the longest, by names."""
    where = SHORT_TEXT + " where "
    nested = "(" * 63 + "a = 1" + ")" * 63
    return {
        SHORT: SHORT_TEXT,
        "a chain of ANDs": filled(where + "a = 1", " and a = 1", ""),
        "a list of literals": filled(where + "a in (1", ",1", ")"),
        "64 parentheses again and again": filled(where + "(" + nested, " or " + nested, ")"),
    }


def check(given, texts):
    """Reading a query: ssb check of the longest texts, against a short one."""
    catalog = texts / "catalog"
    catalog.write_text(CATALOG, encoding="utf-8")
    checked = checked_texts()
    paths = measure.write_texts(texts, checked)
    measure.print_setting(given, "ssb check")
    runs = measure.run_all(
        {name: [given.ssb, "check", "--query", path, "--catalog", catalog] for name, path in paths.items()},
        given.runs,
    )
    for name, some in runs.items():
        measure.check_outputs(name, some, "ok\n")
    took = {name: 1000 * measure.least_seconds(some) for name, some in runs.items()}
    rows = [[name, str(len(checked[name])), f"{took[name]:.1f}", f"{took[name] - took[SHORT]:.1f}"] for name in took]
    measure.print_table(["Text", "Bytes", "Milliseconds", f"More than {SHORT}"], rows)


# The programs that each command runs, and the words that it takes beside those of all.
COMMANDS = {
    load: (["ssb", "ssb_bench"], ["folder", "--old"]),
    query: (["ssb_bench"], ["folder", "--old", "--queries", "--morsels", "--times"]),
    answer: (["ssb_bench"], ["folder", "--old", "--queries", "--morsels", "--times"]),
    groups: (["ssb", "ssb_bench"], ["folder", "--old", "--old-ssb", "--queries", "--morsels", "--times"]),
    threads: (["ssb_bench"], ["folder", "--queries", "--workers", "--parts", "--morsels", "--batches", "--times"]),
    sessions.session: (["ssb"], ["folder", "--old", "--tiny"]),
    sessions.written: (["ssb"], ["folder", "--old-ssb", "--queries", "--times"]),
    check: (["ssb"], []),
}


def main(words):
    """Measures what the words ask for."""
    given = measure.parsed(__doc__, COMMANDS, words)
    with tempfile.TemporaryDirectory() as texts:
        given.act(given, Path(texts))


if __name__ == "__main__":
    main(sys.argv[1:])
