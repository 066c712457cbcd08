"""The commands of `bench.py` that run sessions of `ssb shell`."""

import itertools

import measure
from measure import NEW, OLD, WORKERS, thirteen

# The inputs of a session: nothing, the benchmark's queries, and one statement a few times and many times.
NOTHING = "load alone"
THIRTEEN = "the thirteen"
THRICE = "the thirteen three times"
FEW = 10
MANY = 1000
NO_ROW = "select count(*) from lineorder where lo_orderkey < 0;\n"

# The tables of the many tiny statements of a session: one of seven rows.
TINY_CATALOG = "t|a|int|null\n"
TINY_ROWS = "".join(f"{row}|\n" for row in range(1, 8))
TINY = "select sum(a) from t;\n"
TINY_SUM = "28\n"

# What `written` answers: many rows, of groups of the fact table's own and of joined rows.
ORDERS = "select lo_orderkey, sum(lo_revenue) from lineorder group by lo_orderkey"
WRITTEN = {
    "orderkey": ORDERS,
    "orderkey-by-sum": f"{ORDERS} order by 2 desc",
    "name-orderkey": "select c_name, lo_orderkey, sum(lo_revenue) from lineorder, customer "
    "where lo_custkey = c_custkey group by c_name, lo_orderkey order by c_name, lo_orderkey",
}


def shell(program, folder, path, *options):
    """The command of a session whose input is a file."""
    return ["sh", "-c", 'exec "$@" <"$0"', path, program, "shell", "--data", folder, *options]


def tiny_shell(program, folder, path, workers):
    """The command of a session over the tiny table, whose input is a pipe."""
    words = [program, "shell", "--data", folder, "--catalog", folder / "catalog", "--workers", workers]
    return ["sh", "-c", 'cat "$0" | "$@"', path, *words]


def tiny_session(given, folder):
    """The rows of a table: seconds of many tiny statements, and how those of other workers and builds compare."""
    path = folder / "tiny.sql"
    for name, text in (("catalog", TINY_CATALOG), ("t.tbl", TINY_ROWS), (path.name, given.tiny * TINY)):
        (folder / name).write_text(text, encoding="utf-8")
    commands = {
        (name, workers): tiny_shell(program, folder, path, workers)
        for name, program in measure.programs_of(given.ssb, given.old).items()
        for workers in ((1, WORKERS) if name == NEW else (1,))
    }
    runs = measure.run_all(commands, given.runs)
    for name, some in runs.items():
        measure.check_outputs(f"{name[0]}, {name[1]} workers", some, given.tiny * TINY_SUM)
    took = {name: measure.least_seconds(some) for name, some in runs.items()}
    rows = [
        [f"{given.tiny:,} statements over seven rows, 1 worker, seconds", f"{took[NEW, 1]:.3f}"],
        [f"by {WORKERS} workers, against 1", f"{took[NEW, WORKERS] / took[NEW, 1]:.2f}"],
    ]
    if given.old:
        rows.append(["new / old, 1 worker", f"{took[NEW, 1] / took[OLD, 1]:.2f}"])
    return rows


def session(given, texts):
    """Sessions: the thirteen against one load and their own times; what a further statement takes."""
    queries = "\n".join(thirteen().values())
    statements = {NOTHING: "", THIRTEEN: queries, THRICE: 3 * queries, FEW: FEW * NO_ROW, MANY: MANY * NO_ROW}
    paths = measure.write_texts(texts, statements)
    measure.print_setting(given, f"{given.folder}, {WORKERS} workers")
    commands = {name: shell(given.ssb, given.folder, path, "--workers", WORKERS) for name, path in paths.items()}
    runs = measure.run_all(commands, given.runs)
    took = {name: measure.least_seconds(some) for name, some in runs.items()}
    peak = {name: measure.least_peak(some) / 1e6 for name, some in runs.items()}
    own = (took[THRICE] - took[THIRTEEN]) / 2
    rows = [
        [f"{NOTHING}, seconds", f"{took[NOTHING]:.3f}"],
        [f"{THIRTEEN} once more, seconds", f"{own:.3f}"],
        [f"{THIRTEEN}, with the load", f"{took[THIRTEEN]:.3f}"],
        ["against the load and their own times", f"{took[THIRTEEN] / (took[NOTHING] + own):.2f}"],
        ["a statement without a row, milliseconds", f"{1000 * (took[MANY] - took[FEW]) / (MANY - FEW):.2f}"],
        [f"peak memory of {FEW} such, MB", f"{peak[FEW]:.1f}"],
        [f"of {MANY}, more", f"{peak[MANY] - peak[FEW]:.1f}"],
    ]
    measure.print_table(["Session", "Figure"], rows + tiny_session(given, texts))


def writing(program, folder, path):
    """The command of a session whose input is a file, with its error output among what it prints."""
    return ["sh", "-c", '"$@" 2>&1', "sh", *shell(program, folder, path, "--workers", WORKERS, "--stop")]


def least_timed(runs, count):
    """The times of the fastest answer of some sessions that each tell so many, the first of each left out."""
    found = []
    for run in runs:
        times = measure.timed(run.output)
        if len(times) != count:
            raise SystemExit(f"a session told {run.output[-500:]!r}, wanted {count} times")
        found += times[1:]
    return min(found, key=sum)


def answer_in(path, count):
    """The answer that a file has so many times. Ends the script where it has others."""
    size = path.stat().st_size // count
    with open(path, "rb") as file:
        answer = file.read(size)
        if any(file.read(size) != answer for _ in range(count - 1)) or file.read(1):
            raise SystemExit(f"{path.name}: its {count} answers are not the same")
    return answer


def print_written(runs, files, count):
    """Prints what answers take, and what files have. Ends the script where those of an old ssb are not the same."""
    rows = []
    for name in dict.fromkeys(name for name, _ in files):
        new = least_timed(runs[name, NEW], count)
        answer = answer_in(files[name, NEW], count)
        row = [name, *(f"{part:.2f}" for part in (sum(new), new.answer, new.write))]
        row += [f"{size:,}" for size in (answer.count(b"\n"), len(answer))]
        if (name, OLD) in files:
            if answer_in(files[name, OLD], count) != answer:
                raise SystemExit(f"{name}: the files of {NEW} and {OLD} are not the same")
            row.append(f"{sum(new) / sum(least_timed(runs[name, OLD], count)):.2f}")
        rows.append(row)
    head = ["Query", "Milliseconds", "Of the answer", "Of the write", "Rows", "Bytes", "new / old"]
    measure.print_table(head[: len(rows[0])], rows)


def written(given, texts):
    """Long answers that a session writes to a file, and by an old ssb, whose files have to be the same."""
    queries = measure.chosen(given, WRITTEN)
    programs = measure.programs_of(given.ssb, given.old_ssb)
    count = given.times + 1
    files = {(name, program): texts / f"{name}.{program}" for name, program in itertools.product(queries, programs)}
    scripts = {key: f".timing on\n.output {path}\n" + count * f"{queries[key[0]]};\n" for key, path in files.items()}
    paths = measure.write_texts(texts, scripts)
    commands = {key: writing(programs[key[1]], given.folder, path) for key, path in paths.items()}
    measure.print_setting(given, f"{given.folder}, {WORKERS} workers, {given.times} answers a session behind one")
    print_written(measure.run_all(commands, given.runs), files, count)
