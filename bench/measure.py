"""What the commands of `bench.py` share: their words, runs of programs, figures, and tables of these."""

import argparse
import itertools
import os
import re
import subprocess
import sys
import time
from pathlib import Path
from typing import NamedTuple

ROOT = Path(__file__).resolve().parent.parent
sys.path.append(str(ROOT / "tests"))
from benchmark_queries import thirteen  # noqa: E402, F401

NEW = "new"
OLD = "old"

# How many workers `load` and sessions have.
WORKERS = 4

# What `ssb_bench` prints of a time, and what a session's `.timing on` tells of one.
TOLD = re.compile(r"\w+ (\d+\.\d{3}) ms\n")
TIMED = re.compile(r"^time: read ([\d.]+) ms, answer ([\d.]+) ms, write ([\d.]+) ms$", re.M)


def number(word):
    """A number from 1."""
    if int(word) < 1:
        raise ValueError(word)
    return int(word)


def program(word):
    """The whole path of a program."""
    return Path(word).resolve()


PROGRAM = {"type": program, "metavar": "PROGRAM"}
NUMBER = {"type": number, "metavar": "N"}
NUMBERS = {**NUMBER, "nargs": "+"}

# The words of all commands. Each has the same meaning in each command that takes it.
OPTIONS = {
    "folder": {"type": Path, "metavar": "FOLDER", "help": "tables that make_tables.py made"},
    "--old": {**PROGRAM, "help": "an earlier build, which runs in turns with the new one"},
    "--old-ssb": {**PROGRAM, "help": "an earlier ssb, whose rows have to be the same"},
    "--queries": {"nargs": "+", "metavar": "NAME", "help": "all where left out"},
    "--workers": {**NUMBERS, "default": [1, 2, 4], "help": "threads that answer"},
    "--parts": {**NUMBERS, "default": [1, 4], "help": "parts from which workers take morsels"},
    "--batches": {**NUMBERS, "default": [1], "help": "morsels that a worker takes at a time"},
    "--morsels": {**NUMBERS, "default": [10_000, 100_000], "help": "rows of a morsel"},
    "--times": {**NUMBER, "default": 5, "help": "answers in a run, which tells the least"},
    "--tiny": {**NUMBER, "default": 100_000, "help": "statements of a session over seven rows"},
    "--runs": {**NUMBER, "default": 5, "help": "runs of each program"},
    "--ssb": {**PROGRAM, "default": ROOT / "crates" / "ssb_cli" / "out" / "ssb_cli"},
    "--ssb-bench": {**PROGRAM, "default": ROOT / "crates" / "ssb_bench" / "out" / "ssb_bench"},
}
EVERYWHERE = ["--runs", "--ssb", "--ssb-bench"]


def parsed(doc, commands, words):
    """What the words say; `act` is the command. Ends the script where a program or tables are missing.

    Of each command there are given the programs that it runs and the words that it alone takes.
    """
    parser = argparse.ArgumentParser(description=doc.split("\n", 1)[0])
    choices = parser.add_subparsers(required=True, metavar="COMMAND")
    for act, (programs, own) in commands.items():
        choice = choices.add_parser(act.__name__, help=act.__doc__, description=act.__doc__)
        choice.set_defaults(act=act, programs=programs, folder=None, old=None, old_ssb=None)
        for word in [*own, *EVERYWHERE]:
            choice.add_argument(word, **OPTIONS[word])
    given = parser.parse_args(words)
    for path in [*(getattr(given, name) for name in given.programs), given.old, given.old_ssb]:
        if path is not None and not path.is_file():
            raise SystemExit(f"no program at {path}: `rt run` in its crate builds it")
    if given.folder is not None and not (given.folder / "catalog").is_file():
        raise SystemExit(f"no tables at {given.folder}: make_tables.py makes them")
    return given


def programs_of(new, old):
    """The new program, and the old one where there is one."""
    return {NEW: new} | ({OLD: old} if old else {})


class Run(NamedTuple):
    """One run of a program: its seconds, those of processors, its peak memory in bytes, and what it printed."""

    seconds: float
    processor: float
    peak: int
    output: str


def run(command):
    """Runs a program once. Ends the script where the program fails, and tells the last that it printed.

    The peak is never below this process's own, which a started program inherits: so the scripts
    keep nothing large.
    """
    words = [str(word) for word in command]
    read, write = os.pipe()
    start = time.perf_counter()
    child = subprocess.Popen(words, stdin=subprocess.DEVNULL, stdout=write)
    os.close(write)
    with open(read, encoding="utf-8") as pipe:
        output = pipe.read()
    _, status, usage = os.wait4(child.pid, 0)
    seconds = time.perf_counter() - start
    child.returncode = os.waitstatus_to_exitcode(status)
    if child.returncode != 0:
        raise SystemExit(f"{' '.join(words)}: ended with status {child.returncode}: {output[-500:].strip()}")
    return Run(seconds, usage.ru_utime + usage.ru_stime, usage.ru_maxrss * 1024, output)


def run_all(commands, times):
    """Runs each of some named commands so many times: the runs of each.

    They take turns, so that whatever else the machine does meets all of them alike, and each second
    turn goes backwards, so that none always follows the same one.
    """
    runs = {name: [] for name in commands}
    for turn in range(times):
        for name in list(commands)[:: 1 if turn % 2 == 0 else -1]:
            runs[name].append(run(commands[name]))
    return runs


def check_outputs(name, runs, wanted):
    """Ends the script where some run did not print what is wanted, and tells the first line that is not."""
    for some in runs:
        lines = itertools.zip_longest(some.output.splitlines(True), wanted.splitlines(True), fillvalue="")
        for ours, theirs in lines:
            if ours != theirs:
                raise SystemExit(f"{name}: printed {ours!r}, wanted {theirs!r}")


def least_seconds(runs):
    """The seconds of the fastest run."""
    return min(run.seconds for run in runs)


def least_peak(runs):
    """The peak memory of the smallest run, in bytes."""
    return min(run.peak for run in runs)


def told(output):
    """The milliseconds that a run of `ssb_bench` tells. Ends the script where it tells none."""
    found = TOLD.fullmatch(output)
    if found is None:
        raise SystemExit(f"ssb_bench printed {output!r}, wanted milliseconds")
    return float(found[1])


def least_told(runs):
    """The least milliseconds that some runs of `ssb_bench` tell."""
    return min(told(run.output) for run in runs)


class Timed(NamedTuple):
    """The milliseconds that a session tells of one answer: of reading, of working out the rows, of writing them."""

    read: float
    answer: float
    write: float


def timed(output):
    """The times that a session tells."""
    return [Timed(*map(float, parts)) for parts in TIMED.findall(output)]


def chosen(given, known):
    """Those of the known queries that are to be answered."""
    names = given.queries or list(known)
    for name in names:
        if name not in known:
            raise SystemExit(f"no query {name}: there are {' '.join(known)}")
    return {name: known[name] for name in names}


def write_texts(folder, texts):
    """Writes named texts to files of a folder: the path of each."""
    paths = {name: folder / f"{at}.sql" for at, name in enumerate(texts)}
    for name, path in paths.items():
        path.write_text(texts[name], encoding="utf-8")
    return paths


def paths_of(given, texts, known):
    """The files of those of the known queries that are to be answered, by their names."""
    return write_texts(texts, chosen(given, known))


def print_setting(given, what):
    """Prints what is measured, and how, before it begins."""
    print(f"{what}; {os.cpu_count()} cores; the least of {given.runs} runs in turns", flush=True)


def print_table(head, rows):
    """Prints a table, with an empty line before it."""
    print()
    print("| " + " | ".join(head) + " |")
    print("|" + "---|" * len(head))
    for row in rows:
        print("| " + " | ".join(row) + " |")
