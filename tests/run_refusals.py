#!/usr/bin/env python3
"""Refuses each growth of a program in turn, and holds what comes of it against what may come.

Usage: run_refusals.py [PROGRAM]

PROGRAM is crates/ssb_refusals/out/ssb_refusals where it is left out; the head of its main.rt says what its trials
are. Each trial runs with its first growth refused, then with its second, and so on up to a run that met no refusal.
It prints a line for each trial that fails, and last `N passed, M failed`.
"""

import os
import subprocess
import sys
import tempfile
from concurrent.futures import ThreadPoolExecutor
from pathlib import Path

ROOT = Path(__file__).resolve().parent.parent
PROGRAM = ROOT / "crates" / "ssb_refusals" / "out" / "ssb_refusals"
MALLOC = ROOT / "tests" / "refusing_malloc.c"
LIBRARY = "refusing_malloc.so"
SECONDS = 60

# More growths than any trial has.
MOST = 10_000

# What a run writes on its error output where a growth of it is refused.
REFUSED = b"refused\n"

MEMORY = b"Memory\n"
LINE = b"ssb: Memory\n"
ROWS = b"799|1993|ASIA\n194|1993|EUROPE\n380|1994|\n294|1994|ASIA\n"
COUNT = b"7\n"
GREATEST = b"700\n"
PLAN = b"""lineorder: 7 rows
lineorder: lo_quantity in ..24
lineorder: lo_discount < lo_quantity
supplier: 2 of 3 rows by lo_suppkey = s_suppkey
supplier: s_region in 'ASIA', 'EUROPE'
date: 2 of 2 rows by lo_orderdate = d_datekey
residual: (d_year = 1993 or s_city = 'x')
groups: d_year
aggregates: sum(lo_revenue), count(*)
having: count(*) > 0
order: d_year desc
lineorder: 7 rows to 4 in 0 ms
supplier: 4 rows to 3 in 0 ms
date: 3 rows to 2 in 0 ms
residual: 2 rows to 2 in 0 ms
"""
DONE = b"done\n"
DONE_AGAIN = b"done again\n"

# What each trial prints where nothing is refused, and what it may print besides, other than that memory was refused.
# In its runs all of that comes.
TRIALS = {
    "alone": [ROWS],
    "pieces": [ROWS],
    "threads": [ROWS],
    "sections": [ROWS],
    "finish": [ROWS],
    "give_back": [DONE, DONE_AGAIN],
    "merge": [DONE, DONE_AGAIN],
    "partial": [DONE, DONE_AGAIN],
    "block": [DONE, DONE_AGAIN],
    "session": [COUNT + GREATEST, LINE + GREATEST, COUNT + LINE],
    "plan": [PLAN],
}


def make_library(folder):
    """Makes the malloc that refuses, by the toolchain's compiler."""
    page = subprocess.run(["rt", "doc"], capture_output=True, text=True, check=True).stdout.strip()
    clang = Path(page).parent / "toolchain" / "bin" / "clang"
    words = ["--target=x86_64-unknown-linux-gnu", "-shared", "-fPIC", "-nostdlib", "-fuse-ld=lld"]
    subprocess.run([clang, *words, "-o", folder / LIBRARY, MALLOC], check=True)


def run(program, folder, trial, number):
    """Runs a trial with the growth of this number refused: its status, and what it wrote on its two outputs."""
    ended = subprocess.run(
        [program, trial],
        cwd=folder,
        env={"LD_PRELOAD": f"./{LIBRARY}", "REFUSE": str(number)},
        stdin=subprocess.DEVNULL,
        capture_output=True,
        timeout=SECONDS,
    )
    return ended.returncode, ended.stdout, ended.stderr


def wrong_in(program, folder, trial):
    """What is wrong with a trial, or None."""
    unrefused = TRIALS[trial][0]
    may_come = {MEMORY, *TRIALS[trial]}
    came = set()
    for number in range(1, MOST):
        status, output, error = run(program, folder, trial, number)
        if status != 0 or output not in may_come or error not in (REFUSED, b""):
            return f"growth {number} refused: status {status}, output {output[:200]!r}, error {error[:200]!r}"
        came.add(output)
        if error == b"":
            if output != unrefused:
                return f"no growth refused: output {output!r}, wanted {unrefused!r}"
            missing = may_come - came
            return f"in no run came {sorted(missing)}" if missing else None
    return f"more than {MOST} growths"


def main(words):
    """Runs all trials, and gives the exit status."""
    if len(words) > 1:
        print(__doc__.strip(), file=sys.stderr)
        return 2
    program = Path(words[0]).resolve() if words else PROGRAM
    if not program.is_file():
        print(f"no program at {program}: `rt ci ssb_refusals` builds it", file=sys.stderr)
        return 2
    failed = 0
    with tempfile.TemporaryDirectory() as name, ThreadPoolExecutor(os.cpu_count()) as pool:
        folder = Path(name)
        make_library(folder)
        for trial, wrong in zip(TRIALS, pool.map(lambda trial: wrong_in(program, folder, trial), TRIALS)):
            if wrong:
                failed += 1
                print(f"{trial}: {wrong}")
    print(f"{len(TRIALS) - failed} passed, {failed} failed")
    return 1 if failed else 0


if __name__ == "__main__":
    sys.exit(main(sys.argv[1:]))
