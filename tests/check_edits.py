#!/usr/bin/env python3
"""Holds the edits of WRONG_BODIES to the goals at which the prover refused them.

Usage: check_edits.py LOG

LOG is what `rt ci` printed. The first line of each of these edits is `# goal: FILE GOAL`, by the names of that log:
a clause that a function ensures, as `returns-clause-stands`, what a type keeps, as `invariant_of-self`, or the rule
of a queue, as `another-requires-clause-rule`. FILE is the code, or the answer to that goal among the proofs. The
function's name may stand before it, and has to where the log names no clause, as `is_join.returns`: that is of a
function with one clause alone. Of functions that call each other the log has it, as `has_join-returns`.

Prints a line for each edit that is missing, was not tried, or was refused for another reason than that goal, and
last `N passed, M failed`, where each edit counts as one.
"""

import re
import sys
from pathlib import Path

ROOT = Path(__file__).resolve().parent.parent
CRATES = ROOT / "crates"

# The bodies that would be the worst to let through, by the crate whose contracts refuse them.
WRONG_BODIES = {
    "ssb_cells": ("nulls_sort_last", "unknown_under_not_is_true"),
    "ssb_sql": ("chained_comparison_accepted", "tail_after_semicolon_accepted"),
    "ssb_query": ("nested_conjunct_does_not_join", "not_star_for_reversed_key"),
    "ssb_load": ("later_key_kept",),
    "ssb_lanes": ("joined_read_always_fails", "lane_always_told_as_a_failed_read"),
    "ssb_plan": ("dangling_key_joined", "null_key_joins"),
    "ssb_groups": (
        "equal_lines_counted_once", "first_met_overflow", "first_met_overflow_by_merge", "null_before_over",
        "null_group_dropped", "running_sum_refused", "sum_over_a_null_is_zero", "sum_over_no_row_is_zero",
    ),
    "ssb_pipeline": (
        "finish_computes_anew", "finish_takes_and_computes_anew", "give_back_always_strange", "good_partial_dropped", "hand_out_always_none",
        "last_morsel_skipped", "marked_unmerged", "morsels_overlap", "partial_of_no_row", "partial_of_other_morsel",
        "put_drops_due", "put_stores_an_opening_part", "returned_twice", "run_workers_does_nothing",
        "section_left_out", "sweep_of_a_whole_part_refused", "take_gives_foreign_part", "take_gives_opening_part", "ticket_dropped",
        "two_passes_due_the_same", "worker_drops_a_ticket", "worker_ends_before_its_sections",
        "worker_stops_after_one",
    ),
    "ssb_rows": ("empty_sum_is_zero", "ties_by_arrival"),
    "ssb_answer": ("rows_before_overflow", "session_does_nothing"),
}

GOAL_LINE = re.compile(r"# goal: (\S+) (\S+)")
RULE = r"(?:another|pop_as|push_as)-requires-clause-rule"
CLAUSE = re.compile(rf"(?:(\w+)\.)?((?:(\w+)-)?returns(?:-\S+)?|invariant_of-\S+|{RULE})")
NAMED_CLAUSE = re.compile(rf"(\w+-)?returns(-\S+)?-clause-\w+|invariant_of-\S+|{RULE}")
ANSWERS = re.compile(r"proofs/(?:\w+/)*(\w+)/Answers\.antt")
FUNCTION = re.compile(r"\s*(?:pub(?:\(\w+\))? )?fn (\w+)")

TRIED = re.compile(r"(?:rt: )?must-fail (\w+)/(\S+)\.edit: (.*)")
REFUSED = re.compile(
    r"refused, as it must be: (?:note: )?(?:\./)?(\S+?):(\d+):\d+: "
    r"(?:error: `([^`]+)`:|error: \d+ declarations? that depends? on `([^`]+)`, which was rejected|.*?\(`([^`]+)`\))"
)


class WrongEdit(Exception):
    """What is wrong with an edit."""


def tries_in(log):
    """What a log says of each edit, by its crate and its name."""
    tries = {}
    for line in log.splitlines():
        tried = TRIED.fullmatch(line)
        if tried:
            crate, name, said = tried.groups()
            tries[crate, name] = said
    return tries


def named_goal(path):
    """The file and the goal that an edit names, and the function if it names that too."""
    if not path.is_file():
        raise WrongEdit("there is no such edit")
    line = GOAL_LINE.fullmatch(path.read_text(encoding="utf-8").partition("\n")[0])
    if line is None:
        raise WrongEdit("its first line is not `# goal: FILE GOAL`")
    file, goal = line.groups()
    if not file.startswith("src/") and not ANSWERS.fullmatch(file):
        raise WrongEdit(f"its goal stands in {file}, which is neither code nor an answer")
    clause = CLAUSE.fullmatch(goal)
    function = clause and (clause[1] or clause[3])
    if clause is None or not (function or NAMED_CLAUSE.fullmatch(goal)):
        raise WrongEdit(f"its goal {goal} names no clause that a function ensures")
    return file, clause[2], function


def told_goal(said):
    """The file, the goal and the number of its line that a log tells of an edit."""
    if said is None:
        raise WrongEdit("it was not tried")
    refused = REFUSED.match(said)
    if refused is None:
        raise WrongEdit(f"no goal is told: {said}")
    return refused[1], refused[3] or refused[4] or refused[5], int(refused[2])


def clauses_of(lines, start):
    """How many clauses the function that begins at this line ensures."""
    body = next((at for at in range(start, len(lines)) if lines[at].strip() in ("{", "{}")), len(lines))
    return len([line for line in lines[start:body] if line.lstrip().startswith("ensures ")])


def function_at(path, number):
    """The name of the function that has a line of a file, or an attribute there, and how many clauses it ensures."""
    lines = path.read_text(encoding="utf-8").splitlines()
    starts = [at for at, line in enumerate(lines) if FUNCTION.match(line)]
    if lines[number - 1].lstrip().startswith("#["):
        start = next((at for at in starts if at >= number), None)
    else:
        start = next((at for at in reversed(starts) if at < number), None)
    if start is None:
        return None, 0
    return FUNCTION.match(lines[start])[1], clauses_of(lines, start)


def function_answered(crate, file):
    """The name of the function that an answer is for, and how many clauses it ensures: the most of those of this name."""
    name = ANSWERS.fullmatch(file)[1]
    counts = [0]
    for path in (CRATES / crate / "src").glob("**/*.rt"):
        lines = path.read_text(encoding="utf-8").splitlines()
        counts += [clauses_of(lines, at) for at, line in enumerate(lines) if (found := FUNCTION.match(line)) and found[1] == name]
    return name, max(counts)


def check(crate, name, said):
    """Stops where an edit was not refused at the goal that it names."""
    file, goal, function = named_goal(CRATES / crate / "must-fail" / f"{name}.edit")
    told_file, told, number = told_goal(said)
    if (told_file, told) != (file, goal):
        raise WrongEdit(f"it is to be refused at {file} {goal}, and was at {told_file} {told}")
    if function is None:
        return
    if file.startswith("src/"):
        found, clauses = function_at(CRATES / crate / file, number)
    else:
        found, clauses = function_answered(crate, file)
    if found != function:
        raise WrongEdit(f"it is to be refused in {function}, and was in {found}")
    if clauses != 1 and NAMED_CLAUSE.fullmatch(goal) is None:
        raise WrongEdit(f"{function} ensures {clauses} clauses, and its goal names none of them")


def main():
    """Checks each edit, and gives the exit status."""
    if len(sys.argv) != 2:
        print("Usage: check_edits.py LOG", file=sys.stderr)
        return 2
    tries = tries_in(Path(sys.argv[1]).read_text(encoding="utf-8", errors="replace"))
    edits = [(crate, name) for crate, names in WRONG_BODIES.items() for name in names]
    failed = 0
    for crate, name in edits:
        try:
            check(crate, name, tries.get((crate, name)))
        except WrongEdit as wrong:
            print(f"{crate}/{name}.edit: {wrong}")
            failed += 1
    print(f"{len(edits) - failed} passed, {failed} failed")
    return 1 if failed else 0


if __name__ == "__main__":
    sys.exit(main())
