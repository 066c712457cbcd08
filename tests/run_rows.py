#!/usr/bin/env python3
"""Runs each row of tests/rows through the real program, and compares what it prints byte by byte.

Usage: run_rows.py [PROGRAM]

PROGRAM is crates/ssb_cli/out/ssb_cli where it is left out. tests/README.md says what a row holds.
"""

import contextlib
import itertools
import json
import os
import re
import shutil
import subprocess
import sys
import tempfile
import threading
from pathlib import Path

ROOT = Path(__file__).resolve().parent.parent
ROWS = ROOT / "tests" / "rows"
PROGRAM = ROOT / "crates" / "ssb_cli" / "out" / "ssb_cli"
SECONDS = 120

# The folder of a row's files, below the one that the program runs in, and the file of its standard input.
DATA = "d"
INPUT = "input"

# The limits of the system that a row may set, with the letter of each in the shell's `ulimit`.
LIMITS = {"stack": "s", "open_files": "n"}

# What stands behind a command for each standard output that a row may ask for. A short one is a file that
# takes 512 bytes.
OUTPUTS = {"": "", "closed": " >&-", "full": " >/dev/full", "short": " >short"}

# A time that is told in whole milliseconds, and what stands for it in a row that is timed.
MILLIS = re.compile(rb"(?<= )(?:0|[1-9]\d*) ms$", re.MULTILINE)
SOME_MILLIS = b"N ms"

# Each key of a row, with what it is where the row leaves it out.
DEFAULTS = {
    "shows": "",
    "base": "small",
    "files": {},
    "script": None,
    "query": None,
    "input": None,
    "options": [],
    "settings": {},
    "pipe": None,
    "limits": {},
    "words": None,
    "standard_output": "",
    "output": "",
    "timed": False,
    "error": "",
    "error_pattern": None,
    "written": {},
    "status": None,
}


class BadRow(Exception):
    """A row that can't be run."""


def read_row(path):
    """The row of a file, with each key."""
    try:
        row = json.loads(path.read_text(encoding="utf-8"))
    except ValueError as error:
        raise BadRow(f"no JSON: {error}") from None
    unknown = sorted(set(row) - set(DEFAULTS))
    if unknown:
        raise BadRow(f"unknown keys: {', '.join(unknown)}")
    row = {**DEFAULTS, **row}
    for key in ("shows", "status"):
        if row[key] in ("", None):
            raise BadRow(f"no {key}")
    for option, values in row["settings"].items():
        if not values or not all(isinstance(value, str) for value in values):
            raise BadRow(f"{option} has no list of texts")
    if row["standard_output"] not in OUTPUTS:
        raise BadRow("standard_output is closed, full or short, or left out")
    for name, limit in row["limits"].items():
        if name not in LIMITS or not isinstance(limit, int):
            raise BadRow(f"no limit: {name} {limit!r}")
    return row


def turns(field):
    """What a field holds in one record after the other, until it begins again."""
    if isinstance(field, dict) and set(field) == {"from", "to"}:
        field = [str(number) for number in range(field["from"], field["to"] + 1)]
    if not isinstance(field, list) or not field:
        raise BadRow(f"no field: {field!r}")
    return field


def record_bytes(count, fields):
    """The bytes of so many records, each field of which goes round in what it may hold."""
    held = [turns(field) for field in fields]
    records = ("|".join(values[i % len(values)] for values in held) for i in range(count))
    return "".join(f"{record}|\n" for record in records).encode()


def part_bytes(part):
    """The bytes of one part of a content."""
    if isinstance(part, str):
        return part.encode()
    if not isinstance(part, dict):
        raise BadRow(f"no content: {part!r}")
    if set(part) == {"records", "fields"}:
        return record_bytes(part["records"], part["fields"])
    part = dict(part)
    times = part.pop("times", 1)
    if set(part) == {"text"}:
        return part["text"].encode() * times
    if set(part) == {"hex"}:
        return bytes.fromhex(part["hex"]) * times
    raise BadRow(f"no content: {part!r}")


def content_bytes(content):
    """The bytes of a content: one part, or a list of parts that follow one another."""
    parts = content if isinstance(content, list) else [content]
    return b"".join(part_bytes(part) for part in parts)


def with_lines(before, lines):
    """The bytes of a file after some of its lines, by their numbers from 1, are replaced."""
    rows = before.split(b"\n")
    for number, content in lines.items():
        place = int(number) - 1
        if not 0 <= place < len(rows):
            raise BadRow(f"the file has no line {number}")
        rows[place] = content_bytes(content)
    return b"\n".join(rows)


def change_file(path, content):
    """Makes one file of a row what the row says."""
    if isinstance(content, dict) and set(content) == {"lines"}:
        path.write_bytes(with_lines(path.read_bytes(), content["lines"]))
        return
    path.unlink(missing_ok=True)
    if content is None:
        return
    if content == {"folder": True}:
        path.mkdir()
    elif isinstance(content, dict) and set(content) == {"link"}:
        path.symlink_to(content["link"])
    else:
        path.write_bytes(content_bytes(content))


def lay_data(row, folder):
    """Writes the files of a row's folder, in place of those that are there."""
    data = folder / DATA
    shutil.rmtree(data, ignore_errors=True)
    data.mkdir()
    if row["base"] is not None:
        for source in sorted((ROOT / "examples" / row["base"]).iterdir()):
            if source.suffix in (".tbl", ""):
                (data / source.name).write_bytes(source.read_bytes())
    if row["query"] is not None:
        (data / "query.sql").write_bytes(content_bytes(row["query"]))
    for name, content in row["files"].items():
        change_file(data / name, content)
    if row["script"] is not None:
        script, *words = row["script"]
        ended = subprocess.run(
            [sys.executable, ROOT / script, *words], cwd=folder, capture_output=True, timeout=SECONDS, check=False
        )
        if ended.returncode != 0:
            raise BadRow(f"{script}: status {ended.returncode}: {ended.stderr[:200]!r}")


def lay_out(row, folder):
    """Writes the files of a row."""
    lay_data(row, folder)
    if row["input"] is not None:
        (folder / INPUT).write_bytes(content_bytes(row["input"]))


def words_of(row):
    """The words of the command line behind the program's name, as bytes, without the settings."""
    if row["words"] is not None:
        return [content_bytes(word) for word in row["words"]]
    words = ["run", "--data", DATA, "--query", f"{DATA}/query.sql", "--catalog", f"{DATA}/catalog"]
    if row["input"] is not None:
        words = ["shell", "--data", DATA, "--catalog", f"{DATA}/catalog"]
    return [word.encode() for word in words] + [content_bytes(word) for word in row["options"]]


def choices(row):
    """Each choice of one value for every option of the settings, as words."""
    for values in itertools.product(*row["settings"].values()):
        yield [word for pair in zip(row["settings"], values) for word in pair]


def feed(whole, pipe):
    """Writes a file into a named pipe, as far as that is read."""
    with contextlib.suppress(BrokenPipeError), open(whole, "rb") as source, open(pipe, "wb") as sink:
        shutil.copyfileobj(source, sink)


@contextlib.contextmanager
def as_pipe(path):
    """Puts a named pipe, which gives the file's bytes once, in the place of a file for a while."""
    whole = path.rename(path.with_name(path.name + ".whole"))
    os.mkfifo(path)
    feeder = threading.Thread(target=feed, args=(whole, path))
    feeder.start()
    try:
        yield
    finally:
        # A program that ended without opening the pipe left the feeder waiting for a reader.
        while feeder.is_alive():
            os.close(os.open(path, os.O_RDONLY | os.O_NONBLOCK))
            feeder.join(0.01)
        whole.replace(path)


def shell_of(row, limits):
    """The words of a shell that goes over to the program behind them, none where none is needed."""
    steps = [f"ulimit -{LIMITS[name]} {limit}" for name, limit in limits.items()]
    if row["standard_output"] == "short":
        # Else the system ends the program by a signal.
        steps += ["trap '' XFSZ", "ulimit -f 1"]
    if not steps and not row["standard_output"]:
        return []
    steps.append(f'exec "$0" "$@"{OUTPUTS[row["standard_output"]]}')
    return [b"/bin/sh", b"-c", " && ".join(steps).encode()]


def run(row, choice, program, folder, limits=None):
    """Runs the program: its status, and what it wrote on its two outputs."""
    if row["written"]:
        lay_data(row, folder)
    command = [str(program).encode()] + words_of(row) + [word.encode() for word in choice]
    with open(os.devnull if row["input"] is None else folder / INPUT, "rb") as source:
        ended = subprocess.run(
            shell_of(row, limits or {}) + command,
            cwd=folder, stdin=source, capture_output=True, timeout=SECONDS,
        )
    output = ended.stdout
    if row["standard_output"] == "short":
        output = (folder / "short").read_bytes()
    return ended.returncode, output, ended.stderr


def pipes(row, folder):
    """The files of a row that a named pipe stands in for, each in further runs."""
    if row["input"] is not None:
        yield folder / INPUT
    if row["pipe"] is not None:
        yield folder / DATA / row["pipe"]


def runs(row, program, folder):
    """Each run of a row, by words that tell it from the others: its status and what it wrote."""
    for choice in choices(row):
        yield choice, run(row, choice, program, folder)
        for path in pipes(row, folder):
            with as_pipe(path):
                ended = run(row, choice, program, folder)
            yield [*choice, f"{path.name} through a pipe:"], ended
        if row["limits"]:
            limits = " ".join(f"{name} {limit}" for name, limit in row["limits"].items())
            yield [*choice, f"under {limits}:"], run(row, choice, program, folder, row["limits"])


def error_difference(row, error):
    """What is not as the row says of the error output, nothing where all is."""
    if row["error_pattern"] is not None:
        if re.fullmatch(row["error_pattern"], error.decode("utf-8", "replace")):
            return []
        return [f"error {error[:200]!r}, wanted the pattern {row['error_pattern']!r}"]
    wanted = f"{row['error']}\n".encode() if row["error"] else b""
    return [] if error == wanted else [f"error {error[:200]!r}, wanted {wanted!r}"]


def written_differences(row, folder):
    """What is not as the row says of the files that were written, one text for each difference."""
    for name, content in row["written"].items():
        wanted = content_bytes(content)
        path = folder / DATA / name
        held = path.read_bytes() if path.is_file() else None
        if held != wanted:
            yield f"{name} has {held!r}, wanted {wanted!r}"


def differences(row, status, output, error):
    """What is not as the row says, one text for each difference."""
    found = []
    if row["timed"]:
        output = MILLIS.sub(SOME_MILLIS, output)
    if status != row["status"]:
        found.append(f"status {status}, wanted {row['status']}")
    if row["output"] is None:
        if not output:
            found.append("nothing on the standard output, wanted some text")
    elif output != content_bytes(row["output"]):
        found.append(f"output {output[:200]!r}, wanted {content_bytes(row['output'])[:200]!r}")
    return found + error_difference(row, error)


def check(path, program):
    """What is wrong with the first run of a row that fails, nothing where all pass."""
    try:
        row = read_row(path)
        with tempfile.TemporaryDirectory() as name:
            folder = Path(name)
            lay_out(row, folder)
            for words, ended in runs(row, program, folder):
                wrong = [*differences(row, *ended), *written_differences(row, folder)]
                if wrong:
                    return [" ".join([*words, text]) for text in wrong]
            return []
    except BadRow as error:
        return [str(error)]
    except (KeyError, OSError, TypeError, ValueError, subprocess.TimeoutExpired) as error:
        return [f"{type(error).__name__}: {error}"]


def main(words):
    """Runs all rows, and gives the exit status."""
    if len(words) > 1:
        print(__doc__.strip(), file=sys.stderr)
        return 2
    program = Path(words[0]).resolve() if words else PROGRAM
    if not program.is_file():
        print(f"no program at {program}: `./ssb --help` builds it", file=sys.stderr)
        return 2
    paths = sorted(ROWS.rglob("*.json"))
    failed = 0
    for path in paths:
        wrong = check(path, program)
        if wrong:
            failed += 1
            print(f"{path.relative_to(ROWS).with_suffix('')}: {'; '.join(wrong)}")
    print(f"{len(paths) - failed} passed, {failed} failed")
    return 1 if failed or not paths else 0


if __name__ == "__main__":
    sys.exit(main(sys.argv[1:]))
