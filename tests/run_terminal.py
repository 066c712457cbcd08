#!/usr/bin/env python3
"""Tries the program on a terminal: its prompts, the line after a load, and the one while it lasts.

Usage: run_terminal.py [PROGRAM]

PROGRAM is crates/ssb_cli/out/ssb_cli where it is left out. It prints a line for each test that fails, and last
the counts.
"""

import contextlib
import os
import pty
import re
import select
import shutil
import subprocess
import sys
import tempfile
import threading
import time
from pathlib import Path

ROOT = Path(__file__).resolve().parent.parent
PROGRAM = ROOT / "crates" / "ssb_cli" / "out" / "ssb_cli"
STAR = ROOT / "examples" / "star"
SECONDS = 30

# What takes the line of a load away.
CLEAR = "\r\x1b[K"

GREETING = re.compile(r"ssb: 5 tables, 10 rows, [0-9]+\.[0-9]{3} s; \.help lists the commands\r\n")
PROGRESS = re.compile(r"loading [0-9]{1,3} %")


class Failed(Exception):
    """What is not as it must be."""


def want(holds, text):
    """Fails with the text unless this holds."""
    if not holds:
        raise Failed(text)


class Terminal:
    """A terminal of no user, on which a program runs."""

    def __init__(self, command, stdin=True):
        self.ours, theirs = pty.openpty()
        source = theirs if stdin else subprocess.DEVNULL
        self.program = subprocess.Popen(command, stdin=source, stdout=theirs, stderr=theirs, start_new_session=True)
        os.close(theirs)
        self.shown = ""

    def read_until(self, done):
        """Reads on until what was shown so far is enough, and gives that."""
        end = time.monotonic() + SECONDS
        while not done(self.shown):
            want(time.monotonic() < end, f"after {SECONDS} seconds there is {self.shown!r}")
            if select.select([self.ours], [], [], 0.1)[0]:
                try:
                    read = os.read(self.ours, 65536)
                except OSError:
                    read = b""
                want(read or done(self.shown), f"it ended with {self.shown!r}")
                self.shown += read.decode()
        return self.shown

    def say(self, text, until):
        """Types a text, and gives what is shown from then on up to a text at the end."""
        self.shown = ""
        os.write(self.ours, text.encode())
        return self.read_until(lambda shown: shown.endswith(until) and len(shown) > len(text))

    def rest(self):
        """What is shown up to the program's end, and its status."""
        with contextlib.suppress(OSError):
            while read := os.read(self.ours, 65536):
                self.shown += read.decode()
        return self.shown, self.program.wait(SECONDS)

    def close(self):
        self.program.kill()
        self.program.wait()
        os.close(self.ours)


@contextlib.contextmanager
def terminal(*command, **how):
    made = Terminal(command, **how)
    try:
        yield made
    finally:
        made.close()


def echoed(text, answer):
    """What a terminal shows of lines that were typed, and of what answers them."""
    return (text + answer).replace("\n", "\r\n")


def prompts(program):
    """A prompt for each line, another one within a statement, and rows between them."""
    with terminal(program, "shell", "--data", STAR) as shell:
        greeting = shell.read_until(lambda shown: shown.endswith("ssb> "))
        want(GREETING.fullmatch(greeting.removesuffix("ssb> ")), f"the greeting is {greeting!r}")
        for typed, shown in [
            ("select count(*)\n", "..> "),
            ("from lineorder; select\n", "3\n..> "),
            ("sum(lo_revenue) from lineorder;\n", "2200\nssb> "),
            ("select 1;\n", "ssb: S1 Syntax\nssb> "),
            ("-- nothing\n", "ssb> "),
        ]:
            got = shell.say(typed, "> ")
            want(got == echoed(typed, shown), f"{typed!r} shows {got!r}")
        shell.shown = ""
        os.write(shell.ours, b"\x04")
        shown, status = shell.rest()
        want((shown, status) == ("\r\n", 1), f"the end shows {shown!r} and has the status {status}")


def columns(program):
    """An answer in columns, under its titles."""
    with terminal(program, "shell", "--data", STAR) as shell:
        shell.read_until(lambda shown: shown.endswith("ssb> "))
        shell.say(".mode columns\n", "ssb> ")
        shell.say(".headers on\n", "ssb> ")
        query = (
            "select c_nation, sum(lo_revenue) from lineorder, customer where lo_custkey = c_custkey "
            "group by c_nation order by c_nation;\n"
        )
        got = shell.say(query, "ssb> ")
        lines = [
            "c_nation        sum(lo_revenue)",
            "--------------  ---------------",
            "UNITED KINGDOM             1000",
            "UNITED STATES              1200",
            "ssb> ",
        ]
        want(got == echoed(query, "\n".join(lines)), f"the answer is {got!r}")
        shell.shown = ""
        os.write(shell.ours, b".quit\n")
        shown, status = shell.rest()
        want((shown, status) == (".quit\r\n", 0), f"the end shows {shown!r} and has the status {status}")


def feed_slowly(path, content):
    """Writes a table into a named pipe, its last byte a second and a half after the first."""
    with contextlib.suppress(BrokenPipeError), open(path, "wb", buffering=0) as pipe:
        pipe.write(content[:-1])
        time.sleep(1.5)
        pipe.write(content[-1:])


@contextlib.contextmanager
def slow_star():
    """The folder of the star, whose dates come slowly."""
    with tempfile.TemporaryDirectory() as name:
        folder = Path(name) / "star"
        shutil.copytree(STAR, folder)
        dates = (folder / "date.tbl").read_bytes()
        (folder / "date.tbl").unlink()
        os.mkfifo(folder / "date.tbl")
        feeder = threading.Thread(target=feed_slowly, args=(folder / "date.tbl", dates))
        feeder.start()
        try:
            yield folder
        finally:
            # A program that ended without opening the pipe left the feeder waiting for a reader.
            while feeder.is_alive():
                os.close(os.open(folder / "date.tbl", os.O_RDONLY | os.O_NONBLOCK))
                feeder.join(0.01)


def progress(program):
    """A load of more than half a second shows how far it is, and takes that away before the answer."""
    with slow_star() as folder, terminal(program, "run", "--data", folder, "--name", "Q2.1", stdin=False) as run:
        shown, status = run.rest()
        before, _, after = shown.rpartition(CLEAR)
        want(PROGRESS.search(before), f"it shows {shown!r}")
        want(after == "1200|1997|MFGR#1221\r\n", f"behind the line it shows {after!r}")
        want(status == 0, f"its status is {status}")


def short_load(program):
    """A short load shows nothing but the answer."""
    with terminal(program, "run", "--data", STAR, "--name", "Q2.1", stdin=False) as run:
        shown = run.rest()
        want(shown == ("1200|1997|MFGR#1221\r\n", 0), f"it shows {shown!r}")


def no_terminal(program):
    """Where the input is no terminal there is no prompt, whatever the outputs are."""
    with terminal(program, "shell", "--data", STAR, stdin=False) as shell:
        shown = shell.rest()
        want(shown == ("", 0), f"it shows {shown!r}")
    ended = subprocess.run(
        [program, "shell", "--data", STAR], input=b"select count(*) from lineorder;\n", capture_output=True, timeout=SECONDS
    )
    got = (ended.stdout, ended.stderr, ended.returncode)
    want(got == (b"3\n", b"", 0), f"through pipes it gives {got!r}")


TESTS = [prompts, columns, progress, short_load, no_terminal]


def main(words):
    """Runs all tests, and gives the exit status."""
    program = Path(words[0]).resolve() if words else PROGRAM
    failed = 0
    for test in TESTS:
        try:
            test(str(program))
        except (Failed, OSError, subprocess.TimeoutExpired) as error:
            failed += 1
            print(f"{test.__name__}: {error}")
    print(f"{len(TESTS) - failed} passed, {failed} failed")
    return 1 if failed else 0


if __name__ == "__main__":
    sys.exit(main(sys.argv[1:]))
