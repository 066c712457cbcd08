#!/usr/bin/env python3
"""Runs the examples of the documents, and compares what they print.

Usage: run_docs.py [PROGRAM]

PROGRAM is crates/ssb_cli/out/ssb_cli where it is left out; it stands for `./ssb`. An example is a line behind `$ ` in
a fenced block, with the lines up to the next one: what both outputs show. Where some of these have a prompt, what
stands behind it is typed on a terminal. Any number of three decimals is as good as any other, and so is any number of
whole milliseconds. At the end stands a run that loads slowly on a terminal, and has to show how far it is.
"""

import os
import re
import select
import shlex
import shutil
import subprocess
import sys
import tempfile
from pathlib import Path

ROOT = Path(__file__).resolve().parent.parent
DOCUMENTS = (ROOT / "README.md", *(ROOT / "docs" / name for name in ("FAQ.md", "SHELL.md", "SQL.md")))
SMALL = ROOT / "examples" / "small"
PROGRAM = ROOT / "crates" / "ssb_cli" / "out" / "ssb_cli"
SECONDS = 60

BLOCK = re.compile(r"^```\n(\$ .*?)^```$", re.MULTILINE | re.DOTALL)
EXAMPLE = re.compile(r"^\$ ((?:.* \|\n)*.*\n)((?:(?!\$ ).*\n)*)", re.MULTILINE)
PROMPTS = ("ssb> ", "..> ")
TYPED = re.compile(r"^(?:ssb|\.\.)> (.*\n)", re.MULTILINE)
PROGRESS = re.compile(r"\r\x1b\[K(?:loading \d+ %)?")
SLOW = re.compile(r"(?:\r\x1b\[Kloading \d+ %)+\r\x1b\[K2751\r\n")
TIME = re.compile(r"\d+\.\d{3}\b|\b\d+(?= ms$)", re.MULTILINE)


def examples():
    """Each example's document, command and output."""
    for path in DOCUMENTS:
        for block in BLOCK.findall(path.read_text(encoding="utf-8")):
            for command, output in EXAMPLE.findall(block):
                yield path.name, command, output


def printed(command):
    """What a command prints to both outputs."""
    return subprocess.run(
        ["bash", "-c", command], cwd=ROOT, stdin=subprocess.DEVNULL, stdout=subprocess.PIPE, stderr=subprocess.STDOUT,
        timeout=SECONDS, check=False,
    ).stdout.decode()


def seen(words, hear):
    """What a terminal shows of a program. `hear` gets what it showed so far, and gives what is typed then."""
    ours, theirs = os.openpty()
    process = subprocess.Popen(words, cwd=ROOT, stdin=theirs, stdout=theirs, stderr=theirs)
    os.close(theirs)
    text = ""
    while select.select([ours], [], [], SECONDS)[0]:
        try:
            text += os.read(ours, 65536).decode()
        except OSError:
            break
        os.write(ours, hear(text).encode())
    process.kill()
    process.wait()
    os.close(ours)
    return text


def typed(command, lines):
    """What a terminal shows where these lines are typed, each once a prompt asks for it, and then Ctrl-D."""
    def hear(text):
        if not text.endswith(PROMPTS):
            return ""
        return lines.pop(0) if lines else "\x04"

    return PROGRESS.sub("", seen(["bash", "-c", command], hear)).replace("\r\n", "\n")


def slow_load(program):
    """What a terminal shows of a run whose fact table is written only once it shows how far its load is."""
    with tempfile.TemporaryDirectory() as folder:
        shutil.copytree(SMALL, folder, dirs_exist_ok=True)
        path = Path(folder, "lineorder.tbl")
        content = path.read_bytes()
        path.unlink()
        os.mkfifo(path)
        # Open for both, so that neither side waits for the other.
        pipes = [os.open(path, os.O_RDWR)]

        def hear(text):
            if "loading" in text and pipes:
                os.write(pipes[0], content)
                os.close(pipes.pop())
            return ""

        words = [program, "run", "--data", folder, "--catalog", f"{folder}/catalog", "--query", f"{folder}/total.sql"]
        return seen(words, hear)


def main():
    """Runs each example, and gives the exit status."""
    program = Path(sys.argv[1] if len(sys.argv) > 1 else PROGRAM).resolve()
    passed = failed = 0
    if not program.exists():
        print(f"no {program}\n0 passed, 1 failed")
        return 1
    for document, command, output in examples():
        words = command.replace("./ssb ", f"{shlex.quote(str(program))} ")
        lines = TYPED.findall(output)
        got = typed(words, lines) if lines else printed(words)
        if TIME.sub("0", got) == TIME.sub("0", output):
            passed += 1
        else:
            failed += 1
            print(f"{document}: {command}wants\n{output}and has\n{got}")
    got = slow_load(program)
    if SLOW.fullmatch(got):
        passed += 1
    else:
        failed += 1
        print(f"a slow load on a terminal shows {got!r}")
    print(f"{passed} passed, {failed} failed")
    return 1 if failed else 0


if __name__ == "__main__":
    sys.exit(main())
