#!/usr/bin/env python3
"""Tries `ssb`, `build` and `unproved` in a small repository, where a stand-in for `rt` makes the program and proves
nothing, or runs it before its proofs.

Usage: run_launcher.py

It prints a line for each test that fails, and last the counts.
"""

import contextlib
import fcntl
import os
import shutil
import signal
import subprocess
import sys
import tempfile
import time
from pathlib import Path
from typing import NamedTuple

ROOT = Path(__file__).resolve().parent.parent
SECONDS = 30

# The program stands on ssb_low and ssb_middle alone.
CRATES = """\
# NAME: what it stands on
ssb_cli may_wait=1: ssb_middle csv # the program
ssb_low:
ssb_middle: ssb_low thiserror
ssb_other: ssb_middle
ssb_tests tests_may=Threads: ssb_cli ssb_other
"""
NAMES = ["ssb_low", "ssb_middle", "ssb_cli", "ssb_other", "ssb_tests"]
PARTS = ["src/main.rt", "specs/Lib.antt", "proofs/main/Proof.antt", "must-fail/less.edit", "out/left"]

# Prints what the program is, the folder that it runs in, and its words.
PROGRAM = """\
#!/bin/bash
printf '%s\\n' {name} "$PWD" "$@"
"""

# Files beside it are its signs: it leaves what it is, what it got and how often it ran. It goes on once
# `hold` is gone, and fails where `fail` is there.
STAND_IN = """\
#!/bin/bash
signs=$(dirname "$0")/../signs
if [ "$1" = try ]; then
    . "$signs/try"
    exit
fi
echo "$*" >>"$signs/runs"
{ cat crates.txt; find crates -type f | sort; } >"$signs/copied"
stat -c %a .. . "$TMPDIR" >"$signs/modes"
mkdir -p crates/ssb_cli/out
echo '#!/bin/false' >crates/ssb_cli/out/ssb_cli
chmod +x crates/ssb_cli/out/ssb_cli
echo "rt: ssb_low is kept: an earlier run on this machine proved it"
echo "rt: ssb_middle proved"
echo $$ >"$signs/pid.new" && mv "$signs/pid.new" "$signs/pid"
while [ -e "$signs/hold" ]; do sleep 0.02; done
if [ -e "$signs/fail" ]; then
    echo "rt: ssb_cli NOT PROVED"
    echo "2 passed, 1 failed"
    exit 1
fi
echo "rt: ssb_cli proved"
cat "$signs/program" >crates/ssb_cli/out/ssb_cli
echo "3 passed, 0 failed"
"""


# What the stand-in does for `rt try`: it prints its words, where it runs, the input and a line of error, and behind
# these what `rt` tells.
TRY = """\
shift 2
echo $$ >"$signs/pid.new" && mv "$signs/pid.new" "$signs/pid"
while [ -e "$signs/hold" ]; do sleep 0.02; done
printf '%s\\n' "$@"
echo "${{PWD##*/}} $RT_SECONDS"
cat
echo "ssb: a line" >&2
printf '%s\\n' "checked: ended status={status}" "races: not looked for" "run={end}" >&2
exit {status}
"""

# The line before an answer that comes from the program before its proofs.
UNPROVED = "ssb: this answer comes from the program before its proofs\n"


class Wrong(Exception):
    """What a test has seen is not what it wants."""


class Ended(NamedTuple):
    """What a process has left: its status, and what it wrote on its two outputs."""

    status: int
    output: str
    error: str


class Started(NamedTuple):
    """A process, and the files of its two outputs."""

    process: subprocess.Popen
    output: Path
    error: Path

    def end(self):
        """Waits for its end."""
        status = self.process.wait(SECONDS)
        return Ended(status, self.output.read_text(encoding="utf-8"), self.error.read_text(encoding="utf-8"))

    def wait_for_the_lock(self):
        """Waits until it says that it waits for another build."""
        wait_until(lambda: "waits for another build" in self.error.read_text(encoding="utf-8"), "it waits for a build")

    def interrupt(self):
        """Interrupts it and what it has started, as a terminal does, and again until it has ended.

        A shell may miss a signal that comes just before it waits.
        """
        def is_ended():
            os.killpg(self.process.pid, signal.SIGINT)
            with contextlib.suppress(subprocess.TimeoutExpired):
                self.process.wait(1)
            return self.process.returncode is not None

        wait_until(is_ended, "the start has ended")
        want(self.process.returncode, -signal.SIGINT, "the start's end")


def want(seen, wanted, what):
    """Goes on where what is seen is what is wanted."""
    if seen != wanted:
        raise Wrong(f"{what}: {seen!r}, wanted {wanted!r}")


def wait_until(is_so, what):
    """Waits until something is so."""
    deadline = time.monotonic() + SECONDS
    while not is_so():
        if time.monotonic() > deadline:
            raise Wrong(f"not within {SECONDS} seconds: {what}")
        time.sleep(0.01)


def is_running(number):
    """Whether a process of this number is there and has not ended."""
    try:
        state = Path(f"/proc/{number}/stat").read_text(encoding="utf-8").rpartition(")")[2].split()[0]
    except (FileNotFoundError, ProcessLookupError):
        return False
    return state not in ("Z", "X")


class Place:
    """A small repository with an old program that is newer than its sources, and what is around it."""

    def __init__(self, folder):
        self.repository = folder / "repository"
        self.crates = self.repository / "crates"
        self.program = self.crates / "ssb_cli" / "out" / "ssb_cli"
        self.caller = folder / "caller"
        self.signs = folder / "signs"
        self.rooms = folder / "rooms"
        self.stand_in = folder / "bin" / "rt"
        self.started = []
        for made in (self.caller, self.signs, self.rooms, self.stand_in.parent):
            made.mkdir()
        for name in NAMES:
            for part in PARTS:
                file = self.crates / name / part
                file.parent.mkdir(parents=True, exist_ok=True)
                file.write_text(f"{name} {part}\n", encoding="utf-8")
        for name in ("ssb", "build", "unproved"):
            shutil.copy(ROOT / name, self.repository)
        (self.repository / "crates.txt").write_text(CRATES, encoding="utf-8")
        (self.repository / "HANDLES").write_text("Handles allowed: none.\n", encoding="utf-8")
        self.stand_in.write_text(STAND_IN, encoding="utf-8")
        self.stand_in.chmod(0o755)
        (self.signs / "program").write_text(PROGRAM.format(name="new"), encoding="utf-8")
        self.put_program(PROGRAM.format(name="old"))
        for path in self.repository.rglob("*"):
            os.utime(path, (1000, 1000))
        os.utime(self.program, (2000, 2000))

    def put_program(self, text):
        """Puts a program in the old one's place, as old as that."""
        self.program.write_text(text, encoding="utf-8")
        self.program.chmod(0o755)
        os.utime(self.program, (2000, 2000))

    def change(self, name):
        """Makes a file or folder of the repository newer than the program."""
        os.utime(self.repository / name, (3000, 3000))

    def put_try(self, status, end):
        """Says with which status the program before its proofs ends, and what `rt` tells of it."""
        (self.signs / "try").write_text(TRY.format(status=status, end=end), encoding="utf-8")

    def state(self):
        """Each file of the repository, its time and its bytes."""
        files = (path for path in self.repository.rglob("*") if path.is_file())
        return {path: (path.stat().st_mtime_ns, path.read_bytes()) for path in files}

    def start(self, *words, command=None, given=subprocess.DEVNULL):
        """Starts `ssb`, or another command, in the caller's folder, as a shell starts one at a terminal."""
        words = [command or self.repository / "ssb", *words]
        output, error = (self.signs / f"{kind}_{len(self.started)}" for kind in ("output", "error"))
        environment = {**os.environ, "PATH": f"{self.stand_in.parent}:{os.environ['PATH']}", "TMPDIR": str(self.rooms)}
        with open(output, "wb") as to, open(error, "wb") as told:
            process = subprocess.Popen(
                words, cwd=self.caller, env=environment, stdin=given, stdout=to, stderr=told,
                start_new_session=True,
            )
        self.started.append(process)
        return Started(process, output, error)

    def start_and_hold(self, *words):
        """Starts `ssb`, and goes on once `rt` runs, which waits until it is let go."""
        (self.signs / "hold").touch()
        started = self.start(*words)
        wait_until((self.signs / "pid").exists, "rt runs")
        return started

    def let_go(self):
        """Lets `rt` go on."""
        (self.signs / "hold").unlink()

    def runs(self):
        """The words of each run of `rt`."""
        file = self.signs / "runs"
        return file.read_text(encoding="utf-8").splitlines() if file.exists() else []

    def is_needed(self):
        """Whether `build` says that a build is needed."""
        status = self.start("--needed", command=self.repository / "build").end().status
        if status not in (0, 1):
            raise Wrong(f"build --needed: status {status}")
        return status == 0

    def want_old(self):
        """Wants that the old program stands there, and that nothing of a build is left."""
        want(self.program.read_text(encoding="utf-8"), PROGRAM.format(name="old"), "the program")
        self.want_clean()

    def want_clean(self):
        """Wants that nothing of a build is left but the program and the lock."""
        want(list(self.rooms.iterdir()), [], "temporary folders")
        names = {path.name for path in self.program.parent.iterdir()} - {"build.lock", "left"}
        want(names, {"ssb_cli"}, "beside the program")

    def want_ended(self):
        """Wants that `rt` and what a build has left end."""
        number = int((self.signs / "pid").read_text(encoding="utf-8"))
        wait_until(lambda: not is_running(number), "rt has ended")
        wait_until(lambda: not any(self.rooms.iterdir()), "the temporary folder is gone")

    def close(self):
        """Ends what still runs."""
        for process in self.started:
            with contextlib.suppress(ProcessLookupError):
                os.killpg(process.pid, signal.SIGKILL)
            process.wait()


def fresh_program_is_started(place):
    """With its words, in the caller's folder, and without a build, also while another start would wait for one."""
    with open(place.program.parent / "build.lock", "w", encoding="utf-8") as lock:
        fcntl.flock(lock, fcntl.LOCK_EX)
        ended = place.start("run", "two words", "", "*").end()
    want(ended, Ended(0, f"old\n{place.caller}\nrun\ntwo words\n\n*\n", ""), "the start")
    want(place.runs(), [], "runs of rt")


def program_is_called_ssb_and_ends_the_start(place):
    """Its name is ssb, and its status that of the start."""
    shutil.copy("/bin/bash", place.program)
    os.utime(place.program, (2000, 2000))
    want(place.start("-c", 'echo "$0"; exit 3').end(), Ended(3, "ssb\n", ""), "the start")


def symbolic_links_are_followed(place):
    """Also a link to a link, by a path that is not whole."""
    (place.caller / "first").symlink_to("../repository/ssb")
    (place.caller / "second").symlink_to("first")
    ended = place.start("word", command="./second").end()
    want(ended, Ended(0, f"old\n{place.caller}\nword\n", ""), "the start")
    want(place.runs(), [], "runs of rt")


def newer_source_builds(place):
    """What is built is of the program's crates alone, and it is started."""
    place.change("crates/ssb_low/specs/Lib.antt")
    ended = place.start("word").end()
    want((ended.status, ended.output), (0, f"new\n{place.caller}\nword\n"), "the start")
    counts = [line for line in ended.error.splitlines() if " of 3" in line]
    counted = [f"build: {name} proved, {count} of 3" for count, name in enumerate(NAMES[:3], 1)]
    # Of the first, which is kept, no time is known, and behind the last none is left.
    counted[1] += "; about 1 min left"
    want(counts, counted, "progress")
    want("a first build proves 3 crates" in ended.error, True, "how long it takes is told")
    lines = ["ssb_low:", "ssb_middle: ssb_low thiserror", "ssb_cli may_wait=1: ssb_middle csv "]
    files = sorted(f"crates/{name}/{part}" for name in NAMES[:3] for part in PARTS[:3])
    want((place.signs / "copied").read_text(encoding="utf-8").splitlines(), lines + files, "the copy")
    want((place.signs / "modes").read_text(encoding="utf-8"), "711\n" * 3, "what another user may do there")
    place.want_clean()
    want(place.is_needed(), False, "a further build is needed")
    want(place.start().end().status, 0, "a further start")
    want(place.runs(), ["ci"], "runs of rt")


def each_source_is_seen(place):
    """A source, a folder that lost one, the list of crates, and a missing program."""
    for name in NAMES[:3]:
        for part in (*PARTS[:3], "src", "proofs/main"):
            place.change(f"crates/{name}/{part}")
            want(place.is_needed(), True, f"a build is needed after {name}/{part}")
            os.utime(place.crates / name / part, (1000, 1000))
            want(place.is_needed(), False, f"a build is needed after {name}/{part} is old again")
    place.change("crates.txt")
    want(place.is_needed(), True, "a build is needed after crates.txt")
    os.utime(place.repository / "crates.txt", (1000, 1000))
    place.program.unlink()
    want(place.is_needed(), True, "a build is needed without a program")


def other_files_are_no_sources(place):
    """Crates that the program does not stand on, edits that are refused, and what checks leave."""
    for name in NAMES[3:]:
        for part in PARTS:
            place.change(f"crates/{name}/{part}")
    for name in NAMES[:3]:
        for part in PARTS[3:]:
            place.change(f"crates/{name}/{part}")
    for name in ("ssb", "build", "crates", *(f"crates/{name}" for name in NAMES)):
        place.change(name)
    want(place.start().end(), Ended(0, f"old\n{place.caller}\n", ""), "the start")
    want(place.runs(), [], "runs of rt")


def missing_program_is_built(place):
    """Also where no folder is there for it."""
    shutil.rmtree(place.program.parent)
    ended = place.start().end()
    want((ended.status, ended.output), (0, f"new\n{place.caller}\n"), "the start")
    place.want_clean()


def failed_build_leaves_the_old_program(place):
    """It is told on the error output, with the status 70."""
    (place.signs / "fail").touch()
    place.change("crates/ssb_middle/src/main.rt")
    ended = place.start().end()
    want((ended.status, ended.output), (70, ""), "the start")
    want("rt: ssb_cli NOT PROVED" in ended.error, True, "what rt told is shown")
    want(ended.error.splitlines()[-1], "build: the program can't be built", "the last line")
    place.want_old()
    want(place.is_needed(), True, "a build is still needed")


def two_starts_build_once(place):
    """The second waits for the first, and both start the new program."""
    place.change("crates/ssb_cli/src/main.rt")
    first = place.start_and_hold("first")
    second = place.start("second")
    second.wait_for_the_lock()
    place.let_go()
    for started, word in ((first, "first"), (second, "second")):
        ended = started.end()
        want((ended.status, ended.output), (0, f"new\n{place.caller}\n{word}\n"), f"the {word} start")
    want(place.runs(), ["ci"], "runs of rt")
    place.want_clean()


def edit_during_a_build_is_seen(place):
    """The new program is as old as the beginning of its build."""
    place.change("crates/ssb_cli/src/main.rt")
    started = place.start_and_hold()
    source = place.crates / "ssb_low" / "src" / "main.rt"
    begun = (place.signs / "pid").stat().st_mtime_ns

    def is_edited():
        source.touch()
        return source.stat().st_mtime_ns > begun

    wait_until(is_edited, "the edit is newer than the beginning")
    place.let_go()
    want(started.end().status, 0, "the start")
    want(place.is_needed(), True, "a build is needed after the edit")


def old_program_is_there_during_a_build(place):
    """It is replaced once the new one is whole."""
    place.change("crates/ssb_cli/src/main.rt")
    started = place.start_and_hold()
    want(place.program.read_text(encoding="utf-8"), PROGRAM.format(name="old"), "the program")
    place.let_go()
    want(started.end().output, f"new\n{place.caller}\n", "the start")


def interrupt_ends_all(place):
    """And leaves the old program, which the next start builds anew."""
    place.change("crates/ssb_cli/src/main.rt")
    place.start_and_hold().interrupt()
    place.want_ended()
    place.want_old()
    place.let_go()
    want(place.start().end().output, f"new\n{place.caller}\n", "a further start")


def end_of_the_start_ends_all(place):
    """A signal that reaches `ssb` alone, also one that it can't see."""
    place.change("crates/ssb_cli/src/main.rt")
    for number in (signal.SIGTERM, signal.SIGKILL):
        started = place.start_and_hold()
        os.kill(started.process.pid, number)
        want(started.end().status, -number, "the start")
        place.want_ended()
        place.want_old()
        (place.signs / "pid").unlink()


def interrupt_of_a_waiting_build_leaves_the_other(place):
    """What waits for the lock ends alone."""
    place.change("crates/ssb_cli/src/main.rt")
    first = place.start_and_hold()
    second = place.start()
    second.wait_for_the_lock()
    second.interrupt()
    place.let_go()
    want(first.end().output, f"new\n{place.caller}\n", "the first start")
    place.want_clean()


def write_beyond_the_limit_is_an_error(place):
    """The program goes on behind a write that goes beyond `ulimit -f`."""
    place.put_program("#!/bin/bash\nprintf '%04096d' 0 2>/dev/null || { echo refused >&2; exit 4; }\n")
    limited = 'ulimit -f 1; exec "$0"'
    ended = place.start("-c", limited, place.repository / "ssb", command="/bin/bash").end()
    want((ended.status, ended.error), (4, "refused\n"), "the start")


def program_before_its_proofs_answers(place):
    """With whole paths, its status and its outputs, where no program is and the tree can't be written to."""
    place.program.unlink()
    place.put_try(3, "ended status=3 runners=1")
    folder = place.caller.parent
    words = ["--data", "../tables", "--query=a b.sql", "--catalog", "/c", "--name", "../x", ""]
    before = place.state()
    modes = {path: path.stat().st_mode for path in [place.repository, *place.repository.rglob("*")]}
    for path, mode in modes.items():
        path.chmod(mode & ~0o222)
    ended = place.start("--unproved", "run", *words).end()
    for path, mode in modes.items():
        path.chmod(mode)
    wanted = ["run", "--data", f"{folder}/tables", f"--query={place.caller}/a b.sql", "--catalog", "/c", "--name", "../x", ""]
    want(ended.output, "".join(f"{line}\n" for line in (*wanted, "ssb_cli 3600")), "its output")
    want((ended.status, ended.error), (3, UNPROVED + "ssb: a line\n"), "its status, and its error output")
    want(place.state() == before, True, "the tree is as it was")
    want(list(place.rooms.iterdir()), [], "temporary folders")
    want(place.is_needed(), True, "a build is still needed")


def session_before_its_proofs_reads_its_input(place):
    """Of a file; another task reads nothing."""
    place.put_try(0, "ended status=0")
    text = place.caller / "text"
    text.write_text("select 1;\n", encoding="utf-8")
    for task, wanted in (("shell", "select 1;\n"), ("check", "")):
        with open(text, "rb") as given:
            ended = place.start("--unproved", task, given=given).end()
        want(ended, Ended(0, f"{task}\nssb_cli 3600\n{wanted}", UNPROVED + "ssb: a line\n"), task)


def session_on_a_terminal_needs_a_build(place):
    """It is told, with the status 70, and nothing runs."""
    place.put_try(0, "ended status=0")
    owner, terminal = os.openpty()
    ended = place.start("--unproved", "shell", given=terminal).end()
    os.close(terminal)
    os.close(owner)
    line = "ssb: a session on a terminal needs a build: ./ssb without --unproved begins one\n"
    want(ended, Ended(70, "", line), "the start")


def program_that_does_not_run_is_told(place):
    """With the status 70, behind what `rt` tells."""
    place.put_try(1, "none proved=no")
    ended = place.start("--unproved", "check").end()
    want(ended.status, 70, "the status")
    want(ended.error, UNPROVED + "ssb: a line\nssb: the program before its proofs can't be run\n", "the error output")


def interrupt_of_an_answer_before_the_proofs_ends_all(place):
    """And a signal that reaches the start alone does."""
    place.put_try(0, "ended status=0")
    place.start_and_hold("--unproved", "check").interrupt()
    place.want_ended()
    (place.signs / "pid").unlink()
    started = place.start_and_hold("--unproved", "check")
    os.kill(started.process.pid, signal.SIGTERM)
    want(started.end().status, -signal.SIGTERM, "the start")
    place.want_ended()
    place.want_old()


def missing_program_tells_of_the_way_without(place):
    """Beside how long a build takes."""
    place.program.unlink()
    ended = place.start().end()
    want("./ssb --unproved WORDS.. answers within two minutes" in ended.error, True, "the way without a build")


TESTS = [
    fresh_program_is_started,
    program_is_called_ssb_and_ends_the_start,
    symbolic_links_are_followed,
    newer_source_builds,
    each_source_is_seen,
    other_files_are_no_sources,
    missing_program_is_built,
    failed_build_leaves_the_old_program,
    two_starts_build_once,
    edit_during_a_build_is_seen,
    old_program_is_there_during_a_build,
    interrupt_ends_all,
    end_of_the_start_ends_all,
    interrupt_of_a_waiting_build_leaves_the_other,
    write_beyond_the_limit_is_an_error,
    program_before_its_proofs_answers,
    session_before_its_proofs_reads_its_input,
    session_on_a_terminal_needs_a_build,
    program_that_does_not_run_is_told,
    interrupt_of_an_answer_before_the_proofs_ends_all,
    missing_program_tells_of_the_way_without,
]


def check(test):
    """What is wrong with a test, nothing where it passes."""
    with tempfile.TemporaryDirectory() as name:
        place = Place(Path(name).resolve())
        try:
            test(place)
        except (Wrong, OSError, subprocess.TimeoutExpired) as error:
            return f"{type(error).__name__}: {error}"
        finally:
            place.close()
    return ""


def main(words):
    """Runs all tests, and gives the exit status."""
    if words:
        print(__doc__.strip(), file=sys.stderr)
        return 2
    # A job in the background ignores interrupts, and what it starts would too.
    signal.signal(signal.SIGINT, signal.default_int_handler)
    failed = 0
    for test in TESTS:
        wrong = check(test)
        if wrong:
            failed += 1
            print(f"{test.__name__}: {wrong}")
    print(f"{len(TESTS) - failed} passed, {failed} failed")
    return 1 if failed else 0


if __name__ == "__main__":
    sys.exit(main(sys.argv[1:]))
