"""The engines that `peers.py` runs: how each loads a folder's tables and answers queries, in one session."""

import contextlib
import os
import re
import shlex
import shutil
import subprocess
import tempfile
import time
from pathlib import Path
from typing import NamedTuple

import export
import measure

HERE = Path(__file__).resolve().parent

# How long an engine may take for one session.
SECONDS = 3600

# A user that PostgreSQL may run as, where this one is root.
SERVER_USER = "postgres"
DATABASE = "star"


class Session(NamedTuple):
    """What a session took: its seconds, those of each query by its name, and the rows of each, as texts."""

    whole: float
    queries: dict
    rows: dict

    @property
    def load(self):
        """The seconds of all but the queries: the start, the load and the end."""
        return self.whole - sum(self.queries.values())


class Failed(Exception):
    """A session that failed."""


def printed(words, text):
    """What a program prints that is given a text, both outputs, and its seconds."""
    start = time.perf_counter()
    ended = subprocess.run(
        words, input=text, stdout=subprocess.PIPE, stderr=subprocess.STDOUT, encoding="utf-8", timeout=SECONDS,
        env={**os.environ, "LC_ALL": "C"}, check=False,
    )
    seconds = time.perf_counter() - start
    if ended.returncode != 0:
        raise Failed(f"{shlex.join(map(str, words))}: status {ended.returncode}: {ended.stdout[-500:]}")
    return ended.stdout, seconds


def statement(text):
    """A query's text with the semicolon that it may lack, on a line of its own, behind any comment."""
    return text.rstrip().removesuffix(";") + "\n;\n"


def session_of(whole, times, names, out):
    """The session whose queries took these seconds in turn, and wrote their rows to files of their names."""
    if len(times) != len(names):
        raise Failed(f"{len(times)} times of {len(names)} queries")
    rows = {name: (out / name).read_text(encoding="utf-8").splitlines() for name in names}
    return Session(whole, dict(zip(names, times)), rows)


class Ssb:
    """This program, by a session of its shell."""

    name = "ssb"
    package = None

    def __init__(self, program, threads):
        self.program = program
        self.threads = threads

    def is_there(self):
        return self.program.is_file()

    def session(self, folder, texts, out, catalog=None):
        lines = "".join(f".output {out / name}\n{statement(text)}" for name, text in texts.items())
        words = [self.program, "shell", "--data", folder, "--catalog", catalog or folder / "catalog"]
        words += ["--workers", self.threads]
        told, whole = printed([*map(str, words), "--stop"], f".timing on\n{lines}")
        times = [sum(parts) / 1000 for parts in measure.timed(told)]
        return session_of(whole, times, list(texts), out)


class Sqlite:
    """sqlite3, with tables in memory. It has one thread."""

    name = "sqlite3"
    package = "sqlite3"
    KINDS = {"int": "integer", "text": "text"}
    ROLES = {"key": " primary key", "need": " not null", "null": ""}
    TIME = re.compile(r"^Run Time: real ([\d.]+) ", re.M)

    def is_there(self):
        return shutil.which("sqlite3") is not None

    def loading(self, folder):
        """What makes and fills the tables. An import wants no closing bar."""
        yield '.bail on\n.mode ascii\n.separator "|" "\\n"\n'
        for table, columns in export.tables_of(folder / "catalog").items():
            names = ", ".join(f"{it.name} {self.KINDS[it.kind]}{self.ROLES[it.role]}" for it in columns)
            lines = shlex.join(["sed", "s/|$//", str(folder / f"{table}.tbl")])
            yield f'create table {table} ({names});\n.import "|{lines}" {table}\n'
        yield "analyze;\n.mode list\n"

    def session(self, folder, texts, out):
        lines = "".join(f".output {out / name}\n{statement(text)}" for name, text in texts.items())
        told, whole = printed(["sqlite3", ":memory:"], f"{''.join(self.loading(folder))}.timer on\n{lines}")
        return session_of(whole, [float(it) for it in self.TIME.findall(told)], list(texts), out)


class DataTable:
    """data.table of R. Its queries are those of peers.R, and not these texts."""

    name = "data.table"
    package = "r-cran-data.table"
    TIME = re.compile(r"^Q\d\.\d ([\d.e-]+) $", re.M)

    def __init__(self, threads):
        self.threads = threads

    def is_there(self):
        if shutil.which("Rscript") is None:
            return False
        return subprocess.run(["Rscript", "-e", "library(data.table)"], capture_output=True, check=False).returncode == 0

    def session(self, folder, texts, out):
        words = ["Rscript", "--vanilla", HERE / "peers.R", folder, out, self.threads, *texts]
        told, whole = printed([str(word) for word in words], "")
        return session_of(whole, [float(it) for it in self.TIME.findall(told)], list(texts), out)


class PostgreSQL:
    """A server of PostgreSQL of the script's own, which ends with it. Its tables lie in files."""

    name = "PostgreSQL"
    package = "postgresql"
    TIME = re.compile(r"^Time: ([\d.]+) ms", re.M)

    def __init__(self, threads):
        self.threads = threads
        self.folder = None
        self.stack = contextlib.ExitStack()

    @staticmethod
    def program(name):
        """The path of one of its programs, or None."""
        places = sorted(Path("/usr/lib/postgresql").glob(f"*/bin/{name}"))
        return str(places[-1]) if places else shutil.which(name)

    def is_there(self):
        return all(self.program(name) is not None for name in ("initdb", "postgres", "psql"))

    def as_server(self, words):
        """The words of a program that is run as a user whom the server accepts."""
        return ["runuser", "-u", SERVER_USER, "--", *words] if os.geteuid() == 0 else words

    def start(self):
        """Makes a server, and waits until it answers."""
        self.folder = Path(self.stack.enter_context(tempfile.TemporaryDirectory()))
        if os.geteuid() == 0:
            shutil.chown(self.folder, SERVER_USER)
        data = self.folder / "data"
        printed(self.as_server([self.program("initdb"), "-D", str(data), "-U", SERVER_USER, "--locale=C", "-E", "UTF8"]), "")
        settings = {
            "listen_addresses": "", "unix_socket_directories": self.folder, "fsync": "off", "shared_buffers": "2GB",
            "work_mem": "256MB", "maintenance_work_mem": "256MB", "max_wal_size": "8GB",
            "max_parallel_workers": self.threads, "max_parallel_workers_per_gather": self.threads - 1,
        }
        words = [self.program("postgres"), "-D", str(data), *(f"--{key}={value}" for key, value in settings.items())]
        server = self.stack.enter_context(subprocess.Popen(
            self.as_server(words), stdout=subprocess.DEVNULL, stderr=subprocess.DEVNULL, stdin=subprocess.DEVNULL
        ))
        self.stack.callback(server.terminate)
        self.psql("", "template1", times=100)

    def psql(self, text, database=DATABASE, times=1):
        """What psql prints of a text, and its seconds. It is tried as often as is said, until the server answers."""
        words = [self.program("psql"), "-X", "-q", "-A", "-t", "-h", str(self.folder), "-U", SERVER_USER, "-d", database]
        for left in range(times, 0, -1):
            try:
                return printed([*words, "-v", "ON_ERROR_STOP=1"], text)
            except Failed:
                if left == 1:
                    raise
                time.sleep(0.1)
        return None

    def fresh(self):
        """Makes an empty database, and a server before the first."""
        if self.folder is None:
            self.start()
        self.psql(f"drop database if exists {DATABASE};\ncreate database {DATABASE};\n", "template1")

    def session(self, folder, texts, out, catalog=None):
        self.fresh()
        lines = "".join(f"\\o {out / name}\n{statement(text)}" for name, text in texts.items())
        told, whole = self.psql(f"{export.script('postgresql', folder, catalog)}\\timing on\n{lines}")
        return session_of(whole, [float(it) / 1000 for it in self.TIME.findall(told)], list(texts), out)

    def close(self):
        """Ends the server."""
        self.stack.close()
