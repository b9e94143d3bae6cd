"""For tools/explore: the programs pvrun and pv_replay over one source, under scripts of addresses."""
import os
import re
import signal
import subprocess
from contextlib import contextmanager
from itertools import count
from typing import Iterator, NamedTuple, Optional

from explore_places import Journal, Lines, text_of

HERE = os.path.dirname(os.path.realpath(__file__))
LONGEST_FILE = 1 << 24  # bytes that are read of a file before it is preprocessed

PLACEMENT = 4
# The report of a run by its status (docs/FORMATS.md).
SHAPES = {
    0: rb"exit status=-?\d+ turn=\d+",
    1: rb"undefined clause=[\d.]+p\d+ reason=[a-z]+ line=\d+ turn=\d+",
    2: rb"indeterminate line=\d+ turn=\d+",
    3: rb"undecided line=\d+ turn=\d+",
    PLACEMENT: rb"placement reason=[a-z]+ name=[@\w]+ k=\d+ line=\d+ turn=\d+",
    5: rb"storage live=\d+ size=\d+ line=\d+ turn=\d+",
    6: rb"turns bound=\d+",
    7: rb"abort line=\d+ turn=\d+",
}
CENSUS = rb"create \d+\nend \d+\nexpose \d+\npair \d+\nuse \d+\nfault \d+\n"


class Fault(Exception):
    """Why the tool can't answer."""


class NoVerdict(Fault):
    """A program ended without a verdict, with this status and line."""

    def __init__(self, program: str, status: int, written: bytes):
        self.status = status
        self.line = shown(written.decode("utf-8", "replace").strip()[-200:])
        how = f"ended with status {status}" if status >= 0 else f"was ended by signal {-status}"
        super().__init__(f"{shown_path(program)} {how}: {self.line or 'it wrote nothing'}")


class Verdict(NamedTuple):
    """How a run ended, and how many events of each kind it had."""

    status: int
    report: str
    census: str

    @property
    def words(self) -> str:
        """The report without its turn."""
        return re.sub(r" turn=\d+$", "", self.report)


def shown(text: str) -> str:
    """Control bytes, and bytes that are no text, show as question marks."""
    return re.sub(r"[\x00-\x1f\x7f\ufffd]", "?", os.fsencode(text).decode("utf-8", "replace"))


def shown_path(path: str) -> str:
    """A path as it is short: from here, if it leads down."""
    here = os.path.relpath(path)
    return shown(path if here.startswith("..") else here)


# ---- files

def read(name: str) -> bytes:
    try:
        with open(name, "rb") as file:
            return file.read(LONGEST_FILE + 1)
    except OSError as error:
        raise Fault(f"'{shown(name)}' can't be read: {error.strerror}") from error


def write(name: str, text: bytes) -> None:
    try:
        with open(name, "wb") as file:
            file.write(text)
    except OSError as error:
        raise Fault(f"'{shown(name)}' can't be written: {error.strerror}") from error


def has_directives(source: bytes) -> bool:
    """Whether the source is to be preprocessed, as the launcher finds it."""
    if b"#" not in source and b"%:" not in source:
        return False
    words = ["awk", "-f", f"{HERE}/lines.awk", "-f", f"{HERE}/directives.awk"]
    return subprocess.run(words, input=source, stdout=subprocess.DEVNULL, env={**os.environ, "LC_ALL": "C"}).returncode == 0


class Source(NamedTuple):
    """The file that the programs get, the name that was asked for, and whether it was preprocessed just now."""

    text: str
    name: str
    is_fresh: bool


def take_source(name: str, room: str, is_lowered: bool = False) -> Source:
    """Reads the file once, since it may be a pipe, and preprocesses it where it has directives, or is to be written out by tools/lower."""
    held, text = f"{room}/source.c", f"{room}/text.i"
    source = read(name)
    write(held, source)
    if not is_lowered and not has_directives(source):
        return Source(held, name, False)
    given = name if os.path.isfile(name) else "-"
    with open(held, "rb") as file:
        if subprocess.run([f"{HERE}/preprocess", given, text, "--marks", *(["--lower"] * is_lowered)], stdin=file).returncode:
            raise Fault(f"'{shown(name)}' could not be preprocessed")
    return Source(text, name, True)


def find_program(folder: Optional[str], name: str) -> str:
    """The program in the folder, or the one that is built here."""
    program = os.path.abspath(os.path.join(folder or f"{HERE}/../crates/{name}/out", name))
    if not os.path.isfile(program) or not os.access(program, os.X_OK):
        raise Fault(f"there is no program {shown_path(program)}" + ("" if folder else f": tools/prove {name} makes it"))
    return program


# ---- runs

class Runs:
    """One source, run under scripts."""

    def __init__(self, folder: Optional[str], room: str, source: Source, turns: Optional[int]):
        self.pvrun = find_program(folder, "pvrun")
        self.pv_replay = find_program(folder, "pv_replay")
        self.source = source
        self.bound = ["--turns", str(turns)] if turns else []
        self.room = room
        self.numbers = count()  # (threads may share it)

    @contextmanager
    def script(self, text: bytes) -> Iterator[str]:
        """The name of a file with this text."""
        name = f"{self.room}/{next(self.numbers)}.script"
        write(name, text)
        try:
            yield name
        finally:
            os.remove(name)

    def ask(self, program: str, mode: str, text: bytes, *words: str) -> tuple[int, bytes]:
        """The program's status, and what it writes, with this text as the script."""
        with self.script(text) as script:
            asked = [program, mode, self.source.text, "--script", script, *self.bound, *words]
            told = subprocess.run(asked, stdin=subprocess.DEVNULL, stdout=subprocess.PIPE, stderr=subprocess.DEVNULL)
        if told.returncode == -signal.SIGINT:
            raise KeyboardInterrupt
        return told.returncode, told.stdout

    def verdict(self, lines: Lines) -> Verdict:
        """How the run under these lines ends."""
        return self.verdict_under(text_of(lines).encode())

    def verdict_under(self, text: bytes) -> Verdict:
        """How the run under this text ends, which may be no script; its output is not looked at."""
        status, written = self.ask(self.pvrun, "run", text, "--watch", "census")
        shape = SHAPES.get(status)
        found = shape and re.search(b"(%s)\n(%s)\\Z" % (shape, CENSUS), written)
        if not found:
            raise NoVerdict(self.pvrun, status, written)
        return Verdict(status, found[1].decode(), found[2].decode())

    def journal(self, lines: Lines) -> Journal:
        """The instances of the run under these lines."""
        status, written = self.ask(self.pv_replay, "write", text_of(lines).encode())
        if status:
            raise NoVerdict(self.pv_replay, status, written)
        return Journal(written.decode())

    def explained(self, lines: Lines, status: int) -> list[str]:
        """What the launcher says in words of the report of the run under these lines."""
        words = [f"{HERE}/explain-fault"] + (["--fresh"] if self.source.is_fresh else [])
        words += [self.pvrun, self.source.text, self.source.name, str(status), *self.bound]
        with self.script(text_of(lines).encode()) as script:
            told = subprocess.run([*words, "--script", script], stdin=subprocess.DEVNULL, stderr=subprocess.PIPE)
        return told.stderr.decode("utf-8", "replace").splitlines()
