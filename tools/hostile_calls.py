"""For tools/hostile: one call of a program under some condition, what came of it, and what it left behind."""
import os
import shutil
import signal
import subprocess
import tempfile
import time
from dataclasses import dataclass, field
from typing import Callable, Mapping, Optional, Sequence, Union

Word = Union[str, bytes]
MARK = "HOSTILE_CALL"
# How long a call may take, and how long what it began may live after it, in seconds. (Other work on the machine makes all of it slower.)
LIMIT = 30.0
GRACE = 2.0


@dataclass(frozen=True)
class Call:
    """A program with words, the files of the folder that it is called in, and what comes where nothing is in its way."""

    program: str
    words: Sequence[Word]
    files: Mapping[str, bytes]
    status: int
    out: bytes
    # which of the files are read, and as what: source, script, list, output, journal, commands
    reads: Mapping[str, str] = field(default_factory=dict)
    # another program that it can't do without
    needs: str = "pvrun"

    def shown(self) -> str:
        """The call in one line."""
        return " ".join([self.program, *(os.fsdecode(word)[:60] for word in self.words)])


@dataclass
class Told:
    """What came of a call: its status, 128 + N where signal N ended it, what it wrote, and what it left behind."""

    status: int
    out: bytes
    err: bytes
    seconds: float
    left: "list[str]"


class Running:
    """A call that goes on, for what is done to it meanwhile."""

    def __init__(self, process: "subprocess.Popen[bytes]", folder: str):
        self.process, self.folder = process, folder

    def goes_on(self) -> bool:
        """Returns whether it has not ended yet."""
        return self.process.poll() is None

    def send(self, number: int) -> None:
        """Sends it a signal, if it goes on."""
        if self.goes_on():
            self.process.send_signal(number)


Meanwhile = Callable[[Running], None]


class Place:
    """The programs, and a folder in which each call has one of its own."""

    def __init__(self, programs: Mapping[str, str], room: str):
        self.programs, self.room = programs, room

    def end(self) -> None:
        """Ends all calls that go on."""
        still_there(f"{MARK}={self.room}/", 0.0)

    def tell(self, call: Call, shell: str = 'exec "$@"', meanwhile: Optional[Meanwhile] = None) -> Told:
        """Makes a call by a few words of shell, where `"$@"` is the program with its words."""
        here = tempfile.mkdtemp(dir=self.room)
        work, spare = os.path.join(here, "work"), os.path.join(here, "spare")
        os.mkdir(work)
        os.mkdir(spare)
        for name, held in call.files.items():
            with open(os.path.join(work, name), "wb") as file:
                file.write(held)
        try:
            return self._tell(call, shell, meanwhile, here)
        finally:
            shutil.rmtree(here, ignore_errors=True)

    def _tell(self, call: Call, shell: str, meanwhile: Optional[Meanwhile], here: str) -> Told:
        work = os.path.join(here, "work")
        mark = f"{MARK}={here}\0"
        env = {"PATH": os.environ["PATH"], "HOME": here, "TMPDIR": os.path.join(here, "spare"), MARK: here, "LC_ALL": "C"}
        words = ["bash", "-c", "ulimit -c 0; " + shell, "bash", self.programs[call.program], *call.words]
        began = time.monotonic()
        with open(os.path.join(here, "out"), "wb") as out, open(os.path.join(here, "err"), "wb") as err:
            process = subprocess.Popen(
                words, cwd=work, env=env, stdin=subprocess.DEVNULL, stdout=out, stderr=err, start_new_session=True
            )
        if meanwhile:
            meanwhile(Running(process, work))
        left = []
        try:
            status = process.wait(max(0.1, began + LIMIT - time.monotonic()))
        except subprocess.TimeoutExpired:
            left = [f"it had not ended after {LIMIT:.0f} seconds"]
            process.kill()
            status = process.wait()
        seconds = time.monotonic() - began
        left += [f"a process: {name}" for name in still_there(mark)] + files_left(call, here)
        held = [read_file(os.path.join(here, name)) for name in ("out", "err")]
        return Told(128 - status if status < 0 else status, held[0], held[1], seconds, left)


def read_file(name: str) -> bytes:
    """What a file holds."""
    with open(name, "rb") as file:
        return file.read()


def files_left(call: Call, here: str) -> "list[str]":
    """What a call left in its folder, and in that for temporary files."""
    left = [f"a temporary file: {name}" for name in sorted(os.listdir(os.path.join(here, "spare")))]
    work = os.path.join(here, "work")
    return left + [f"a file: {name}" for name in sorted(set(os.listdir(work)) - set(call.files))]


def marked(mark: str) -> "dict[int, str]":
    """The living processes that have this in their environment, as those have that a call has begun."""
    found = {}
    for name in filter(str.isdigit, os.listdir("/proc")):
        try:
            with open(f"/proc/{name}/environ", "rb") as file:
                if mark.encode() not in file.read():
                    continue
            with open(f"/proc/{name}/cmdline", "rb") as file:
                found[int(name)] = file.read().replace(b"\0", b" ").decode("utf-8", "replace")[:120]
        except OSError:
            continue
    return found


def still_there(mark: str, grace: "Optional[float]" = None) -> "list[str]":
    """The processes that a call left behind, which are ended here."""
    until = time.monotonic() + (GRACE if grace is None else grace)
    found = marked(mark)
    while found and time.monotonic() < until:
        time.sleep(0.02)
        found = marked(mark)
    for number in found:
        try:
            os.kill(number, signal.SIGKILL)
        except OSError:
            pass
    return list(found.values())
