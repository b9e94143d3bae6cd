"""For tools/page: a program is called within bounds of time, memory and output, and ended with all that it began."""
import os
import resource
import signal
import subprocess
import threading
import time
from typing import Optional

from explore_runs import LONGEST_FILE, Fault

LONGEST_REPORT = 1 << 23  # bytes behind the output: the report, and what watchers say


class Kept:
    """The first and the last bytes of what a program writes."""

    def __init__(self, first: int, last: int):
        self.first, self.last = first, last
        self.bytes = bytearray()
        self.dropped = 0

    def add(self, more: bytes) -> None:
        self.bytes += more
        if len(self.bytes) > self.first + 2 * self.last:
            self.drop()

    def drop(self) -> None:
        """Drops what lies between the first and the last bytes."""
        surplus = len(self.bytes) - self.first - self.last
        if surplus > 0:
            del self.bytes[self.first:self.first + surplus]
            self.dropped += surplus


class Caller:
    """Calls programs with the room for their files, one at a time. At the deadline a program is ended with all that it began."""

    def __init__(self, room: str, folder: str, seconds: Optional[float] = None, memory: Optional[int] = None):
        self.room, self.folder = room, folder
        self.seconds, self.memory = seconds, memory
        self.deadline = time.monotonic() + seconds if seconds else None
        self.leader: Optional[int] = None  # the process that runs
        self.is_over = False

    def call(self, words: list[str], first: int = 0, last: int = LONGEST_REPORT, of: str = "stdout") -> tuple[int, Kept]:
        """The status, and what was written to standard output, or to standard error."""
        kept = Kept(first, last)
        streams = {"stdout": subprocess.DEVNULL, "stderr": subprocess.DEVNULL, of: subprocess.PIPE}
        names = {"LC_ALL": "C", "TMPDIR": self.room, "ASAN_OPTIONS": "exitcode=125"}
        place = {"cwd": self.folder, "env": {**os.environ, **names}, "start_new_session": True}
        clock = threading.Timer(max(0.0, self.deadline - time.monotonic()), self.end) if self.deadline else None
        with subprocess.Popen(words, stdin=subprocess.DEVNULL, **place, **streams) as program:
            self.leader = program.pid
            try:
                if clock:
                    limit(program.pid, self.memory)
                    clock.start()
                stream = getattr(program, of)
                while not self.is_over and (more := stream.read1(1 << 16)):
                    kept.add(more)
                if not self.is_over:
                    os.waitid(os.P_PID, program.pid, os.WEXITED | os.WNOWAIT)
            finally:
                end_group(program.pid)
                status = program.wait()
                self.leader = None
                if clock:
                    clock.cancel()
        if self.is_over:
            self.wait_for_group(program.pid)
            raise Late(self.seconds)
        kept.drop()
        return status, kept

    def wait_for_group(self, leader: int) -> None:
        """Gives what was ended a moment to be gone, before the room is removed that it writes to."""
        ends = time.monotonic() + 0.5
        while is_there(leader) and time.monotonic() < ends:
            time.sleep(0.02)

    def end(self) -> None:
        """Ends what runs, and lets nothing more be called."""
        self.is_over = True
        if self.leader:
            end_group(self.leader)


class Late(Fault):
    """The time that a request has is over."""

    def __init__(self, seconds: Optional[float]):
        super().__init__(f"ended after {seconds:g} seconds, without a verdict; fewer turns take less time")


def is_there(leader: int) -> bool:
    """Whether something of its group is left."""
    try:
        os.killpg(leader, 0)
    except (ProcessLookupError, PermissionError):
        return False
    return True


def limit(program: int, memory: Optional[int]) -> None:
    """Bounds the memory of a program that was begun just now, and the files that it writes."""
    try:
        if memory:
            resource.prlimit(program, resource.RLIMIT_AS, (memory, memory))
        resource.prlimit(program, resource.RLIMIT_FSIZE, (LONGEST_FILE, LONGEST_FILE))
    except (ProcessLookupError, PermissionError):
        pass  # (it has ended)


def end_group(leader: int) -> None:
    """Ends a program with all that it began."""
    try:
        os.killpg(leader, signal.SIGKILL)
    except (ProcessLookupError, PermissionError):
        pass
