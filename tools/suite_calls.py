"""Calls of the program of suites: a list in parts, and the report of the whole. For tools/suite.

What one call begins ends with it: a signal that ends tools/suite ends its children first.
"""
import concurrent.futures
import os
import resource
import signal
import subprocess
import sys
import threading
from typing import Mapping, Optional, Sequence, Union

LIST_LIMIT = 65536
PARTS_PER_JOB = 4
NOT_THERE = 127
Word = Union[str, bytes]


class Children:
    """The processes that go on."""

    def __init__(self) -> None:
        # (a signal may come while this thread has it)
        self.lock = threading.RLock()
        self.processes: "set[subprocess.Popen[bytes]]" = set()
        self.is_over = False

    def begin(self, words: "Sequence[Word]", has_input: bool, more: Mapping[str, str]) -> "subprocess.Popen[bytes]":
        """Begins a command, unless all has ended."""
        with self.lock:
            if self.is_over:
                raise RuntimeError("all has ended")
            given = subprocess.PIPE if has_input else subprocess.DEVNULL
            # (a file of a list may be one that this call was given open)
            process = subprocess.Popen(words, stdin=given, stdout=subprocess.PIPE, env={**os.environ, **more}, close_fds=False)
            self.processes.add(process)
            return process

    def forget(self, process: "subprocess.Popen[bytes]") -> None:
        """Drops one that has ended."""
        with self.lock:
            self.processes.discard(process)

    def end(self) -> None:
        """Ends all that goes on."""
        with self.lock:
            self.is_over = True
            for process in self.processes:
                process.terminate()


CHILDREN = Children()


def say(text: str) -> None:
    """Says something on standard error, if anybody can hear it."""
    try:
        if sys.stderr is not None:
            print(text, file=sys.stderr, flush=True)
    except OSError:
        # (nor can what is left be said when this ends)
        os.dup2(os.open(os.devnull, os.O_WRONLY), 2)


def called(words: "Sequence[Word]", text: Optional[bytes] = None, more: Optional[Mapping[str, str]] = None) -> "tuple[int, bytes]":
    """The status of a command, and what it wrote; 127 where there is none."""
    try:
        process = CHILDREN.begin(words, text is not None, more or {})
    except OSError:
        return NOT_THERE, b""
    try:
        out, _ = process.communicate(text)
        return process.returncode, out
    finally:
        CHILDREN.forget(process)


def open_streams() -> None:
    """Opens standard streams that are closed, so that no file of this call or of what it begins stands in their place. Nothing can be written to this
    standard output."""
    for number in range(3):
        try:
            os.fstat(number)
        except OSError:
            os.set_inheritable(os.open(os.devnull, os.O_RDONLY if number == 1 else os.O_RDWR), True)


def jobs_for(wanted: int) -> int:
    """How many calls may go on at once, each of which wants some open files."""
    limit, _ = resource.getrlimit(resource.RLIMIT_NOFILE)
    return wanted if limit == resource.RLIM_INFINITY else max(1, min(wanted, (limit - 12) // 4))


def hear_signals() -> None:
    """Lets INT, TERM and HUP end this call, and before it what it began."""

    def end(number: int, _: object) -> None:
        CHILDREN.end()
        sys.exit(128 + number)

    for number in (signal.SIGINT, signal.SIGTERM, signal.SIGHUP):
        signal.signal(number, end)


class Part:
    """What one call of the program came to: its status and its report."""

    def __init__(self, status: int, report: bytes):
        self.status = status
        self.lines = report.split(b"\n")[:-1]

    def is_told(self) -> bool:
        """Whether it is the report of a suite."""
        return self.status in (0, 15)

    def is_bad_list(self) -> bool:
        """Whether a line of the list has no reading, which comes before all cases."""
        return self.status == 16 and self.lines[0].startswith(b"list reason=line ")

    def cases(self) -> int:
        """How many cases there were."""
        return number_in(self.lines[-1], b"cases=")

    def passed(self) -> int:
        """How many cases passed."""
        return number_in(self.lines[-1], b"passed=")

    def case_lines(self) -> "list[bytes]":
        """The lines of the cases."""
        return self.lines[: self.cases()]

    def clauses(self) -> "dict[bytes, int]":
        """Of how many cases the line names each clause."""
        words = [line.split() for line in self.lines[self.cases() : -1]]
        return {name: number_in(count, b"cases=") for _, name, count in words}


def place_in_standard(clause: bytes) -> "tuple[list[int], int]":
    """A key by which clauses stand in the order of the standard."""
    section, paragraph = clause.split(b"p")
    return [int(number) for number in section.split(b".")], int(paragraph)


def number_in(text: bytes, name: bytes) -> int:
    """The number behind a name in a line."""
    return int(text.split(name)[1].split()[0])


def renumbered(line: bytes, before: int) -> bytes:
    """The line of a case with so many cases before its part."""
    word, number, *rest = line.split(b" ", 2)
    return b" ".join([word, b"%d" % (int(number) + before), *rest])


def merged(parts: "list[Part]") -> "tuple[int, list[bytes]]":
    """The status and the report of the whole by those of its parts."""
    for part in parts:
        if part.is_bad_list():
            return part.status, part.lines
    before, passed, clauses, lines = 0, 0, {}, []
    for part in parts:
        if part.status == 16:
            return 16, [b"list reason=output case=%d" % (number_in(part.lines[0], b"case=") + before)]
        if not part.is_told():
            return part.status, part.lines
        lines += [renumbered(line, before) for line in part.case_lines()]
        for name, count in part.clauses().items():
            clauses[name] = clauses.get(name, 0) + count
        before += part.cases()
        passed += part.passed()
    for name in sorted(clauses, key=place_in_standard):
        lines.append(b"clause %s cases=%d" % (name, clauses[name]))
    lines.append(b"suite cases=%d passed=%d" % (before, passed))
    return (0 if passed == before else 15), lines


def parts_of(lines: "list[bytes]", count: int) -> "list[list[bytes]]":
    """Cuts lines into at least so many parts, as far as there are lines, each of which is no longer than a list may be."""
    count = max(1, min(count, len(lines)))
    parts = [lines[len(lines) * number // count : len(lines) * (number + 1) // count] for number in range(count)]
    fits = all(sum(len(line) + 1 for line in part) <= LIST_LIMIT for part in parts)
    return parts if fits or count == len(lines) else parts_of(lines, 2 * count)


def call(program: str, name: Word) -> Part:
    """Runs the program on one list."""
    status, report = called([program, name])
    if status < 0 and not CHILDREN.is_over:
        say(f"suite: {program} was ended by the signal {signal.Signals(-status).name}; so there is no report")
    if status < 0:
        return Part(128 - status, b"")
    return Part(status, report)


def run(program: str, lines: "list[bytes]", jobs: int, room: str) -> "tuple[int, list[bytes]]":
    """Runs the lines of cases in parts side by side: the status and the lines of the report."""
    names = []
    for index, part in enumerate(parts_of(lines, jobs * PARTS_PER_JOB if jobs > 1 else 1)):
        names.append(os.path.join(room, f"part{index}.suite"))
        with open(names[-1], "wb") as file:
            file.write(b"".join(line + b"\n" for line in part))
    with concurrent.futures.ThreadPoolExecutor(jobs) as pool:
        return merged(list(pool.map(lambda name: call(program, name), names)))
