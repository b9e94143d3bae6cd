"""For tools/step: which turn of a run is in which statement of the source.

No report tells that, so a second text is run. It is the source with a block of its own in front of each statement of a block: `{ char
pv_at_N; }`, which takes one turn and makes an object, and with an object `char pv_in_N;` in front of the first one of each function, which
takes none and ends with the function. The journal of that run tells when each of them was made, and so at which turn of the source's own run
the statement N began: as many turns earlier as there were such blocks before. What else both journals tell must be the same, turn by
turn; from where it isn't (a program can ask where its objects lie) no lines are shown.
"""
import bisect
import importlib.machinery
import importlib.util
import os
import re
import subprocess
from typing import Iterator, NamedTuple, Optional, Tuple

HERE = os.path.dirname(os.path.realpath(__file__))
BOUND = "1000000"
PROBE = re.compile(r"(create|end) pv_(at|in)_(\d+)#\d+ turn=(\d+)")
EVENT = re.compile(r"(\w+ [^ ]+) turn=(\d+)(.*)")


def spot():
    """The reader of statements of tools/spot, which is a program too."""
    loader = importlib.machinery.SourceFileLoader("spot", os.path.join(HERE, "spot"))
    module = importlib.util.module_from_spec(importlib.util.spec_from_loader("spot", loader))
    loader.exec_module(module)
    return module


SPOT = spot()


class Place(NamedTuple):
    """Where a statement of a block begins, and, of the first one of a function, where the brace of the function is."""

    at: int
    brace: Optional[int]


class Begun:
    """Which `do` of those without braces have still to come to their `while`, in each block that is open."""

    def __init__(self) -> None:
        self.waiting: "list[int]" = [0]

    def is_end_of_do(self, token: bytes) -> bool:
        """Whether a token behind a statement is the `while` of a `do`, which no other statement may part from it."""
        if token != b"while" or not self.waiting[-1]:
            return False
        self.waiting[-1] -= 1
        return True

    def take(self, last: bytes, token: bytes, depth: int) -> None:
        """Takes a token, the one before it, and how many braces are open behind it."""
        self.waiting[-1] += last == b"do" and token != b"{"
        self.waiting = [*self.waiting, *[0] * (depth + 1)][: depth + 1]


def statements(source: bytes) -> Iterator[Place]:
    """The places of the statements of blocks."""
    reader, begun, opened, brace = SPOT.Reader(), Begun(), False, None
    for at, token in SPOT.tokens_of(source):
        if opened and token not in (b"else", b"case", b"default", b"}") and not begun.is_end_of_do(token):
            yield Place(at, brace)
        last, ended = reader.last, reader.take(token)
        begun.take(last, token, len(reader.braces))
        in_block = bool(reader.braces) and set(reader.braces) <= {"block", "do"}
        opened = in_block and (ended in ("statement", "opened") or token == b"{")
        brace = at if opened and token == b"{" and len(reader.braces) == 1 else None


def probed(source: bytes, places: "list[Place]") -> bytes:
    """The source with something in front of each statement that tells when it begins."""
    parts, last = [], 0
    for number, (at, brace) in enumerate(places):
        parts += [source[last:at], b"" if brace is None else b"char pv_in_%d; " % number, b"{ char pv_at_%d; } " % number]
        last = at
    return b"".join([*parts, source[last:]])


def without_place(event: str) -> str:
    """An event without what depends on where something lies."""
    return re.sub(r" (base|address)=\S+", "", event)


# The place of a statement, and the frame that called its function.
Frame = Tuple[int, Optional["Frame"]]


class Lines:
    """The source's lines, and which turn is in which of them."""

    def __init__(self, replay: str, text: str, name: str, script: "list[str]"):
        with open(text, "rb") as file:
            self.source = file.read()
        self.name = name
        # from each of these turns on, up to the next one, the run was in the statement of this frame
        self.turns: "list[int]" = []
        self.frames: "list[Frame]" = []
        # the last turn of which that is known
        self.last = 0
        if replay and b"pv_at_" not in self.source and b"pv_in_" not in self.source:
            self.find(replay, text, script)

    def find(self, replay: str, text: str, script: "list[str]") -> None:
        """Finds where each statement began."""
        places = list(statements(self.source))
        own = journal([replay, "write", text, *script, "--turns", BOUND], b"")
        more = journal([replay, "write", "/dev/stdin", *script, "--turns", str(2 * int(BOUND))], probed(self.source, places))
        if own is not None and more is not None:
            self.follow(own, more, places)

    def follow(self, own: "list[str]", more: "list[str]", places: "list[Place]") -> None:
        """Takes the journal of the second text event by event, beside that of the source."""
        before, waiting, seen = 0, None, 0
        for line in more:
            probe = PROBE.match(line)
            if probe and probe[1] == "create":
                place, turn = places[int(probe[3])], int(probe[4]) - before - 1
                before += probe[2] == "at"
                # (the turn of a function's block is taken before its objects are made)
                waiting = (place.brace, waiting) if probe[2] == "in" else (place.at, waiting and waiting[1])
                self.enter(turn, waiting)
            elif probe and probe[2] == "in":
                waiting = waiting and waiting[1]
                if waiting:
                    self.enter(int(probe[4]) - before, waiting)
            elif not probe:
                event = EVENT.match(line)
                wanted = own[seen] if seen < len(own) else ""
                if event and without_place(f"{event[1]} turn={int(event[2]) - before}{event[3]}") != without_place(wanted):
                    return
                self.last = int(event[2]) - before if event else int(BOUND)
                seen += 1

    def enter(self, turn: int, frame: Frame) -> None:
        """From here on the run is in the statement of this frame."""
        self.turns.append(turn)
        self.frames.append(frame)
        self.last = max(self.last, turn)

    def places_at(self, turn: int) -> "list[int]":
        """The places of the statements in which a turn is, the innermost one first, where they are known."""
        at, places = bisect.bisect_left(self.turns, turn) - 1, []
        frame = self.frames[at] if at >= 0 and turn <= self.last else None
        while frame:
            places.append(frame[0])
            frame = frame[1]
        return places

    def beside(self, turn: int) -> str:
        """The source's line that a turn is in: its file, its number and its text; empty where it isn't known."""
        at = bisect.bisect_left(self.turns, turn) - 1
        return self.shown(self.frames[at][0]) if at >= 0 and turn <= self.last else ""

    def shown(self, place: int) -> str:
        """A place's file, its line and the text of that."""
        begin = self.source.rfind(b"\n", 0, place) + 1
        end = self.source.find(b"\n", place)
        text = SPOT.shown(self.source[begin : end if end >= 0 else len(self.source)][:200])
        return f"{SPOT.place_of(self.source, self.name, place)}: {text.strip()}"


def journal(words: "list[str]", text: bytes) -> "Optional[list[str]]":
    """The lines of a run's journal; nothing where there is none."""
    done = subprocess.run(words, input=text, stdout=subprocess.PIPE, check=False)
    return done.stdout.decode("utf-8", "replace").splitlines() if done.returncode == 0 else None
