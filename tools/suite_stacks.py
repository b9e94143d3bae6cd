"""The calls that were active where a run ended, by the program pv_state, and how SARIF has them. For tools/suite_sarif.py.

The first frame is that of the innermost function, in the line where the run ended; each other one stands in the line in which it called the one
before. Lines are those of the text. Where the program isn't there, or tells of another end, there are no frames.
"""
import concurrent.futures
import os
import re
from typing import Callable, NamedTuple, Optional

import suite_calls

CALL = re.compile(r"call (\w+) line=(\d+)")
AT_LINE = re.compile(r" line=(\d+)(?= turn=\d+\Z|\Z)")
Json = "dict[str, object]"


def without_line(end: str) -> str:
    """An end without what hangs on line markers."""
    return AT_LINE.sub("", end)


class Frame(NamedTuple):
    """A function that was active, and the line of the text in which it was, where that is known."""

    function: str
    line: Optional[int]


def frames_in(told: str, end: str) -> "list[Frame]":
    """The frames of what pv_state tells of a run that ended so, whatever the line of its end."""
    first, *lines = told.splitlines() or [""]
    if without_line(first) != without_line(end):
        return []
    at = AT_LINE.search(first)
    place, frames = int(at[1]) if at else None, []
    for found in filter(None, map(CALL.fullmatch, lines)):
        frames.append(Frame(found[1], place))
        place = int(found[2])
    return frames


def frames_of(program: str, runs: "list[tuple[str, list[str], str]]") -> "list[list[Frame]]":
    """The frames of runs, of each the file of its text, its options and its end."""

    def asked(run: "tuple[str, list[str], str]") -> "list[Frame]":
        path, options, end = run
        status, told = suite_calls.called([program, path, *options])
        return frames_in(told.decode("utf-8", "replace"), end) if status == 0 else []

    with concurrent.futures.ThreadPoolExecutor(suite_calls.jobs_for(os.cpu_count() or 1)) as pool:
        return list(pool.map(asked, runs))


def called_here(frames: "list[Frame]", number: int) -> str:
    """What happened in the line of a frame that called the one before."""
    return f"{frames[number].function} called {frames[number - 1].function} here"


def related(frames: "list[Frame]", place_of: "Callable[[int], Json]") -> "list[Json]":
    """The places of the calls, each once."""
    told = []
    for number, frame in enumerate(frames[1:], 1):
        assert frame.line is not None
        place = {**place_of(frame.line), "message": {"text": called_here(frames, number)}}
        if place not in told:
            told.append(place)
    return told


def stacks(frames: "list[Frame]", place_of: "Callable[[int], Json]") -> "list[Json]":
    """The one stack that a result has; none where no function was active."""
    told = []
    for frame in frames:
        place = place_of(frame.line) if frame.line is not None else {}
        told.append({"location": {**place, "logicalLocations": [{"name": frame.function, "kind": "function"}]}})
    return [{"message": {"text": "the calls, innermost first"}, "frames": told}] if told else []
