"""The self-test of tools/hostile: programs that do what they must not, each of which is told, and one that does nothing of it."""
import os
import re
import tempfile
from typing import Iterator

import hostile_calls
from hostile_calls import Call, Place
from hostile_judge import WHOLE, fault_of, is_documented, run_shape
from hostile_rows import Part, Row, after
from hostile_shapes import SIZE, shapes

HERE = os.path.dirname(os.path.realpath(__file__))
CALL = Call("pvrun", ["check", "a.c"], {"a.c": b"int x;"}, 0, b"checked declarations=1\n", {"a.c": "source"})
RIGHT = [(0, CALL.out), (12, b"")]
# What a program does before its answer, or in its place, and a word of what is told of it.
WRONG = [
    ("leaves a file", "touch b.c", "a file: b.c"),
    ("leaves a temporary file", "mktemp >/dev/null", "a temporary file: tmp."),
    ("leaves a process", "sleep 60 &", "a process: sleep 60"),
    ("leaves a process in a session of its own", "setsid sleep 60 &", "a process: sleep 60"),
    ("has a status that nobody knows", "exit 99", "got 99"),
    ("is ended by a signal", "kill -SEGV $$", "got 139"),
    ("ends never", "while :; do sleep 0.1; done", "it had not ended"),
    ("writes something more", "echo more", "more"),
    ("writes nothing", "exit 0", "got 0 b''"),
]


def write_program(folder: str, text: str) -> None:
    """Writes a program that does something, and then what the right one does."""
    path = os.path.join(folder, "pvrun")
    with open(path, "w", encoding="utf-8") as file:
        file.write(f"#!/usr/bin/env bash\n{text}\necho 'checked declarations=1' 2>/dev/null || exit 12\n")
    os.chmod(path, 0o755)


def told_of(room: str, text: str, row: Row) -> str:
    """What is told of a program."""
    with tempfile.TemporaryDirectory(dir=room) as folder:
        write_program(folder, text)
        place = Place({"pvrun": os.path.join(folder, "pvrun")}, room)
        return fault_of(row, place.tell(row.call, row.shell, row.meanwhile))


def programs(room: str) -> "Iterator[tuple[str, bool, object]]":
    """What is looked at of programs: in words, whether it is so, and what was got."""
    row = Row("", "", CALL, RIGHT)
    told = told_of(room, ":", row)
    yield "a right program", told == "", told
    for name, text, wanted in WRONG:
        told = told_of(room, text, row)
        yield f"a program that {name}", wanted in told, told
    told = told_of(room, ":", Row("", "", CALL, RIGHT, 'exec "$@" >/dev/full'))
    yield "output that can't be written", told == "", told
    told = told_of(room, ":", Row("", "", CALL, [(0, CALL.out)], 'exec "$@" >/dev/full'))
    yield "a row that wants another status", "wanted 0 " in told, told
    told = told_of(room, "sleep 9", Row("", "", CALL, [(143, b"")], meanwhile=after(0.3, 15)))
    yield "a program that a signal ends leaves what it began", "a process: sleep 9" in told, told
    told = told_of(room, "exec sleep 9", Row("", "", CALL, [(143, Part)], meanwhile=after(0.3, 15)))
    yield "a program that a signal ends", told == "", told


# Reports, and whether the formats have them.
REPORTS = [
    ("pvrun", 0, b"some output exit status=-3 turn=9\n", True), ("pvrun", 0, b"exit status=3\n", False),
    ("pvrun", 0, b"checked declarations=7\n", True),
    ("pvrun", 0, b"struct s size=8 align=4\n  x offset=0 size=4\n", True), ("pvrun", 0, b"exit status=0 turn=29\nsides hl\n", True),
    ("pvrun", 1, b"undefined clause=6.5p5 reason=overflow line=1 turn=5\n", True), ("pvrun", 8, b"refused reason=main\n", True),
    ("pvrun", 8, b"refused reason=none\n", False), ("pvrun", 11, b"fault read\n", True), ("pvrun", 11, b"fault", False), ("pvrun", 13, b"", True),
    ("pvrun", 13, b"x", False), ("pvrun", 15, b"", False), ("pvrun", 6, b"aturns bound=2\n", True),
    ("pvrun", 9, b"script reason=repeated line=2 first=1\n", True),
    ("pvwhere", 8, b"a.c:1:8: refused: main\n  \n  ^\n", True), ("pvwhere", 0, b"", True), ("pvwhere", 1, b"", False),
    ("pv_suite", 15, b"pass 1\nfail 2 line words\nclause 6.5p5 cases=1\nsuite cases=2 passed=1\n", True),
    ("pv_suite", 16, b"list reason=size\n", True),
    ("pv_replay", 17, b"journal bad line=3\n", True), ("pv_replay", 0, b"end a#1 turn=9\nevents 1\n", True), ("pv_replay", 0, b"events\n", False),
    ("pv_step", 19, b"command reason=line line=1\n", True), ("pv_step", 0, b"turn 9 running\nlive count=0\n", True), ("pv_step", 9, b"jump\n", False),
]


def texts() -> "Iterator[tuple[str, bool, object]]":
    """What is looked at of reports and shapes."""
    for program, status, out, wanted in REPORTS:
        yield f"{program} {status} {out!r}", is_documented(program, status, out) is wanted, wanted
    made = list(shapes(1))
    yield "eighty shapes", len(made) >= 80, len(made)
    for name, text in made:
        size = len(text())
        yield f"2^20 bytes: {name}", size == SIZE, size
    yield "one name a shape", len({name for name, _ in made}) == len(made), made
    with open(os.path.join(HERE, "..", "docs", "FORMATS.md"), encoding="utf-8") as file:
        formats = file.read()
    listed = {int(number) for cell in re.findall(r"^\|[^|]*\| ([\d, ]+) \|", formats, re.MULTILINE) for number in cell.split(",")}
    known = {status for shapes_of in WHOLE.values() for status in shapes_of} | {status for status in range(15) if run_shape(status)} | {12}
    yield "the statuses are those of docs/FORMATS.md", listed <= known, listed - known


def self_test() -> int:
    """Tries the tool; returns the status of this call."""
    hostile_calls.LIMIT, hostile_calls.GRACE = 3.0, 0.5
    passed = failed = 0
    with tempfile.TemporaryDirectory(prefix="hostile-") as room:
        for rows in (programs(room), texts()):
            for words, is_so, got in rows:
                passed += is_so
                failed += not is_so
                if not is_so:
                    print(f"{words}: got {str(got)[:300]}")
    print(f"{passed} passed, {failed} failed")
    return 1 if failed else 0
