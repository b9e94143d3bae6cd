"""Where a line of a text is that may have been preprocessed: in which file, in which line of that, and which part of it. For tools/suite.

A line of a text is counted from 1, as if there were no line markers. A report counts as line markers do, so that one of its lines may stand for
several: a text with its markers emptied has the same tokens, takes the same turns, and each of its lines has one place.
"""
import os
import re
from typing import NamedTuple, Optional

from step_lines import SPOT, Lines, statements

HERE = os.path.dirname(os.path.realpath(__file__))
HEADERS = os.path.realpath(os.path.join(HERE, "..", "include"))
# What a line marker may stand in, or may not.
COMMENT_OR_LITERAL = re.compile(rb"""/\*.*?(?:\*/|\Z)|//[^\n]*|"(?:[^"\\\n]|\\.)*"|'(?:[^'\\\n]|\\.)*'""", re.S)
ANY_MARKER = re.compile(rb'^[ \t]*#[ \t]*[0-9]+[ \t]+".*', re.M)
# What stands before the first statement of a line and is none that runs.
NOT_RUN = (b"{", b"}", b"else", b"default", b":")


class Place(NamedTuple):
    """A line of a file."""

    file: bytes
    line: int


def plain(source: bytes) -> bytes:
    """The text with its line markers emptied."""
    return ANY_MARKER.sub(b"", source)


def unquoted(name: bytes) -> bytes:
    """A file's name from between the quotes of a line marker."""
    return re.sub(rb"\\([0-7]{3}|.)", lambda it: bytes([int(it[1], 8) % 256]) if len(it[1]) == 3 else b"\n" if it[1] == b"n" else it[1], name)


def is_ours(file: bytes) -> bool:
    """Whether a file is a header that comes with the program."""
    return os.path.realpath(os.path.dirname(os.fsdecode(file))) == HEADERS


class Text:
    """A text that a program got, and where its lines come from."""

    def __init__(self, source: bytes, name: bytes, is_fresh: bool):
        """NAME is what the text's file is called where no marker says so; where it is fresh, the files that markers name are as they were."""
        self.source, self.is_fresh = source, is_fresh
        self.lines = source.split(b"\n")
        self.files: "dict[bytes, Optional[list[bytes]]]" = {}
        self.places: "list[Place]" = []
        self.is_marked = False
        self.regions: "dict[int, dict[str, object]]" = {}
        self.find_places(name)

    def find_places(self, name: bytes) -> None:
        """Follows the line markers. The file of standard input has the name of what was asked for."""
        file, line = name, 1
        without_comments = COMMENT_OR_LITERAL.sub(lambda it: it[0] if it[0][:1] in b"\"'" else b"\n" * it[0].count(b"\n"), self.source)
        for text in without_comments.split(b"\n"):
            self.places.append(Place(file, line))
            marker = SPOT.MARKER.match(text)
            if marker:
                file, line, self.is_marked = unquoted(marker[2]), int(marker[1]), True
                file = name if file == b"<stdin>" else file
            else:
                line += 1

    def place(self, line: int) -> Optional[Place]:
        """Where a line of the text comes from."""
        return self.places[line - 1] if 1 <= line <= len(self.places) else None

    def line_of(self, at: int) -> int:
        """In which line of the text a byte stands."""
        return self.source.count(b"\n", 0, at) + 1

    def original(self, line: int) -> Optional[bytes]:
        """The line as it stands in its file, where that is known."""
        place = self.place(line)
        if place is None or not self.is_marked:
            return None if place is None else self.lines[line - 1]
        if place.file not in self.files:
            self.files[place.file] = read_lines(place.file) if self.is_fresh else None
        held = self.files[place.file]
        return held[place.line - 1] if held and 1 <= place.line <= len(held) else None

    def part(self, line: int) -> "tuple[int, int]":
        """From which byte to which the statement stands in a line of the text, or all that is there where more than one begins in it."""
        first = sum(len(text) + 1 for text in self.lines[: line - 1])
        tokens = [(at, token) for at, token in SPOT.tokens_of(self.source) if first <= at < first + len(self.lines[line - 1])]
        if not tokens:
            return 0, 0
        begun = [place for place in statements(self.source) if tokens[0][0] <= place.at <= tokens[-1][0]]
        begin, end = tokens[0][0], tokens[-1][0] + len(tokens[-1][1])
        if len(begun) == 1 and (begun[0].brace is not None or all(token in NOT_RUN for at, token in tokens if at < begun[0].at)):
            begin = begun[0].at
            ends = [at + 1 for at, token in tokens if token == b";" and at >= begin]
            end = ends[-1] if ends and all(token == b"}" for at, token in tokens if at >= ends[-1]) else end
        return begin - first, end - first

    def region(self, line: int) -> "dict[str, object]":
        """The region of SARIF for a line of the text: the statement there, by columns where the line is known as it stands in its file."""
        if line not in self.regions:
            self.regions[line] = self.found_region(line)
        return self.regions[line]

    def found_region(self, line: int) -> "dict[str, object]":
        """The same, looked for in the text."""
        place, held = self.place(line), self.original(line)
        if place is None or place.line < 1:
            return {}
        begin, end = (0, 0) if held is None else part_of(self, line, held)
        if held is None or begin == end or not is_utf_8(held):
            return {"startLine": place.line}
        columns = {"startColumn": units(held[:begin]) + 1, "endColumn": units(held[:end]) + 1}
        return {"startLine": place.line, **columns, "snippet": {"text": held[begin:end].decode()}}


def part_of(text: Text, line: int, held: bytes) -> "tuple[int, int]":
    """The part of a line as it stands in its file; where macros were expanded in it that is all of it but for blanks."""
    if held.rstrip() == text.lines[line - 1].rstrip():
        return text.part(line)
    return len(held) - len(held.lstrip()), len(held.rstrip())


def is_utf_8(text: bytes) -> bool:
    """Whether bytes are UTF-8."""
    try:
        text.decode()
    except UnicodeDecodeError:
        return False
    return True


def units(text: bytes) -> int:
    """How many code units of UTF-16 a text has, by which SARIF counts columns."""
    return len(text.decode(errors="replace").encode("utf-16-le")) // 2


def read_lines(name: bytes) -> "Optional[list[bytes]]":
    """The lines of a file, where it can be read."""
    try:
        with open(name, "rb") as file:
            return file.read().replace(b"\r\n", b"\n").split(b"\n")
    except (OSError, ValueError):
        return None


def way_to(text: Text, path: str, replay: str, script: "list[str]", turn: int) -> "list[int]":
    """The lines of the statements in which a turn of the run is, the innermost one first; none where that isn't known."""
    found = Lines(replay, path, "", script)
    return [text.line_of(at) for at in found.places_at(turn)]
