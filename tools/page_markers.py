"""For tools/page: line markers of a source, and which files a preprocessor read for it."""
import os
import re
from typing import Iterator, Optional

MARKER = re.compile(rb'[ \t]*#[ \t]*(\d+)[ \t]+"((?:[^"\\]|\\.)*)"')


def places(source: bytes) -> Iterator[tuple[Optional[bytes], int]]:
    """For each line the file (None before any marker) and the number that line markers give it; a marker has the number 0."""
    name, number = None, 1
    for text in source.split(b"\n"):
        if found := MARKER.match(text):
            yield None, 0
            name, number = re.sub(rb"\\(.)", rb"\1", found[2]), int(found[1])
        else:
            yield name, number
            number += 1


def line_in(source: bytes, names: set[bytes], file: bytes, line: int) -> Optional[int]:
    """The line of the source, from 1, that this is by its line markers."""
    for index, (name, number) in enumerate(places(source), 1):
        if number == line and (name == file or name is None and file in names):
            return index
    return None


def files_of(text: bytes) -> set[str]:
    """The files that a preprocessor has read for this text, by the markers that it leaves."""
    found = re.findall(rb'^[ \t]*#[ \t]*(?:line[ \t]+)?\d+[ \t]+"((?:[^"\\]|\\.)*)"', text, re.M)
    return {os.fsdecode(re.sub(rb"\\(.)", rb"\1", name)) for name in found}


def reads_bytes(source: bytes) -> bool:
    """Whether the word embed stands in the source: its directive leaves no marker of the file that it reads."""
    return b"embed" in re.sub(rb"(?:\\|\?\?/)[ \t\v\f\r]*\n", b"", source)


def own_messages(messages: str, name: str) -> str:
    """The messages about the source itself, without the lines of any file."""
    own = [line.removeprefix(name) for line in messages.splitlines() if re.match(re.escape(name) + r":\d+:", line)]
    hints = [line for line in messages.splitlines() if line.startswith("pvrun: hint: ")]
    return "\n".join(["line " + line.lstrip(":") for line in own] + hints)
