"""For tools/spot: a source as text: its tokens, where its statements end, which file and line a place has, and copies with a part taken out."""
import os
import re
from typing import Iterator, NamedTuple

TOKEN = re.compile(
    rb"""(?P<skip>/\*.*?\*/|//[^\n]*|^[ \t]*\#[^\n]*)|"(?:[^"\\\n]|\\.)*"|'(?:[^'\\\n]|\\.)*'|\w+|\S""", re.S | re.M
)
MARKER = re.compile(rb'[ \t]*#[ \t]*(\d+)[ \t]+"((?:[^"\\]|\\.)*)"')
OPENERS, CLOSERS = (b"(", b"[", b"{"), (b")", b"]", b"}")


class Token(NamedTuple):
    at: int
    text: bytes

    @property
    def end(self) -> int:
        return self.at + len(self.text)


class Cut(NamedTuple):
    """A place where a statement ends, and what closes the text there."""

    at: int
    closing: bytes


def tokens_of(source: bytes) -> list[Token]:
    return [Token(it.start(), it.group()) for it in TOKEN.finditer(source) if it["skip"] is None]


def tokens_within(source: bytes, begin: int, end: int) -> list[Token]:
    return [token for token in tokens_of(source) if begin <= token.at < end]


# ---- where statements end

class Reader:
    """Follows the tokens of a source: which braces are open, and whether a statement ends with a token."""

    CLOSERS = {"block": b"}", "do": b"} while (0);", "members": b"int pv_member; } pv_spot;", "list": b"}"}

    def __init__(self) -> None:
        self.braces: list[str] = []
        self.parentheses: list[bytes] = []
        self.last = b""
        self.before = b""
        self.opened_by = b""

    def kind_of_brace(self) -> str:
        """What the brace opens that comes after the last token."""
        if self.last in (b"struct", b"union", b"enum") or self.before in (b"struct", b"union", b"enum"):
            return "members" if b"enum" not in (self.last, self.before) else "list"
        if self.last == b"do":
            return "do"
        if self.last == b")":
            return "block" if not self.braces or self.opened_by in (b"if", b"while", b"for", b"switch") else "list"
        if self.last in (b"=", b",", b"(", b"return") or self.last == b"{" and self.braces[-1] == "list":
            return "list"
        return "block"

    def take(self, token: bytes) -> str:
        """Takes the next token; answers what ends with it: a statement, a declaration, or nothing."""
        ended = ""
        if token in (b"(", b"["):
            self.parentheses.append(self.last)
        elif token in (b")", b"]") and self.parentheses:
            self.opened_by = self.parentheses.pop()
        elif token == b"{":
            self.braces.append(self.kind_of_brace())
            ended = "" if self.braces[-1] == "list" or self.parentheses else "opened"
        elif token == b"}" and self.braces:
            ended = self.close()
        elif token == b";" and not self.parentheses and "list" not in self.braces:
            ended = "statement" if self.braces else "declaration"
        self.before, self.last = self.last, token
        return ended

    def close(self) -> str:
        """What ends with the brace that closes the innermost one."""
        kind = self.braces.pop()
        if kind != "block" or self.parentheses:
            return ""
        return "statement" if self.braces else "declaration"

    def closing(self) -> bytes:
        """What closes all that is open."""
        return b" ".join(self.CLOSERS[it] for it in reversed(self.braces))


def cuts_of(source: bytes, whole: int) -> tuple[list[Cut], bool]:
    """The places where statements end in the declaration after the first `whole` ones, the first being where it begins; and whether a brace is
    open at the end of the source."""
    reader, declarations = Reader(), 0
    cuts = [Cut(0, b"")] if not whole else []
    for token in tokens_of(source):
        ended = reader.take(token.text)
        if declarations == whole and ended:
            cuts.append(Cut(token.end, reader.closing()))
        if ended == "declaration":
            if declarations == whole:
                break
            declarations += 1
            cuts = [Cut(token.end, b"")] if declarations == whole else []
    return cuts or [Cut(0, b"")], bool(reader.braces)


# ---- places

def unquoted(name: bytes) -> str:
    """A file's name from between the quotes of a line marker; control bytes show as question marks."""

    def meant(escape: re.Match[bytes]) -> bytes:
        if len(escape[1]) == 3:
            return bytes([int(escape[1], 8) % 256])
        return b"\n" if escape[1] == b"n" else escape[1]

    return shown(re.sub(rb"\\([0-7]{3}|.)", meant, name))


def shown(text: bytes) -> str:
    """Control bytes show as question marks, and what a preprocessor made of letters beyond ASCII as these letters."""
    text = re.sub(rb"\\U([0-9a-f]{8})", lambda it: chr(int(it[1], 16)).encode() if int(it[1], 16) < 0x110000 else it[0], text)
    return re.sub(r"[\x00-\x08\x0a-\x1f\x7f]", "?", os.fsdecode(text).encode("utf-8", "replace").decode())


class Place(NamedTuple):
    """File, line and column, as line markers count them; columns are bytes from 1."""

    file: str
    line: int
    column: int

    def __str__(self) -> str:
        return f"{self.file}:{self.line}:{self.column}"


def full_place(source: bytes, name: str, at: int) -> Place:
    line, file = 1, shown(os.fsencode(name))
    lines = source[:at].split(b"\n")
    for text in lines[:-1]:
        marker = MARKER.match(text)
        if marker:
            line, file = int(marker[1]), unquoted(marker[2])
        else:
            line += 1
    return Place(file, line, len(lines[-1]) + 1)


def place_of(source: bytes, name: str, at: int) -> str:
    """File and line alone."""
    place = full_place(source, name, at)
    return f"{place.file}:{place.line}"


def line_with_mark(source: bytes, at: int) -> list[str]:
    """The line of a place, and a mark below the place."""
    begin = source.rfind(b"\n", 0, at) + 1
    line = source[begin:].split(b"\n", 1)[0][:200]
    before = line[: at - begin]
    mark = "".join("\t" if it == 9 else " " for it in before) + "^"
    return ["  " + shown(line)] + (["  " + mark] if at - begin <= len(line) else [])


# ---- copies

def blanked(source: bytes, begin: int, end: int, word: bytes = b"") -> bytes:
    """A copy with the word at the place of what stands from begin to end; each line, and what stands elsewhere, keeps its place."""
    blank = re.sub(rb"[^\n]", b" ", source[begin:end])
    if b"\n" in blank[: len(word)] or len(word) > len(blank):
        word = b""
    return source[:begin] + word + blank[len(word):] + source[end:]


def initializers(source: bytes, begin: int, end: int) -> Iterator[tuple[int, int]]:
    """From where to where the initializers stand of a declaration, the signs = with them."""
    depth, since = 0, -1
    for token in tokens_within(source, begin, end):
        depth += (token.text in OPENERS) - (token.text in CLOSERS)
        if depth == 0 and token.text == b"=" and since < 0:
            since = token.at
        elif depth == 0 and token.text in (b",", b";") and since >= 0:
            yield since, token.at
            since = -1
