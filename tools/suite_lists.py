"""Lists of cases as files: what each line says, the texts that are run in the place of sources with directives, and lists that are recorded.
For tools/suite."""
import concurrent.futures
import os
import re
import tempfile
from typing import Optional

import suite_calls

HERE = os.path.dirname(os.path.realpath(__file__))
MOST_TURNS = 100000000
# More bytes than a source, a script and an output have that aren't refused for their size, by their columns. (A source that is preprocessed may be
# longer than what it comes to.)
MOST_BYTES = (16777217, 65537, 1048577)
CASE = re.compile(rb"([!-~]+) ([!-~]+) ([!-~]+) ([1-9][0-9]{0,8}) (.+)\Z", re.S)
# Of a list that is recorded a line may end behind each of its columns.
OPEN_CASE = re.compile(rb"([!-~]+)(?: ([!-~]+)(?: ([!-~]+)(?: ([1-9][0-9]{0,8})(?: .*)?)?)?)?\Z", re.S)
RECORDED = b"# EXPECTED was recorded by tools/suite --record: "


class Fault(Exception):
    """Why no report can be made: a sentence, and the status of this call."""

    def __init__(self, why: str, status: int = 127):
        super().__init__(why)
        self.status = status


def text_of(line: bytes) -> str:
    """Bytes as text."""
    return line.decode("utf-8", "replace")


class Case:
    """A case of a list: the number of its line, from 1, and its columns."""

    def __init__(self, line: int, columns: "tuple[bytes, ...]"):
        self.line = line
        self.source, self.script, self.output, self.bound, self.expected = columns
        # the files that the program gets, and whether the first of them was made from the source just now
        self.text, self.script_file, self.output_file, self.is_fresh = self.source, self.script, self.output, False
        self.end, self.passed, self.differs_at = b"", False, None

    def words(self, expected: bytes) -> bytes:
        """The line of this case for the program."""
        return b" ".join([self.text, self.script_file, self.output_file, self.bound, expected])

    def files(self) -> "list[bytes]":
        """The files that the case names, in the order in which they are read."""
        return [self.source, *(name for name in (self.script, self.output) if name != b"-")]

    def is_met_by(self, end: bytes) -> bool:
        """Whether an end is the expected one: its line, or a line that begins with these words."""
        return end == self.expected or end.startswith(self.expected + b" ")

    def take(self, told: bytes) -> None:
        """Takes what the report says of the case."""
        word, _, *how = told.split(b" ", 2)
        self.passed = word == b"pass"
        self.end = how[0][len(b"line ") :] if how and how[0].startswith(b"line ") else self.expected
        self.differs_at = int(how[0].split(b"=")[1]) if how and how[0].startswith(b"output at=") else None

    def why(self) -> str:
        """Why it failed."""
        if self.differs_at is not None:
            return f"the output differs at {self.differs_at}"
        return f"{text_of(self.end)}, where {text_of(self.expected)} is expected"


class Listed:
    """A list: its lines without carriage returns, its cases, and the first line that has no reading."""

    def __init__(self, text: bytes, is_open: bool = False):
        self.text, self.is_too_long = text, len(text) > suite_calls.LIST_LIMIT
        self.lines = [line[:-1] if line.endswith(b"\r") else line for line in text.split(b"\n")]
        self.cases: "list[Case]" = []
        self.wrong: Optional[int] = None
        for number, line in enumerate(self.lines, 1):
            if line and not line.startswith(b"#"):
                columns = columns_of(line, is_open)
                if columns:
                    self.cases.append(Case(number, columns))
                elif self.wrong is None:
                    self.wrong = number


def columns_of(line: bytes, is_open: bool) -> "Optional[tuple[bytes, ...]]":
    """The columns of a line; of one that is open those that it lacks too."""
    found = (OPEN_CASE if is_open else CASE).match(line)
    if not found:
        return None
    columns = found.groups()
    if is_open:
        columns = (columns[0], columns[1] or b"-", columns[2] or b"-", columns[3] or b"1000000", b"?")
    return columns if int(columns[3]) <= MOST_TURNS else None


def read_list(name: str, is_open: bool) -> "Optional[Listed]":
    """The list in a file; None where it can't be read."""
    try:
        with open(name, "rb") as file:
            return Listed(file.read(suite_calls.LIST_LIMIT + 1), is_open)
    except OSError:
        return None


def recorded(listed: Listed, version: str) -> bytes:
    """The list with what each case came to in the place of what was expected."""
    ends = {case.line: b" ".join([case.source, case.script, case.output, case.bound, case.end]) for case in listed.cases}
    said = RECORDED + f"what {version} answered, which nobody has looked at".encode()
    kept = [ends.get(number, line) for number, line in enumerate(listed.lines, 1) if not line.startswith(RECORDED)]
    while kept and kept[-1] == b"":
        kept.pop()
    return b"".join(line + b"\n" for line in [said, *kept])


def why_unread(name: bytes) -> str:
    """Why a file can't be read; nothing where it can."""
    try:
        with open(name, "rb") as file:
            file.read(1)
    except OSError as error:
        return error.strerror or "it can't be read"
    return ""


# ---- texts


def make_room() -> "tempfile.TemporaryDirectory[str]":
    """A folder whose name may stand in a list."""
    room = tempfile.TemporaryDirectory(prefix="pv_suite_")
    if re.fullmatch(r"[!-~]+", room.name):
        return room
    room.cleanup()
    return tempfile.TemporaryDirectory(prefix="pv_suite_", dir="/tmp")


def has_directives(name: bytes) -> bool:
    """Whether a source has preprocessing directives, as tools/files.sh looks for them."""
    try:
        with open(name, "rb") as file:
            text = file.read(MOST_BYTES[0])
    except OSError:
        return False
    if b"#" not in text and b"%:" not in text:
        return False
    words = ["awk", "-f", f"{HERE}/lines.awk", "-f", f"{HERE}/directives.awk"]
    status, _ = suite_calls.called(words, text, {"LC_ALL": "C"})
    if status not in (0, 1):
        raise Fault("the command awk, which looks for preprocessing directives, can't be run")
    return status == 0


def is_plain(name: bytes) -> bool:
    """Whether a file can be read more than once, under its name."""
    return os.path.isfile(name) and not os.path.realpath(name).startswith((b"/dev/", b"/proc/"))


def hold(cases: "list[Case]", room: str) -> None:
    """Reads once what stands in pipes and the like, up to a size that tells as much as all, and has the program get that."""
    held: "dict[tuple[int, bytes], bytes]" = {}
    for case in cases:
        for column, name in enumerate((case.source, case.script, case.output)):
            if (column, name) not in held and (column == 0 or name != b"-") and os.path.exists(name) and not is_plain(name):
                try:
                    with open(name, "rb") as file:
                        text = file.read(MOST_BYTES[column])
                except OSError:
                    continue
                path = os.path.join(room, f"held{len(held)}").encode()
                with open(path, "wb") as file:
                    file.write(text)
                held[column, name] = path
        case.text = held.get((0, case.source), case.source)
        case.script_file, case.output_file = held.get((1, case.script), case.script), held.get((2, case.output), case.output)


def preprocess(cases: "list[Case]", room: str, changes: "list[str]", jobs: int) -> None:
    """Gives each case the text that its source comes to, where it has directives or something is to be changed."""
    sources = {case.source: case.text for case in cases}

    def made(number: int, source: bytes) -> Optional[bytes]:
        held = sources[source]
        if not os.path.isfile(held) or not changes and not has_directives(held):
            return held
        text = os.path.join(room, f"{number}.i").encode()
        name = b"./-" if source == b"-" else source if held == source else b"-"
        with open(held, "rb") as file:
            given = file.read(MOST_BYTES[0]) if name == b"-" else None
        status, _ = suite_calls.called([f"{HERE}/preprocess", name, text, *changes], given)
        return text if status == 0 else None

    with concurrent.futures.ThreadPoolExecutor(jobs) as pool:
        texts = dict(zip(sources, pool.map(made, range(len(sources)), sources)))
    unmade = sorted({os.fsdecode(source) for source, text in texts.items() if text is None})
    if unmade:
        raise Fault(f"nothing is run, since these could not be preprocessed: {', '.join(unmade)}")
    for case in cases:
        case.text = texts[case.source] or case.source
        case.is_fresh = case.text != sources[case.source]
