"""For tools/page: the programs over one source, in a folder of its own and within bounds, and what they answer."""
import os
import re
import sys
from dataclasses import dataclass, field
from typing import Optional

from explore_runs import HERE, LONGEST_FILE, SHAPES, Fault, find_program, write
from page_calls import Caller, Kept, Late
from page_journal import Journal
from page_markers import files_of, line_in, own_messages, reads_bytes
from standing import has_checks

LONGEST_SOURCE = 1 << 20  # bytes of a source, and
LONGEST_SCRIPT = 1 << 16  # of a script; the program refuses longer ones itself
LONGEST_OUTPUT = 1 << 18  # bytes of a program's output that are kept
LONGEST_JOURNAL = 1 << 24

RUN_STATUSES = range(8)  # those of a report behind an output
REFUSED, SCRIPT_REFUSED = 8, 9
CENSUS = re.compile(rb"create \d+\nend \d+\nexpose \d+\npair \d+\nuse \d+\nfault \d+\n")
PLACE = re.compile(rb"(.*?):(\d+)(?::(\d+))?: (\w+): (.*)")
MODES = ("run", "check", "layout", "settle")


@dataclass(frozen=True)
class Asked:
    """What is asked: the source under its name, the script, the bound, and what is to be done."""

    source: bytes
    name: str
    script: Optional[bytes] = None
    turns: Optional[int] = None
    mode: str = "run"
    is_lowered: bool = False  # whether tools/lower writes out what the language leaves out


@dataclass
class Answer:
    """What the programs said. `place` is the line of the source, from 1, that it speaks of."""

    asked: Asked
    status: int
    report: str
    output: bytes = b""
    errors: list[tuple[int, int]] = field(default_factory=list)  # which of its bytes were written to stderr, from and to
    dropped: int = 0  # bytes of output that were not kept
    story: str = ""
    census: str = ""
    sides: str = ""
    journal: Optional[Journal] = None
    place: Optional[int] = None
    words: list[str] = field(default_factory=list)  # what the launcher says of it on standard error
    hints: list[str] = field(default_factory=list)  # what it says behind a refusal, which may be wrong
    missing: str = ""  # why journal or words are not there

    @property
    def said(self) -> dict[str, str]:
        """The words KEY=VALUE of the report."""
        return dict(word.split("=", 1) for word in self.report.split(" ") if "=" in word)


# ---- the programs over one source

class Programs:
    """The programs in the folder, or as they are built here. pvwhere says where a refusal is, and may be missing."""

    def __init__(self, folder: Optional[str]):
        self.folder = folder
        self.pvrun = find_program(folder, "pvrun")
        self.pv_replay = find_program(folder, "pv_replay")
        try:
            self.pvwhere: Optional[str] = find_program(folder, "pvwhere")
        except Fault:
            self.pvwhere = None
        self.has_checks = has_checks(self.pvrun)


def mark_of(text: bytes) -> Optional[bytes]:
    """The digits of the marks that stand round what the text writes to stderr, if it writes to it by name."""
    found = re.search(rb'\\033_([0-9a-f]{16})["12%]', text)
    return found[1] if found and b"__letter(" in text else None


def parted(output: bytes, mark: bytes, is_cut: bool) -> tuple[bytes, list[tuple[int, int]]]:
    """The output without its marks, and which of its bytes were written to stderr. Where it is cut, so may its last mark be."""
    pieces = re.split(rb"\033_%s([12])\033\\" % mark, output)
    begun = re.search(rb"\033(_[0-9a-f]{0,16}([12]\033?)?)?\Z", pieces[-1]) if is_cut else None
    if begun and (b"\033_" + mark).startswith(begun[0][:18]):
        pieces[-1] = pieces[-1][:begun.start()]
    text, errors = pieces[0], []
    for stream, piece in zip(pieces[1::2], pieces[2::2]):
        if stream == b"2" and piece:
            errors.append((len(text), len(text) + len(piece)))
        text += piece
    return text, errors


class Question:
    """One source that is asked about. With `is_shut` it reads no other files than the headers that come with the launcher."""

    def __init__(self, programs: Programs, asked: Asked, caller: Caller, is_shut: bool):
        self.programs, self.asked, self.caller, self.is_shut = programs, asked, caller, is_shut
        self.source = self.text = os.path.join(caller.room, os.path.basename(asked.name) if is_shut else "source.c")
        self.script = os.path.join(caller.room, "script")
        self.is_preprocessed = False
        self.mark: Optional[bytes] = None

    def write_files(self) -> None:
        """Puts source and script into the room, and the text that the program gets."""
        write(self.source, self.asked.source)
        if self.asked.script is not None:
            write(self.script, self.asked.script)
        self.is_preprocessed = self.asked.is_lowered or self.has_directives()
        if self.is_preprocessed:
            self.preprocess()

    @property
    def options(self) -> list[str]:
        """The words behind the text, of a mode that runs it."""
        if self.asked.mode not in ("run", "settle"):
            return []
        script = ["--script", self.script] if self.asked.script is not None else []
        return script + (["--turns", str(self.asked.turns)] if self.asked.turns else [])

    def has_directives(self) -> bool:
        """Whether the source is to be preprocessed, as the launcher finds it."""
        if b"#" not in self.asked.source and b"%:" not in self.asked.source:
            return False
        return self.caller.call(["awk", "-f", f"{HERE}/lines.awk", "-f", f"{HERE}/directives.awk", self.source])[0] == 0

    def preprocess(self) -> None:
        """Puts the text that the program gets in the place of the source."""
        source, text = self.asked.source, os.path.join(self.caller.room, "text.i")
        if self.is_shut and reads_bytes(source):
            raise Fault("of files the headers of include/ alone may be read here, and embed reads others")
        given = self.asked.name if os.path.isfile(os.path.join(self.caller.folder, self.asked.name)) else self.source
        status, said = self.caller.call([f"{HERE}/preprocess", given, text, "--marks", *(["--lower"] * self.asked.is_lowered)], of="stderr")
        messages = bytes(said.bytes).decode("utf-8", "replace")
        if self.asked.is_lowered and not status:
            sys.stderr.write(messages)
        if status:
            raise Fault("the source could not be preprocessed\n" + (own_messages(messages, given) if self.is_shut else messages))
        with open(text, "rb") as file:
            made = file.read(LONGEST_FILE)
        if self.is_shut and (others := files_of(made) - self.own_files(given)):
            raise Fault(f"of files the headers of include/ alone may be read here, and not {', '.join(sorted(others))}")
        self.text, self.mark = text, mark_of(made)

    def own_files(self, given: str) -> set[str]:
        """The names that may stand in the line markers of the text: the source's, and those of the headers."""
        headers = os.path.join(HERE, "..", "include")
        prefixes = {headers, os.path.join(os.path.dirname(HERE), "include"), "include"}
        names = {os.path.join(prefix, name) for prefix in prefixes for name in os.listdir(headers)}
        return names | {given, "<built-in>", "<command-line>", "<command line>"}

    def answer(self) -> Answer:
        """What the programs say."""
        self.write_files()
        kept_output = LONGEST_OUTPUT if self.asked.mode in ("run", "settle") else 0
        watched = ["--watch", "explain", "--watch", "census"] if self.asked.mode == "run" else []
        words = [self.programs.pvrun, self.asked.mode, self.text, *self.options, *watched]
        status, kept = self.caller.call(words, kept_output)
        answer = self.read(status, kept)
        try:
            self.find_place(answer)
            if status in RUN_STATUSES and self.asked.mode in ("run", "settle"):
                answer.journal = self.journal()
        except Late:
            answer.missing = f"The run took most of {self.caller.seconds:g} seconds: none was left for what else is told of it."
        return answer

    def read(self, status: int, kept: Kept) -> Answer:
        """Parts what a program wrote: output, report, and what watchers say, or the sides of a settled run."""
        written = bytes(kept.bytes)
        if status < 0 or status not in (*RUN_STATUSES, REFUSED, SCRIPT_REFUSED):
            raise NoAnswer(self.programs.pvrun, status, written)
        if status not in RUN_STATUSES or self.asked.mode in ("check", "layout"):
            report, _, rest = written.decode("utf-8", "surrogateescape").partition("\n")
            return Answer(self.asked, status, report, story=rest)
        found = list(re.finditer(b"(%s)\n" % SHAPES[status], written))
        if not found:
            raise NoAnswer(self.programs.pvrun, status, written)
        output, behind = written[:found[-1].start()], written[found[-1].end():]
        answer = Answer(self.asked, status, found[-1][1].decode(), output[:LONGEST_OUTPUT])
        answer.dropped = len(output) - len(answer.output) + kept.dropped
        if self.mark:
            answer.output, answer.errors = parted(answer.output, self.mark, answer.dropped > 0)
        if self.asked.mode == "settle":
            answer.sides = behind.decode().removeprefix("sides ").strip()
        elif census := CENSUS.search(behind):
            answer.story, answer.census = behind[:census.start()].decode(), census[0].decode()
        return answer

    def journal(self) -> Journal:
        words = [self.programs.pv_replay, "write", self.text, *self.options]
        status, kept = self.caller.call(words, last=LONGEST_JOURNAL)
        if status or kept.dropped:
            raise NoAnswer(self.programs.pv_replay, status, bytes(kept.bytes))
        return Journal(bytes(kept.bytes).decode())

    # ---- where it is

    def find_place(self, answer: Answer) -> None:
        """The line of the source that the answer speaks of, and what the launcher would say of it in words."""
        if answer.status == REFUSED:
            said, answer.hints = self.refusal(answer)
        elif answer.status in (1, 2, 3, 4, 5, 7):
            said = self.fault(answer.status)
        else:
            return
        answer.words = said.decode("utf-8", "surrogateescape").replace(self.text, self.asked.name).splitlines()
        if found := PLACE.match(said):
            answer.place = line_in(self.asked.source, self.names(), found[1], int(found[2]))
        elif "line" in answer.said and not self.is_preprocessed:
            answer.place = line_in(self.asked.source, self.names(), os.fsencode(self.asked.name), int(answer.said["line"]))

    def names(self) -> set[bytes]:
        """What the source is called where no line marker names it."""
        return {os.fsencode(name) for name in (self.asked.name, f"./{self.asked.name}", self.source, self.text)}

    def refusal(self, answer: Answer) -> tuple[bytes, list[str]]:
        """What tools/spot says first, and what it says besides, a line each: what the others of its messages have below them is left out. (Of a shut
        source no compiler is asked.)"""
        proved = bytes(self.caller.call([self.programs.pvwhere, self.text])[1].bytes) if self.programs.pvwhere else b""
        if answer.said.get("reason") in ("size", "main"):
            return proved, []
        words = [f"{HERE}/spot", *(["--alone"] if self.is_shut else []), self.programs.pvrun, self.text, self.asked.name, os.fsdecode(proved)]
        lines = bytes(self.caller.call(words)[1].bytes).splitlines()
        more = next((number for number, line in enumerate(lines) if number and PLACE.fullmatch(line)), len(lines))
        others = [line.decode("utf-8", "replace") for line in lines[more:] if PLACE.fullmatch(line) or line.startswith(b"pvrun: hint: ")]
        first = PLACE.fullmatch(lines[0]) if lines else None
        others = ([first[5].decode("utf-8", "replace")] if first else []) + [line.removeprefix("pvrun: ") for line in others]
        return b"\n".join(lines[:more]) or proved, others

    def fault(self, status: int) -> bytes:
        """The words of tools/explain-fault. (Of a shut source no file is read that a line marker names.)"""
        words = [f"{HERE}/explain-fault", *(["--fresh"] if self.is_preprocessed and not self.is_shut else [])]
        words += [self.programs.pvrun, self.text, self.asked.name, str(status), *self.options]
        return bytes(self.caller.call(words, of="stderr")[1].bytes)


class NoAnswer(Fault):
    """A program ended without an answer."""

    def __init__(self, program: str, status: int, written: bytes):
        how = f"ended with status {status}" if status >= 0 else f"was ended by signal {-status}"
        how = {13: "had not enough memory"}.get(status, how)
        said = written[-200:].decode("utf-8", "replace").strip() or "it wrote nothing"
        super().__init__(f"{os.path.basename(program)} {how}: {said}")
