"""Reports as SARIF 2.1.0 has them, which code hosts and editors read: a result for each run that ends otherwise than by `exit`, at the line of
the file where it does. For tools/suite.

Where a file's line is looked for: a text with line markers is run once more without them, so that each line has one place (tools/suite_places.py);
a refusal has its place from pvwhere, and the hints of tools/spot. What is not there is not asked, and then the file alone is told.
"""
import json
import os
import re
import subprocess
import sys
import tempfile
from typing import Callable, NamedTuple, Optional, Sequence

import suite_calls
import suite_stacks
from sentences import sentences
from suite_lists import Case, text_of
from suite_places import Place, Text, is_ours, plain, way_to
from suite_stacks import AT_LINE, Frame, without_line

HERE = os.path.dirname(os.path.realpath(__file__))
SCHEMA = "https://json.schemastore.org/sarif-2.1.0.json"
MESSAGE = re.compile(r"(\S.*?):(\d+):\d+: (error|note): (.*)")
Json = "dict[str, object]"
# How a run ends, but by `exit`.
RUNS = ("undefined", "indeterminate", "undecided", "placement", "storage", "turns", "abort")
# Of each rule that is no clause: what it is, more about it, and how grave a result is.
RULES = {
    "indeterminate": (
        "a value is used that was never stored",
        "An object's bytes had no value when one was wanted of them: it was not initialized, or only in part, or realloc made it larger.", "error",
    ),
    "undecided": (
        "pointers are compared that may mean the same two objects",
        "Both pointers came from integers whose address is the end of one object and the begin of another one. Which of them they mean is left "
        "open, and the answer hangs on it.", "warning",
    ),
    "placement": (
        "the script of addresses asks for a place that can not be given",
        "The program was run up to the object that the script places. The place is too low or too high, not aligned, or another object lies there. "
        "The script is to be changed, not the program.", "warning",
    ),
    "storage": (
        "the objects that live at once would take more than 2^24 bytes",
        "The run has room for 16777216 bytes at a time. What the program would do with more is not known.", "warning",
    ),
    "turns": (
        "the turns of the bound were taken, and the run had not ended",
        "Nothing is known of what comes behind them. --turns N gives up to 100000000.", "note",
    ),
    "abort": ("abort was called", "The program ended itself by abort, as assert does where what it is given is 0.", "error"),
    "refused": (
        "the source is not run",
        "It is no C17, or needs what the language that is run leaves out. docs/LANGUAGE.md says what it has.", "warning",
    ),
    "script": ("the script of addresses can not be read", "A line of the script has no reading, or speaks of what another line speaks of.", "error"),
    "case": (
        "a case did not come out as the list expects",
        "The run ended with another line than the list has, or its output differs. The list says what is expected.", "error",
    ),
}


def version() -> str:
    """Which Valumeiro this is."""
    done = subprocess.run([os.path.join(HERE, "version")], stdin=subprocess.DEVNULL, stdout=subprocess.PIPE, check=False)
    return done.stdout.decode("utf-8", "replace").partition("\n")[0]


class Asked(NamedTuple):
    """What the places of results are looked for with: pv_suite or pvrun, and what runs the cases of plain texts."""

    program: str
    # the ends of texts that stand in these files, each with the case that it stands for
    ends_of: "Callable[[list[tuple[Told, str]]], list[str]]"


class Reason(NamedTuple):
    """Why a source is refused: in which line of its text, if that is known, and a sentence."""

    line: Optional[int]
    sentence: str


class Told:
    """A run that is told: what was run, and how it ended."""

    def __init__(self, source: bytes, text: str, is_fresh: bool, script: "list[str]", end: str, case: Optional[Case] = None, more: "Sequence[str]" = ()):
        """SCRIPT is the option with its file, or nothing; MORE are the other options of the run."""
        self.source, self.path, self.is_fresh, self.script, self.end, self.case = source, text, is_fresh, script, end, case
        # the file of the text with its markers emptied, whose lines each have one place; and the calls at the end of its run
        self.plain, self.options = text, [*script, *more]
        self.frames: "list[Frame]" = []
        self.kind = end.split(" ")[0]
        self.text: Optional[Text] = None
        self.line: Optional[int] = None
        self.reasons: "list[Reason]" = []

    def value(self, key: str) -> str:
        """The value of a key of its line."""
        found = re.search(rf" {key}=(\S+)", self.end)
        return found[1] if found else ""


class Rules:
    """The rules that results name: each clause, and each other way to end."""

    def __init__(self) -> None:
        self.said = sentences()
        self.rules: "list[Json]" = []
        self.places: "dict[str, int]" = {}

    def named(self, identity: str, short: str, more: str, level: str) -> str:
        """The name of a rule, which is added where it is new."""
        if identity not in self.places:
            self.places[identity] = len(self.rules)
            texts = {"shortDescription": {"text": short}, "help": {"text": more}}
            self.rules.append({"id": identity, **texts, "defaultConfiguration": {"level": level}})
        return identity

    def of_clause(self, clause: str, reason: str) -> "tuple[str, str]":
        """The name of a clause's rule, and its sentence."""
        sentence = self.said.get((clause, reason), reason)
        alike = [text for (name, _), text in self.said.items() if name == clause] or [sentence]
        section, _, paragraph = clause.partition("p")
        short = alike[0] if len(alike) == 1 else f"undefined by C17 {section}, paragraph {paragraph}"
        more = f"Behaviour is undefined by C17 (ISO/IEC 9899:2018), {section}, paragraph {paragraph}. What comes by it: {'; '.join(alike)}."
        return self.named(f"C17/{clause}", short, more, "error"), sentence

    def of(self, told: Told, is_expected: Optional[bool]) -> "tuple[str, str, str]":
        """The name of the rule for an end, its sentence, and the level of the result."""
        if told.kind == "undefined":
            return *self.of_clause(told.value("clause"), told.value("reason")), "error"
        kind = told.kind if told.kind in RULES else "case"
        short, more, level = RULES[kind]
        sentence = self.said.get((told.kind, told.value("reason") or "-"), short) if kind != "case" else short
        return self.named(kind, short, more, level), sentence, "error" if is_expected is False else level


# ---- places


def beside(program: str, name: str) -> str:
    """Another program of those that this one was built, tried or installed with; empty where it isn't there."""
    folder = os.path.dirname(os.path.realpath(program))
    for path in (os.path.join(folder, name), os.path.join(folder, "..", "..", name, "out", name)):
        if os.access(path, os.X_OK):
            return path
    return ""


def find_places(asked: Asked, all_told: "list[Told]", room: str) -> None:
    """Finds in which line of its text each run ended, and the hints of each refusal."""
    again = []
    for number, told in enumerate(all_told):
        told.text = Text(read(told.path), told.source, told.is_fresh)
        found = AT_LINE.search(told.end)
        at = re.search(r" at=(\d+)", told.end) if told.kind == "refused" else None
        if at:
            told.line = told.text.line_of(int(at[1]))
        elif told.kind == "refused" and told.value("reason") not in ("main", "size"):
            find_refusal(asked, told, room)
        elif found and told.kind != "script":
            told.line = int(found[1])
            if told.text.is_marked:
                told.line = None
                told.plain = write(os.path.join(room, f"plain{number}.c"), plain(told.text.source))
                again.append((told, told.plain))
    for (told, _), end in zip(again, asked.ends_of(again) if again else []):
        found = AT_LINE.search(end)
        if found and without_line(end) == without_line(told.end):
            told.line = int(found[1])
    find_calls(asked, [told for told in all_told if told.kind in RUNS and told.text])


def find_calls(asked: Asked, all_told: "list[Told]") -> None:
    """Finds which calls were active where runs ended, by pv_state."""
    program = beside(asked.program, "pv_state")
    if program:
        frames = suite_stacks.frames_of(program, [(told.plain, told.options, told.end) for told in all_told])
        for told, calls in zip(all_told, frames):
            told.frames = calls if calls and calls[0].line == told.line else []


def find_refusal(asked: Asked, told: Told, room: str) -> None:
    """Where a source is refused, by pvwhere, and what tools/spot has to say of it."""
    where, pvrun = beside(asked.program, "pvwhere"), beside(asked.program, "pvrun")
    assert told.text is not None
    if where:
        name = write(os.path.join(room, "where.c"), plain(told.text.source))
        _, said = suite_calls.called([where, name])
        found = re.match(rb".*:(\d+):\d+: refused: ", said)
        told.line = int(found[1]) if found else None
    if pvrun:
        _, said = suite_calls.called([sys.executable, os.path.join(HERE, "spot"), pvrun, told.path, os.fsdecode(told.source)])
        for line in said.decode("utf-8", "replace").splitlines():
            take_message(told, line)


def take_message(told: Told, message: str) -> None:
    """Takes a message of tools/spot: a reason, where it is an error, and what a compiler says of that. What stands below them is left out."""
    found = MESSAGE.match(message)
    assert told.text is not None
    if found and found[3] == "error":
        wanted = Place(os.fsencode(found[1]), int(found[2]))
        line = next((line for line, place in enumerate(told.text.places, 1) if place == wanted), None)
        told.reasons.append(Reason(line or told.line, found[4].removeprefix(f"refused: {told.value('reason')}: ")))
    elif found and " says: " in found[4] and told.reasons:
        told.reasons[-1] = Reason(told.reasons[-1].line, f"{told.reasons[-1].sentence}; {found[4]}")


def read(name: str) -> bytes:
    """What a file holds; nothing where it is gone meanwhile."""
    try:
        with open(name, "rb") as file:
            return file.read()
    except OSError:
        return b""


def write(name: str, text: bytes) -> str:
    """Writes a file, and returns its name."""
    with open(name, "wb") as file:
        file.write(text)
    return name


def uri_of(name: bytes) -> str:
    """The name of a file as a reference: relative, or, where it begins with a slash, whole."""
    kept = b"-._~/!$&'()*+,;=@"
    told = "".join(chr(byte) if chr(byte).isalnum() and byte < 128 or byte in kept else f"%{byte:02X}" for byte in name)
    return f"file://{told}" if name.startswith(b"/") else told


def location(text: Text, line: int, more: Optional[Json] = None) -> Json:
    """A line of a text as a location."""
    place = text.place(line)
    assert place is not None
    region = text.region(line)
    told = {"artifactLocation": {"uri": uri_of(place.file)}, **({"region": region} if region else {})}
    return {"physicalLocation": told, **(more or {})}


def file_alone(name: bytes, line: int = 0) -> Json:
    """A file as a location, or a line of it."""
    told = {"artifactLocation": {"uri": uri_of(name)}, **({"region": {"startLine": line}} if line > 0 else {})}
    return {"physicalLocation": told}


def locations_of(asked: Asked, told: Told) -> "tuple[Json, list[Json]]":
    """Where a run ended, and where that is in a header that comes with the program, the line from which it got there, with that header; and the places
    of the calls."""
    if told.kind == "script" and told.script:
        return file_alone(told.case.script if told.case else os.fsencode(told.script[1]), int(told.value("line") or 0)), []
    text = told.text
    place = text.place(told.line) if text and told.line else None
    if text is None or place is None or told.line is None:
        return file_alone(told.source), []
    here, calls = location(text, told.line), suite_stacks.related(told.frames, lambda line: location(text, line))
    outside = [line for line in way_of(asked, told, text) if not is_ours(text.places[line - 1].file)] if is_ours(place.file) else []
    if not outside:
        return here, calls
    return location(text, outside[0]), [{**here, "message": {"text": "in a header that comes with the program"}}, *calls]


def way_of(asked: Asked, told: Told, text: Text) -> "list[int]":
    """The lines from which a run got to its end, the innermost one first: by pv_state, or where it isn't there, those of statements by pv_replay."""
    if told.frames:
        return [frame.line for frame in told.frames if frame.line is not None]
    replay = beside(asked.program, "pv_replay") if told.value("turn") else ""
    return way_to(text, told.path, replay, told.script, int(told.value("turn"))) if replay else []


# ---- results


def results_of(asked: Asked, rules: Rules, told: Told, is_expected: Optional[bool], why: str) -> "list[Json]":
    """The results of a program that ended so: as the list expects, otherwise, or where there is no list. A refusal has one for each of its reasons."""
    identity, sentence, level = rules.of(told, is_expected)
    results = []
    for reason in told.reasons or [Reason(told.line, "")]:
        told.line = reason.line
        here, related = locations_of(asked, told)
        text = "; ".join(filter(None, (sentence if not results else "", reason.sentence))) + (f" ({why})" if why and not results else "")
        said: Json = {"ruleId": identity, "ruleIndex": rules.places[identity], "message": {"text": text}}
        said.update({"kind": "pass", "level": "none"} if is_expected else {"kind": "fail", "level": level})
        stacks = stacks_of(told)
        results.append({**said, "locations": [here], **({"relatedLocations": related} if related else {}), **({"stacks": stacks} if stacks else {})})
    return results[:1] if is_expected else results


def stacks_of(told: Told) -> "list[Json]":
    """The calls that were active where a run ended, as a stack."""
    text = told.text
    return suite_stacks.stacks(told.frames, lambda line: location(text, line)) if text else []


def sarif_of(rules: Rules, results: "list[Json]", notes: "list[str]") -> str:
    """One run as SARIF 2.1.0 has it; notes tell why there is no answer."""
    call: Json = {"executionSuccessful": not notes}
    if notes:
        call["toolExecutionNotifications"] = [{"level": "error", "message": {"text": note}} for note in notes]
    tool = {"driver": {"name": "Valumeiro", "version": version() or "unknown", "rules": rules.rules}}
    run = {"tool": tool, "invocations": [call], "results": results, "columnKind": "utf16CodeUnits"}
    return json.dumps({"$schema": SCHEMA, "version": "2.1.0", "runs": [run]}, indent=2, ensure_ascii=False) + "\n"


def sarif(asked: Asked, cases: "Optional[list[Case]]", why_none: str) -> str:
    """A report of a suite as SARIF 2.1.0 has it: a result for each case that failed, and for each that is as expected and no plain end."""
    rules = Rules()
    if cases is None:
        return sarif_of(rules, [], [why_none])
    shown = []
    for case in cases:
        script = ["--script", os.fsdecode(case.script_file)] if case.script != b"-" else []
        told = Told(case.source, os.fsdecode(case.text), case.is_fresh, script, text_of(case.end), case, ["--turns", text_of(case.bound)])
        if told.kind != "exit" or not case.passed:
            shown.append((case, told))
    with tempfile.TemporaryDirectory() as room:
        find_places(asked, [told for _, told in shown], room)
        results = [results_of(asked, rules, told, case.passed, "" if case.passed else case.why()) for case, told in shown]
    return sarif_of(rules, [one for several in results for one in several], [])


def sarif_one(asked: Asked, told: Told) -> str:
    """The report of one program as SARIF 2.1.0 has it: a result where it ended otherwise than by `exit`."""
    rules = Rules()
    if told.kind not in RULES and told.kind not in ("exit", "undefined"):
        return sarif_of(rules, [], [told.end or "no report"])
    if told.kind == "exit":
        return sarif_of(rules, [], [])
    with tempfile.TemporaryDirectory() as room:
        find_places(asked, [told], room)
        return sarif_of(rules, results_of(asked, rules, told, None, ""), [])
