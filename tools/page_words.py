"""For tools/page: a report, and a script of addresses, in words."""
import re
from dataclasses import dataclass
from typing import Iterator

from page_runs import SCRIPT_REFUSED, Answer
from page_text import counted, escaped, shown, tag
from sentences import sentences

# How each outcome is meant, and what stands above it.
HEADINGS = {
    "exit": ("good", "Ended"),
    "checked": ("good", "A program"),
    "layout": ("good", "A program"),
    "undefined": ("bad", "Undefined behaviour"),
    "indeterminate": ("bad", "An indeterminate value"),
    "undecided": ("open", "Undecided"),
    "placement": ("open", "A place that can't be given"),
    "storage": ("open", "Too much storage"),
    "turns": ("open", "Cut off"),
    "abort": ("open", "Aborted"),
    "refused": ("open", "The source is refused"),
    "script": ("open", "The script is refused"),
}
SENTENCES = sentences()  # the launcher's table: one for each clause, or outcome, and reason
ORDINALS = "first second third fourth fifth sixth seventh eighth ninth tenth eleventh twelfth".split()
SCRIPT_LINE = re.compile(r"([A-Za-z_]\w*|@lit|@heap) ([1-9][0-9]{0,9}) (0x[0-9A-Fa-f]{1,16}|null)", re.ASCII)


@dataclass(frozen=True)
class Verdict:
    """The report's line in words."""

    kind: str
    sentence: str
    facts: list[str]  # clause, line, turn and the like

    @property
    def manner(self) -> str:
        return HEADINGS[self.kind][0]

    @property
    def heading(self) -> str:
        return HEADINGS[self.kind][1]


def verdict_of(answer: Answer) -> Verdict:
    if answer.asked.mode == "layout" and answer.status == 0:
        return Verdict("layout", SENTENCES["layout", "-"], [])
    said = answer.said
    kind = answer.report.split(" ")[0]
    sentence = SENTENCES.get((said.get("clause", kind), said.get("reason", "-")), shown(answer.report))
    return Verdict(kind, sentence, list(facts_of(answer, said)))


def facts_of(answer: Answer, said: dict[str, str]) -> Iterator[str]:
    """What the report says beside its reason, each in a few words."""
    if "clause" in said:
        yield f"C17 {said['clause']}"
    if "status" in said:
        yield f"status {said['status']}"
    if "name" in said:
        yield f"request {said['k']} for {said['name']}" if "k" in said else f"the name {said['name']}"
    if "word" in said:
        yield f"the word {said['word']}"
    if "live" in said:
        yield f"{counted(int(said['size']), 'byte')} beside {said['live']} that live"
    if "declarations" in said:
        yield counted(int(said["declarations"]), "external declaration")
    if "bound" in said:
        yield f"{said['bound']} turns"
    if place := place_of(answer):
        yield place
    if "turn" in said:
        yield f"turn {said['turn']}"


def place_of(answer: Answer) -> str:
    """The line, with its file where line markers name another one than the source."""
    found = re.match(r"(.*?):(\d+):", answer.words[0]) if answer.words else None
    if found and found[1] != answer.asked.name:
        return f"line {found[2]} of {shown(found[1])}" + (f" (line {answer.place} here)" if answer.place else "")
    if answer.place:
        return f"line {answer.place}"
    if "line" not in answer.said:
        return ""
    return f"line {answer.said['line']}" + (" of the script" if answer.status == SCRIPT_REFUSED else "")


# ---- scripts of addresses

def script_words(line: bytes, number: int, answer: Answer) -> str:
    """What a line of the script says, and what came of it, as HTML."""
    said = answer.said
    if answer.status == SCRIPT_REFUSED and said.get("line") == str(number):
        return f"speaks of the request of line {said['first']}" if "first" in said else "has no reading"
    found = SCRIPT_LINE.fullmatch(line.decode("ascii", "replace"))
    if not found:
        return ""
    name, request, place = found.groups()
    words = f"the {ordinal(int(request))} {called(name)} "
    words += "is refused: there is no memory" if place == "null" else f"lies at {place}"
    if answer.status == 4 and (said.get("name"), said.get("k")) == (name, request):
        return words + ", which can't be given"
    if place != "null" and answer.journal and not answer.journal.is_cut and f"{name}#{request}" not in answer.journal.instances:
        return words + " (this run made none)"
    return words


def ordinal(number: int) -> str:
    if number <= len(ORDINALS):
        return ORDINALS[number - 1]
    ending = "th" if number // 10 % 10 == 1 else {1: "st", 2: "nd", 3: "rd"}.get(number % 10, "th")
    return f"{number}{ending}"


def called(name: str) -> str:
    return {"@heap": "allocation", "@lit": "string literal"}.get(name) or tag("code", escaped(name))
