"""For tools/page: what the programs answered, as HTML. All that comes from a source, a script or a program is escaped."""
import base64
import hashlib
import re
from typing import Optional

from explore_runs import HERE, shown_path
from page_journal import LONGEST, Instance, Journal, Pair
from page_memory import MOST_BARS, Picture
from page_runs import REFUSED, RUN_STATUSES, SCRIPT_REFUSED, Answer, Asked, Programs
from page_text import counted, escaped, tag
from page_words import script_words, verdict_of
from standing import is_proved, warning

MOST_LINES = 20000  # lines of a source that are shown
MOST_STORY = 2000  # lines of a story

SIGNS = {"good": "✓", "bad": "✗", "open": "!"}


# ---- the verdict

def verdict_part(answer: Answer) -> str:
    verdict = verdict_of(answer)
    report = [tag("p", "report: ", tag("code", escaped(answer.report)), class_="report")] if verdict.kind != "layout" else []
    return tag(
        "section",
        tag("h2", tag("span", SIGNS[verdict.manner], class_="sign", aria_hidden="true"), verdict.heading),
        tag("p", escaped(verdict.sentence + "."), class_="sentence"),
        bullets(verdict.facts, "facts"),
        refusal(answer) if answer.status == REFUSED else bullets([line.strip() for line in answer.words[2:]], "objects"),
        bullets(answer.hints, "objects"),
        *report,
        class_=f"verdict {verdict.manner}", aria_label="Verdict",
    )


def bullets(texts: list[str], class_: str) -> str:
    return tag("ul", *(tag("li", escaped(text)) for text in texts), class_=class_) if texts else ""


def refusal(answer: Answer) -> str:
    """The source's line with a mark below the place that is refused."""
    return tag("pre", escaped("\n".join(answer.words[1:])), class_="refusal") if answer.words[1:] else ""


# ---- source, output, script

def lines_of(text: bytes) -> list[bytes]:
    lines = text.split(b"\n")
    return lines[:-1] if lines[-1] == b"" and len(lines) > 1 else lines


def source_part(asked: Asked, place: Optional[int]) -> str:
    """The source, with the line at this place marked."""
    lines = lines_of(asked.source)
    first = 0
    if len(lines) > MOST_LINES and place:
        first = max(0, min(len(lines) - MOST_LINES, place - MOST_LINES // 2))
    shown_lines = range(first, min(len(lines), first + MOST_LINES))
    rows = [source_line(lines[index], index + 1, index + 1 == place) for index in shown_lines]
    part = "" if len(rows) == len(lines) else note(f"Lines {first + 1} to {first + len(rows)} of {len(lines)}.")
    return section("Source", part, tag("pre", *rows, class_="source", tabindex=0), class_="part-source", name=asked.name)


def source_line(text: bytes, number: int, is_told: bool) -> str:
    """A line with its number, which a copy of the text has not."""
    mark = tag("span", f"the report speaks of line {number}: ", class_="unseen") if is_told else ""
    said = tag("span", mark, escaped(text.removesuffix(b"\r")), class_="text")
    return tag("span", said, "\n", class_="line told" if is_told else "line", data_line=number, id=f"line-{number}")


def output_part(answer: Answer) -> str:
    if answer.status not in RUN_STATUSES or answer.asked.mode not in ("run", "settle"):
        return ""
    text = tag("pre", *output_pieces(answer), tabindex=0) if answer.output else note("nothing")
    apart = note("What was written to stderr is underlined.") if answer.errors else ""
    more = note(f"{counted(answer.dropped, 'byte')} more were left out.") if answer.dropped else ""
    return section("Output", text, apart, more, class_="part-output")


def output_pieces(answer: Answer) -> list[str]:
    """The output, with what was written to stderr told apart."""
    pieces, at = [], 0
    for begins, ends in answer.errors:
        pieces.append(escaped(answer.output[at:begins]))
        pieces.append(tag("span", escaped(answer.output[begins:ends]), class_="stderr", title="to stderr"))
        at = ends
    return [*pieces, escaped(answer.output[at:])]


def script_part(answer: Answer) -> str:
    if answer.asked.script is None:
        return ""
    rows = []
    lines = [line.removesuffix(b"\r") for line in lines_of(answer.asked.script)[:MOST_LINES]]
    for number, line in enumerate(lines, 1):
        words = script_words(line, number, answer)
        is_refused = answer.status == SCRIPT_REFUSED and answer.said.get("line") == str(number)
        told = "told" if is_refused or words.endswith("can't be given") else None
        rows.append(tag("tr", tag("td", tag("code", escaped(line))), tag("td", words), class_=told))
    return section("Script of addresses", tag("table", tag("tbody", *rows)), class_="part-script")


# ---- memory over turns

def last_turn(answer: Answer, journal: Journal) -> int:
    """The run's last turn, or that of the last event where there may be more than are told."""
    turns = [int(answer.said.get("turn", answer.said.get("bound", "0"))), *journal.turns[-1:]]
    return turns[-1] if journal.is_cut else max(turns)


def memory_part(answer: Answer) -> str:
    journal = answer.journal
    if journal is None:
        return note(answer.missing) if answer.missing else ""
    if not journal.instances:
        return section("Memory over turns", note("The run made no storage instance."), class_="part-memory")
    last = last_turn(answer, journal)
    picture = Picture(journal, last, told_by(answer))
    summary = tag("summary", f"The journal ({counted(len(journal.lines), 'event')})")
    return section(
        "Memory over turns", *notes_of(journal, picture), picture.html(), stepper(last), legend(picture),
        columns(live_list(journal.live_at(last), last), tag("div", pairs_part(answer), census_part(answer))),
        tag("details", summary, tag("pre", escaped("\n".join(journal.lines)), class_="journal", tabindex=0)),
        class_="part-memory",
    )


def told_by(answer: Answer) -> set[str]:
    """The instances that the story of the fault tells of."""
    return set(re.findall(r"^create (\S+)", answer.story, re.M))


def notes_of(journal: Journal, picture: Picture) -> list[str]:
    notes = []
    if journal.is_cut:
        notes.append(note(f"The first {LONGEST} events of the run."))
    if len(picture.instances) < len(journal.instances):
        notes.append(note(f"Of {len(journal.instances)} instances the picture has the {MOST_BARS} that ended last."))
    return notes


def legend(picture: Picture) -> str:
    """What the signs of this picture mean."""
    kinds = {it.name if it.name.startswith("@") else "" if it.made else "static" for it in picture.instances}
    rows = [
        ("", "life block", "an object of a block, from its making to its end"),
        ("static", "life static", "one that is there before main"),
        ("@heap", "life heap", "an allocation"),
        ("@lit", "life lit", "a string literal"),
    ]
    signs = [sign(class_, words) for kind, class_, words in rows if kind in kinds]
    if any(it.exposed is not None for it in picture.instances):
        signs.append(sign("exposed", "exposed: its address is known to integers"))
    if picture.told:
        signs.append(sign("told", "the story of the fault tells of it"))
    if picture.journal.pairs:
        signs.append(sign("pair", "a pair: a pointer that may stand for either", "▲▼"))
        signs.append(sign("use", "a use of it; filled where it leaves one", "○●"))
    if picture.journal.fault is not None:
        signs.append(sign("fault", "the fault", "✗"))
    return tag("ul", *signs, class_="legend")


def sign(class_: str, words: str, shape: str = "") -> str:
    return tag("li", tag("span", shape, class_=f"key {class_}", aria_hidden="true"), words)


def stepper(last: int) -> str:
    """The turn that is looked at, and ways to another one; the script shows it."""
    def button(step: str, words: str, what: str) -> str:
        return tag("button", words, type="button", data_step=step, title=what, aria_label=what)

    return tag(
        "div",
        button("before", "|◀", "the event before (Shift and ←)"), button("back", "◀", "a turn back (←)"),
        f'<input type="range" min="0" max="{last}" value="{last}" aria-label="turn">',
        button("on", "▶", "a turn on (→)"), button("next", "▶|", "the next event (Shift and →)"),
        tag("output", f"turn {last} of {last}"),
        tag("div", class_="events", aria_live="polite"),
        class_="stepper", hidden=True,
    )


def live_list(live: list[Instance], turn: int) -> str:
    """What lives behind the turn. The script keeps it to the turn that is looked at."""
    rows = [live_row(it) for it in live[:200]]
    head = tag("thead", tag("tr", *(tag("th", words, scope="col") for words in ("instance", "address", "bytes", "exposed"))))
    return tag(
        "div",
        tag("h2", f"Live after turn {turn}: {counted(len(live), 'instance')}"),
        tag("table", head, tag("tbody", *rows), class_="live"),
        class_="part moment",
    )


def live_row(it: Instance) -> str:
    cells = [it.id, hex(it.base), str(it.size), "" if it.exposed is None else f"since turn {it.exposed}"]
    return tag("tr", *(tag("td", escaped(cell)) for cell in cells), data_id=it.id)


# ---- story, census, pairs, sides

def story_part(answer: Answer) -> str:
    lines = answer.story.splitlines()
    if not lines or lines == ["no fault"]:
        return ""
    rows = []
    for line in lines[:MOST_STORY]:
        turn = re.search(r" turn=(\d+)", line)
        way = {"type": "button", "class_": "event", "data_turn": turn[1], "title": "to this turn"} if turn else {}
        rows.append(tag("li", tag("button" if turn else "code", escaped(line), **way)))
    more = note(f"{len(lines) - MOST_STORY} lines more.") if len(lines) > MOST_STORY else ""
    return section("The story of the fault", tag("ol", *rows, class_="story"), more, class_="part-story")


CENSUS_WORDS = {
    "create": "instances made", "end": "instances ended", "expose": "instances exposed",
    "pair": "pairs made", "use": "uses of pairs that had both", "fault": "faults",
}


def census_part(answer: Answer) -> str:
    if not answer.census:
        return ""
    counts = map(str.split, answer.census.splitlines())
    rows = [tag("tr", tag("th", CENSUS_WORDS[kind], scope="row"), tag("td", count)) for kind, count in counts]
    return section("Census of events", tag("table", tag("tbody", *rows)), class_="part-census")


def pairs_part(answer: Answer) -> str:
    """The life of each pair, and behind a settled run its side."""
    if not answer.journal or not answer.journal.pairs:
        return ""
    pairs = [pair_life(pair, answer.sides) for pair in answer.journal.pairs[:MOST_STORY]]
    sides = [tag("p", "sides: ", tag("code", escaped(answer.sides)), class_="report")] if answer.sides else []
    return section("Lives of pairs", tag("ol", *pairs, class_="pairs"), *sides, class_="part-pairs")


def pair_life(pair: Pair, sides: str) -> str:
    words = [
        f"Turn {pair.turn}: an integer becomes a pointer to {hex(pair.address)}, where {pair.low} ends and {pair.high} begins; "
        "it may stand for either."
    ]
    if side := {"l": "low", "h": "high"}.get(sides[pair.number - 1:pair.number]):
        words.append(f"Settled for {pair.low if side == 'low' else pair.high} ({side}).")
    uses = [f"turn {use.turn}, test {use.test}: {' and '.join(use.left)} left" for use in pair.uses]
    return tag("li", *(tag("p", escaped(line)) for line in words), bullets(uses, "uses"), value=pair.number)


def layout_part(answer: Answer) -> str:
    if answer.asked.mode != "layout" or answer.status:
        return ""
    text = "\n".join([answer.report, *answer.story.splitlines()]) if answer.report else ""
    shapes = tag("pre", escaped(text), tabindex=0) if text else note("No structure or union.")
    return section("Layout", shapes, class_="part-layout")


# ---- all of it

def section(title: str, *content: str, class_: str, name: str = "") -> str:
    heading = tag("h2", title, *([" ", tag("code", escaped(name))] if name else []))
    return tag("section", heading, *content, class_=f"part {class_}")


def note(words: str) -> str:
    return tag("p", escaped(words), class_="note")


def columns(left: str, right: str) -> str:
    """Two parts side by side where there is room."""
    return tag("div", left, right, class_="columns")


def answer_html(answer: Answer) -> str:
    """All that is shown of an answer."""
    beside = [output_part(answer), layout_part(answer), script_part(answer), story_part(answer)]
    return tag(
        "div",
        verdict_part(answer),
        columns(source_part(answer.asked, answer.place), tag("div", *beside)),
        memory_part(answer),
        class_="answer",
    )


def no_answer(asked: Asked, why: str) -> str:
    """Why there is no answer, and what it would be about."""
    said = tag("section", tag("h2", "No answer"), tag("pre", escaped(why)), class_="verdict open", role="alert")
    return tag("div", said, source_part(asked, None), class_="answer")


def part_of_page(name: str) -> str:
    with open(f"{HERE}/page.d/{name}", encoding="utf-8") as file:
        return file.read()


def source_hash(text: str) -> str:
    return f"'sha256-{base64.b64encode(hashlib.sha256(text.encode()).digest()).decode()}'"


def whole_page(title: str, body: str, scripts: list[str], may_connect: bool = False) -> str:
    """The page, self-contained. Its policy lets no script and no style run but its own, and nothing be fetched from elsewhere."""
    style, script = part_of_page("page.css"), "\n".join(map(part_of_page, scripts))
    policy = f"default-src 'none'; base-uri 'none'; form-action 'none'; style-src {source_hash(style)}; script-src {source_hash(script)}"
    policy += "; connect-src 'self'" if may_connect else ""
    head = [
        '<meta charset="utf-8">',
        f'<meta http-equiv="Content-Security-Policy" content="{escaped(policy)}">',
        '<meta name="viewport" content="width=device-width, initial-scale=1">',
        tag("title", escaped(title)), tag("style", style),
    ]
    return "<!DOCTYPE html>\n" + tag("html", tag("head", *head), tag("body", body, tag("script", script)), lang="en") + "\n"


def origin(programs: Programs) -> str:
    """Whose word the page is."""
    program = "the proved program pvrun" if is_proved(programs.pvrun) else shown_path(programs.pvrun)
    words = f"Verdict, output, story and census are those of {program}, and the events those of pv_replay beside it. "
    said = warning([programs.pvrun, programs.pv_replay])
    words += f"{said}. " if said else ""
    return tag("footer", note(words + "What is drawn of them, and the words beside them, are not proved."))
