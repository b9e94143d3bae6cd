"""For tools/wrong-bodies: which functions an edit changes, and what a check's text says of them."""
import os
import re
from typing import NamedTuple

# The head of a function, of an `impl` and of a type, and what ends an `impl`.
HEAD = re.compile(
    r"(?m)^(?P<indent> *)(?:pub(?:\([a-z]+\))? )?(?:const )?fn (?P<function>\w+)"
    r"|^impl(?:<[^{\n]*?>)? (?:(?P<law>[\w:]+)(?:<[^{\n]*?>)? for )?(?P<owner>\w+)"
    r"|^(?:pub(?:\([a-z]+\))? )?(?:struct|enum) (?P<type>\w+)"
    r"|^(?P<end>\})"
)
CONSTANT = re.compile(r"(?:pub(?:\([a-z]+\))? )?(?:const|static) (\w+)")
CYCLE = re.compile(r"#\[cycle\((\w+)\)\]")
# What antt says of a text that it can't read, which is no refusal of what the text says.
UNREAD = re.compile(r"is not in scope|has no field|is no name|operand is missing|expected the end|cannot continue")
# What it says of a proof that names what an edit took away.
NAMES_ALONE = re.compile(r"(note: )?(\./)?proofs/.*(has no field|has no `|is not in scope|was not admitted|large solution)")
PLACE = re.compile(r"(?:note: )?(?:\./)?((?:src|specs|proofs)/[^:\s]+):(\d+):\d+:")
# Words of a function's line where what it calls is not proved.
CALLS = re.compile(r"it calls|it passes|a call of")

LEFT = re.compile(r"did not prove")
# How the line begins of an edit that is refused for names alone.
FOR_NAMES = "refused, for the names in a proof file alone"

# What comes of an edit: it is refused for what it says, or for a name in a proof file alone; its function or crate is still proved; it can't
# be applied, compiled or read; or no check told.
REFUSED, NAMES, PROVED, BAD, UNTOLD = "refused", "names", "proved", "bad", "untold"
PASSES = (REFUSED, NAMES)


class BadEdit(Exception):
    """Why an edit can't be applied."""


class Answer(NamedTuple):
    """What came of an edit, and what to say of it."""

    kind: str
    words: str


class Function(NamedTuple):
    """A function of a crate: its file, its first and its last line there, its text, and the folder with what is written of its proof."""

    file: str
    first: int
    last: int
    text: str
    proof: str


def edited(edit, folder, texts=None):
    """Returns the texts of the files below the folder that the edit changes, by their paths: over these, if they are given."""
    path, old, texts = "", None, dict(texts or {})
    with open(edit, encoding="utf-8") as lines:
        for line in lines.read().split("\n"):
            if line.startswith("file: "):
                path = line[len("file: ") :].strip()
            elif line.startswith("old: "):
                old = line[len("old: ") :]
            elif line.startswith("new:"):
                if not path or not old:
                    raise BadEdit("a 'new:' line stands before any 'file:' or 'old:' line")
                if path not in texts:
                    with open(f"{folder}/{path}", encoding="utf-8") as file:
                        texts[path] = file.read()
                if texts[path].count(old) != 1:
                    raise BadEdit(f"an 'old:' text is in {path} {texts[path].count(old)} times, and not once")
                texts[path] = texts[path].replace(old, line[len("new:") :].removeprefix(" "))
                old = None
    if not texts:
        raise BadEdit("it has no 'old:' and 'new:' pair")
    return texts


def applied(folder):
    """Yields the path of each edit of a crate, and why it can't be applied to the crate's text, or nothing."""
    for kind in ("must-fail", "wrong-bodies"):
        edits = os.listdir(f"{folder}/{kind}") if os.path.isdir(f"{folder}/{kind}") else []
        for name in sorted(edits):
            try:
                edited(f"{folder}/{kind}/{name}", folder)
                yield f"{kind}/{name}", ""
            except (BadEdit, OSError, UnicodeDecodeError) as why:
                yield f"{kind}/{name}", str(why)


def cycle_above(text, at):
    """Returns the cycle of calls that an attribute above a function names, if one does."""
    for line in reversed(text[:at].split("\n")[:-1]):
        named = CYCLE.search(line)
        if named or not line.strip().startswith(("#[", "//")):
            return named[1] if named else ""
    return ""


def functions_of(folder):
    """Returns the functions below src/ by their paths in the crate, but for the methods of traits, which a check calls otherwise."""
    owners, found = {}, []
    for at, _, names in os.walk(f"{folder}/src"):
        for name in sorted(names):
            path = os.path.relpath(f"{at}/{name}", folder)
            module = path[len("src/") : -len(".rt")].split("/")
            with open(f"{folder}/{path}", encoding="utf-8") as file:
                text = file.read()
            owner, is_law = "", False
            for head in HEAD.finditer(text):
                if head["end"]:
                    owner, is_law = "", False
                elif head["owner"]:
                    owner, is_law = head["owner"], bool(head["law"])
                elif head["type"]:
                    owners[head["type"]] = module
                elif not (head["indent"] and is_law):
                    ends = [text.find(f"\n{head['indent']}{end}", head.end()) for end in ("}", "{}")]
                    end = min((it for it in ends if it >= 0), default=len(text))
                    lines = (text.count("\n", 0, head.start()) + 1, text.count("\n", 0, end) + 2)
                    found.append((owner if head["indent"] else "", module, head["function"], path, lines, text[head.start() : end], cycle_above(text, head.start())))
    functions = {}
    for owner, module, name, path, lines, text, cycle in found:
        parts = [it for it in (owners.get(owner, module) if owner else module) if it not in ("lib", "main")] + ([owner] if owner else [])
        proof = f"+{cycle}" if cycle else "/".join(["proofs", *parts, name])
        functions["::".join([*parts, name])] = Function(path, *lines, text, proof)
    return functions


def constant_at(lines, number):
    """Returns the constant in whose definition a line stands, if it does in one."""
    for line in lines[number - 1 :: -1]:
        if line and not line[0].isspace() and line[0] not in "]})":
            named = CONSTANT.match(line)
            return named[1] if named else ""
    return ""


def asked_of(edit, folder, functions):
    """Returns the functions that tell of an edit, and whether it changes these alone: else they are those that name a constant which it changes.
    There are none where it changes other text."""
    names, is_alone = set(), True
    for path, text in edited(edit, folder).items():
        with open(f"{folder}/{path}", encoding="utf-8") as file:
            old = file.read().split("\n")
        for number, (before, after) in enumerate(zip(old, text.split("\n")), 1):
            if before == after:
                continue
            inside = {name for name, it in functions.items() if it.file == path and it.first <= number <= it.last}
            if not inside:
                is_alone, constant = False, constant_at(old, number)
                inside = {name for name, it in functions.items() if constant and re.search(rf"\b{constant}\b", it.text)}
            if not inside:
                return set(), False
            names |= inside
    return names, is_alone


def rounds_of(asked, functions, most):
    """Parts edits, by the functions that tell of each, into rounds of at most so many, in none of which a function or a cycle of calls is
    changed twice."""
    rounds = []
    for edit, names in asked.items():
        proofs = {functions[name].proof for name in names}
        for round_, taken in rounds:
            if len(round_) < most and not proofs & taken:
                break
        else:
            round_, taken = [], set()
            rounds.append((round_, taken))
        round_.append(edit)
        taken |= proofs
    return [round_ for round_, _ in rounds]


def is_of(line, names, functions):
    """Whether a line of a check speaks of a place in one of these functions, or in what is written of its proof."""
    place = PLACE.match(line)
    if not place:
        return False
    path, number = place[1], int(place[2])
    for it in (functions[name] for name in names):
        if path == it.file and it.first <= number <= it.last or f"/{it.proof}/" in f"/{path}":
            return True
    return False


def is_stop(line):
    """Whether a line says where the front end stopped, so that the prover wasn't asked: read where no function's line is."""
    return re.match(r"(?:\./)?src/\S+:\d+:\d+: error", line) is not None


def of_places(places):
    """Returns what the lines of a check that speak of an edit's places say of it, if they say something."""
    places = [line for line in places if ": warning" not in line]
    bad = [line for line in places if ": error" in line and not line.removeprefix("./").startswith("proofs/") and UNREAD.search(re.sub(r"`[^`]*`", "", line))]
    if bad:
        return Answer(BAD, f"BAD EDIT: the prover cannot read the edited text: {bad[0][:200]}")
    values = [line for line in places if not NAMES_ALONE.match(line)]
    if values:
        return Answer(REFUSED, f"refused: {values[0][:160]}")
    return Answer(NAMES, FOR_NAMES) if places else None


def told_of(said, crate, names, functions):
    """Returns what a check of many edited functions says of those that tell of one edit, or None where it says nothing."""
    lines = said.split("\n")
    heads = [next((line.split(": ", 1)[1] for line in lines if line.startswith(f"fn {crate}::{name}: ")), None) for name in sorted(names)]
    if None in heads or any(head.startswith(("could not tell", "depends on")) for head in heads):
        return None
    if all(head.startswith(("no holes", "proved")) for head in heads):
        return Answer(PROVED, "NOT REFUSED: the function is still proved with this edit")
    answer = of_places([line for line in lines if is_of(line, names, functions)])
    if answer is None and not any(CALLS.search(head) for head in heads) and len(names) == 1:
        # (a goal that the search leaves, and that no answer is written for, has no place)
        return Answer(REFUSED, f"refused: {heads[0][:160]}") if LEFT.search(heads[0]) else Answer(NAMES, f"{FOR_NAMES}: {heads[0][:160]}")
    return answer


def stopped_at(said, names, functions):
    """Returns what the front end says of an edit where it stopped at one of its functions, if it did."""
    line = next((line for line in said.split("\n") if is_stop(line) and is_of(line, names, functions)), None)
    return Answer(BAD, f"BAD EDIT: it did not reach the prover: {line[:200]}") if line else None


def told(said, status):
    """Returns what a check of the whole crate with one edit says of it."""
    lines = said.rstrip().split("\n")
    if status == 0:
        return Answer(PROVED, "NOT REFUSED: the crate is still proved with this edit")
    if status != 1:
        return Answer(UNTOLD, f"NOT TOLD: the check ended with status {status}: {lines[-1][:200]}")
    answer = of_places([line for line in lines if PLACE.match(line)])
    if lines[-1].startswith("logic=not-proved"):
        return answer or Answer(NAMES, FOR_NAMES)
    if answer and answer.kind == BAD:
        return answer
    return Answer(BAD, f"BAD EDIT: it did not reach the prover: {next((line for line in lines if is_stop(line)), lines[-1])[:200]}")
