"""For tools/wrong-bodies: shows on small crates, over a prover that is made up, how edits are applied, tried and read."""
import os
import subprocess
import sys
import tempfile
import threading

from wrong_bodies_texts import BAD, NAMES, PROVED, REFUSED, UNTOLD, BadEdit, asked_of, edited, functions_of, rounds_of, told, told_of

SOURCE = """pub struct S;

const MOST: u8 = 1;

fn law()
    ensures { 1 }
{}

impl Model for S {
    fn view() {
    }
}

impl S {
    fn low(&self) -> u8 {
        1
    }
}

fn high() -> u8 {
    S.low()
}

#[cycle(odd)]
fn even() -> u8 {
    odd() + MOST
}

#[cycle(odd)]
fn odd() -> u8 {
    even() + 2
}
"""
# name of an edit: old text, what the made-up prover reads in its place
EDITS = {
    "law": ("    ensures { 1 }", "// wrong"),
    "low": ("        1", "// wrong"),
    "low_again": ("        1", "// right"),
    "high": ("    S.low()", "// wrong"),
    "even": ("    odd() + MOST", "// names"),
    "odd": ("    even() + 2", "// unread"),
    "most": ("const MOST: u8 = 1;", "// wrong"),
    "type": ("pub struct S;", "// right"),
    "twice": ("fn ", "// wrong"),
}
# A check in the place of tools/check-over: it reads the marks of EDITS in src/a.rt as a prover would read what stands there.
PROVER = '''#!{python}
import re, sys, time
sys.path.insert(0, {tools!r})
from wrong_bodies_texts import functions_of
folder = {room!r} + "/crates/c"
text = open(folder + "/src/a.rt").read()
with open({room!r} + "/asked", "a") as log:
    log.write(" ".join(sys.argv[3:]) + "\\n")
lines = text.split("\\n")
if "// library" in text:
    sys.exit("check-over: below is not built yet")
if "// slow" in text:
    time.sleep(60)
for number, line in enumerate(lines, 1):
    if "// unread" in line:
        print(f"src/a.rt:{{number}}:1: error[mismatched-types]: no")
        sys.exit(1)
names = [word[3:] for word in sys.argv if word.startswith("c::")]
found = False
functions = functions_of(folder)
for name in names or sorted(functions):
    it = functions[name]
    own = [number for number in range(it.first, it.last + 1) if "// wrong" in lines[number - 1]] or (["MOST"] if "MOST" in it.text and "// wrong" in lines[2] else [])
    for number in own:
        print(f"note: src/a.rt:{{it.first if number == 'MOST' else number}}:1: it is not proved that ..")
    if "// names" in it.text:
        print(f"./{{it.proof if it.proof[0] != '+' else 'proofs/a/' + it.proof}}/Answers.antt:1:1: error: `c.a` has no field `b`")
        own = own or [0]
    calls = [other for other in functions if other != name and re.search(r"\\b" + other.split("::")[-1] + r"\\(", it.text) and "// wrong" in functions[other].text]
    found = found or bool(own or calls)
    print(f"fn c::{{name}}: " + ("not proved" if own else "no proof: it calls " + calls[0] if calls else "no holes"))
print("logic=not-proved" if found and not names else "logic=proved functions=1" if not names else "only=1 holes=0")
sys.exit(1 if found else 0)
'''


def made(room, edits=EDITS):
    """Makes a crate `c` with these edits in the folder, and returns their files by name."""
    os.makedirs(f"{room}/crates/c/src")
    os.makedirs(f"{room}/tools")
    with open(f"{room}/crates/c/src/a.rt", "w", encoding="utf-8") as file:
        file.write(SOURCE)
    with open(f"{room}/tools/check-over", "w", encoding="utf-8") as file:
        file.write(PROVER.format(python=sys.executable, tools=os.path.dirname(os.path.abspath(__file__)), room=room))
    os.chmod(f"{room}/tools/check-over", 0o755)
    for name, (old, new) in edits.items():
        with open(f"{room}/{name}.edit", "w", encoding="utf-8") as file:
            file.write(f"file: src/a.rt\nold: {old}\nnew: {old} {new}\n")
    return {name: f"{room}/{name}.edit" for name in edits}


def test_texts(room):
    """How edits are applied, and which functions tell of them."""
    files, folder = made(room), f"{room}/crates/c"
    functions = functions_of(folder)
    asked = {name: asked_of(file, folder, functions) for name, file in files.items() if name != "twice"}
    yield "the functions of a crate", sorted(functions) == ["a::S::low", "a::even", "a::high", "a::law", "a::odd"]
    yield "where a proof is written", [functions[it].proof for it in ("a::S::low", "a::even")] == ["proofs/a/S/low", "+odd"]
    yield "the function of an edit", [sorted(asked[it][0]) for it in ("law", "low", "high")] == [["a::law"], ["a::S::low"], ["a::high"]]
    yield "those that name a constant", asked["most"] == ({"a::even"}, False)
    yield "other text", asked["type"] == (set(), False)
    yield "an edit is applied", "S.low() // wrong\n" in edited(files["high"], folder)["src/a.rt"]
    for name, text in (("twice", None), ("none", "")):
        if text is not None:
            with open(f"{room}/{name}.edit", "w", encoding="utf-8") as file:
                file.write(text)
        try:
            edited(f"{room}/{name}.edit", folder)
            yield f"{name}: refused", False
        except BadEdit:
            yield f"{name}: refused", True
    rounds = rounds_of({it: asked[it][0] for it in ("low", "low_again", "high", "even", "odd")}, functions, 24)
    yield "no function and no cycle twice in a round", rounds == [["low", "high", "even"], ["low_again", "odd"]]
    few = rounds_of({it: asked[it][0] for it in ("low", "high", "even")}, functions, 2)
    yield "no more than so many in a round", few == [["low", "high"], ["even"]]


def test_reading(room):
    """How the text of a check is read."""
    made(room)
    functions = functions_of(f"{room}/crates/c")
    at = functions["a::S::low"].first
    said = (
        f"src/a.rt:{at}:1: warning: unused\nnote: src/a.rt:{at + 1}:9: it is not proved that ..\nfn c::a::S::low: not proved\nfn c::a::law: no holes\n"
        "./proofs/a/high/Answers.antt:1:1: error: `c.a` has no field `b`\nfn c::a::high: not proved\n"
        "./proofs/a/+odd/Answers.antt:1:1: error: a type does not fit\nfn c::a::even: not proved\nfn c::a::odd: could not tell\n"
    )
    kinds = {name: (answer.kind if (answer := told_of(said, "c", {name}, functions)) else None) for name in functions}
    yield "one of many refused", kinds["a::S::low"] == REFUSED and told_of(said, "c", {"a::S::low"}, functions).words.endswith("not proved that ..")
    yield "one of many still proved", kinds["a::law"] == PROVED
    yield "one of many refused for names alone", kinds["a::high"] == NAMES
    yield "one of a cycle refused in its answers", kinds["a::even"] == REFUSED
    yield "one of which nothing is known", kinds["a::odd"] is None and told_of("", "c", {"a::law"}, functions) is None
    lacks = told_of("fn c::a::high: no proof: expected answers in ./proofs/a/high/Answers.antt; `search` did not prove `returns`", "c", {"a::high"}, functions)
    yield "one with a goal that is left", lacks.kind == REFUSED
    yield "one that calls what is not proved", told_of("fn c::a::high: no proof: it calls low", "c", {"a::high"}, functions) is None
    yield "the crate: refused", told("note: src/a.rt:1:1: it is not proved that ..\nlogic=not-proved", 1) == (REFUSED, "refused: note: src/a.rt:1:1: it is not proved that ..")
    yield "the crate: for names alone", told("./proofs/x.antt:1:1: error: `c.a` has no field `b`\nlogic=not-proved", 1).kind == NAMES
    yield "the crate: proved", told("logic=proved functions=3", 0).kind == PROVED
    yield "the crate: can't be read", told("src/a.rt:1:1: error: `x` is not in scope\nlogic=not-proved", 1).kind == BAD
    yield "the crate: another stop", told("rattle: no such file", 2).kind == UNTOLD


def answers_in(tool, room, files, is_together, seconds=60):
    """Tries these edits of the made-up crate, and returns what came of each, by name."""
    checks = tool.Checks(1)
    checks.seconds = seconds
    if os.path.exists(f"{room}/asked"):
        os.remove(f"{room}/asked")
    answers = dict(tool.answers_of(tool.Room(room, "c", room, checks), list(files.values()), is_together, 24))
    return {name: answers[file].kind for name, file in files.items()}


def checks_made(room):
    with open(f"{room}/asked", encoding="utf-8") as lines:
        return len(lines.readlines())


def test_trying(tool, room):
    """How edits are tried, alone and together."""
    files = made(room)
    wanted = {"law": REFUSED, "low": REFUSED, "low_again": PROVED, "high": REFUSED, "even": NAMES, "odd": BAD, "most": REFUSED, "type": PROVED, "twice": BAD}
    yield "each alone", answers_in(tool, room, files, False) == wanted
    yield "together", answers_in(tool, room, files, True) == wanted
    # a round; a second with the first half stopped by the front end, then what is left of it; and two alone
    yield "together in fewer checks", checks_made(room) < 8
    with open(f"{room}/crates/c/src/a.rt", encoding="utf-8") as file:
        yield "the text is put back", file.read() == SOURCE


def test_ends(tool, room):
    """Checks that run out of time, are interrupted, or lack a library."""
    files = made(room, {"low": ("        1", "// wrong"), "high": ("    S.low()", "// slow"), "law": ("    ensures { 1 }", "// library")})
    few = {name: files[name] for name in ("low", "high")}
    yield "out of time: by halves", answers_in(tool, room, few, True, 3) == {"low": REFUSED, "high": UNTOLD}
    checks = tool.Checks(1)
    threading.Timer(0.5, checks.end).start()
    try:
        list(tool.answers_of(tool.Room(room, "c", room, checks), [files["high"]], True, 24))
        yield "interrupted", False
    except tool.CutOff:
        yield "interrupted", not checks.running
    try:
        answers_in(tool, room, {"law": files["law"]}, True)
        yield "a library that is not built", False
    except tool.Unfit as why:
        yield "a library that is not built", str(why) == "below is not built yet"
    with open(f"{room}/log", "w", encoding="utf-8") as log:
        log.write("c/a.edit: refused: here\nc/b.edit: NOT TOLD: status 2: x\nc/d.edit: NOT REFUSED: y\nc: 1 of 3 refused\n")
    yield "what was told earlier", {name: it.kind for name, it in tool.told_earlier(f"{room}/log").items()} == {"c/a.edit": REFUSED, "c/d.edit": PROVED}
    for name, text in (("one", "a"), ("same", "a"), ("other", "b")):
        os.makedirs(f"{room}/{name}/within")
        with open(f"{room}/{name}/within/file", "w", encoding="utf-8") as file:
            file.write(text)
    yield "the same text, and another", tool.is_same(f"{room}/one", f"{room}/same") and not tool.is_same(f"{room}/one", f"{room}/other")
    os.makedirs(f"{room}/kept/wrong-bodies")
    os.makedirs(f"{room}/kept/src")
    for name, text in (("src/a.rt", "one\ntwo\n"), ("wrong-bodies/fits.edit", "file: src/a.rt\nold: one\nnew: two\n"), ("wrong-bodies/gone.edit", "file: src/a.rt\nold: six\nnew: two\n")):
        with open(f"{room}/kept/{name}", "w", encoding="utf-8") as file:
            file.write(text)
    yield "edits that fit, and that don't", [bool(why) for _, why in tool.applied(f"{room}/kept")] == [False, True]
    ran = subprocess.run([sys.executable, f"{tool.HERE}/wrong-bodies", "no_such_crate"], capture_output=True, text=True)
    yield "a crate that is not there", ran.returncode == 1 and "there is no crate" in ran.stderr


def self_test(tool):
    """Runs all of these, and returns 1 if one failed."""
    checks = []
    for test in (test_texts, test_reading, lambda room: test_trying(tool, room), lambda room: test_ends(tool, room)):
        with tempfile.TemporaryDirectory(prefix="wrong-bodies-") as room:
            checks += test(room)
    for name, is_well in checks:
        print(f"{'ok' if is_well else 'FAILED'}: {name}")
    failed = sum(not is_well for _, is_well in checks)
    print(f"{len(checks) - failed} passed, {failed} failed")
    return 1 if failed else 0
