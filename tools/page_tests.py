"""The self-test of tools/page: words, pages as text, the editor from outside, and all of it in a browser if there is one."""
import contextlib
import os
import re
import subprocess
import sys
import tempfile
from html.parser import HTMLParser
from typing import Iterator, Optional

from explore_runs import HERE, Fault
from page_calls import Kept
from page_journal import Instance, Journal, turn_of
from page_markers import line_in
from page_memory import Addresses, Picture, Turns
from page_runs import Answer, Asked, Programs, parted
from page_text import escaped, shown
from page_words import HEADINGS, SENTENCES, script_words
from standing_tests import try_standing

EXAMPLES = f"{HERE}/../examples"
MANY = """void *malloc(unsigned long);
int main(void) {
  for (int i = 0; i < 500; i++) {
    char *held = malloc(24);
    held[0] = 1;
  }
  return 0;
}
"""
HOSTILE = {
    "a script's end": b"int main(void) { return 0; } // </script><script>document.title = 'taken'</script> <!-- \"'\n",
    "quotes": b"char *a = \"<b onclick='x'>\\\"\"; /* ' \" & &amp; \" onload=\"x\" */\nint main(void) { return '<'; }\n",
    "a NUL": b"int main(void) {\0 return 0; }\n",
    "bytes that are no text": b"/* \xff\xfe\x80 */ int main(void) { return 0; }\n\xc3",
    "letters to the left": "/* \u202e } \u2066 */ int main(void) { return 0; }\n".encode(),
    "2^20 bytes of <": b"<" * (1 << 20),
    "a source that is too long": b"/" * ((1 << 20) + 1),
}


class Tests:
    """Counts what passed and what failed."""

    def __init__(self, folder: Optional[str], room: str):
        self.folder = os.path.abspath(folder) if folder else None
        self.words = [f"{HERE}/page"] + (["--programs", self.folder] if self.folder else [])
        self.programs = Programs(self.folder)
        self.room = room
        self.passed = self.failed = 0

    def holds(self, what: str, is_so: bool, got: object = "") -> None:
        self.passed += bool(is_so)
        self.failed += not is_so
        if not is_so:
            print(f"{what}:\n  got {str(got)[:2000]!r}")

    def same(self, what: str, wanted: object, got: object) -> None:
        self.holds(f"{what}: wanted {str(wanted)[:2000]!r}", wanted == got, got)

    def file(self, name: str, text: "bytes | str") -> str:
        path = os.path.join(self.room, name)
        with open(path, "wb") as file:
            file.write(text if isinstance(text, bytes) else text.encode())
        return path

    def call(self, *words: "str | bytes", **options: object) -> subprocess.CompletedProcess:
        ways = {"stdin": subprocess.DEVNULL, "capture_output": True, "cwd": self.room, **options}
        return subprocess.run([*self.words, *words], **ways)

    def refused(self, what: str, words: list[str], holds: bytes) -> None:
        """A call without an answer: status 2, and a line that holds this."""
        told = self.call(*words)
        self.same(f"{what}: status", (2, b""), (told.returncode, told.stdout))
        self.holds(f"{what}: words", told.stderr.startswith(b"page: ") and holds in told.stderr, told.stderr)

    def page(self, *words: str) -> str:
        """The page of a call."""
        told = self.call(*words, "-o", "-")
        self.same(f"{words}: status", (0, b""), (told.returncode, told.stderr))
        return told.stdout.decode()

    def program(self, name: str, *words: str) -> subprocess.CompletedProcess:
        path = self.programs.pvrun if name == "pvrun" else self.programs.pv_replay
        return subprocess.run([path, *words], stdin=subprocess.DEVNULL, stdout=subprocess.PIPE)


class Shape(HTMLParser):
    """A page as it is read: whether its elements are well nested, how many there are of each class, and the text of each part."""

    EMPTY = {"meta", "input"}

    def __init__(self, page: str):
        super().__init__()
        self.open: list[tuple[str, str]] = []
        self.faults: list[str] = []
        self.classes: dict[str, int] = {}
        self.names: dict[str, int] = {}
        self.texts: dict[str, str] = {}
        self.attributes: list[tuple[str, dict]] = []
        self.feed(page)
        self.close()
        self.faults += [name for name, _ in self.open]

    def counts(self, *classes: str) -> list[int]:
        return [self.classes.get(word, 0) for word in classes]

    def handle_starttag(self, name: str, attributes: list) -> None:
        said = dict(attributes)
        self.attributes.append((name, said))
        self.names[name] = self.names.get(name, 0) + 1
        for word in said.get("class", "").split():
            self.classes[word] = self.classes.get(word, 0) + 1
        if name not in self.EMPTY:
            self.open.append((name, said.get("class") or name))

    def handle_endtag(self, name: str) -> None:
        if not self.open or self.open.pop()[0] != name:
            self.faults.append(f"/{name}")

    def handle_data(self, text: str) -> None:
        for _, class_ in self.open:
            self.texts[class_] = self.texts.get(class_, "") + text


def read(path: str) -> bytes:
    with open(path, "rb") as file:
        return file.read()


# ---- texts, scales, words

def try_texts(tests: Tests) -> None:
    tests.same("escaped", "&lt;a b=&quot;&#x27;&amp;", escaped("<a b=\"'&"))
    odd = b"\0\x1b[1m\xff\t\xc3\xa4\n\xe2\x80\xae"
    tests.same("a control and a byte that is no text", "\u2400\u241b[1m\\xff\tä\n\\u202e", shown(odd))
    without = [kind for kind in HEADINGS if not any(key == kind for key, _ in SENTENCES) and kind != "undefined"]
    tests.same("a sentence for each outcome", [], without)
    source = b'a\n# 7 "b.h" 1\nb\n#  3 "c \\"d\\".c"\nc\nd\n'
    places = [(b"b.h", 7), (b'c "d".c', 4), (b"x", 1), (b"x", 2)]
    tests.same("the line of a marker", [3, 6, 1, None], [line_in(source, {b"x"}, *place) for place in places])
    kept = Kept(3, 4)
    for byte in b"0123456789abcdef":
        kept.add(bytes([byte]))
    kept.drop()
    tests.same("the first and the last bytes", (b"012cdef", 9), (bytes(kept.bytes), kept.dropped))
    mark = b"0123456789abcdef"
    two = b"a\033_%s2\033\\b\033_%s1\033\\c\033" % (mark, mark)
    tests.same("two streams", (b"abc\033", [(1, 2)]), parted(two, mark, False))
    tests.same("two streams, cut within a mark", (b"abc", [(1, 2)]), parted(two + b"_0123", mark, True))
    tests.same("cut within what is no mark", (b"abc\033_0124", [(1, 2)]), parted(two + b"_0124", mark, True))


def try_script_words(tests: Tests) -> None:
    journal = Journal("create y#1 turn=0 base=0x20004 size=4\nevents 1\n")
    answer = Answer(Asked(b"", "a.c"), 0, "exit status=0 turn=3", journal=journal)
    for line, wanted in {
        b"y 1 0x20004": "the first <code>y</code> lies at 0x20004",
        b"y 2 0x30000": "the second <code>y</code> lies at 0x30000 (this run made none)",
        b"@heap 13 null": "the 13th allocation is refused: there is no memory",
        b"@heap 22 null": "the 22nd allocation is refused: there is no memory",
        b"@heap 111 null": "the 111th allocation is refused: there is no memory",
        b"# a comment": "", b"": "", b"y 0 0x20004": "", b"<b> 1 0x1000": "",
    }.items():
        tests.same(f"the line {line!r} of a script", wanted, script_words(line, 1, answer))
    bad = Answer(Asked(b"", "a.c"), 9, "script reason=repeated line=3 first=1")
    tests.same("a line that repeats another one", "speaks of the request of line 1", script_words(b"x 1 0x20000", 3, bad))
    late = Answer(Asked(b"", "a.c"), 4, "placement reason=overlap name=y k=1 line=2 turn=1")
    words = "the first <code>y</code> lies at 0x20004, which can't be given"
    tests.same("a place that can't be given", words, script_words(b"y 1 0x20004", 1, late))


JOURNAL = """create x#1 turn=0 base=0x20000 size=4
create y#1 turn=0 base=0x20004 size=4
create p#1 turn=1 base=0x10000 size=8
expose x#1 turn=7
expose y#1 turn=11
pair 1 turn=14 address=0x20004 low=x#1 high=y#1
use 1 turn=18 test=live left=x#1,y#1
use 1 turn=19 test=range left=y#1
end p#1 turn=29
create z#1 turn=1000000 base=0x10004 size=1
fault turn=1000000
events 11
"""


def try_picture(tests: Tests) -> None:
    journal = Journal(JOURNAL)
    picture = Picture(journal, 1000000, {"z#1"})
    places = [picture.turns.at(turn) for turn in (0, 1, 2, 7, 19, 29, 500000, 1000000, 1000001)]
    tests.holds("turns go to the right", places == sorted(set(places)) and (places[0], places[-1]) == (0, 100), places)
    tests.holds("long quiet times are pressed together", places[7] - places[5] < 60, places)
    heights = [picture.addresses.at(address) for address in (0x10000, 0x10004, 0x10005, 0x10008, 0x20000, 0x20004, 0x20008)]
    tests.holds("addresses go upward", heights == sorted(set(heights), reverse=True), heights)
    tests.holds("a gap that nobody uses is cut out", heights[3] - heights[4] < 10, heights)
    shape = Shape(picture.html())
    tests.same("well nested", [], shape.faults)
    tests.same("bars, exposures, ends", [4, 2, 1], shape.counts("bar", "exposed", "ended"))
    tests.same("two marks for a pair, and one for a use", [1, 1, 2, 1], shape.counts("low", "high", "use", "settles"))
    tests.same("the fault, and what its story tells of", [3, 1], shape.counts("fault", "told"))
    one = Journal("create x#1 turn=0 base=0x1000 size=1\nevents 1\n")
    tests.same("a run of one instance", [1], Shape(Picture(one, 0, set()).html()).counts("bar"))
    tests.same("the least scale", [0, 100], Turns([], 0).places)
    many = Journal("".join(f"create n#{k} turn={k} base={hex(0x10000 + 32 * k)} size=4\n" for k in range(1, 5001)))
    tests.same("of too many instances those that ended last", [4000], Shape(Picture(many, 5000, set()).html()).counts("bar"))
    tests.holds("many rows are lower", Addresses(list(many.instances.values())[:1000]).height < 8000)


def try_words(tests: Tests) -> None:
    plain = tests.file("plain.c", "int x; int main(void) { return x; }\n")
    for words in (
        [], [plain, plain], [plain, "--turns", "0"], [plain, "--listen"], ["--listen", "0"], ["--listen", "0.0.0.0:80"],
        ["--listen", "0.0.0.0"], ["--listen", "::1"], ["--listen", "--turns", "3"],
    ):
        told = tests.call(*words)
        tests.same(f"words {words}: status", (2, b""), (told.returncode, told.stdout))
        tests.holds(f"words {words}: usage", told.stderr.startswith(b"usage: page "), told.stderr)
    told = tests.call(plain)
    tests.same("where no name is said", (0, b"page: plain.html\n", b""), (told.returncode, told.stdout, told.stderr))
    tests.holds("the page", b"exit status=0 turn=3" in read(f"{tests.room}/plain.html"))
    tests.refused("over the source", [plain, "-o", plain], b"is read, so it can't be written")
    tests.refused("into no folder", [plain, "-o", f"{plain}/a.html"], b"can't be written")
    tests.refused("no such file", [f"{tests.room}/none.c"], b"can't be read")
    tests.refused("no such script", [plain, "--script", "none"], b"can't be read")
    tests.refused("no programs", [plain, "--programs", tests.room], b"there is no program")
    wants = tests.file("wants.c", "#include <none.h>\nint main(void) { return 0; }\n")
    tests.refused("no such header", [wants], b"could not be preprocessed")
    told = tests.call("/dev/stdin", "-o", "-", stdin=None, input=b"int main(void) { return 3; }\n")
    tests.holds("a pipe", told.returncode == 0 and b"exit status=3 turn=3" in told.stdout, told.stderr)
    tests.holds("--turns", "turns bound=2" in tests.page(plain, "--turns", "2"))


# ---- pages

def try_examples(tests: Tests) -> None:
    """Each example's page has its report, its marked line, and a bar or a mark for each event of its journal."""
    for name in sorted(file.removesuffix(".c") for file in os.listdir(EXAMPLES) if file.endswith(".c")):
        try_example(tests, name)


def try_example(tests: Tests, name: str) -> None:
    source, script = f"{EXAMPLES}/{name}.c", f"{EXAMPLES}/{name}.script"
    given = ["--script", script] if os.path.exists(script) else []
    report = read(f"{EXAMPLES}/{name}.report").decode().strip()
    page = tests.page(source, *given)
    shape = Shape(page)
    tests.same(f"{name}: well nested", [], shape.faults)
    tests.holds(f"{name}: the report", shape.texts.get("report", "").startswith(f"report: {report}"), shape.texts.get("report"))
    tests.same(f"{name}: the source", shown(read(source)).rstrip("\n"), source_text(shape))
    tests.same(f"{name}: one script, one style", (1, 1), (shape.names.get("script"), shape.names.get("style")))
    tests.holds(f"{name}: nothing is fetched", not re.search(r"(src|href|action)=|@import|url\((?!#)", page))
    told = tests.program("pv_replay", "write", source, *given)
    tests.same(f"{name}: bars and marks", counts_of(told.stdout.decode()) if told.returncode == 0 else {}, drawn_in(shape))
    line = re.search(r" line=(\d+) turn=", report)
    marked = [said["data-line"] for tag, said in shape.attributes if said.get("class") == "line told"]
    if line and name != "marker":
        tests.same(f"{name}: the marked line", [line[1]], marked)
    output = f"{EXAMPLES}/{name}.out"
    if os.path.exists(output):
        seen = shape.texts.get("part part-output", "")
        tests.holds(f"{name}: the output", shown(read(output)).strip() in seen, seen)


def source_text(shape: Shape) -> str:
    """The text of the source as the page has it."""
    return re.sub(r"the report speaks of line \d+: ", "", shape.texts.get("source", "")).rstrip("\n")


def counts_of(journal: str) -> dict[str, int]:
    """How many events of a kind a journal has."""
    kinds = {"create": "bar", "expose": "exposed", "end": "ended", "pair": "low", "use": "use", "fault": "mark fault"}
    counts: dict[str, int] = {}
    for line in journal.splitlines():
        kind = kinds.get(line.split(" ")[0])
        if kind:
            counts[kind] = counts.get(kind, 0) + 1
    return counts if "bar" in counts else {}


def drawn_in(shape: Shape) -> dict[str, int]:
    """How many shapes of a kind the picture of a page has."""
    counts: dict[str, int] = {}
    kinds = {
        ("svg", "bar"): "bar", ("rect", "exposed"): "exposed", ("line", "ended"): "ended",
        ("svg", "low"): "low", ("svg", "use"): "use", ("svg", "fault"): "mark fault",
    }
    for name, said in shape.attributes:
        for kind in {kinds.get((name, word)) for word in said.get("class", "").split()} - {None}:
            counts[kind] = counts.get(kind, 0) + 1
    return counts


def try_hostile(tests: Tests) -> None:
    """A source of any bytes shows as text, and nothing of it is an element."""
    for what, source in HOSTILE.items():
        path = tests.file("hostile.c", source)
        shape = Shape(tests.page(path))
        tests.same(f"{what}: elements", ([], 1, 0), (shape.faults, shape.names.get("script"), shape.names.get("b", 0)))
        tests.same(f"{what}: its text", shown(source).rstrip("\n"), source_text(shape))
    prints = 'int printf(const char *, ...);\nint main(void) { printf("</pre><script>1</script>%c", 0); return 0; }\n'
    path = tests.file("prints.c", prints)
    shape = Shape(tests.page(f"{HERE}/front-programs/two_streams.c"))
    # (the file has no zero byte)
    wanted = shown(read(f"{HERE}/front-programs/two_streams.stderr"))
    tests.same("what goes to stderr", wanted, shape.texts.get("stderr", "").replace("\u2400", ""))
    tests.holds("what goes to stderr: said", "written to stderr is underlined" in shape.texts.get("part part-output", ""))
    tests.holds("a hostile output", "</pre><script>1</script>\u2400" in Shape(tests.page(path)).texts.get("part part-output", ""))
    script = tests.file("hostile.script", b"x 1 0x20000\n</td><script>\xff\n")
    shape = Shape(tests.page(tests.file("plain.c", "int x; int main(void) { return x; }\n"), "--script", script))
    tests.same("a hostile script", ([], 1), (shape.faults, shape.names.get("script")))
    tests.same("a hostile script: the report", "report: script reason=line line=2", shape.texts["report"].strip())


def try_preprocessed(tests: Tests) -> None:
    """A source with directives shows as it was written, with the line that was meant."""
    headed = "#include <stdio.h>\n#define PLACE *p\nint main(void) {\n  int *p = 0;\n  printf(\"x\");\n  return PLACE;\n}\n"
    shape = Shape(tests.page(tests.file("headed.c", headed)))
    marked = [said["data-line"] for _, said in shape.attributes if said.get("class") == "line told"]
    tests.same("a source with directives", ["6"], marked)
    path = tests.file("marker.c", read(f"{EXAMPLES}/marker.c"))
    lines = [said["class"] for _, said in Shape(tests.page(path)).attributes if "data-line" in said]
    tests.same("a source with line markers: its lines", len(read(path).splitlines()), len(lines))
    tests.same("a source with line markers: the one that is told", 1, lines.count("line told"))


def try_refused(tests: Tests) -> None:
    """A source that is refused has the line marked where it is refused, if pvwhere is there to say where."""
    if not tests.programs.pvwhere:
        print("skipped: the place of a refusal (no program pvwhere)")
        return
    for text, wanted in {
        "int main(void) {\n  return 0;\n}\nint n = m;\n": "4",
        "#include <stdlib.h>\nint main(void) { return 0; }\nint f(void) { return g(); }\n": "3",
        '# 1 "a.h"\nint x;\n# 9 "refused.c"\nint main(void) { return 0 }\n': "4",
    }.items():
        shape = Shape(tests.page(tests.file("refused.c", text)))
        marked = [said["data-line"] for _, said in shape.attributes if said.get("class") == "line told"]
        tests.same(f"refused: the marked line of {text!r}", [wanted], marked)


def try_proved(tests: Tests) -> None:
    """Only what tools/prove made of the sources as they are is called the proved program."""
    programs = {"pvrun": tests.programs.pvrun, "pv_replay": tests.programs.pv_replay}

    def told(words: list[str]) -> str:
        return subprocess.run([*words, "-o", "-"], stdin=subprocess.DEVNULL, stdout=subprocess.PIPE, encoding="utf-8").stdout

    for what, is_so, got in try_standing(tests.room, programs, "page", told):
        tests.holds(what, is_so, got)


def try_alone(tests: Tests) -> None:
    """With the programs and Python alone, without a shell, a page has verdict, marked line and picture."""
    path = os.path.join(tests.room, "path")
    os.makedirs(path, exist_ok=True)
    if not os.path.exists(f"{path}/python3"):
        os.symlink(sys.executable, f"{path}/python3")
    told = tests.call(f"{EXAMPLES}/use_after_free.c", "-o", "-", env={"PATH": path})
    shape = Shape(told.stdout.decode())
    marked = [said["data-line"] for _, said in shape.attributes if said.get("class") == "line told"]
    tests.same("alone: status, marked line, bars", (0, ["10"], True), (told.returncode, marked, shape.counts("bar")[0] > 0))


# ---- the turns of a run

def live_lines(journal: str, turn: int) -> list[str]:
    """The instances that live behind a turn, reckoned from the journal's lines alone, as pv_step tells them."""
    live: dict[str, str] = {}
    for line in journal.splitlines():
        kind, name = line.split(" ")[:2]
        if kind == "events" or turn_of(line) > turn:
            break
        if kind == "create":
            live[name] = f"live {name} " + " ".join(word for word in line.split(" ") if word.startswith(("base=", "size=")))
        elif kind == "end":
            del live[name]
        elif kind == "expose":
            live[name] += " exposed"
    return list(live.values())


def told_by_stepper(tests: Tests, source: str, given: list[str], turns: list[int]) -> Optional[list[list[str]]]:
    """The same as pv_step tells it, where that program is at hand."""
    folder = tests.folder or f"{HERE}/../crates/pv_step/out"
    if not os.access(f"{folder}/pv_step", os.X_OK):
        return None
    commands = tests.file("commands", "".join(f"go {turn}\nlist\n" for turn in turns))
    told = subprocess.run([f"{folder}/pv_step", source, commands, *given], stdin=subprocess.DEVNULL, stdout=subprocess.PIPE)
    parts = re.split(r"^live count=\d+\n", told.stdout.decode(), flags=re.M)[:-1]
    return [[line for line in part.splitlines() if line.startswith("live ")] for part in parts]


def told_live(it: Instance, turn: int) -> str:
    is_exposed = it.exposed is not None and it.exposed <= turn
    return f"live {it.id} base={hex(it.base)} size={it.size}" + (" exposed" if is_exposed else "")


STEPPED = ["two_candidates", "reused_address", "body_of_a_loop", "realloc_moves", "settled_by_a_step"]


def try_turns(tests: Tests) -> bool:
    """What lives at three turns of five runs; whether pv_step told it too."""
    has_stepper = False
    for name in STEPPED:
        source, script = f"{EXAMPLES}/{name}.c", f"{EXAMPLES}/{name}.script"
        given = ["--script", script] if os.path.exists(script) else []
        text = tests.program("pv_replay", "write", source, *given).stdout.decode()
        journal = Journal(text)
        turns = sorted({max(1, turn) for turn in (journal.turns[-1] // 3, journal.turns[-1] // 2, journal.turns[-1])})
        stepped = told_by_stepper(tests, source, given, turns)
        for index, turn in enumerate(turns):
            lines = [told_live(it, turn) for it in journal.live_at(turn)]
            tests.same(f"{name}: what lives at turn {turn}", live_lines(text, turn), lines)
            if stepped is not None:
                has_stepper = True
                tests.same(f"{name}: what lives at turn {turn}, by pv_step", stepped[index], lines)
    return has_stepper


# ---- all of it

@contextlib.contextmanager
def progress(what: str) -> Iterator[None]:
    """Says on a terminal which part is tried."""
    if sys.stderr.isatty():
        print(f"\r\033[K{what}", end="", file=sys.stderr, flush=True)
    yield
    if sys.stderr.isatty():
        print("\r\033[K", end="", file=sys.stderr, flush=True)


def self_test(folder: Optional[str] = None) -> int:
    from page_browser import find_browser
    from page_tests_browser import try_browser
    from page_tests_server import try_server

    with tempfile.TemporaryDirectory() as room:
        try:
            tests = Tests(folder, room)
        except Fault as fault:
            print(f"page: {fault}", file=sys.stderr)
            return 2
        for part in (try_texts, try_script_words, try_picture, try_words, try_examples, try_hostile, try_preprocessed, try_refused, try_proved, try_alone):
            with progress(part.__name__):
                part(tests)
        if not try_turns(tests):
            print("skipped: lists of live instances against pv_step (no such program); they are reckoned from the journal alone")
        with progress("try_server"):
            try_server(tests)
        browser = find_browser()
        if browser:
            with progress("try_browser"):
                try_browser(tests, browser)
        else:
            print("skipped: all that a browser shows (no Chromium: apt-get install chromium)")
    print(f"{tests.passed} passed, {tests.failed} failed")
    return int(tests.failed > 0)
