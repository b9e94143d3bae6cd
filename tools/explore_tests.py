"""The self-test of tools/explore: searches over examples/ and tools/explore-programs, what is tried of a journal, and words from outside."""
import os
import signal
import subprocess
import sys
import tempfile
import time
from typing import Optional

from explore_places import Chooser, Ground, Journal, Script, least, lines_of, scripts_of, text_of
from explore_runs import HERE, Fault, find_program
from standing_tests import try_standing

EXAMPLES = f"{HERE}/../examples"
PROGRAMS = f"{HERE}/explore-programs"
# Examples whose script leads to another verdict than the first run's.
WITH_SCRIPTS = [
    "call_settles", "narrow_integer", "neighbours", "no_memory", "no_memory_unasked",
    "same_address", "two_candidates", "undecided",
]


class Told:
    """What a call of the tool told."""

    def __init__(self, status: int, out: str, err: str):
        self.status, self.out, self.err = status, out, err


class Tests:
    """Counts what passed and what failed."""

    def __init__(self, folder: Optional[str], room: str):
        self.words = [f"{HERE}/explore"] + (["--programs", os.path.abspath(folder)] if folder else [])
        self.pvrun = find_program(folder, "pvrun")
        self.room = room
        self.passed = self.failed = 0

    def holds(self, what: str, is_so: bool, got: object) -> None:
        self.passed += is_so
        self.failed += not is_so
        if not is_so:
            print(f"{what}:\n  got {got!r}")

    def same(self, what: str, wanted: object, got: object) -> None:
        self.holds(f"{what}: wanted {wanted!r}", wanted == got, got)

    def call(self, *words: "str | bytes", **options: object) -> Told:
        told = subprocess.run([*self.words, *words], capture_output=True, **{"stdin": subprocess.DEVNULL, **options})
        return Told(told.returncode, told.stdout.decode("utf-8", "replace"), told.stderr.decode("utf-8", "replace"))

    def file(self, name: str, text: str) -> str:
        path = os.path.join(self.room, name)
        with open(path, "w", encoding="utf-8") as file:
            file.write(text)
        return path

    def refused(self, what: str, words: list, holds: str) -> None:
        """A call without an answer: status 2, nothing on standard output, and a line that holds this."""
        told = self.call(*words)
        self.same(f"{what}: status", 2, told.status)
        self.same(f"{what}: output", "", told.out)
        self.holds(f"{what}: words with '{holds}'", holds in told.err and told.err.startswith("explore: "), told.err)


def text(path: str) -> str:
    with open(path, encoding="utf-8") as file:
        return file.read()


def words_of(report: str) -> str:
    """The line of a report without its turn."""
    return report.strip().rsplit(" turn=", 1)[0]


# ---- searches

def try_found(tests: Tests, path: str) -> None:
    """The search finds the verdict of the script beside the program, by a script that speaks of no other requests."""
    name = os.path.basename(path)
    kept = os.path.join(tests.room, name)
    told = tests.call(f"{path}.c", "--keep", kept)
    tests.same(f"{name}: status", 1, told.status)
    scripts = {words_of(text(f"{kept}/{file}")): file.replace("report", "script") for file in os.listdir(kept) if file.endswith(".report")}
    found = scripts.get(words_of(text(f"{path}.report")))
    tests.holds(f"{name}: the verdict of its script", found not in (None, "0.script"), told.out)
    if found:
        requests = lines_of(text(f"{kept}/{found}")).keys()
        tests.holds(f"{name}: the script that was found", requests <= lines_of(text(f"{path}.script")).keys(), requests)
    try_kept(tests, f"{path}.c", kept)


def try_kept(tests: Tests, source: str, folder: str) -> None:
    """Each script that was kept leads to the report beside it."""
    for number in range(len(os.listdir(folder)) // 2):
        report = text(f"{folder}/{number}.report")
        words = [tests.pvrun, "run", source, "--script", f"{folder}/{number}.script"]
        ran = subprocess.run(words, stdin=subprocess.DEVNULL, stdout=subprocess.PIPE, encoding="utf-8")
        tests.same(f"{source}: {number}.report", report, ran.stdout[-len(report):])


def try_clean(tests: Tests, path: str) -> None:
    """No script changes the verdict."""
    told = tests.call(f"{path}.c")
    tests.same(f"{os.path.basename(path)}: status", 0, told.status)
    tests.holds(f"{os.path.basename(path)}: words", "no script that was tried changes the verdict" in told.out, told.out)
    tests.holds(f"{os.path.basename(path)}: the verdict", f"  {words_of(text(f'{path}.report'))}\n" in told.out, told.out)


def try_programs(tests: Tests) -> None:
    for name in WITH_SCRIPTS:
        try_found(tests, f"{EXAMPLES}/{name}")
    for name in sorted(file.removesuffix(".c") for file in os.listdir(PROGRAMS) if file.endswith(".c")):
        path = f"{PROGRAMS}/{name}"
        (try_found if os.path.exists(f"{path}.script") else try_clean)(tests, path)


def try_readme(tests: Tests) -> None:
    """The output that docs/EXPLORE.md shows is a part of what is told."""
    section = text(f"{HERE}/../docs/EXPLORE.md").split("\n## What it shows\n")[1].split("\n## ")[0]
    block = "".join(line[4:] + "\n" for line in section.splitlines() if line.startswith("    "))
    told = tests.call("cached_by_address.c", cwd=f"{HERE}/explore-programs")
    tests.holds("docs/EXPLORE.md", len(block) > 300 and block in told.out, told.out)


# ---- what is tried

JOURNAL = """create x#1 turn=0 base=0x10000 size=4
create @heap#1 turn=3 base=0x10020 size=5
end @heap#1 turn=4
create @heap#2 turn=5 base=0x10040 size=16
create c#1 turn=6 base=0x10060 size=3
events 5
"""


def scripts_by_reason(ground: Ground, most: int = 2000) -> dict[str, str]:
    return {script.reason: text_of(script.lines) for script in Chooser().choose(scripts_of(ground, most + 1), most)}


def try_places(tests: Tests) -> None:
    ground = Ground(Journal(JOURNAL), {})
    found = scripts_by_reason(ground)
    for reason, lines in {
        "allocation 1 is refused": "@heap 1 null\n",
        "allocation 2 and all behind it are refused": "".join(f"@heap {k} null\n" for k in range(2, 11)),
        "allocation 1 lies right after x": "x 1 0x2000c\n@heap 1 0x20010\n",
        "allocation 2 lies right after x": "x 1 0x2000c\n@heap 2 0x20010\n",
        "c lies right after allocation 2": "@heap 2 0x20000\nc 1 0x20010\n",
        "allocation 2 lies right after c": "c 1 0x2000d\n@heap 2 0x20010\n",
        "x lies right after allocation 1": "@heap 1 0x20000\nx 1 0x20005\n",
        "x lies right after c": "c 1 0x20005\nx 1 0x20008\n",
        "c lies right after x": "x 1 0x20000\nc 1 0x20004\n",
        "c lies right after allocation 1": None,
        "c lies where allocation 1 lay": "c 1 0x10020\n",
        "allocation 2 lies where allocation 1 lay": "@heap 1 0x20000\n@heap 2 0x20000\n",
        "allocation 1 lies as high as it can, below 2^47": "@heap 1 0x7ffffffffff0\n",
        "c lies as high as it can, below 2^47": "c 1 0x7ffffffffffd\n",
        "x lies at a multiple of 2 alone": "x 1 0x20002\n",
        "c lies at a multiple of 2 alone": None,
        "allocation 1 lies at an odd address": None,
        "all instances lie in reverse order": "x 1 0x20060\n@heap 1 0x20040\nc 1 0x20000\n@heap 2 0x20020\n",
    }.items():
        tests.same(reason, lines, found.get(reason))


def try_lists(tests: Tests) -> None:
    """What a script says stays, and of the run of another script only what is its own is tried."""
    said = lines_of("# a comment\n\nx 1 0x30000\n@heap 9 null\n")
    tests.same("lines of a script", {("x", 1): 0x30000, ("@heap", 9): None}, said)
    journal = Journal(JOURNAL.replace("0x10000", "0x30000"))
    ground = Ground(journal, said)
    found = scripts_by_reason(ground)
    tests.same("behind what was given", "x 1 0x30000\n@heap 9 null\nc 1 0x30004\n", found.get("c lies right after x"))
    tests.same("before what was given", "x 1 0x30000\n@heap 9 null\nc 1 0x2fffd\n", found.get("x lies right after c"))
    tests.same("what was given is not moved", None, found.get("x lies at 2^31"))
    script = Script("", {**said, ("c", 1): 0x40000}, "c lies elsewhere", ground)
    later = Journal(JOURNAL.replace("0x10000", "0x30000").replace("0x10060", "0x40000") + "create d#1 turn=9 base=0x10060 size=1\n")
    reasons = scripts_by_reason(Ground(later, script.lines, script)).keys()
    tests.holds("of another run its own instances", all("d " in reason or "d#" in reason or "d" == reason[-1] for reason in reasons), reasons)
    tests.holds("what its script does", "c lies elsewhere; d lies right after c" in reasons, reasons)


def try_bounds(tests: Tests) -> None:
    """Places of a run with high ones, with scripts that can't be as long as they would be, and with one instance."""
    high = scripts_by_reason(Ground(Journal(JOURNAL.replace("0x10000", "0x80000000")), {("x", 1): 0x80000000}))
    tests.same("beside a high place", "x 1 0x80000000\n@heap 2 0x20000\nc 1 0x20010\n", high.get("c lies right after allocation 2"))
    many = "".join(f"create @heap#{k} turn={k} base={hex(0x10000 + 32 * k)} size=4\n" for k in range(1, 5001)) + "events 5000\n"
    chooser = Chooser()
    scripts = chooser.choose(scripts_of(Ground(Journal(many), {}), 2001), 2000)
    tests.same("refusals in a row", 1000, max(len(script.lines) for script in scripts))
    tests.same("a script that would be too long", 1, chooser.too_long)
    one = scripts_by_reason(Ground(Journal("create c#1 turn=0 base=0x10000 size=1\nevents 1\n"), {}))
    tests.same("one instance of one byte", 4, len(one))


def try_choice(tests: Tests) -> None:
    many = "".join(f"create n#{k} turn={k} base={hex(0x10000 + 32 * k)} size=4\n" for k in range(1, 300)) + "events 299\n"
    chooser = Chooser()
    scripts = chooser.choose(scripts_of(Ground(Journal(many), {}), 71), 70)
    tests.same("as many as wanted", 70, len(scripts))
    tests.same("cut off", True, chooser.is_cut)
    tests.holds("a part of each kind", len({script.kind for script in scripts}) == 4, {script.kind for script in scripts})
    tests.same("no repeats", 70, len({text_of(script.lines) for script in scripts}))
    tests.same("a journal that is cut", True, Journal("fault turn=1\n" * 65536 + "events 65536\n").is_cut)
    tests.same("a journal that is whole", False, Journal("fault turn=1\n" * 65535 + "events 65535\n").is_cut)
    keys = [("n", k) for k in range(40)]
    wanted = {("n", 3), ("n", 17), ("n", 18)}
    tests.same("the least part", sorted(wanted), least(keys, lambda fewer: wanted <= set(fewer)))
    tests.same("the least part of one", keys[:1], least(keys[:1], lambda fewer: True))


# ---- words

def try_refusals(tests: Tests) -> None:
    plain = tests.file("plain.c", "int x; int main(void) { return x; }\n")
    tests.refused("a source that is refused", [tests.file("refused.c", "int main(void) { return y; }\n")], "is refused: refused reason=constraint")
    tests.refused("no such file", [f"{tests.room}/none.c"], "can't be read: No such file")
    tests.refused("a folder", [tests.room], "can't be read: Is a directory")
    tests.refused("no instances", [tests.file("none_made.c", "int main(void) { return 4; }\n")], "no placement matters: exit status=4")
    tests.refused("no programs", ["--programs", tests.room, plain], "there is no program")
    tests.refused("no such script", [plain, "--script", f"{tests.room}/none.script"], "can't be read")
    tests.refused("a bad script", [plain, "--script", tests.file("bad.script", "x 0 0x20000\n")], "is refused: script reason=line line=1")
    tests.refused("a place that can't be given", [plain, "--script", tests.file("odd.script", "x 1 0x20001\n")], "placement reason=misaligned")
    tests.refused("a folder that is not empty", [plain, "--keep", tests.room], "is not empty")
    tests.refused("a folder that can't be made", [plain, "--keep", f"{plain}/kept"], "can't be made")


def try_words(tests: Tests) -> None:
    plain = tests.file("plain.c", "int x; int main(void) { return x; }\n")
    for words in ([], [plain, plain], [plain, "--turns", "0"], [plain, "--jobs", "x"], [plain, "--most"], [plain, "--tur", "3"]):
        told = tests.call(*words)
        tests.same(f"words {words[1:]}: status", (2, ""), (told.status, told.out))
        tests.holds(f"words {words[1:]}: usage", told.err.startswith("usage: explore "), told.err)
    told = tests.call("--help")
    tests.holds("--help", told.status == 0 and "--most M" in told.out and "130" in told.out, told.out)
    told = tests.call(plain, "--most", "3")
    tests.holds("--most", "1 instance, 3 scripts" in told.out and "cut off at 3 scripts" in told.out, told.out)
    told = tests.call(plain, "--turns", "2")
    tests.holds("--turns", told.status == 0 and "  turns bound=2\n" in told.out, told.out)
    told = tests.call(plain, "--script", tests.file("x.script", "# ä\nx 1 0x30000"))
    tests.holds("--script: what it says stays", told.status == 0 and "1 instance, 0 scripts\n\n" in told.out, told.out)


def try_files(tests: Tests) -> None:
    source = text(f"{PROGRAMS}/arenas_joined.c")
    for name in ("a b.c", "-x.c", "a\tb\n.c", "ä.c"):
        path = os.path.basename(tests.file(name, source))
        told = tests.call("--", path, cwd=tests.room)
        tests.same(f"the name {name!r}", (1, ""), (told.status, told.err))
    path = os.path.join(os.fsencode(tests.room), b"\xff.c")
    os.rename(os.path.join(tests.room, "ä.c"), path)
    told = tests.call(path)
    tests.holds("a name that is no text", told.status == 1 and "/?.c: 6 instances" in told.out, told.out)
    with open(f"{PROGRAMS}/arenas_joined.c", "rb") as file:
        told = tests.call("/dev/stdin", stdin=file)
        tests.holds("a file as standard input", told.status == 1, told.out + told.err)
    told = tests.call("/dev/stdin", stdin=None, input=source.encode())
    tests.holds("a pipe", told.status == 1 and "/dev/stdin:19: error: undefined" in told.out, told.out + told.err)
    told = tests.call(tests.file("with_header.c", "#include <stdint.h>\nint x;\nint main(void) { return (int)(uintptr_t)&x == 0; }\n"))
    tests.holds("a header", told.status == 1 and "exit status=1\n" in told.out, told.out + told.err)
    with open("/dev/full", "wb") as full:
        ran = subprocess.run([*tests.words, f"{PROGRAMS}/arenas_joined.c"], stdout=full, stderr=subprocess.PIPE, encoding="utf-8")
        tests.holds("an output that can't be written", ran.returncode == 2 and ran.stderr.count("\n") == 1, ran.stderr)


def try_proved(tests: Tests) -> None:
    """Only what tools/prove made of the sources as they are is called the proved program."""
    programs = {"pvrun": tests.pvrun, "pv_replay": f"{os.path.dirname(tests.pvrun)}/pv_replay"}
    if not os.path.exists(programs["pv_replay"]):
        programs["pv_replay"] = find_program(None, "pv_replay")

    def told(words: list[str]) -> str:
        return subprocess.run(words, stdin=subprocess.DEVNULL, stdout=subprocess.PIPE, encoding="utf-8").stdout

    for what, is_so, got in try_standing(tests.room, programs, "explore", told):
        tests.holds(what, is_so, got)


def try_interrupt(tests: Tests) -> None:
    """Ctrl-C in the middle of a search shows what was found by then."""
    path = tests.file("long.c", "int x, y; int main(void) { while (1) ; return x + y; }\n")
    words = [*tests.words, path, "--turns", "5000000", "--jobs", "1"]
    # what is begun in the background of a shell ignores the signal, and hands that on
    heard = {"preexec_fn": lambda: signal.signal(signal.SIGINT, signal.SIG_DFL)}
    with subprocess.Popen(words, stdout=subprocess.PIPE, stderr=subprocess.PIPE, encoding="utf-8", start_new_session=True, **heard) as tool:
        time.sleep(3)
        os.killpg(tool.pid, signal.SIGINT)
        out, err = tool.communicate()
    tests.same("Ctrl-C: status", 130, tool.returncode)
    tests.holds("Ctrl-C: words", "interrupted" in out + err and "Traceback" not in err, out + err)


def self_test(folder: Optional[str] = None) -> int:
    with tempfile.TemporaryDirectory() as room:
        try:
            tests = Tests(folder, room)
        except Fault as fault:
            print(f"explore: {fault}", file=sys.stderr)
            return 2
        for part in (try_places, try_lists, try_bounds, try_choice, try_words, try_refusals, try_files, try_proved, try_interrupt, try_programs, try_readme):
            part(tests)
    print(f"{tests.passed} passed, {tests.failed} failed")
    return int(tests.failed > 0)
