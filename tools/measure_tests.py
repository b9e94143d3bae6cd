"""For tools/measure: its self-test, which needs neither a built program nor valgrind: a small script stands for both."""
import contextlib
import io
import os
import re
import stat
import tempfile

from measure_texts import CHECKED, GROWTH

# A program that counts the rounds of its source: a turn is a round and 7 more, an instruction 30 a round.
STAND_IN = """#!/bin/sh
for word; do [ -f "$word" ] && file=$word; done
rounds=$(sed -n 's/.*r < \\([0-9]*\\);.*/\\1/p' "$file" | head -n 1)
case $1 in
--tool=callgrind) echo "==1== Collected : $((rounds * 30 + 5000))" >&2 ;;
run) echo "exit status=4 turn=$((rounds + 7))" ;;
check) echo 'ok' ;;
*) exit 9 ;;
esac
"""
SOURCE = "/* one round: 50 rounds */\nint main(void) { for (int r = 0; r < ROUNDS; r++) ; return 4; }\n"
BYTES = SOURCE.replace("50 rounds", "50 rounds of 10 bytes")


class Tests:
    """What was tried."""

    def __init__(self) -> None:
        self.passed, self.failed = 0, 0

    def holds(self, name: str, is_so: bool) -> None:
        self.passed, self.failed = self.passed + is_so, self.failed + (not is_so)
        if not is_so:
            print(f"failed: {name}")


def stand_in(folder: str, name: str) -> str:
    path = f"{folder}/{name}"
    with open(path, "w", encoding="utf-8") as it:
        it.write(STAND_IN)
    os.chmod(path, os.stat(path).st_mode | stat.S_IXUSR)
    return path


def of_programs(tests: Tests, tool) -> None:
    """Each file says what it is, and is a program that both gcc and a reader of one word take."""
    found = tool.programs()
    labels = [it.label for it in found]
    tests.holds("seven programs, 27 forms, seven functions", len(found) == 41 and len(set(labels)) == 41)
    for it in found:
        tests.holds(f"{it.path}: has rounds", len(re.findall(r"\bROUNDS\b", it.text)) == 1 and "ROUNDS" not in it.at(3))
    if tool.shutil.which("gcc"):
        with tempfile.TemporaryDirectory() as folder:
            ours = tool.Ours("", folder, 1)
            for it in found:
                ran = tool.run(["gcc", "-std=c17", "-w", "-fsyntax-only", ours.kept(it.at(it.rounds))])
                tests.holds(f"{it.path}: {ran.err}", ran.status == 0)


def of_texts(tests: Tests, tool) -> None:
    """Texts are as long as they are wanted to be, and each shape has a text for each size."""
    for text in CHECKED:
        short, long = len(text.of(2**15)), len(text.of(2**16))
        tests.holds(f"{text.label}: its lengths", 2**15 - 2000 < short <= 2**15 and 2**16 - 2000 < long <= 2**16)
    for shape in GROWTH:
        tests.holds(f"{shape.label}: its sizes", len(shape.sizes) == 3 and shape.text(shape.sizes[0]) != shape.text(shape.sizes[1]))
    tests.holds("labels differ", len({it.label for it in GROWTH}) == len(GROWTH))
    if tool.shutil.which("gcc"):
        with tempfile.TemporaryDirectory() as folder:
            ours = tool.Ours("", folder, 1)
            for text in [it.of(2**13) for it in CHECKED] + [it.text(it.sizes[0]) for it in GROWTH if it.mode != "gen" and it.sizes[0] < 2**18]:
                ran = tool.run(["gcc", "-std=c17", "-w", "-fsyntax-only", ours.kept(text)])
                tests.holds(f"{text[:80]}: {ran.err[-200:]}", ran.status == 0)


def of_counting(tests: Tests, tool) -> None:
    """What a round takes is told by two runs, whatever starting and ending take."""
    with tempfile.TemporaryDirectory() as folder:
        program = stand_in(folder, "program")
        stand_in(folder, "valgrind")
        before = os.environ["PATH"]
        os.environ["PATH"] = f"{folder}:{before}"
        try:
            ours = tool.Ours(program, folder, 1)
            turns, of_bytes = (tool.program_of("a.c", it) for it in (SOURCE, BYTES))
            tests.holds("status and turns", ours.ended(turns, 20) == (4, 27))
            tests.holds("a round is a turn", ours.units(turns) == 1)
            tests.holds("a round is ten bytes", ours.units(of_bytes) == 10)
            tests.holds("instructions of a turn", ours.counted(turns) == 30)
            tests.holds("instructions of a byte", ours.counted(of_bytes) == 3)
            os.unlink(program)
            stand_in(folder, "program")
            with open(program, "a", encoding="utf-8") as it:
                it.write("echo 'turns bound=9'\n")
            tests.holds("a run that doesn't end", fails(tool, lambda: ours.ended(turns, 1)))
        finally:
            os.environ["PATH"] = before


def fails(tool, call) -> bool:
    try:
        call()
    except tool.Failed:
        return True
    return False


def of_others(tests: Tests, tool) -> None:
    """What a compiler makes is run, and must end as the program's own run does."""
    with tempfile.TemporaryDirectory() as folder:
        ours, it = tool.Ours("", folder, 1), tool.program_of("a.c", SOURCE)
        for other in tool.installed(True):
            tests.holds(f"{other.name}: a time", tool.timed_by(other, ours, it, 1, 4) >= 0)
            tests.holds(f"{other.name}: another status", fails(tool, lambda other=other: tool.timed_by(other, ours, it, 1, 5)))
        tests.holds("others are left out", tool.installed(False) == [])


def of_forms(tests: Tests, tool) -> None:
    """Numbers, sizes and rows are printed as they are read."""
    numbers = [(None, "?"), (0.0, "< 0.01"), (0.004, "< 0.01"), (3.14159, "3.14"), (31.4159, "31.4"), (314.159, "314")]
    tests.holds("numbers", all(tool.number(x) == text for x, text in numbers))
    sizes = [(2**20, "2^20"), (160000, "160000"), (10**6, "10^6"), (64, "64"), (1024, "1024"), (1000, "1000"), (8192, "2^13")]
    tests.holds("sizes", all(tool.sized(n) == text for n, text in sizes))
    tests.holds("twice for twice", tool.power((1, 2, 4), [0.1, 0.2, 0.4]) == "1.0")
    tests.holds("four times for twice", tool.power((1, 2, 4), [0.1, 0.4, 1.6]) == "2.0")
    tests.holds("much room and little", tool.room(5000.0) == "5000" and tool.room(1.0).startswith("< "))
    tests.holds("too short", tool.power((1, 2, 4), [0.001, 0.1, 0.4]) == "-")
    tests.holds("no first line", fails(tool, lambda: tool.program_of("a.c", "int x;\n")))
    said = io.StringIO()
    with contextlib.redirect_stdout(said), contextlib.redirect_stderr(io.StringIO()):
        table = tool.Table(["a", "b"])
        table.row("x", [lambda: 1.5])
        table.row("y", [lambda: tool.failed(tool.Failed("so"))])
    tests.holds("a table", said.getvalue() == "| a | b |\n|---|---|\n| x | 1.50 |\n| y | ? |\n" and table.failed == 1)


def self_test(tool) -> int:
    """Tries the tool; the last line says how much of it came out as it should."""
    tests = Tests()
    for part in (of_programs, of_texts, of_counting, of_others, of_forms):
        part(tests, tool)
    print(f"{tests.passed} passed, {tests.failed} failed")
    return 1 if tests.failed else 0
