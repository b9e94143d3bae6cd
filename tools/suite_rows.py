"""The self-test of tools/suite: lists that are run in parts and at once, what it adds to the program, what fails, and the forms of reports."""
import glob
import json
import os
import shlex
import shutil
import signal
import subprocess
import sys
import tempfile
import time
import xml.etree.ElementTree as xml

import suite_adapters
import suite_calls
import suite_lists
import suite_sarif_rows

HERE = os.path.dirname(os.path.realpath(__file__))
FILES = {
    "zero.c": b"int main(void){return 0;}",
    "shift.c": b"int main(void){return 1 << 31;}",
    "null.c": b"int main(void){int *p = 0; return *p;}",
    "hello.c": b'int printf(const char *, ...); int main(void){ printf("hello\\n"); return 0; }',
    "bad.c": b"int main(void){return 0 }",
    "wants.c": b"#define N 2\nint main(void) { return M + N; }\n",
    "includes.c": b'#include "three.h"\nint main(void) { return THREE; }\n',
    "prints.c": b'#include <stdio.h>\nint main(void) { printf("hello\\n"); return 3; }\n',
    "noheader.c": b'#include "none.h"\nint main(void) { return 0; }\n',
    "dropped.c": b"int main(void) { volatile int n = 4; return n; }\n",
    "help.out": b"help\n",
    "hello.out": b"hello\n",
    "over.out": b"x" * 1048577,
}
ZERO = b"zero.c - - 9 exit status=0 turn=3\n"
SHIFT = b"shift.c - - 9 undefined clause=6.5.7p4 reason=shift line=1 turn=5\n"
LISTS = {
    "empty": b"",
    "nothing said": b"#\n\n# a\n",
    "one case": ZERO,
    "many cases": ZERO * 9 + SHIFT * 5 + b"null.c - - 99 x\n" + ZERO,
    "no line feed at the end": ZERO * 3 + SHIFT[:-1],
    "lines between": b"#\n" + ZERO + b"\n\n" + SHIFT + b"# last",
    "clauses of several parts": b"null.c - - 99 x\nshift.c - - 9 x\nzero.c - - 9 x\nnull.c - - 99 x\nshift.c - - 9 x\n",
    "all fail": b"hello.c - help.out 99 exit status=0 turn=6\nbad.c - - 9 x\nhello.c - - 3 exit status=0 turn=6\n",
    "a line without a reading": ZERO * 4 + b"zero.c - - 9\n" + ZERO,
    "two lines without a reading": ZERO * 2 + b"zero.c\n" + ZERO * 3 + b"zero.c\n",
    "a line without a reading behind a file that isn't there": b"none.c - - 9 x\n" + ZERO * 4 + b"zero.c\n",
    "a bound that is none": ZERO + b"zero.c - - 09 x\n",
    "a bound that is too great": ZERO + b"zero.c - - 100000001 x\n",
    "two blanks": ZERO + b"zero.c  - - 9 x\n",
    "a file that isn't there": ZERO * 4 + b"none.c - - 9 x\n" + ZERO,
    "an output that is too long": ZERO * 4 + b"zero.c - over.out 9 x\n" + ZERO,
    "an output that is too long behind a file that isn't there": ZERO + b"none.c - - 9 x\n" + ZERO * 2 + b"zero.c - over.out 9 x\n",
    "a file that isn't there behind an output that is too long": ZERO + b"zero.c - over.out 9 x\n" + ZERO * 2 + b"none.c - - 9 x\n",
    "as long as a list may be": (ZERO * 2 + b"#" * 65536)[:65536],
    "too long": b"#" * 65537,
    "bytes of every kind": b"zero.c - - 9 \xff\0\r\n" + ZERO + b"z\xff.c - - 9 x",
}


class Tried:
    """Counts what passed and what failed."""

    def __init__(self) -> None:
        self.passed = self.failed = 0

    def same(self, what: str, wanted: object, got: object) -> None:
        """Compares what was got with what is wanted."""
        if wanted == got:
            self.passed += 1
        else:
            self.failed += 1
            print(f"{what}:\n  wanted {wanted!r}\n  got    {got!r}")

    def holds(self, what: str, wanted: str, got: str) -> None:
        """Looks whether what was got holds a text."""
        self.same(what, wanted, wanted if wanted in got else got)


class Tool:
    """Calls of the tool, in the folder of the tests."""

    def __init__(self, program: str):
        self.program = program

    def said(self, *words: object, shell: str = 'exec "$@"') -> "tuple[int, bytes, str]":
        """The status of a call, its report, and what it said beside; SHELL are the words of a shell by which it is made."""
        tool = ["bash", "-c", shell, "bash", sys.executable, os.path.join(HERE, "suite"), "--program", self.program, *words]
        done = subprocess.run(tool, stdin=subprocess.DEVNULL, stdout=subprocess.PIPE, stderr=subprocess.PIPE, check=False)
        return done.returncode, done.stdout, done.stderr.decode("utf-8", "replace")

    def told(self, *words: object) -> "tuple[int, bytes]":
        """The status of a call, and its report."""
        return self.said(*words)[:2]


def write(name: str, text: bytes) -> None:
    """Writes a file."""
    with open(name, "wb") as file:
        file.write(text)


def read(name: str) -> str:
    """The text of a file."""
    with open(name, encoding="utf-8") as file:
        return file.read()


# ---- the report of the program


def try_parts(tried: Tried) -> None:
    """Parts have each line once, in order, and are no longer than a list may be."""
    for size in (1, 2, 5, 40, 3000):
        lines = [b"%d %s" % (number, b"x" * 90) for number in range(size)]
        for count in (1, 2, 3, 7, 100):
            parts = suite_calls.parts_of(lines, count)
            tried.same(f"{size} lines, {count} parts: lines", lines, [line for part in parts for line in part])
            longest = max(sum(len(line) + 1 for line in part) for part in parts)
            tried.same(f"{size} lines, {count} parts: length", True, longest <= 65536 and min(map(len, parts)) > 0)


def try_lists(tried: Tried, tool: Tool) -> None:
    """A list that is run in parts has the report of one call."""
    for name, text in LISTS.items():
        write("list", text)
        one = subprocess.run([tool.program, "list"], stdin=subprocess.DEVNULL, capture_output=True, check=False)
        for jobs in ("1", "3"):
            tried.same(f"{name}, {jobs} at once", (one.returncode, one.stdout), tool.told("list", "--jobs", jobs))


def try_calls(tried: Tried, tool: Tool) -> None:
    """The command itself: status, report and files."""
    write("list", ZERO + b"#\nshift.c - - 9 x\n" + SHIFT + b"hello.c - help.out 99 exit status=0 turn=6\n")
    report = (b"pass 1\nfail 2 line undefined clause=6.5.7p4 reason=shift line=1 turn=5\npass 3\nfail 4 output at=3\n"
              b"clause 6.5.7p4 cases=2\nsuite cases=4 passed=2\n")
    forms = [word for form in suite_adapters.FORMS for word in (f"--{form}", form)]
    tried.same("the command", (15, report), tool.told("list", "--jobs", "2", *forms))
    try_forms(tried)
    status, out, err = tool.said("none", *forms)
    tried.same("no list", (11, b"fault read\n"), (status, out))
    tried.same("no list: words", "none:1:1: error: No such file or directory\n", err)
    tried.same("no list: TAP", "TAP version 13\nBail out! fault read\n", read("tap"))
    tried.same("no list: JUnit", "1", xml.parse("junit").getroot().get("errors"))
    log = json.loads(read("sarif"))
    tried.same("no list: SARIF", ([], False), (log["runs"][0]["results"], log["runs"][0]["invocations"][0]["executionSuccessful"]))


# ---- what it adds


def try_sources(tried: Tried, tool: Tool) -> None:
    """Sources are preprocessed as the launcher does it. What is wanted follows from C17 alone, so no turn is named."""
    write("headers/three.h", b"#define THREE 3\n")
    rows = [
        ("a header", b"prints.c - hello.out 99 exit status=3", [], 0),
        ("-D", b"wants.c - - 99 exit status=7", ["-D", "M=5"], 0),
        ("-D without a blank", b"wants.c - - 99 exit status=7", ["-DM=5"], 0),
        ("-D and -U", b"wants.c - - 99 refused reason=constraint", ["-D", "M=5", "-U", "M"], 0),
        ("-U and -D", b"wants.c - - 99 exit status=7", ["-U", "M", "-D", "M=5"], 0),
        ("-I", b"includes.c - - 99 exit status=3", ["-I", "headers"], 0),
        ("-I without a blank", b"includes.c - - 99 exit status=3", ["-Iheaders"], 0),
        ("volatile", b"dropped.c - - 99 refused reason=profile", [], 0),
        ("--drop volatile", b"dropped.c - - 99 exit status=4", ["--drop", "volatile"], 0),
        ("--raw", b"prints.c - - 99 refused reason=token at=0", ["--raw"], 0),
        ("a source without directives", b"zero.c - - 9 exit status=0", [], 0),
    ]
    for name, line, options, status in rows:
        write("list", line + b"\n")
        tried.same(name, (status, b"pass 1"), first_line(tool.told("list", *options)))
    write("list", ZERO + b"noheader.c - - 9 x\nwants.c - - 9 x\n")
    status, out, err = tool.said("list", "--tap", "tap")
    tried.same("no such header", (127, b""), (status, out))
    why = "nothing is run, since these could not be preprocessed: noheader.c"
    tried.same("no such header: TAP", f"TAP version 13\nBail out! {why}\n", read("tap"))
    tried.holds("no such header: words", f"suite: {why}\n", err)
    tried.holds("no such header: the preprocessor's words", "none.h", err)
    write("list", b"prints.c - hello.out 99 exit status=3\n")
    os.makedirs("a blank", exist_ok=True)
    told = tool.said("list", shell='TMPDIR="$PWD/a blank" exec "$@"')
    tried.same("a folder for temporary files with a blank in its name", (0, b"pass 1"), first_line(told[:2]))
    write("list", b"wants.c - - 9 x\n")
    told = tool.said("list", shell='PATH=$PWD/empty exec "$@"')
    tried.same("no awk", (127, b"", "suite: the command awk, which looks for preprocessing directives, can't be run\n"), told)


def first_line(told: "tuple[int, bytes]") -> "tuple[int, bytes]":
    """The status of a call, and the first line of its report."""
    return told[0], told[1].split(b"\n")[0]


def try_expected(tried: Tried, tool: Tool) -> None:
    """The first words of a line are enough, the output is compared all the same, and carriage returns end lines too."""
    rows = [
        (b"shift.c - - 9 undefined clause=6.5.7p4", b"pass 1"), (b"shift.c - - 9 undefined", b"pass 1"),
        (b"shift.c - - 9 undefined clause=6.5.7p4 reason=shift line=1", b"pass 1"),
        (b"shift.c - - 9 undefined clause=6.5.7p", b"fail 1 line undefined clause=6.5.7p4 reason=shift line=1 turn=5"),
        (b"shift.c - - 9 undefined clause=6.5.7p3", b"fail 1 line undefined clause=6.5.7p4 reason=shift line=1 turn=5"),
        (b"zero.c - - 9 exit status=0", b"pass 1"), (b"zero.c - - 9 exit", b"pass 1"),
        (b"zero.c - - 9 exit status=1", b"fail 1 line exit status=0 turn=3"),
        (b"zero.c - - 9 exit status=0 turn=3\r", b"pass 1"), (b"zero.c - - 9 exit status=0\r", b"pass 1"),
        (b"hello.c - hello.out 99 exit status=0", b"pass 1"), (b"hello.c - help.out 99 exit status=0", b"fail 1 output at=3"),
        (b"hello.c - help.out 99 exit status=1", b"fail 1 line exit status=0 turn=6"),
        (b"hello.c - hello.out 9 turns", b"pass 1"),
    ]
    for line, wanted in rows[:-1]:
        write("list", line + b"\n")
        tried.same(f"the first words: {line!r}", wanted, tool.told("list")[1].split(b"\n")[0])
    write("list", b"\r\n".join(line for line, _ in rows[:8]) + b"\r\n# a\r\n\r\n")
    status, report = tool.told("list", "--jobs", "3")
    tried.same("carriage returns", (15, [b"pass" if wanted[:4] == b"pass" else b"fail" for _, wanted in rows[:8]]),
               (status, [line[:4] for line in report.split(b"\n")[:8]]))
    tried.same("carriage returns: clauses", b"clause 6.5.7p4 cases=5\nsuite cases=8 passed=5\n", report[report.index(b"clause 6.5.7p4 cases") :])


def try_record(tried: Tried, tool: Tool) -> None:
    """A list is recorded from what each case comes to, which is said, and passes then."""
    write("list", b"# mine\r\nzero.c\nshift.c -\n\nhello.c - help.out\nhello.c - hello.out 99\nzero.c - - 1 x\n")
    status, out, err = tool.said("list", "--record", "list")
    tried.same("--record", (0, b""), (status, out))
    tried.holds("--record: said", "suite: recorded in 'list' what 5 cases come to today, right or wrong", err)
    tried.holds("--record: another output is told", "list:5:1: warning: the output is not what 'help.out' holds: they differ at 3", err)
    lines = read("list").split("\n")
    tried.holds("--record: said in the list", "was recorded by tools/suite --record", lines[0])
    tried.same("--record: the lines", [
        "# mine", "zero.c - - 1000000 exit status=0 turn=3", "shift.c - - 1000000 undefined clause=6.5.7p4 reason=shift line=1 turn=5", "",
        "hello.c - help.out 1000000 exit status=0 turn=6", "hello.c - hello.out 99 exit status=0 turn=6", "zero.c - - 1 turns bound=1", "",
    ], lines[1:])
    status, report = tool.told("list")
    tried.same("what was recorded passes, but for the output", (15, b"fail 3 output at=3"), (status, report.split(b"\n")[2]))
    tool.told("list", "--record", "list")
    tried.same("recorded again", 1, read("list").count("was recorded by"))
    write("list", b"none.c\n")
    tried.same("a list that can't be recorded stays", (11, "none.c\n"), (tool.told("list", "--record", "list")[0], read("list")))


def try_unread(tried: Tried, tool: Tool) -> None:
    """A file that can't be read is named, with the line of the list that names it."""
    os.makedirs("folder", exist_ok=True)
    rows = [
        (ZERO + b"\nnone.c - - 9 x\n", "list:3:1: error: 'none.c' could not be read: No such file or directory\n"),
        (b"zero.c none - 9 x\n" + ZERO, "list:1:8: error: 'none' could not be read: No such file or directory\n"),
        (b"zero.c - none 9 x\nfolder - - 9 x\n", "list:1:10: error: 'none' could not be read: No such file or directory\n"
         "list:2:1: error: 'folder' could not be read: Is a directory\n"),
    ]
    for text, wanted in rows:
        write("list", text)
        tried.same(f"not read: {text!r}", (11, b"fault read\n", wanted), tool.said("list"))
    write("list", ZERO + b"zero.c - - 9\n")
    tried.same("a line without a reading", (16, b"list reason=line line=2\n"), tool.told("list"))
    tried.holds("a line without a reading: words", "list:2:1: error: a case is SOURCE SCRIPT OUTPUT BOUND EXPECTED", tool.said("list")[2])
    write("list", ZERO + b"#\nzero.c - over.out 9 x\n")
    tried.same("too long an output", (16, b"list reason=output case=2\n", "list:3:1: error: 'over.out' has more than 1048576 bytes\n"), tool.said("list"))


def try_proved(tried: Tried, tool: Tool) -> None:
    """The program of a checkout is said not to be proved where it isn't what was proved of the sources as they are: a build that was put there, or an
    old one."""
    shutil.copytree(HERE, "checkout/tools", ignore=shutil.ignore_patterns("__pycache__"))
    os.makedirs("checkout/crates/pv_suite/out")
    os.makedirs("checkout/crates/pv_suite/src")
    os.makedirs("checkout/.prove")
    write("checkout/crates.txt", b"pv_suite:\n")
    write("checkout/crates/pv_suite/src/main.rt", b"// one\n")
    # (a program that is tried before its proofs is known by its bytes)
    write("checkout/crates/pv_suite/out/pv_suite", f"#!/bin/sh\nexec {shlex.quote(tool.program)} \"$@\"\n".encode())
    os.chmod("checkout/crates/pv_suite/out/pv_suite", 0o755)
    write("list", ZERO)
    note = "cd checkout && . tools/sources.sh && sources pv_suite pv_suite >.prove/pv_suite.sources"
    change = "echo '// two' >checkout/crates/pv_suite/src/main.rt"
    for what, step, is_proved in [("a build that was put there", ":", False), ("what was proved", note, True), ("a touched source", change, False)]:
        subprocess.run(["bash", "-c", step], check=True)
        done = subprocess.run([sys.executable, "checkout/tools/suite", "list"], stdin=subprocess.DEVNULL, capture_output=True, check=False)
        tried.same(f"{what}: the answer", (0, b"pass 1\nsuite cases=1 passed=1\n"), (done.returncode, done.stdout))
        tried.same(f"{what}: what is said", is_proved, b"NOT PROVED" not in done.stderr)


# ---- what fails


def try_devices(tried: Tried, tool: Tool) -> None:
    """What can't be written ends with a status and a sentence, never with a traceback; what can be is written all the same."""
    write("list", b"prints.c - hello.out 99 exit status=3\n")
    rows = [(f"--{form} {name}", [f"--{form}", name], status) for form in (*suite_adapters.FORMS, "record") for name, status in (
        ("/nonexistent/x", 127), ("/dev/full", 12), ("folder", 127))]
    for what, words, status in rows:
        told = tool.said("list", *words)
        tried.same(what, (status, True), (told[0], "Traceback" not in told[2]))
        tried.holds(f"{what}: words", f"'{words[1]}' c", told[2])
    for shell in ('exec "$@" >/dev/full', 'exec "$@" >&-', 'exec "$@" 1</dev/null', 'exec "$@" >&- 2>&-', 'exec "$@" <&- >&- 2>&-'):
        for name in ("tap", "junit", "sarif"):
            if os.path.exists(name):
                os.remove(name)
        status, out, err = tool.said("list", "--tap", "tap", "--junit", "junit", "--sarif", "sarif", shell=shell)
        tried.same(shell, (12, b"", True), (status, out, "Traceback" not in err))
        tried.same(f"{shell}: the forms", True, all(os.path.getsize(name) > 0 for name in ("tap", "junit", "sarif")))
        for words in (["--help"], ["list", "--none"]):
            tried.same(f"{shell} {words}", 12, tool.said(*words, shell=shell)[0])
    tried.same("standard error is full", (0, b"pass 1\nsuite cases=1 passed=1\n"), tool.said("list", shell='exec "$@" 2>/dev/full')[:2])
    tried.same("standard error is closed", (11, b"fault read\n"), tool.said("none", shell='exec "$@" 2>&-')[:2])
    status, out, err = tool.said("--of", "nosuch", "a.c", "--sarif", "sarif")
    tried.same("--of without a report", (11, b"", "suite: 'nosuch' could not be read: No such file or directory\n"), (status, out, err))


def try_signals(tried: Tried, tool: Tool) -> None:
    """A signal ends the call, and before it what it began."""
    write("endless.c", b"int main(void){for(;;);}")
    write("list", b"endless.c - - 100000000 x\n")
    for number in (signal.SIGINT, signal.SIGTERM, signal.SIGHUP):
        words = [sys.executable, os.path.join(HERE, "suite"), "list", "--program", tool.program]
        process = subprocess.Popen(words, stdin=subprocess.DEVNULL, stdout=subprocess.PIPE, stderr=subprocess.PIPE, start_new_session=True)
        until = time.monotonic() + 30
        while not children_of(process.pid) and time.monotonic() < until:
            time.sleep(0.1)
        process.send_signal(number)
        out, err = process.communicate()
        tried.same(f"{number.name}: the status, and what is written", (128 + number, b"", b""), (process.returncode, out, err))
        tried.same(f"{number.name}: nothing is left", False, is_there(process.pid))


def children_of(number: int) -> str:
    """The processes that a process has begun."""
    return "".join(read(path) for path in glob.glob(f"/proc/{number}/task/*/children"))


def is_there(group: int) -> bool:
    """Whether there is a process of a group."""
    try:
        os.killpg(group, 0)
        return True
    except ProcessLookupError:
        return False


def try_words(tried: Tried, tool: Tool) -> None:
    """Arguments that are none, and help."""
    write("list", ZERO)
    for words in ([], ["a", "b"], ["list", "--jobs", "0"], ["list", "--jobs", "x"], ["list", "--none"], ["list", "--tap"], ["list", "-I", ""], ["list", "-I"],
                  ["list", "--drop", "const"], [""], ["list", "--record", ""], ["list", "--of"], ["--", "a", "b"]):
        status, out, err = tool.said(*words)
        tried.same(f"arguments {words}", (10, b"words\n", True), (status, out, err.startswith("suite: ") and "Traceback" not in err))
    for word in ("--help", "-h"):
        status, out, err = tool.said(word)
        lines = out.decode().splitlines()
        tried.same(f"{word}", (0, "", True, True), (status, err, len(lines) <= 25, max(map(len, lines)) <= 120))
    write("-list", ZERO)
    tried.same("names that begin with a dash", (0, b"pass 1"), first_line(tool.told("--tap", "-tap", "--jobs", "1", "-I", "-x", "--", "-list")))
    tried.same("names that begin with a dash: TAP", "TAP version 13\n1..1\nok 1 - zero.c\n", read("-tap"))
    tried.same("no program", (125, b""), Tool("./gone").told("list"))


def try_hosts(tried: Tried, tool: Tool) -> None:
    """Parts on the machines of a file, of which `:` is this one; others want ssh, and are tried by hand."""
    write("here", b"# this machine\n:\n")
    write("nowhere", b"# no machine\n")
    write("list", ZERO + b"#\nshift.c - - 9 x\n" + SHIFT + b"hello.c - help.out 99 exit status=0\nprints.c - hello.out 99 exit status=3\n")
    tried.same("hosts: no file", (127, b"", "suite: gone: No such file or directory\n"), tool.said("list", "--hosts", "gone"))
    tried.same("hosts: no machine", (127, b"", "suite: nowhere names no machine\n"), tool.said("list", "--hosts", "nowhere"))
    if not shutil.which("parallel"):
        why = "suite: --hosts wants GNU parallel (the package parallel of Debian)\n"
        tried.same("hosts: no GNU parallel", (127, b"", why), tool.said("list", "--hosts", "here"))
        return
    wanted = tool.told("list", "--jobs", "1")
    for jobs in ("1", "3"):
        tried.same(f"hosts: this machine, {jobs} at once", wanted, tool.told("list", "--hosts", "here", "--jobs", jobs))
    write("list", ZERO + b"../elsewhere.c - - 9 x\n")
    why = "suite: ../elsewhere.c lies elsewhere: with --hosts a list names files below the folder where it is run\n"
    tried.same("hosts: a file elsewhere", (127, b"", why), tool.said("list", "--hosts", "here"))


# ---- forms


def try_forms(tried: Tried) -> None:
    """The forms of a report with two cases that passed and two that failed."""
    shift = "undefined clause=6.5.7p4 reason=shift line=1 turn=5"
    tried.same("TAP", "TAP version 13\n1..4\nok 1 - zero.c\nnot ok 2 - shift.c\n"
               f"# {shift}, where x is expected\nok 3 - shift.c\nnot ok 4 - hello.c\n# the output differs at 3\n", read("tap"))
    top = xml.parse("junit").getroot()
    cases = top.findall("testsuite/testcase")
    tried.same("JUnit: counts", ("testsuites", "4", "2", "0"), (top.tag, *(top.get(name) for name in ("tests", "failures", "errors"))))
    tried.same("JUnit: names", ["1 zero.c", "2 shift.c", "3 shift.c", "4 hello.c"], [case.get("name") for case in cases])
    failures = [case.find("failure") for case in cases]
    tried.same("JUnit: failures", [None, "line", None, "output"], [one.get("type") if one is not None else None for one in failures])


def try_marks(tried: Tried) -> None:
    """Texts that a form has no plain way for."""
    case = suite_lists.Case(1, (b"a#b\\c.c", b"-", b"-", b"9", b"<&>"))
    case.take(b"fail 1 line x\0")
    tried.same("TAP: marks", "TAP version 13\n1..1\nnot ok 1 - a\\#b\\\\c.c\n# x\0, where <&> is expected\n", suite_adapters.tap("l", [case], []))
    one = xml.fromstring(suite_adapters.junit("l", [case], []).split("\n", 1)[1]).find("testsuite/testcase/failure")
    tried.same("JUnit: marks", "x\ufffd, where <&> is expected", one.get("message") if one is not None else None)
    clauses = "6.2.4p2 6.2.6.1p5 6.3.2.3p6 6.3.2.3p7 6.3.2.3p8 6.4.5p7 6.5p2 6.5p5 6.5p7 6.5.3.2p4 6.5.5p5 6.5.5p6 6.5.6p8 6.5.6p9 6.5.7p3 6.5.7p4 6.5.8p5 " \
        "6.5.16.1p3 6.7.3p6 6.9.1p12 7.1.4p1 7.21.6.1p9 7.22.3.3p2 7.22.3.5p3 7.24.1p2 7.24.2.1p2 7.24.2.3p2"
    in_order = [clause.encode() for clause in clauses.split()]
    tried.same("the order of the standard", in_order, sorted(reversed(in_order), key=suite_calls.place_in_standard))
    tried.same("the end in a report", "exit status=0 turn=3", suite_adapters.end_in(b"exit\xff\nexit status=0 turn=3\nno fault\n"))


def self_test(program: str) -> int:
    """Tries all, and answers the status."""
    tried, tool = Tried(), Tool(os.path.abspath(program))
    with tempfile.TemporaryDirectory() as room:
        os.chdir(room)
        os.makedirs("headers")
        os.makedirs("empty")
        for name, text in FILES.items():
            write(name, text)
        for part in (try_lists, try_calls, try_sources, try_expected, try_record, try_unread, try_proved, try_devices, try_signals, try_words, try_hosts):
            part(tried, tool)
        try_parts(tried)
        try_marks(tried)
        suite_sarif_rows.try_sarif(tried, tool)
        os.chdir(HERE)
    print(f"{tried.passed} passed, {tried.failed} failed")
    return 1 if tried.failed else 0
