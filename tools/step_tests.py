"""The self-test of tools/step: what is shown of runs whose turns were worked out by hand or by an independent executor of the same rules."""
import glob
import os
import subprocess
import sys
import tempfile
from typing import Iterator, Optional

from step_lines import Lines, probed, statements

HERE = os.path.dirname(os.path.realpath(__file__))
ENDED = """int main(void) {
  int *p;
  { int a = 1; p = &a; }
  { int b = 2; }
  return *p;
}
"""
PLACES = "a 1 0x20000\nb 1 0x20000\n"
CALLS = """int printf(const char *, ...);
static int twice(int n) {
  int m = n;
  return m + n;
}
int main(void) {
  int i, s = 0;
  for (i = 0; i < 2; i++) {
    s = s + twice(i);
    if (s > 2)
      printf("%d\\n", s);
    else
      ;
  }
  do {
    s--;
  } while (s > 0);
  switch (s) {
    case 0:
      s = 5;
      break;
    default: s = 6;
  }
  return s;
}
"""
MARKED = '# 7 "b.h"\nint x;\n# 2 "a.c" 2\nint main(void) {\n  x = 3;\n  return x;\n}\n'
# Each statement that may stand without braces, and a `do` within each of them; what stands in a row begins where its number says.
BARE = """int main(void) {
  int v = 3, w = 2;
  do v--; while (v);
  do do w--; while (w > 1); while (v);
  do while (w) w--; while (v);
  do if (v) v--; else w--; while (w > 0);
  do if (v) { v--; } while (v);
  do { do v++; while (v < 3); v = 3; } while (v < 3);
  if (v) do v--; while (v); else w = 1;
  for (v = 0; v < 2; v++) do w++; while (w < 3);
  while (w) w--;
  switch (w) { case 0: do w++; while (w < 2); break; default: w = 9; }
  return v;
}
"""
BARE_BEGUN = "2 int, 3 do, 4 do, 5 do, 6 do, 7 do, 7 v--;, 8 do, 8 do, 8 v, 9 if, 10 for, 11 while, 12 switch, 12 break;, 13 return"
# It asks where its objects lie, and goes another way where more of them are made.
ASKS = """int main(void) {
  int a;
  unsigned long b;
  {
    int c;
    b = (unsigned long)&c - (unsigned long)&a;
  }
  if (b == 32) { int near; return 1; }
  return 2;
}
"""


class Tests:
    """Calls of the tool with the programs of a folder."""

    def __init__(self, folder: Optional[str], room: str):
        self.room = room
        names = ("pv_step", "pv_replay", "pv_state")
        self.programs = [os.path.join(folder, name) if folder else f"{HERE}/../crates/{name}/out/{name}" for name in names]
        if not os.access(self.programs[2], os.X_OK):
            self.programs[2] = ""

    def file(self, name: str, text: str) -> str:
        """A file with this text."""
        path = os.path.join(self.room, name)
        with open(path, "w", encoding="utf-8") as file:
            file.write(text)
        return path

    def told(self, text: str, commands: str, script: str = "", replay: bool = True) -> str:
        """The status, and what is shown of a text, where blanks before the source's line are one."""
        words = [self.programs[0], self.programs[1] if replay else "", self.programs[2], self.file("a.c", text), "a.c"]
        words += ["--script", self.file("s", script)] if script else []
        done = subprocess.run([f"{HERE}/step", *words], input=commands, capture_output=True, encoding="utf-8", check=False)
        return f"{done.returncode}\n" + "\n".join(" ".join(line.split()) for line in (done.stdout + done.stderr).splitlines())


def commands_told(tests: Tests) -> "Iterator[tuple[str, object, object]]":
    """What is looked at of commands: in words, what is wanted, and what was got."""
    yield "each kind of command", (
        "0\nturn 9 running a.c:3: { int a = 1; p = &a; }\nlive p#1 base=0x10000 size=8\nlive count=1\n"
        "turn 10 running a.c:4: { int b = 2; }\nlive p#1 base=0x10000 size=8\nlive b#1 base=0x20000 size=4\nlive count=2\n"
        "pairs count=0\ninside b#1 offset=3\nat count=1\nundefined clause=6.2.4p2 reason=ended line=5 turn=15 a.c:5: return *p;"
    ), tests.told(ENDED, "go 9\nlist\nnext\nlist\npairs\nat 0x20003\ngo 100\n", PLACES)
    yield "where a run has ended a turn is no other one", (
        "0\nundefined clause=6.2.4p2 reason=ended line=5 turn=15 a.c:5: return *p;\n"
        "undefined clause=6.2.4p2 reason=ended line=5 turn=15 a.c:5: return *p;\nturn 14 running a.c:5: return *p;\n"
        "undefined clause=6.2.4p2 reason=ended line=5 turn=15 a.c:5: return *p;\nturn 12 running a.c:4: { int b = 2; }"
    ), tests.told(ENDED, "go 100\nback 85\nback 1\nnext\nprev\n", PLACES)
    yield "nothing behind quit", "0\nturn 2 running a.c:3: { int a = 1; p = &a; }", tests.told(ENDED, "go 2\nquit\ngo 3\n", PLACES)
    yield "help", True, "go N" in tests.told(ENDED, "help\n", PLACES)
    yield "a line that is no command", "19\nturn 2 running\nstep: 'go 02' is no command; help lists them", tests.told(
        ENDED, "go 2\ngo 02\ngo 3\n", "", False
    )
    yield "a turn beyond the last", "19\nstep: 'go 1000001' is no command; help lists them", tests.told(ENDED, "go 1000001\n", "", False)
    yield "a source that is refused", "8\nrefused reason=main", tests.told("", "go 1\n")
    yield "a script that is refused", "9\nscript reason=line line=1", tests.told(ENDED, "go 1\n", "x\n")


def places_told(tests: Tests) -> "Iterator[tuple[str, object, object]]":
    """What is looked at of calls and values."""
    if not tests.programs[2]:
        yield "where, without its program", "19\nstep: where is answered by the program pv_state, which isn't built", tests.told(ENDED, "where\ngo 2\n", "", False)
        return
    yield "where a turn is due", (
        "0\nturn 9 running\nturn 10\ncall main line=1\nobject p#1 type=int * address=0x10000 size=8 value={a#1 + 0, ended}\n"
        "turn 14 running\nturn 15\ncall main line=1\nobject p#1 type=int * address=0x10000 size=8 value={a#1 + 0, ended}"
    ), tests.told(ENDED, "go 9\nwhere\ngo 14\nwhere\n", PLACES, False)
    yield "where the run ended", (
        "0\nundefined clause=6.2.4p2 reason=ended line=5 turn=15\nundefined clause=6.2.4p2 reason=ended line=5 turn=15\ncall main line=1\n"
        "object p#1 type=int * address=0x10000 size=8 value={a#1 + 0, ended}"
    ), tests.told(ENDED, "go 15\nwhere\n", PLACES, False)
    yield "calls, and all objects", (
        "0\nturn 20 running\nturn 21\ncall twice line=9\nobject n#1 type=int address=0x10060 size=4 value=0\nobject m#1 type=int address=0x10080 size=4 value=unset\n"
        "call main line=6\nobject i#1 type=int address=0x10020 size=4 value=0\nobject s#1 type=int address=0x10040 size=4 value=0"
    ), tests.told(CALLS, "go 20\nwhere all\n", "", False)
    told = tests.told("int main(void) { while (1) ; return 0; }", "go 1000000\nwhere\n", "", False)
    yield "behind the last turn", "0\nturn 1000000 running\nturn 1000001\ncall main line=1", told
    yield "where, and more words", "19\nstep: 'where 3' is no command; help lists them", tests.told(ENDED, "where 3\n", "", False)


def lines_told(tests: Tests) -> "Iterator[tuple[str, object, object]]":
    """What is looked at of the source's lines."""
    yield "a function's own line, and the caller's again behind it", (
        "0\nturn 1 running a.c:6: int main(void) {\nturn 3 running a.c:7: int i, s = 0;\nturn 4 running a.c:8: for (i = 0; i < 2; i++) {\n"
        "turn 18 running a.c:9: s = s + twice(i);\nturn 19 running a.c:2: static int twice(int n) {\nturn 20 running a.c:3: int m = n;\n"
        "turn 25 running a.c:4: return m + n;\nturn 26 running a.c:10: if (s > 2)"
    ), tests.told(CALLS, "go 1\ngo 3\ngo 4\ngo 18\ngo 19\ngo 20\ngo 25\ngo 26\n")
    yield "the end", "0\nexit status=5 turn=85 a.c:24: return s;", tests.told(CALLS, "go 400\n")
    yield "line markers count", "0\nturn 2 running a.c:3: x = 3;\nexit status=3 turn=7 a.c:4: return x;", tests.told(MARKED, "go 2\ngo 100\n")
    yield "no line behind where the runs differ", True, tests.told(ASKS, "go 3\n").startswith("0\nturn 3 running a.c:")
    text = CALLS.encode()
    wanted = [b"int m ", b"return", b"int i,", b"for (i", b"s = s ", b"if (s ", b"do {\n ", b"s--;\n ", b"switch", b"break;", b"return"]
    names = [text[at : at + 6] for at, _ in statements(text)]
    yield "statements", wanted, names
    bare = BARE.encode()
    begun = [f"{bare[:at].count(10) + 1} {bare[at:].split()[0].decode()}" for at, _ in statements(bare)]
    yield "statements without braces", BARE_BEGUN, ", ".join(begun)
    told = tests.told(BARE, "go 9\ngo 400\n")
    yield "lines where a do has no braces", "0\nturn 9 running a.c:3: do v--; while (v);\nexit status=2 turn=177 a.c:13: return v;", told
    yield "the source stands in the second text", True, b"{ char pv_at_2; } int i, s = 0;" in probed(text, list(statements(text)))
    yield "without a program no lines", "", Lines("", tests.file("b.c", ENDED), "b.c", []).beside(3)


def status_of(tests: Tests, name: str, text: bytes) -> int:
    """The status of pv_replay for one turn of a text: that of a refusal, or 0."""
    path = os.path.join(tests.room, name)
    with open(path, "wb") as file:
        file.write(text)
    words = [tests.programs[1], "write", path, "--turns", "1"]
    return subprocess.run(words, stdout=subprocess.DEVNULL, check=False).returncode


def sources_taken(tests: Tests) -> "Iterator[tuple[str, object, object]]":
    """Each source of the repository is a program with its blocks in front of its statements too."""
    for source in sorted(glob.glob(f"{HERE}/../examples/*.c") + glob.glob(f"{HERE}/*-programs/*.c")):
        text = os.path.join(tests.room, "text.i")
        if subprocess.run([f"{HERE}/preprocess", source, text], stderr=subprocess.DEVNULL, check=False).returncode == 0:
            with open(text, "rb") as file:
                plain = file.read()
            status = status_of(tests, "own.i", plain)
            yield os.path.basename(source), status, status_of(tests, "probed.i", probed(plain, list(statements(plain))))


def self_test(folder: Optional[str] = None) -> int:
    """Tries the tool; returns the status of this call."""
    passed = failed = 0
    with tempfile.TemporaryDirectory(prefix="step-") as room:
        tests = Tests(folder, room)
        if not os.access(tests.programs[0], os.X_OK):
            print(f"step: there is no program {tests.programs[0]}", file=sys.stderr)
            return 1
        for rows in (commands_told(tests), places_told(tests), lines_told(tests), sources_taken(tests)):
            for words, wanted, got in rows:
                passed += wanted == got
                failed += wanted != got
                if wanted != got:
                    print(f"{words}:\n  wanted {wanted!r}\n  got    {got!r}")
    print(f"{passed} passed, {failed} failed")
    return 1 if failed else 0
