"""The self-test of tools/spot: sources that are refused, and what is said of each."""
import importlib.machinery
import importlib.util
import os
import re
import shutil
import subprocess
import sys
import tempfile

HERE = os.path.dirname(os.path.realpath(__file__))
BUILT = os.path.join(HERE, "..", "crates", "pvrun", "out", "pvrun")
# The pattern of the problem matcher $gcc of Visual Studio Code's C/C++ extension, and the format of gcc's errors that vim has as it comes.
MATCHER = re.compile(r"^(.*?):(\d+):(\d*):?\s+(?:fatal\s+)?(warning|error):\s+(.*)$")
MESSAGE = re.compile(r"([^:]+):(\d+):(\d+): (error|note): (.*)")

HEAD = b"int printf(const char *, ...);\nstruct p { int x, y; };\nint main(void) {\n  int i = 0;\n%s\n  return i;\n}\n"
# Each source, with what its messages must hold, in this order.
PIECES = [
    (HEAD % b"  i = q;", ["a.c:5:3: error: refused: constraint", "    i = q;", "    ^"]),
    (HEAD % b"  if (i) {\n    i++;\n    i = q;\n  }", ["a.c:7:5: error: ", "      i = q;"]),
    (HEAD % b"  do i = q; while (i);", ["a.c:5:3: error: ", "i = q"]),
    (HEAD % b"  do { i++; } while (q);", ["a.c:5:15: error: ", "while (q);"]),
    (HEAD % b"  while (q)\n    i++;", ["a.c:5:3: error: ", "while (q)"]),
    (HEAD % b"  for (i = 0; i < 3; i++) {\n    i += 1;\n    break 3;\n  }", ["a.c:7:5: error: refused: syntax", "break 3;"]),
    (HEAD % b"  if (i) i = 1;\n  else i = q;", ["a.c:6:3: error: ", "else i = q;"]),
    (HEAD % b"  switch (i) {\n  case 1: { struct p a = { 1, 2 }; i += a.z; break; }\n  default: break;\n  }", ["a.c:6:36: error: ", "i += a.z;"]),
    (HEAD % b"  switch (i) {\n  case 1: i = 2; break;\n  case 1: break;\n  }", ["a.c:7:3: error: ", "case 1: break;"]),
    (HEAD % b'  printf("%5d\\n", i);', ["a.c:5:3: error: ", "without flags, width and precision"]),
    (HEAD % b"  struct p a = { .x = 1 };", ["a.c:5:3: error: ", "designators"]),
    (HEAD % b"  int n = 3;\n  int a[n];", ["a.c:6:3: error: ", "variable length"]),
    (HEAD % b"  i = ((struct p){1, 2}).x;", ["a.c:5:3: error: ", "compound literals"]),
    (HEAD % b"  int a[2][2] = {1, 2, 3, 4};", ["a.c:5:3: error: ", "braces of its own"]),
    (HEAD % b"  typedef int t;", ["a.c:5:3: error: ", "outside of functions"]),
    (HEAD % b"here: i++;", ["a.c:5:1: error: ", "labels"]),
    (HEAD % b'  printf("%s", __func__);', ["a.c:5:3: error: ", "__func__ is left out"]),
    (HEAD % b"  i = getchar();", ["a.c:5:3: error: ", "'getchar' is declared nowhere: <stdio.h> has it"]),
    (HEAD % b'  sscanf("1", "%d", &i);', ["'sscanf' is declared nowhere: of the functions that read <stdio.h> has getchar"]),
    (HEAD % b"  char s[4];\n  strcat(s, s);", ["a.c:6:3: error: ", "'strcat' is declared nowhere: <string.h> has it"]),
    (HEAD % b"  char s[9];\n  sprintf(s, \"%d\", i);", ["a.c:6:3: error: ", "'sprintf' is declared nowhere: of the functions that write by a format there are printf and fprintf"]),
    (HEAD % b'  fopen("a", "r");', ["'fopen' is declared nowhere: there are no files beside the three streams"]),
    (HEAD % b"  i = time(0);", ["'time' is declared nowhere: <time.h> has it"]),
    (HEAD % b"  int j __attribute__((cleanup(f))) = 0;", ["a.c:5:3: error: refused: syntax: this seems to be what is refused"]),
    (b"#pragma pack(1)\nint main(void) { return q; }\n", ["a.c:1:1: error: refused: token: a pragma", "a.c:2:18: error: "]),
    (HEAD % b"  switch (i) { default: {\n  case 2: ;\n  } }", ["a.c:6:3: error: refused: syntax: case and default stand in the block of their switch"]),
    (b"struct s { int a[2]; };\nstruct s f(void) { struct s v = {{1, 2}}; return v; }\nint main(void) {\n  return f().a[1];\n}\n",
     ["a.c:4:3: error: ", "a member of a returned structure that is an array"]),
    (b"struct s {\n  int a;\n  int b : 3;\n};\nint main(void) { return 0; }\n", ["a.c:3:3: error: ", "bit-fields"]),
    (b"int main(int argc, char **argv) { return 0; }\n", ["a.c:1:1: error: ", "int main(void)"]),
    (b'int x;\n# 40 "b.h"\nint f(void) {\n  return 0;\n  x = ;\n}\n', ["b.h:42:3: error: refused: syntax", "x = ;"]),
    (b"int main(void) { volatile int x; return 0; }\n", ["a.c:1:18: error: refused: profile: --drop volatile"]),
    (b"int main(void) { return 1.5; }\n", ["a.c:1:25: error: refused: token: there are no floating-point numbers"]),
    (b"int f(void);\nint main(void) { return f(); }\n", ["a.c:1:5: error: refused: unresolved: 'f' is declared and not defined"]),
    (b"int f(int), g(void);\nint h(void);\nint main(void) { return f(1) + g(); }\n", ["'f' is declared and not", "a.c:1:13: error: refused too, it seems: 'g' is declared"]),
    (b"#define A\n", ["a.c:1:1: error: ", "--raw"]),
    (b"int f(void) {\n  if (1) {\n    return 1;\n}\nint main(void) { return f(); }\n", ["a brace is opened and not closed"]),
    (b"int main(void) {\n  if (1) {\n    return 1;\n}\n", ["a brace is opened and not closed"]),
    (b"unsigned long strlen(const char *s) {\n  return 0;\n}\nint main(void) { return 0; }\n",
     ["a.c:1:1: error: refused: constraint: 'strlen' is a function of the library, which has its body"]),
    (b"int strlen(const char *s) { return 0; }\nint main(void) { return 0; }\n", ["'strlen' is a function of the library, which has its body"]),
    (b"void *malloc(int);\nint main(void) { return 0; }\n", ["its type is fixed: void *malloc(unsigned long);"]),
    (b"int printf(const char *);\nint main(void) { return 0; }\n", ["its type is fixed: int printf(const char *, ...);"]),
    (b"typedef struct n n;\nstruct n { n *next; };\ntypedef struct n n;\nint main(void) { return 0; }\n", ["a.c:3:1: error: ", "the typedef 'n' stands once"]),
    (b"typedef struct nope t[0];\nint main(void) { return 0; }\n", ["a.c:1:1: error: refused: constraint: this seems to be what is refused"]),
    ("int größe = 1;\nint main(void) { return größe; }\n".encode(), ["a.c:1:7: error: refused: byte: 'größe': names have the letters, digits and _ of ASCII alone"]),
    (b"int gr\\U000000f6e;\nint main(void) { return 0; }\n", ["'gr\u00f6e': names have the letters"]),
    (b'int main(void) { return L"a"[0]; }\n', ["a.c:1:25: error: refused: profile: wide and Unicode literals"]),
    (b"int main(void) { return 099; }\n", ["'099' is no constant"]),
]

# Sources with several things that are refused, and the lines of all: first that which the program refuses, and the others from top to bottom.
ALL = [
    (b"""struct s { int a; };
int printf(const char *, ...);
int f(int a) { return a; }
int main(void) {
  volatile int k = 3;
  struct s v = {0};
  float q = 1;
  struct s w = { .a = 1 };
  v.b = 1;
  int *p = 5;
  printf("%5d", v.a);
  int n = 3;
  int a[n];
  f(1, 2);
  scanf("%d", &n);
  goto end;
end:
  return 0;
}
""", [5, 7, 8, 9, 10, 11, 13, 14, 15, 16, 17]),
    (b"int f(void) {\n  return x;\n}\nint g(void) {\n  int i = 1;\n  if (i)\n    return y;\n  return z;\n}\nint main(void) { return f() + g(); }\n", [2, 6, 8]),
    (b"struct s {\n  int a : 1;\n  int b : 2;\n};\nint main(void) {\n  auto int i = 08;\n  return 0;\n}\n", [6, 2, 3, 6]),
    (b"int main(void) { return 0; }\n", []),
]

# What a compiler says, with its place, by gcc and by clang.
REASONS = [
    (HEAD % b"  int *p = 5;", r"a.c:5:\d+: note: (gcc says: initialization of 'int \*' from 'int' makes pointer|clang says: incompatible integer to pointer conversion)"),
    (HEAD % b"  struct p v = {0};\n  v.b = 1;", r"a.c:6:\d+: note: (gcc says: 'struct p' has no member named 'b'|clang says: no member named 'b' in 'struct p')"),
    (HEAD % b"  int x = 5\n  i = x;", r"a.c:\d:\d+: note: (gcc says: expected ',' or ';' before 'i'|clang says: expected ';' at end of declaration)"),
    (b"int f(int a) { return a; }\nint main(void) {\n  return f(1, 2);\n}\n", r"a.c:3:\d+: note: (gcc says: too many arguments to function 'f'|clang says: too many arguments to function call)"),
    (b"int main(void) { return 0; }\n/* what else the compiler finds */ int f(void) { return q; }\nint g(void) { return r; }\n", r"a.c:3:\d+: note: (gcc|clang) says: .*'r'"),
]


class Tests:
    def __init__(self, spot, program):
        self.spot, self.program, self.passed, self.failed = spot, program, 0, 0

    def same(self, what, wanted, got):
        if wanted == got:
            self.passed += 1
        else:
            self.failed += 1
            print(f"{what}\n  wanted {wanted!r}\n  got    {got!r}")

    def told(self, source, *proved):
        return self.spot.Told(self.program, source, "a.c", *proved).lines()


def try_pieces(tests):
    for source, wanted in PIECES:
        said = "\n".join(tests.told(source))
        places = [said.find(text) for text in wanted]
        tests.same(f"{source.decode()}{said}", True, -1 not in places and places == sorted(places) or wanted)


def try_all(tests):
    for source, lines in ALL:
        found = [MESSAGE.fullmatch(line) for line in tests.told(source)]
        tests.same(f"all of {source.decode()}", lines, [int(it[2]) for it in found if it and it[4] == "error"])


def try_compilers(tests):
    """What each compiler that is here says, and that nothing is said where there is none."""
    before = os.environ.get("CPP")
    for command in filter(shutil.which, ("gcc", "clang")):
        os.environ["CPP"] = f"{command} -E"
        for source, wanted in REASONS:
            said = "\n".join(tests.told(source))
            found = re.search(wanted, said)
            tests.same(f"{command}: {wanted}\n{said}", command, found and re.search(r"(\w+) says", found[0])[1])
    path, os.environ["PATH"] = os.environ["PATH"], "/nonexistent"
    os.environ.pop("CPP")
    tests.same("no compiler: it is left out", False, "says" in "\n".join(tests.told(REASONS[0][0])))
    os.environ["PATH"] = path
    if before is not None:
        os.environ["CPP"] = before


def try_proved(tests):
    """The place that is proved stands first where it is that of the statement, or nothing was found, and else after it."""
    source = HEAD % b"  i = q;"
    proved = "a.c:3:1: refused: constraint\n  int main(void) {\n  ^"
    said = tests.told(source, proved)
    tests.same("the place that is proved", "a.c:3:1: note: the declaration that is refused begins here", next(it for it in said if ":3:1:" in it))
    tests.same("it stands after that of the statement", True, said[0].startswith("a.c:5:3: error: ") and ":3:1:" in said[-1])
    alone = tests.spot.Told(tests.program, source, "a.c", proved, is_alone=True).lines()
    tests.same("no compiler is asked", False, "says" in "\n".join(alone))
    said = tests.told(b"int main(void) { return 0; }\n", "a.c:1:8: refused: main\n  \n  ^")
    tests.same("nothing was found", ["a.c:1:8: error: refused: main", "  ", "  ^"], said)
    said = tests.told(b"int f(void);\nint main(void) { return f(); }\n", "a.c:1:5: refused: unresolved\n  int f(void);\n      ^")
    tests.same("the same place", 1, sum(":1:5:" in line for line in said))


def try_editors(tests):
    """Each line with a place is one of gcc's to Visual Studio Code and to vim; the marks below are none."""
    lines = tests.told(ALL[0][0])
    errors = [line for line in lines if MATCHER.match(line)]
    tests.same("$gcc", len(ALL[0][1]), len(errors))
    tests.same("$gcc: file, line, column, gravity", ("a.c", "5", "3", "error"), MATCHER.match(lines[0]).groups()[:4])
    tests.same("no other line looks like one", [], [line for line in lines if re.match(r".*?:\d+:", line) and not MESSAGE.fullmatch(line)])
    if not shutil.which("vim"):
        return
    with tempfile.TemporaryDirectory() as room:
        with open(f"{room}/said", "w", encoding="utf-8") as file:
            file.write("\n".join([*lines, "pvrun: hint: what else is refused was not looked for"]) + "\n")
        ask = "call writefile(map(filter(getqflist(), 'v:val.valid'), 'bufname(v:val.bufnr) . \":\" . v:val.lnum . \":\" . v:val.col'), 'places')"
        subprocess.run(["vim", "-u", "NONE", "-es", "-c", "cfile said", "-c", ask, "-c", "qa!"], cwd=room, stdin=subprocess.DEVNULL, timeout=30)
        with open(f"{room}/places", encoding="utf-8") as file:
            places = file.read().split()
    tests.same("vim's quickfix", [":".join(MESSAGE.fullmatch(line).groups()[:3]) for line in lines if MESSAGE.fullmatch(line)], places)


def load_spot():
    loader = importlib.machinery.SourceFileLoader("spot", f"{HERE}/spot")
    made = importlib.util.module_from_spec(importlib.util.spec_from_loader("spot", loader))
    loader.exec_module(made)
    return made


def self_test(program=BUILT):
    if not os.access(program, os.X_OK):
        print("spot: no program; run ./pvrun first", file=sys.stderr)
        return 1
    spot = load_spot()
    spot.MOST_SECONDS = 600  # (a machine may have much to do beside)
    tests = Tests(spot, program)
    try_pieces(tests)
    try_all(tests)
    try_compilers(tests)
    try_proved(tests)
    try_editors(tests)
    print(f"{tests.passed} passed, {tests.failed} failed")
    return int(tests.failed > 0)
