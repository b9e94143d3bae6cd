"""The self-test of tools/suite for SARIF: which file, line and region a result names, the rules, and the schema."""
import importlib.util
import json
import os
import re
import shutil
import subprocess
import sys

from suite_places import Text, plain
from suite_sarif import beside, uri_of

HERE = os.path.dirname(os.path.realpath(__file__))
SCHEMA = os.path.join(HERE, "sarif_schema.json")
# Structures that a generator made of the schema of the standard, in Debian's package golang-github-haya14busa-go-sarif-dev.
STRUCTURES = "/usr/share/gocode/src/github.com/haya14busa/go-sarif/sarif/sarif.go"
# A validator, by a python3 that has it: 0 where each of the files obeys the schema, 3 where there is no validator.
VALIDATE = """
import json, sys
try:
    import jsonschema
except ImportError:
    sys.exit(3)
schema = json.load(open(sys.argv[1], encoding="utf-8"))
checker = jsonschema.Draft7Validator(schema, format_checker=jsonschema.FormatChecker())
jsonschema.Draft7Validator.check_schema(schema)
for name in sys.argv[2:]:
    for fault in checker.iter_errors(json.load(open(name, encoding="utf-8"))):
        print(f"{name}: {'/'.join(map(str, fault.absolute_path))}: {fault.message[:200]}")
"""
UNDECIDED = b"""int x = 1, y = 2;
int main(void) {
  unsigned long end = (unsigned long)(&x + 1), begin = (unsigned long)&y;
  int *p = (int *)end, *q = (int *)begin;
  return p < q;
}
"""
# Sources, and beside each what its result names: the rule, the file, the line, the columns (from, up to), the level. All follow from C17, or from
# the text: which column a statement begins in, and ends in front of.
SOURCES = {
    "divide.c": b"int main(void) {\n  int n = 0;\n  return 1 / n;\n}\n",
    "one_line.c": b"int main(void) { int n = 0; return 1 / n; }\n",
    "macro.c": b"#define OVER(n) (1 / (n))\n#include <stdio.h>\nint main(void) {\n  int n = 0;\n\n    return OVER(n) ;  /* here */\n}\n",
    "own.c": b'#include "own.h"\nint main(void) { return over(0); }\n',
    "own.h": b"/* a header */\nstatic int over(int n) {\n  return 1 / n;\n}\n",
    "library.c": b'#include <string.h>\nint main(void) {\n  char text[4] = "abc";\n  strcat(text, "elizabeth");\n  return 0;\n}\n',
    "asserts.c": b"#include <assert.h>\nstatic void hold(int n) {\n  assert(n);\n}\nint main(void) {\n  hold(0);\n}\n",
    "unset.c": b"int main(void) {\n  int n;\n  if (1) {\n    return n;\n  }\n}\n",
    "undecided.c": UNDECIDED,
    "placed.c": b"int main(void) {\n  int n = 0;\n  return n;\n}\n",
    "large.c": b"int main(void) {\n  static char all[16777217];\n  return all[0];\n}\n",
    "aborts.c": b"void abort(void);\nint main(void) {\n  abort();\n}\n",
    "endless.c": b"int main(void) { for (;;) ; }\n",
    "refused.c": b"int main(void) {\n  int n = 0;\n  n = missing;\n  return n;\n}\n",
    "twice.c": b"int main(void) {\n  int n = 0;\n  n = missing;\n  n = lost;\n  return n;\n}\n",
    "byte.c": b"int main(void) {\n  return `;\n}\n",
    "nomain.c": b"int x;\n",
    "unicode.c": "int main(void) {\n  /* \u00e4\U0001f600 */ return 1 / 0;\n}\n".encode(),
    "marked.i": b'# 7 "kept.h"\nint f(void) {\n  return 1 / 0;\n}\n# 2 "kept.c" 2\nint main(void) { return f(); }\n',
    "a b.c": b"int main(void) {\n  return 1 / 0;\n}\n",
}
# Headers of our own are told by the statement outside that called; without pv_replay they are told themselves.
ROWS = [
    ("divide.c", "C17/6.5.5p5", "divide.c", 3, (3, 16), "error"), ("one_line.c", "C17/6.5.5p5", "one_line.c", 1, (1, 44), "error"),
    ("macro.c", "C17/6.5.5p5", "macro.c", 6, (5, 33), "error"), ("own.c", "C17/6.5.5p5", "own.h", 3, (3, 16), "error"),
    ("library.c", "C17/7.24.1p2", "library.c", 4, (3, 29), "error"), ("asserts.c", "abort", "asserts.c", 3, (3, 13), "error"),
    ("unset.c", "indeterminate", "unset.c", 4, (5, 14), "error"), ("undecided.c", "undecided", "undecided.c", 5, (3, 16), "warning"),
    ("placed.c", "placement", "placed.c", 2, (3, 13), "warning"), ("large.c", "storage", "large.c", 2, (3, 29), "warning"),
    ("aborts.c", "abort", "aborts.c", 3, (3, 11), "error"), ("endless.c", "turns", "endless.c", None, None, "note"),
    ("refused.c", "refused", "refused.c", 3, (3, 15), "warning"), ("byte.c", "refused", "byte.c", 2, (3, 12), "warning"),
    ("nomain.c", "refused", "nomain.c", None, None, "warning"), ("unicode.c", "C17/6.5.5p5", "unicode.c", 2, (13, 26), "error"),
    ("marked.i", "C17/6.5.5p5", "kept.h", 8, None, "error"), ("a b.c", "C17/6.5.5p5", "a%20b.c", 2, (3, 16), "error"),
]
# The functions that are active where a run ends, each with the file and the line in which it is.
STACKS = {
    "divide.c": [("main", "divide.c", 3)], "own.c": [("over", "own.h", 3), ("main", "own.c", 2)],
    "library.c": [("strcat", "string.h", 44), ("main", "library.c", 4)], "unset.c": [("main", "unset.c", 4)],
    "asserts.c": [("__assertion_failed", "assert.h", 19), ("hold", "asserts.c", 3), ("main", "asserts.c", 6)],
    "endless.c": [("main", "", None)], "refused.c": [], "marked.i": [("f", "kept.h", 8), ("main", "kept.c", 2)],
}
SCRIPTS = {"undecided.c": b"x 1 0x20000\ny 1 0x20004\n", "placed.c": b"n 1 0x10\n", "bad.script": b"# a\nn 0 0x10\n"}


def read(name: str) -> "dict[str, object]":
    """A log."""
    with open(name, encoding="utf-8") as file:
        return json.load(file)


def named(one: "dict") -> "tuple[object, ...]":
    """What a result names: rule, file, line, columns, level."""
    place = one["locations"][0]["physicalLocation"]
    region = place.get("region", {})
    columns = (region["startColumn"], region["endColumn"]) if "startColumn" in region else None
    return one["ruleId"], place["artifactLocation"]["uri"], region.get("startLine"), columns, one["level"]


def try_list(tried, tool) -> None:
    """Each end of a run in a list."""
    rows = [row for row in ROWS if " " not in row[0]]
    lines = []
    for source, *_ in rows:
        script = f"{source}.script" if source in SCRIPTS else "-"
        lines.append(f"{source} {script} - 999 x\n")
    lines += ["divide.c - - 99 undefined\n", "placed.c bad.script - 99 script\n", "placed.c - - 99 exit status=1\n", "placed.c - - 99 exit\n"]
    with open("list", "w", encoding="ascii") as file:
        file.write("".join(lines))
    tried.same("SARIF: the list", 15, tool.told("list", "--sarif", "list.sarif")[0])
    results = read("list.sarif")["runs"][0]["results"]
    for (source, rule, file, line, columns, _), one in zip(rows, results):
        tried.same(f"SARIF: {source}", (rule, file, line, columns, "error"), without_headers(named(one), tool))
        if beside(tool.program, "pv_state"):
            try_stack(tried, "SARIF", source, one)
    more = [(*named(one), one["kind"]) for one in results[len(rows) :]]
    tried.same("SARIF: as expected, and not", [
        ("C17/6.5.5p5", "divide.c", 3, (3, 16), "none", "pass"), ("script", "bad.script", 2, None, "none", "pass"),
        ("case", "placed.c", None, None, "error", "fail"),
    ], more)


def placed(one: "dict") -> "tuple[str, object]":
    """The file of a location, without its folder, and its line."""
    place = one.get("physicalLocation", {})
    return os.path.basename(place.get("artifactLocation", {}).get("uri", "")), place.get("region", {}).get("startLine")


def try_stack(tried, words: str, source: str, one: "dict") -> None:
    """The stack of a result, and the places of its calls beside that of a fault in a header of ours."""
    wanted = STACKS.get(source)
    if wanted is None:
        return
    frames = [frame["location"] for stack in one.get("stacks", []) for frame in stack["frames"]]
    tried.same(f"{words}: {source}: stack", wanted, [(frame["logicalLocations"][0]["name"], *placed(frame)) for frame in frames])
    calls = [(f"{caller[0]} called {callee[0]} here", *caller[1:]) for callee, caller in zip(wanted, wanted[1:])]
    header = [("in a header that comes with the program", *wanted[0][1:])] if source in ("library.c", "asserts.c") else []
    tried.same(f"{words}: {source}: calls", header + calls, [(place["message"]["text"], *placed(place)) for place in one.get("relatedLocations", [])])


def without_headers(told: "tuple", tool) -> "tuple":
    """What is named; where there is no pv_replay beside the program a header of our own stands for what called it."""
    is_there = os.access(os.path.join(os.path.dirname(tool.program), "pv_replay"), os.X_OK) or "/crates/" in tool.program
    if is_there or not told[1].startswith("file://"):
        return told
    return {"string.h": ("C17/7.24.1p2", "library.c", 4, (3, 29), "error"), "assert.h": ("abort", "asserts.c", 3, (3, 13), "error")}.get(
        os.path.basename(told[1]), told)


def try_one(tried, tool) -> None:
    """Reports of one program, as the launcher has them told."""
    pvrun = beside(tool.program, "pvrun")
    if not pvrun:
        print("suite: without pvrun no reports of one program are tried")
        return
    for number, (source, rule, file, line, columns, level) in enumerate(ROWS):
        text, fresh = source, []
        if b"#" in SOURCES[source] and not source.endswith(".i"):
            text, fresh = "text.i", ["--fresh"]
            subprocess.run([os.path.join(HERE, "preprocess"), source, text], check=True)
        more = ["--script", f"{source}.script"] if source in SCRIPTS else []
        more += ["--turns", "999"]
        with open("report", "wb") as report:
            subprocess.run([pvrun, "run", text, *more], stdin=subprocess.DEVNULL, stdout=report, check=False)
        words = ["--of", "report", source, "--sarif", f"one{number}.sarif", "--text", text, *fresh, *more]
        done = subprocess.run([sys.executable, os.path.join(HERE, "suite"), *words, "--program", pvrun], stdin=subprocess.DEVNULL, check=False)
        log = read(f"one{number}.sarif")["runs"][0]
        tried.same(f"SARIF of one program: {source}", (0, True, 1), (done.returncode, log["invocations"][0]["executionSuccessful"], len(log["results"])))
        tried.same(f"SARIF of one program: {source}: place", (rule, file, line, columns, level), without_headers(named(log["results"][0]), tool))
        if beside(tool.program, "pv_state"):
            try_stack(tried, "SARIF of one program", source, log["results"][0])


def try_reasons(tried, tool) -> None:
    """Each reason of a refusal is a result, with what a compiler says of it."""
    if not beside(tool.program, "pvrun"):
        return
    with open("list", "w", encoding="ascii") as file:
        file.write("twice.c - - 9 exit\ntwice.c - - 9 refused\n")
    tool.told("list", "--sarif", "twice.sarif")
    results = read("twice.sarif")["runs"][0]["results"]
    tried.same("SARIF: reasons", [("refused", 3, "fail"), ("refused", 4, "fail"), ("refused", 3, "pass")],
               [(one["ruleId"], one["locations"][0]["physicalLocation"]["region"]["startLine"], one["kind"]) for one in results])
    for one, name in zip(results, ("missing", "lost")):
        tried.holds(f"SARIF: what gcc says of {name}", f"'{name}'", one["message"]["text"] if shutil.which("gcc") else f"'{name}'")


def try_ends(tried, tool) -> None:
    """Whether there was an answer, and what is told where there was none."""
    rows = [
        (b"exit status=0 turn=3\n", True, 0, None), (b"hello\nexit status=3 turn=3\nno fault\n", True, 0, None),
        (b"script reason=size\n", True, 1, None), (b"refused reason=size\n", True, 1, None), (b"turns bound=9\n", True, 1, None),
        (b"words\n", False, 0, "words"), (b"fault read\n", False, 0, "fault read"), (b"", False, 0, "no report"), (b"output alone\n", False, 0, "no report"),
        (b"sides ended pair=1\n", False, 0, "sides ended pair=1"),
    ]
    for number, (report, is_answer, count, note) in enumerate(rows):
        with open("report", "wb") as file:
            file.write(report)
        name = f"end{number}.sarif"
        tool_words = [sys.executable, os.path.join(HERE, "suite"), "--of", "report", "divide.c", "--sarif", name]
        subprocess.run(tool_words, stdin=subprocess.DEVNULL, check=False)
        log = read(name)["runs"][0]
        call = log["invocations"][0]
        notes = [one["message"]["text"] for one in call.get("toolExecutionNotifications", [])]
        tried.same(f"SARIF of {report!r}", (is_answer, count, [note] if note else []), (call["executionSuccessful"], len(log["results"]), notes))


def try_rules(tried) -> None:
    """Each result's rule stands where it says, with a text of help, and no reference that is to be fetched."""
    for name in sorted(name for name in os.listdir(".") if name.endswith("sarif")):
        driver = read(name)["runs"][0]["tool"]["driver"]
        rules = driver.get("rules", [])
        for one in read(name)["runs"][0]["results"]:
            tried.same(f"{name}: the rule of {one['ruleId']}", one["ruleId"], rules[one["ruleIndex"]]["id"])
        helped = [bool(rule["help"]["text"]) and "helpUri" not in rule and rule["defaultConfiguration"]["level"] != "none" for rule in rules]
        tried.same(f"{name}: help", (True, len(rules)), (all(helped), len({rule["id"] for rule in rules})))


def python_with_validator() -> str:
    """A python3 that has jsonschema (Debian: python3-jsonschema); empty where there is none."""
    if importlib.util.find_spec("jsonschema"):
        return sys.executable
    other = "/usr/bin/python3"
    has_it = os.access(other, os.X_OK) and subprocess.run([other, "-c", "import jsonschema"], stderr=subprocess.DEVNULL, check=False).returncode == 0
    return other if has_it else ""


def try_schema(tried) -> None:
    """Each log obeys the schema, by a validator; what it must not be, is refused by the same one. SARIF_SCHEMA may name the standard's own schema."""
    python = python_with_validator()
    if not python:
        print("suite: without jsonschema (Debian: python3-jsonschema) no log is held against the schema")
        return

    def faults(*names: str, schema: str = SCHEMA) -> str:
        words = [python, "-W", "ignore", "-c", VALIDATE, schema, *names]
        done = subprocess.run(words, stdin=subprocess.DEVNULL, stdout=subprocess.PIPE, check=False)
        return done.stdout.decode() if done.returncode == 0 else f"status {done.returncode}"

    names = sorted(name for name in os.listdir(".") if name.endswith("sarif"))
    tried.same("SARIF: all obey the schema", (True, ""), (len(names) > 20, faults(*names)))
    if os.environ.get("SARIF_SCHEMA"):
        tried.same("SARIF: all obey the schema of the standard", "", faults(*names, schema=os.environ["SARIF_SCHEMA"]))
    for words, part in [("version", {"version": "2.2.0"}), ("no runs", {"runs": None}), ("a property more", {"run": []})]:
        with open("wrong.json", "w", encoding="utf-8") as file:
            json.dump({**read(names[0]), **part}, file)
        tried.same(f"SARIF: {words}: refused", True, "wrong.json" in faults("wrong.json"))
    for words, change in [("a level", {"level": "grave"}), ("a kind", {"kind": "bad"}), ("passed, and an error", {"kind": "pass", "level": "error"}),
                          ("no message", {"message": None})]:
        log = read("list.sarif")
        log["runs"][0]["results"][0].update(change)
        with open("wrong.json", "w", encoding="utf-8") as file:
            json.dump(log, file)
        tried.same(f"SARIF: {words}: refused", True, "wrong.json" in faults("wrong.json"))
    os.remove("wrong.json")


def try_structures(tried) -> None:
    """The schema has no property that the standard lacks, and requires all that the standard requires, by structures made of the standard's schema."""
    if not os.access(STRUCTURES, os.R_OK):
        return
    with open(STRUCTURES, encoding="utf-8") as file:
        text = file.read()
    schema = read(SCHEMA)
    parts = {"sarif": schema, **schema["definitions"]}
    for name, part in parts.items():
        if "properties" in part:
            fields = re.search(rf"type {name[0].upper()}{name[1:]} struct {{(.*?)\n}}", text, re.S)
            known = dict(re.findall(r'json:"([^",]+)(,omitempty)?"', fields[1] if fields else ""))
            required = {field for field, may_lack in known.items() if not may_lack}
            tried.same(f"schema: {name}", (True, True), (set(part["properties"]) <= set(known), required <= set(part.get("required", []))))


def try_texts(tried) -> None:
    """Places of lines, by hand."""
    text = Text(b'a\n# 7 "b.h"\n/*\n# 9 "c.h"\n*/ b\n# 2 "d\\"\\101.c" 2\nc\n', b"a.c", False)
    wanted = [(b"a.c", 1), (b"a.c", 2), (b"b.h", 7), (b"b.h", 8), (b"b.h", 9), (b"b.h", 10), (b'd"A.c', 2), (b'd"A.c', 3)]
    tried.same("line markers", wanted, [tuple(place) for place in text.places])
    tried.same("standard input has the name that was asked for", b"/dev/fd/5", Text(b'# 1 "<stdin>"\na\n', b"/dev/fd/5", False).places[1].file)
    tried.same("emptied markers", b"a\n\n/*\n\n*/ b\n\nc\n", plain(text.source))
    for name, wanted_uri in [(b"a b.c", "a%20b.c"), (b"/x/y.c", "file:///x/y.c"), (b"../y.c", "../y.c"), ("ä:%.c".encode(), "%C3%A4%3A%25.c")]:
        tried.same(f"the reference of {name!r}", wanted_uri, uri_of(name))


def try_sarif(tried, tool) -> None:
    """Tries all of it in this folder."""
    for name, held in SOURCES.items():
        with open(name, "wb") as file:
            file.write(held)
    for name, held in SCRIPTS.items():
        with open(name if name.endswith(".script") else f"{name}.script", "wb") as file:
            file.write(held)
    try_texts(tried)
    try_list(tried, tool)
    if shutil.which("gcc") or shutil.which("clang"):
        try_one(tried, tool)
    try_reasons(tried, tool)
    try_ends(tried, tool)
    try_rules(tried)
    try_schema(tried)
    try_structures(tried)
