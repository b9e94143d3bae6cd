"""The self-test of tools/lower: the programs of tools/lowering-programs, and what the launcher's user reads.

Each program says in its first lines, which begin with `//!`, what is wanted of it:
  uses RULE            the rule that writes it out is used (standard error says so)
  left REASON          a form is left, for this reason, and the program refuses the text
  fault VERDICT        the report, without its turn: it was written down from C17 before the rule was run
  said TEXT            standard output before the fault, with \\n for line feeds
  defined              output and status are those of gcc and clang at -O0 and -O2
  args WORD..          after --args
"""
import glob
import os
import re
import shlex
import shutil
import subprocess
import tempfile
import tokenize
from concurrent.futures import ThreadPoolExecutor

import lowering_pairs
from lowering.rules import RULES

HERE = os.path.dirname(os.path.realpath(__file__))
BUILT = os.path.join(HERE, "..", "crates", "pvrun", "out", "pvrun")
COMPILERS = [it for it in ("gcc", "clang") if shutil.which(it)]
TURNS = "10000000"
MOST_LINES = 1499


def call(words):
    return subprocess.run(words, stdin=subprocess.DEVNULL, stdout=subprocess.PIPE, stderr=subprocess.PIPE, timeout=300)


def parted(lines):
    """The output, and the report without its turn."""
    found = re.search(r"(exit status=|undefined |indeterminate |undecided |abort |storage |placement |turns |refused )[^\n]*\n$", lines)
    at = found.start() if found else len(lines)
    return lines[:at], re.sub(r" turn=\d+", "", lines[at:].strip())


class Run:
    """A program preprocessed, lowered and run: what was said of the rules, its output, its report."""

    def __init__(self, program, source, room, arguments=(), only=None):
        text, lowered = os.path.join(room, "text.i"), os.path.join(room, "lowered.i")
        name = os.path.basename(source)
        done = call([os.path.join(HERE, "preprocess"), source, text, "-D__pv_lower"])
        assert done.returncode == 0, done.stderr.decode()
        words = [os.path.join(HERE, "lower"), text, lowered, "--name", name] + (["--only", only] if only else [])
        done = call(words + (["--args"] + list(arguments) if arguments else []))
        self.notes, self.status = done.stderr.decode(), done.returncode
        done = call([program, "run", lowered, "--turns", TURNS])
        self.output, self.report = parted(done.stdout.decode("latin1"))


def wanted_of(source):
    with open(source, encoding="latin1") as file:
        return [it[4:].rstrip("\n").split(" ", 1) for it in file if it.startswith("//! ")]


def compiled(source, room, arguments):
    """Output and status by each compiler at each level."""
    for compiler in COMPILERS:
        for level in ("-O0", "-O2"):
            program = os.path.join(room, "compiled")
            done = call([compiler, "-std=c17", level, "-w", "-o", program, source])
            if done.returncode:
                yield compiler + level, "does not compile it: " + done.stderr.decode()[:300], ""
                continue
            done = call([program] + list(arguments))
            yield compiler + level, done.stdout.decode("latin1"), "exit status=%d" % done.returncode


def same(run, output, report):
    found = re.match(r"exit status=(-?\d+)", run.report)
    return bool(found) and run.output == output and "exit status=%d" % (int(found[1]) % 256) == report


def try_program(program, source):
    """What is wrong with one program of the folder."""
    wanted = wanted_of(source)
    arguments = next((shlex.split(it[1]) for it in wanted if it[0] == "args"), [])
    room = tempfile.mkdtemp()
    try:
        run = Run(program, source, room, arguments)
        for kind, *rest in wanted:
            text = rest[0] if rest else ""
            if kind == "uses" and "lowered: " + text not in run.notes:
                yield "the rule '%s' is not used: %s" % (text, run.notes)
            if kind == "left" and not re.search("left.*" + re.escape(text), run.notes):
                yield "nothing is left for '%s': %s" % (text, run.notes)
            if kind == "left" and not run.report.startswith("refused"):
                yield "left, and not refused: " + run.report
            if kind == "fault" and run.report != text:
                yield "wanted %s, got %s (%s)" % (text, run.report, run.notes)
            if kind == "said" and run.output != text.replace("\\n", "\n"):
                yield "wanted the output %r, got %r" % (text, run.output)
            if kind == "defined":
                for by, output, report in compiled(source, room, arguments):
                    if not same(run, output, report):
                        yield "%s: %r %s, and here: %r %s (%s)" % (by, output, report, run.output, run.report, run.notes)
        if not wanted:
            yield "it says nothing of what is wanted"
    finally:
        shutil.rmtree(room)


def code_lines(path):
    """How many lines of Python have code: neither blank ones, nor comments and docstrings."""
    lines, begins = set(), True
    with tokenize.open(path) as file:
        for token in tokenize.generate_tokens(file.readline):
            if token.type in (tokenize.NEWLINE, tokenize.INDENT, tokenize.DEDENT):
                begins = True
            elif token.type not in (tokenize.COMMENT, tokenize.NL, tokenize.ENDMARKER):
                if not (begins and token.type == tokenize.STRING):
                    lines.update(range(token.start[0], token.end[0] + 1))
                begins = False
    return len(lines)


def try_rules():
    """What is wrong with the rules as such: too much code, one without its section of C17, or without its page."""
    count = sum(map(code_lines, [os.path.join(HERE, "lower")] + glob.glob(os.path.join(HERE, "lowering", "*.py"))))
    if count > MOST_LINES:
        yield "tools/lower and tools/lowering have %d lines of Python" % count
    with open(os.path.join(HERE, "..", "docs", "LOWERING.md"), encoding="utf-8") as file:
        pages = file.read()
    for name, rule in RULES.items():
        if not re.search(r"\b[567]\.\d+", rule.__doc__):
            yield "the rule %s names no section of C17" % name
        file = getattr(rule, "__file__", "small.py")
        if "`%s`" % os.path.basename(file) not in pages:
            yield "the rule %s has no page" % name


def try_pair(program, rule, form, plain, arguments, seed):
    """What is wrong with one pair, and the kind of its verdict."""
    room = tempfile.mkdtemp()
    try:
        for name, text in (("form.c", form), ("plain.c", plain)):
            with open(os.path.join(room, name), "w", encoding="ascii") as file:
                file.write(text)
        form_run = Run(program, os.path.join(room, "form.c"), room, arguments)
        done = call([program, "run", os.path.join(room, "plain.c"), "--turns", TURNS])
        plain_output, plain_report = parted(done.stdout.decode("latin1"))
        if (form_run.output, form_run.report) == (plain_output, plain_report) and not plain_report.startswith("refused"):
            return plain_report.split(" line")[0].split(" status")[0], None
        return "differs", "%s %d: %r %s, and in plain words %r %s\n%s%s" % (
            rule, seed, form_run.output, form_run.report, plain_output, plain_report, form_run.notes, form)
    finally:
        shutil.rmtree(room)


def try_pairs(program, count, only=""):
    """That many pairs of each rule: how many differ, and how the others ended."""
    failed, kinds = 0, {}
    rows = [(rule, *pair) for rule in lowering_pairs.RULES if only in rule for pair in lowering_pairs.pairs(rule, count)]
    with ThreadPoolExecutor(2) as pool:
        for (rule, *_), (kind, wrong) in zip(rows, pool.map(lambda it: try_pair(program, *it), rows)):
            kinds.setdefault(rule, {}).setdefault(kind, 0)
            kinds[rule][kind] += 1
            failed += wrong is not None
            if wrong:
                print(wrong)
    return len(rows) - failed, failed, kinds


def main_pairs(words):
    """tools/lower --pairs COUNT [PROGRAM [RULE]]"""
    program = os.path.abspath(words[1] if len(words) > 1 else BUILT)
    passed, failed, kinds = try_pairs(program, int(words[0]), words[2] if len(words) > 2 else "")
    for rule, found in kinds.items():
        print("%s: %s" % (rule, ", ".join("%s %d" % it for it in sorted(found.items(), key=lambda it: -it[1]))))
    print("%d passed, %d failed" % (passed, failed))
    return int(failed > 0)


def main(words):
    program = os.path.abspath(words[0] if words else BUILT)
    if not os.access(program, os.X_OK):
        print("lower: no program; run ./pvrun first")
        return 1
    only = words[1] if len(words) > 1 else ""
    sources = sorted(it for it in glob.glob(os.path.join(HERE, "lowering-programs", "*.c")) if only in it)
    passed, failed, _ = try_pairs(program, 5, only) if not only or only in lowering_pairs.RULES else (0, 0, {})
    with ThreadPoolExecutor(2) as pool:
        rows = [("rules", list(try_rules()))] if not only else []
        for source, wrong in rows + list(zip(sources, pool.map(lambda it: list(try_program(program, it)), sources))):
            failed += bool(wrong)
            passed += not wrong
            for it in wrong:
                print("%s: %s" % (os.path.basename(source), it))
    print("%d passed, %d failed" % (passed, failed))
    return int(failed > 0)
