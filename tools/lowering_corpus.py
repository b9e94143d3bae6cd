"""tools/lower --corpus PROGRAM FILE..: files that others wrote, each as it is and lowered, held against gcc.

Of each file it says what `check` says of it as it is and lowered, and how its run ended beside gcc's (-O0): `same` output and status, `differs`,
the verdict where it is another one than an exit, or `no reference` where gcc makes no program of it that ends. Behind the rows stand the counts.
A file that gcc -std=c17 -pedantic-errors refuses is counted as no C17, and run all the same.
"""
import os
import re
import shutil
import subprocess
import sys
import tempfile
from concurrent.futures import ThreadPoolExecutor

from lowering_tests import HERE, call, parted

TURNS = "3000000"


def text_of(source, room):
    """The file preprocessed, and lowered, or None where the preprocessor refuses it; and what the rules said."""
    plain, lowered = os.path.join(room, "plain.i"), os.path.join(room, "lowered.i")
    words = ["-I", f"{HERE}/csmith", "--drop", "volatile", "--drop", "restrict"]
    call([f"{HERE}/preprocess", source, plain] + words)
    done = call([f"{HERE}/preprocess", source, lowered] + words + ["--lower"])
    return plain, lowered if done.returncode == 0 else None, done.stderr.decode("latin1")


def reference(source, room):
    """What gcc's program writes, and its status; and whether the file is C17."""
    program = os.path.join(room, "program")
    csmith = ["-I", f"{HERE}/csmith"]
    strict = call(["gcc", "-std=c17", "-pedantic-errors", "-fsyntax-only", source] + csmith).returncode == 0
    if call(["gcc", "-std=gnu17", "-w", "-O0", "-o", program, source, "-lm"] + csmith).returncode:
        return None, strict
    try:
        done = subprocess.run([program], stdin=subprocess.DEVNULL, stdout=subprocess.PIPE, stderr=subprocess.STDOUT, timeout=10, cwd=room)
    except subprocess.TimeoutExpired:
        return None, strict
    return (done.stdout.decode("latin1"), done.returncode), strict


def row(program, source):
    room = tempfile.mkdtemp()
    try:
        wanted, strict = reference(source, room)
        plain, lowered, notes = text_of(source, room)
        if lowered is None:
            return source, strict, "no text", "no text", "", ""
        before = call([program, "check", plain]).stdout.decode().split(" ")[0]
        after = call([program, "check", lowered]).stdout.decode().split(" ")[0].strip()
        end = ""
        if after == "checked":
            output, report = parted(call(["timeout", "60", program, "run", lowered, "--turns", TURNS]).stdout.decode("latin1"))
            found = re.match(r"exit status=(-?\d+)", report)
            end = report or "no answer"
            if found:
                ended = (output, int(found[1]) % 256)
                end = "no reference" if wanted is None else "same" if ended == wanted else "differs"
        return source, strict, before, after, end, notes
    except subprocess.TimeoutExpired:
        return source, True, "too long", "too long", "", ""
    finally:
        shutil.rmtree(room)


def rules_used(notes):
    return sorted(set(re.findall(r"lowered: ([^:]*):", notes)))


def main(words):
    program, sources = os.path.abspath(words[0]), words[1:]
    counts, ends, rules, accepted = {}, {}, {}, [0, 0]
    with ThreadPoolExecutor(2) as pool:
        for source, strict, before, after, end, notes in pool.map(lambda it: row(program, it), sources):
            kind = "C17" if strict else "no C17"
            counts[kind] = counts.get(kind, 0) + 1
            if strict:
                accepted[0] += before == "checked"
                accepted[1] += after == "checked"
            if end:
                shown = re.sub(r" line=.*", "", end)
                ends[shown] = ends.get(shown, 0) + 1
            if end == "same":
                for it in rules_used(notes):
                    rules[it] = rules.get(it, 0) + 1
            left = re.findall(r"left: (.*)", notes)
            print("%s: %s, %s, %s, %s %s" % (source, kind, before, after, end, "" if after == "checked" else "; ".join(left)[:300]))
            sys.stdout.flush()
    print("files: %s" % ", ".join("%s %d" % it for it in sorted(counts.items())))
    print("accepted of those that are C17: as they are %d, lowered %d" % tuple(accepted))
    print("ends: %s" % ", ".join("%s %d" % it for it in sorted(ends.items(), key=lambda it: -it[1])))
    print("rules used where gcc's output is the same: %s" % ", ".join("%s %d" % it for it in sorted(rules.items(), key=lambda it: -it[1])))
    return 0
