"""The self-test of tools/leaks: what is said of runs that leave allocations. Which lines these are follows from the texts."""
import os
import subprocess
import sys
import tempfile
from typing import Optional

HERE = os.path.dirname(os.path.realpath(__file__))
HEAD = "void *malloc(unsigned long);\nvoid free(void *);\nvoid *realloc(void *, unsigned long);\n"
# A source, its options, and what is said of each allocation in front of its turn.
ROWS = [
    ("one of two", HEAD + "int main(void) {\n  char *p = malloc(3);\n  char *q = malloc(1);\n  free(p);\n  return q == 0;\n}\n", [],
     ["a.c:6:3: warning: allocation 2 was never freed: 1 byte, made here"]),
    ("all freed", HEAD + "int main(void) {\n  char *p = malloc(3);\n  free(p);\n  return 0;\n}\n", [], ["pvrun: no leak: each of 1 allocations was freed"]),
    ("nothing allocated", "int main(void) { return 0; }\n", [], ["pvrun: no leak: nothing was allocated"]),
    ("what realloc made", HEAD + "int main(void) {\n  char *p = malloc(3);\n  p =\n    realloc(p, 9);\n  return 0;\n}\n", [],
     ["a.c:6:3: warning: allocation 2 was never freed: 9 bytes, made here"]),
    ("made by a function", HEAD + "static int *make(void) {\n  return malloc(8);\n}\nint main(void) {\n  int *p = make();\n  return p == 0;\n}\n", [],
     ["a.c:5:3: warning: allocation 1 was never freed: 8 bytes, made here"]),
    ("made in a header of ours", "#include <stdlib.h>\nint main(void) {\n  int *p = calloc(2, 4);\n  return p == 0;\n}\n", [],
     ["a.c:3:3: warning: allocation 1 was never freed: 8 bytes, made here"]),
    ("refused by the script", HEAD + "int main(void) {\n  char *p = malloc(3);\n  return p != 0;\n}\n", ["@heap 1 null\n"], ["pvrun: no leak: nothing was allocated"]),
    ("placed by the script", HEAD + "int main(void) {\n  char *p = malloc(3);\n  return p == 0;\n}\n", ["@heap 1 0x100000000\n"],
     ["a.c:5:3: warning: allocation 1 was never freed: 3 bytes, made here"]),
    ("twelve", HEAD + "int main(void) {\n  int i;\n  for (i = 0; i < 12; i++)\n    malloc(2);\n  return 0;\n}\n", [],
     [f"a.c:6:3: warning: allocation {number} was never freed: 2 bytes, made here" for number in range(1, 11)]
     + ["pvrun: and 2 allocations more were never freed"]),
    ("no statements known", HEAD + "int pv_at_0;\nint main(void) {\n  malloc(2);\n  return 0;\n}\n", [],
     ["a.c: warning: allocation 1 was never freed: 2 bytes, made at turn"]),
    ("too many events", HEAD + "int main(void) {\n  int i;\n  for (i = 0; i < 40000; i++)\n    free(malloc(2));\n  return 0;\n}\n", [],
     ["pvrun: nothing is known of leaks: the run has 65536 events or more"]),
    ("a fault in the journal's run", HEAD + "int main(void) {\n  char *p = malloc(2), *q;\n  free(p);\n  q = p;\n  return 0;\n}\n", [],
     ["pvrun: nothing is known of leaks: with --zap on, as journals are written, this run ends in a fault"]),
]


def self_test(folder: Optional[str] = None) -> int:
    """Tries the tool; returns the status of this call."""
    replay = os.path.join(folder or f"{HERE}/../crates/pv_replay/out", "pv_replay")
    passed = failed = 0
    with tempfile.TemporaryDirectory(prefix="leaks-") as room:
        for what, source, script, wanted in ROWS:
            with open(f"{room}/a.c", "w", encoding="ascii") as file:
                file.write(source)
            subprocess.run([f"{HERE}/preprocess", "a.c", f"{room}/a.i"], cwd=room, check=True)
            options = ["--turns", "10000000"]
            if script:
                with open(f"{room}/s", "w", encoding="ascii") as file:
                    file.write(script[0])
                options += ["--script", f"{room}/s"]
            words = [sys.executable, f"{HERE}/leaks", os.path.abspath(replay), f"{room}/a.i", "a.c", *options]
            done = subprocess.run(words, cwd=room, stdin=subprocess.DEVNULL, capture_output=True, encoding="utf-8", check=False)
            said = done.stderr.splitlines()
            is_so = done.returncode == 0 and len(said) == len(wanted) and all(map(str.startswith, said, wanted))
            passed += is_so
            failed += not is_so
            if not is_so:
                print(f"{what}:\n  wanted {wanted}\n  got    {said}")
    print(f"{passed} passed, {failed} failed")
    return 1 if failed else 0
