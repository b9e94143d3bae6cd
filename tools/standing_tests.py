"""For the self-tests of tools/explore and tools/page: a checkout whose programs are proved, older than their sources, put there by hand, or trials."""
import os
import shutil
import subprocess
from typing import Callable

from standing import TOP

NAMES = ("pvrun", "pv_replay")


def write(path: str, text: str) -> None:
    os.makedirs(os.path.dirname(path), exist_ok=True)
    with open(path, "w", encoding="utf-8") as file:
        file.write(text)


def put_programs(top: str, programs: dict[str, str], more: str = "") -> None:
    """Puts programs that call the others into the checkout."""
    for name, path in programs.items():
        write(f"{top}/crates/{name}/out/{name}", f'#!/bin/sh\n{more}exec "{path}" "$@"\n')
        os.chmod(f"{top}/crates/{name}/out/{name}", 0o755)


def note_programs(top: str) -> None:
    """What tools/prove notes of programs that it built."""
    for name in NAMES:
        words = f'. tools/sources.sh && mkdir -p .prove && sources {name} {name} low >.prove/{name}.sources'
        subprocess.run(["bash", "-c", words], cwd=top, check=True)


def try_standing(room: str, programs: dict[str, str], tool: str, told: Callable[[list[str]], str]) -> list[tuple[str, bool, str]]:
    """Calls the tool of a checkout by `told`, which gets the words; what was tried, whether it is right, and what was told."""
    top = f"{room}/standing"
    os.makedirs(top)
    for folder in ("tools", "include"):
        shutil.copytree(f"{TOP}/{folder}", f"{top}/{folder}", ignore=shutil.ignore_patterns("__pycache__", "*-programs"))
    write(f"{top}/crates.txt", "low:\npvrun: low\npv_replay: low\n")
    for name in ("low", *NAMES):
        write(f"{top}/crates/{name}/src/main.rt", "// a source\n")
    write(f"{top}/a.c", "int x = 1;\nint main(void) { return x; }\n")
    words = [f"{top}/tools/{os.path.basename(tool)}", f"{top}/a.c"]
    rows = []

    def look(what: str, is_proved: bool, why: str) -> None:
        said = told(words)
        rows.append((f"{what}: NOT PROVED is said {'never' if is_proved else 'once'}", said.count("NOT PROVED") == (not is_proved), said))
        rows.append((f"{what}: what is called proved", ("the proved program" in said) == is_proved, said))
        rows.append((f"{what}: why", why in said, said))

    put_programs(top, programs)
    look("a build that was put there", False, "tools/prove did not make it of the sources as they are")
    note_programs(top)
    look("what tools/prove noted", True, "")
    write(f"{top}/crates/low/src/main.rt", "// another source\n")
    look("a touched source", False, "pvrun and pv_replay: tools/prove did not make it of the sources as they are")
    put_programs(top, programs, "# AddressSanitizer\n")
    note_programs(top)
    look("a trial build in that place", False, "it is tried before its proofs")
    return rows
