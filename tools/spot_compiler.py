"""For tools/spot: what a compiler says of the same text."""
import os
import re
import shlex
import shutil
import subprocess
from typing import NamedTuple, Optional

from spot_text import shown, unquoted

SECONDS = 10
MOST_ERRORS = 20
ERROR = re.compile(r"(.*?):(\d+):(\d+): (?:fatal )?error: (.*)")
PLAIN = {
    "gcc": ["-fno-diagnostics-show-caret", "-fdiagnostics-color=never", f"-fmax-errors={MOST_ERRORS}"],
    "clang": ["-fno-caret-diagnostics", "-fno-color-diagnostics", f"-ferror-limit={MOST_ERRORS}"],
}
# (the library's functions are what the text declares, and a format that the language leaves out is none of the compiler's)
ASKED = ["-x", "cpp-output", "-std=c17", "-pedantic-errors", "-Wno-format", "-ffreestanding", "-fno-diagnostics-show-option", "-fsyntax-only"]


class Error(NamedTuple):
    file: str
    line: int
    column: int
    sentence: str


def find_compiler() -> Optional[tuple[str, str]]:
    """The command, and which of the two it is: that of CPP where it names one, or else the first that is found."""
    try:
        words = shlex.split(os.environ.get("CPP", ""))
    except ValueError:
        words = []
    for command in words[:1] + ["gcc", "clang"]:
        kind = re.fullmatch(r"(?:.*[/-])?(gcc|clang)(?:-[\d.]+)?", command)
        if kind and shutil.which(command):
            return command, kind[1]
    return None


def with_plain_names(source: bytes) -> tuple[bytes, dict[str, str]]:
    """The source with names of files in its line markers that no message can break, and what each stands for."""
    names: dict[str, str] = {}

    def renamed(marker: re.Match[bytes]) -> bytes:
        names.setdefault(unquoted(marker[2]), f"file{len(names)}")
        return b'# %s "%s"' % (marker[1], names[unquoted(marker[2])].encode())

    plain = re.sub(rb'^[ \t]*#[ \t]*(\d+)[ \t]+"((?:[^"\\\n]|\\.)*)"[^\n]*', renamed, source, flags=re.M)
    return plain, {plain_name: name for name, plain_name in names.items()}


def errors_of(source: bytes, name: str) -> tuple[str, list[Error]]:
    """The compiler's name and its errors; none where there is no compiler, or it has no answer. The file of a place before all markers is NAME."""
    found = find_compiler()
    if not found:
        return "", []
    command, kind = found
    env = {**os.environ, "LC_ALL": "C"}
    source, names = with_plain_names(source)
    try:
        told = subprocess.run([command, *ASKED, *PLAIN[kind], "-"], input=source, stdout=subprocess.DEVNULL, stderr=subprocess.PIPE, env=env, timeout=SECONDS)
    except (OSError, subprocess.TimeoutExpired):
        return "", []
    lines = told.stderr.decode("utf-8", "replace").splitlines()
    errors = [Error(names.get(it[1], shown(os.fsencode(name))), int(it[2]), int(it[3]), it[4]) for it in map(ERROR.fullmatch, lines) if it]
    return os.path.basename(command), errors
