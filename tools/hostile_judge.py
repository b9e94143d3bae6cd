"""For tools/hostile: whether an answer is one of those that are right."""
import functools
import os
import re
import subprocess
from typing import Optional

from hostile_calls import Call, Told
from hostile_rows import Any, Part, Row

HERE = os.path.dirname(os.path.realpath(__file__))
# The reports behind other statuses than those of a run that was made, by docs/FORMATS.md, each whole.
REFUSED = (
    rb"refused reason=(size|main|byte at=\d+|token at=\d+|profile at=\d+ word=\w+|syntax whole=\d+|constraint index=\d+|unresolved name=\w+)\n"
)
SCRIPT = rb"script reason=(size|line line=\d+|repeated line=\d+ first=\d+)\n"
COMMON = {10: rb"words\n", 11: rb"fault read\n", 13: rb""}
SUITE = rb"((pass \d+|fail \d+ (line .*|output at=\d+))\n)*(clause [\d.]+p\d+ cases=\d+\n)*suite cases=\d+ passed=\d+\n"
PLACE = rb".+:\d+:\d+: refused: (byte|token|profile|syntax|constraint|unresolved|main|size)\n  .*\n([ \t]*\^\n)?"
EVENT = rb"(create|end|expose|pair|use|fault) .*\n"
WHOLE = {
    "pvrun": {**COMMON, 8: REFUSED, 9: SCRIPT},
    "pvwhere": {**COMMON, 0: rb"", 8: PLACE},
    "pv_suite": {**COMMON, 0: SUITE, 15: SUITE, 16: rb"list reason=(size|line line=\d+|output case=\d+)\n"},
    "pv_replay": {
        **COMMON, 0: rb"(" + EVENT + rb")*events \d+\n|journal ok events=\d+\n", 8: REFUSED, 9: SCRIPT, 17: rb"journal bad line=\d+\n",
        18: rb"journal size\n",
    },
    "pv_step": {
        **COMMON, 0: rb"((turn|live|pairs?|inside|at|exit|undefined|indeterminate|undecided|placement|storage|abort) .*\n)*", 8: REFUSED, 9: SCRIPT,
        19: rb"command reason=(size|line line=\d+)\n",
    },
}
# The answers of `check` and `layout`, which come with status 0 too.
WITHOUT_A_RUN = rb"checked declarations=\d+\n|((struct|union) \w+ size=\d+ align=\d+\n(  \w+ offset=\d+ size=\d+\n)*)*"


@functools.lru_cache(maxsize=None)
def run_shape(status: int) -> Optional[bytes]:
    """The shape of the line of a run with this status, as tools/report.sh has it for the launcher."""
    done = subprocess.run(["bash", "-c", '. "$0/report.sh"; report_shape "$1"', HERE, str(status)], stdout=subprocess.PIPE, check=True)
    return done.stdout.strip().removesuffix(b"$") or None


def speaker(call: Call) -> str:
    """The program whose report a call has: the launcher hands on those of several."""
    if call.program != "launcher":
        return call.program
    return {"replay": "pv_replay", "suite": "pv_suite"}.get(str(call.words[0]) if call.words else "", "pvrun")


def is_documented(program: str, status: int, out: bytes) -> bool:
    """Returns whether the formats have this report for this status of a program."""
    shapes = WHOLE[program]
    if status in shapes:
        return re.fullmatch(shapes[status], out) is not None
    shape = run_shape(status) if program == "pvrun" else None
    if shape is None:
        return False
    if status == 0 and re.fullmatch(WITHOUT_A_RUN, out):
        return True
    return re.search(rb"(?:\A|.|\n)" + shape + rb"\n(sides (-|[lh]+)\n)?\Z", out) is not None


def fits(call: Call, status: int, out: object, told: Told) -> bool:
    """Returns whether what was told is one answer that is right."""
    if status != told.status:
        return False
    if out is Part:
        return call.out.startswith(told.out)
    if out is Any:
        return is_documented(speaker(call), status, told.out)
    return out == told.out


def fault_of(row: Row, told: Told) -> str:
    """What is wrong with what came of a row; empty where nothing is."""
    if told.left:
        return "left behind: " + "; ".join(told.left)
    if any(fits(row.call, status, out, told) for status, out in row.right):
        return ""
    wanted = " or ".join(shown(status, out) for status, out in row.right[:4])
    return f"wanted {wanted}, got {shown(told.status, told.out)}, beside it {told.err[-300:]!r}"


def shown(status: int, out: object) -> str:
    """An answer in a few words."""
    if out is Part:
        return f"{status} and a first part"
    if out is Any:
        return f"{status} and its report"
    assert isinstance(out, bytes)
    return f"{status} {out!r}" if len(out) < 120 else f"{status} {out[:60]!r} .. {out[-50:]!r} ({len(out)} bytes)"
