"""For tools/hostile: what is done to the programs, row by row, and what may come of each.

A row is a family, what is done, a call, the words of shell by which it is made, and the answers that are right: a status with the bytes that are
written, or with a part of those that would be (`Part`), or with any report that docs/FORMATS.md has for that status (`Any`).
"""
import os
import random
import signal
import time
from dataclasses import dataclass
from typing import Callable, Iterator, Optional, Sequence, Union

from hostile_calls import Call, Meanwhile, Running
from hostile_shapes import SIZE, shapes


class Part:
    """The first bytes of what would be written, or none of them."""


class Any:
    """Whatever report the formats have for the status."""


Right = "tuple[int, Union[bytes, type[Part], type[Any]]]"


@dataclass(frozen=True)
class Row:
    """Something that is done to a call, and the answers that are right."""

    family: str
    name: str
    call: Call
    right: "Sequence[Right]"
    shell: str = 'exec "$@"'
    meanwhile: Optional[Meanwhile] = None


# ---- the calls that everything is done to, with answers of worked rows

EXIT = b"int main(void){return 0;}"
PAIR = b"""int printf(const char *, ...);
int x = 1, y = 2;
int main(void) {
  unsigned long a = (unsigned long)(&x + 1);
  unsigned long b = (unsigned long)&y;
  int *p = (int *)a;
  *p = 11;
  printf("%d %d %d\\n", x, y, a == b);
  return 0;
}
"""
BESIDE = b"x 1 0x20000\ny 1 0x20004\n"
PAIR_TOLD = b"""1 11 1
exit status=0 turn=29
pair 1 turn=14 address=0x20004 low=x#1 high=y#1
use 1 turn=18 test=live left=x#1,y#1
use 1 turn=19 test=range left=y#1
"""
TENS = b"""int printf(const char *, ...);
int main(void) {
  int i;
  for (i = 0; i < 1000; i++)
    printf("0123456789");
  return 0;
}
"""
ENDED = b"""int main(void) {
  int *p;
  { int a = 1; p = &a; }
  { int b = 2; }
  return *p;
}
"""
ENDED_PLACES = b"a 1 0x20000\nb 1 0x20000\n"
ENDED_LINE = b"undefined clause=6.2.4p2 reason=ended line=5 turn=15\n"
JOURNAL = b"""create p#1 turn=1 base=0x10000 size=8
create a#1 turn=2 base=0x20000 size=4
end a#1 turn=9
create b#1 turn=10 base=0x20000 size=4
end b#1 turn=12
fault turn=15
events 6
"""
STEPS = b"go 9\nlist\nnext\nlist\ngo 100\n"
STEPS_TOLD = b"""turn 9 running
live p#1 base=0x10000 size=8
live count=1
turn 10 running
live p#1 base=0x10000 size=8
live b#1 base=0x20000 size=4
live count=2
""" + ENDED_LINE
WRONG = b"int a; int b = c; int main(void){return 0;}"
WRONG_PLACE = b"a.c:1:8: refused: constraint\n  int a; int b = c; int main(void){return 0;}\n         ^\n"
CASES = b"a.c - - 2 turns bound=2\nb.c s o 99 exit status=0 turn=6\n"
HELLO = b'int printf(const char *, ...); int main(void){printf("hello\\n"); return 0;}'
HELLO_HEADER = b"#include <stdio.h>\nint main(void) { printf(\"hello\\n\"); return 3; }\n"
# An address is made of halves of two others.
HALVES = b"""void *memcpy(void *, const void *, unsigned long);
int x = 1, y = 2;
int main(void) {
  unsigned long a = (unsigned long)(&x + 1), b = (unsigned long)&y;
  int *p = (int *)a, *q = (int *)b, *r;
  memcpy(&r, &p, 4);
  memcpy((char *)&r + 4, (char *)&q + 4, 4);
  *r = 7;
  return y;
}
"""
HALVES_TOLD = b"""exit status=7 turn=44
pair 1 turn=14 address=0x20004 low=x#1 high=y#1
pair 2 turn=17 address=0x20004 low=x#1 high=y#1
pair 3 turn=41 address=0x20004 low=x#1 high=y#1
use 3 turn=41 test=live left=x#1,y#1
use 3 turn=42 test=range left=y#1
"""
LIST = b"""void *malloc(unsigned long);
void free(void *);
int printf(const char *, ...);
typedef unsigned long word;
struct node { int v; word link; };
static struct node *step(struct node *at, word from) {
  return (struct node *)(at->link ^ from);
}
static void walk(struct node *at) {
  word from = 0;
  while (at) {
    struct node *next = step(at, from);
    printf("%d\\n", at->v);
    from = (word)at;
    at = next;
  }
}
int main(void) {
  struct node *n[3];
  int i;
  for (i = 0; i < 3; i++) {
    n[i] = malloc(sizeof(struct node));
    n[i]->v = i + 1;
  }
  n[0]->link = (word)n[1];
  n[1]->link = (word)n[0] ^ (word)n[2];
  n[2]->link = (word)n[1];
  walk(n[0]);
  walk(n[2]);
  for (i = 0; i < 3; i++)
    free(n[i]);
  return 0;
}
"""
CENSUS = b"exit status=3 turn=51\ncreate 10\nend 6\nexpose 3\npair 0\nuse 0\nfault 0\n"
# It goes on for longer than anybody waits.
ENDLESS = b"int main(void){for(;;);}"
CHATTY = b'int printf(const char *, ...); int main(void){for(;;) printf("0123456789");}'

# a call is (program, words, files, status, what is written, which files are read)
CALLS = [
    Call("pvrun", ["run", "a.c", "--script", "s", "--watch", "pointers"], {"a.c": PAIR, "s": BESIDE}, 0, PAIR_TOLD, {"a.c": "source", "s": "script"}),
    Call("pvrun", ["run", "a.c"], {"a.c": TENS}, 0, b"0123456789" * 1000 + b"exit status=0 turn=8010\n", {"a.c": "source"}),
    Call("pvrun", ["settle", "a.c", "--script", "s"], {"a.c": PAIR, "s": BESIDE}, 0, b"1 11 1\nexit status=0 turn=29\nsides h\n",
         {"a.c": "source", "s": "script"}),
    Call("pvrun", ["check", "a.c"], {"a.c": EXIT}, 0, b"checked declarations=1\n", {"a.c": "source"}),
    Call("pvrun", ["gen", "3"], {}, 0, CENSUS),
    Call("pvwhere", ["a.c"], {"a.c": WRONG}, 8, WRONG_PLACE, {"a.c": "source"}),
    Call("pv_replay", ["write", "a.c", "--script", "s"], {"a.c": ENDED, "s": ENDED_PLACES}, 0, JOURNAL, {"a.c": "source", "s": "script"}),
    Call("pv_replay", ["check", "j"], {"j": JOURNAL}, 0, b"journal ok events=6\n", {"j": "journal"}),
    Call("pv_suite", ["l"], {"l": CASES, "a.c": EXIT, "b.c": HELLO, "s": BESIDE, "o": b"hello\n"}, 0,
         b"pass 1\npass 2\nsuite cases=2 passed=2\n", {"l": "list", "s": "script", "o": "output"}),
    Call("pv_step", ["a.c", "c", "--script", "s"], {"a.c": ENDED, "c": STEPS, "s": ENDED_PLACES}, 0, STEPS_TOLD,
         {"a.c": "source", "c": "commands", "s": "script"}),
    Call("launcher", ["run", "a.c", "--script", "s", "--watch", "pointers"], {"a.c": PAIR, "s": BESIDE}, 0, PAIR_TOLD,
         {"a.c": "source", "s": "script"}),
    Call("launcher", ["run", "a.c"], {"a.c": HELLO_HEADER}, 0,
         b"hello\nexit status=3 turn=6\n", {"a.c": "source"}),
    Call("launcher", ["run", "a.c", "--script", "s"], {"a.c": ENDED, "s": ENDED_PLACES}, 1, ENDED_LINE, {"a.c": "source", "s": "script"}),
    Call("launcher", ["check", "a.c"], {"a.c": WRONG}, 8, b"refused reason=constraint index=1\n", {"a.c": "source"}),
    Call("launcher", ["replay", "write", "a.c", "--script", "s"], {"a.c": ENDED, "s": ENDED_PLACES}, 0, JOURNAL,
         {"a.c": "source", "s": "script"}),
    Call("launcher", ["replay", "check", "j"], {"j": JOURNAL}, 0, b"journal ok events=6\n", {"j": "journal"}),
    Call("launcher", ["suite", "l"], {"l": CASES, "a.c": EXIT, "b.c": HELLO, "s": BESIDE, "o": b"hello\n"}, 0,
         b"pass 1\npass 2\nsuite cases=2 passed=2\n", {"l": "list", "s": "script", "o": "output"}, "pv_suite"),
    Call("launcher", ["suite", "l"], {"l": b"a.c - o 99 exit status=3\r\n", "a.c": HELLO_HEADER, "o": b"hello\n"}, 0,
         b"pass 1\nsuite cases=1 passed=1\n", {"a.c": "source"}, "pv_suite"),
]
# Calls that end by a signal alone.
LONG = [
    Call("pvrun", ["run", "a.c", "--turns", "100000000"], {"a.c": ENDLESS}, 6, b"turns bound=100000000\n", {}),
    Call("pv_replay", ["write", "a.c", "--turns", "100000000"], {"a.c": ENDLESS}, 0, b"events 0\n", {}),
    Call("pv_suite", ["l"], {"l": b"a.c - - 100000000 x\n", "a.c": ENDLESS}, 15, b"", {}),
    Call("launcher", ["run", "a.c", "--turns", "100000000"], {"a.c": ENDLESS}, 6, b"turns bound=100000000\n", {}),
    Call("launcher", ["run", "a.c", "--turns", "100000000", "--quiet"], {"a.c": b"#define A\n" + ENDLESS}, 6, b"", {}),
    Call("launcher", ["replay", "write", "a.c", "--turns", "100000000"], {"a.c": ENDLESS}, 0, b"events 0\n", {}),
    Call("launcher", ["suite", "l"], {"l": b"a.c - - 100000000 x\n", "a.c": ENDLESS}, 15, b"", {}, "pv_suite"),
]


def calm(call: Call) -> "Right":
    """What comes of a call where nothing is in its way."""
    return call.status, call.out


def ended_by(number: int) -> int:
    """The status of what a signal ended."""
    return 128 + number


# ---- what is written can't be

# The descriptor 5 of a pipe whose only reader has closed it.
GONE = "mkfifo ../gone; exec 4<>../gone 5>../gone 4<&-"
# How standard output is made, and whether a write there is ended by a signal where nobody minds that signal.
OUTPUTS = [
    ("/dev/full", 'exec "$@" >/dev/full', 0),
    ("closed", 'exec "$@" >&-', 0),
    ("closed, and the others too", 'exec "$@" <&- >&- 2>&-', 0),
    ("open for reading alone", 'exec "$@" 1</dev/null', 0),
    ("a folder", 'exec "$@" 1</', 0),
    ("a pipe that nobody reads any more", f'{GONE}; exec "$@" >&5 5>&-', 0),
    ("a file that may not grow (ulimit -f 0)", 'ulimit -f 0; exec "$@"', signal.SIGXFSZ),
    ("a file that may not grow, without the signal", 'ulimit -f 0; trap "" XFSZ; exec "$@"', 0),
]
# What is done to the other two, which changes nothing.
OTHER_STREAMS = [
    ("standard error: closed", 'exec "$@" 2>&-'),
    ("standard error: /dev/full", 'exec "$@" 2>/dev/full'),
    ("standard error: a pipe that nobody reads any more", f'{GONE}; exec "$@" 2>&5 5>&-'),
    ("standard input: closed", 'exec "$@" <&-'),
    ("standard input: a folder", 'exec "$@" </'),
    ("standard input: endless", 'exec "$@" </dev/zero'),
    ("standard input: nobody writes", 'exec "$@" < <(sleep 0.1)'),
]


def refused_output(call: Call, number: int) -> "list[Right]":
    """What comes where no byte can be written."""
    if not call.out:
        return [calm(call)]
    return [(ended_by(number), b"") if number and call.program != "launcher" else (12, b"")]


def outputs() -> Iterator[Row]:
    """Standard output and standard error that take nothing, or a part."""
    for call in CALLS:
        for name, shell, number in OUTPUTS:
            right = refused_output(call, number)
            if "ulimit -f" in shell and call.program == "launcher":
                # (what is preprocessed has to be written too)
                right = [*right, (127, b"")]
            yield Row("streams", "standard output: " + name, call, right, shell)
        for size in (0, 1, 7, 4096):
            yield Row("streams", f"standard output: a pipe whose reader goes after {size} bytes", call, [(call.status, Part), (12, Part)],
                      f'"$@" | head -c {size}; exit "${{PIPESTATUS[0]}}"')
        yield Row("streams", "standard output: a pipe whose reader is slow", call, [calm(call)], '"$@" | (sleep 0.1; cat); exit "${PIPESTATUS[0]}"')
        for name, shell in OTHER_STREAMS:
            yield Row("streams", name, call, [calm(call)], shell)
    for program in ("pvrun", "launcher"):
        call = Call(program, ["run", "a.c", "--turns", "100000000"], {"a.c": CHATTY}, 6, b"0123456789" * 100000, {})
        for name, shell, number in OUTPUTS:
            yield Row("streams", f"standard output: {name}; a program that prints without end", call, refused_output(call, number), shell)
        yield Row("streams", "standard output: a pipe whose reader goes after 9999 bytes; a program that prints without end", call,
                  [(12, Part)], '"$@" | head -c 9999; exit "${PIPESTATUS[0]}"')


# ---- what is read is no plain file

TOO_LONG = {
    "source": (8, b"refused reason=size\n"), "script": (9, b"script reason=size\n"), "list": (16, b"list reason=size\n"),
    "journal": (18, b"journal size\n"), "commands": (19, b"command reason=size\n"), "output": (16, b"list reason=output case=2\n"),
}
# For each what stands in the place of the file $f: nothing of it can be read, or all, or there is no end of it.
UNREAD = [
    ("nothing", 'rm "$f"; exec "$@"'),
    ("a folder", 'rm "$f"; mkdir "$f"; "$@"; s=$?; rmdir "$f"; : >"$f"; exit $s'),
    ("a link to itself", 'rm "$f"; ln -s "$f" "$f"; exec "$@"'),
    ("a link to nothing", 'ln -sf none "$f"; exec "$@"'),
    ("memory that can't be read", 'ln -sf /proc/self/mem "$f"; exec "$@"'),
    ("a descriptor that is closed", 'ln -sf /dev/fd/9 "$f"; exec "$@"'),
    ("a terminal that isn't there", 'ln -sf /dev/tty "$f"; exec "$@"'),
]
READ = [
    ("a link to it", 'mv "$f" ../kept; ln -s ../kept "$f"; exec "$@"'),
    ("a pipe", 'mv "$f" ../kept; mkfifo "$f"; cat ../kept >"$f" & exec "$@"'),
    ("a pipe that is slow", 'mv "$f" ../kept; mkfifo "$f"; (head -c 9; sleep 0.1; cat) <../kept >"$f" & exec "$@"'),
    ("a descriptor", 'mv "$f" ../kept; ln -s /dev/fd/7 "$f"; exec "$@" 7<../kept'),
]
ENDLESS_FILES = [
    ("/dev/zero", 'ln -sf /dev/zero "$f"; exec "$@"'),
    ("/dev/full", 'ln -sf /dev/full "$f"; exec "$@"'),
    ("a pipe without end", 'rm "$f"; mkfifo "$f"; yes >"$f" & exec "$@"'),
    ("a file of 2^40 bytes", 'truncate -s 1T "$f"; exec "$@"'),
]


def inputs() -> Iterator[Row]:
    """Something else in the place of each file that a call reads."""
    for call in CALLS:
        for name, kind in call.reads.items():
            where = f"in the place of the {kind}"
            for what, shell in UNREAD:
                yield Row("files", f"{what} {where}", call, [(11, b"fault read\n")], f"f={name}; {shell}")
            for what, shell in READ:
                yield Row("files", f"{what} {where}", call, [calm(call)], f"f={name}; {shell}")
            for what, shell in ENDLESS_FILES:
                yield Row("files", f"{what} {where}", call, too_long(call, kind), f"f={name}; {shell}")
            yield Row("files", f"a pipe that nobody writes {where}", call, [(ended_by(signal.SIGTERM), b"")],
                      f'f={name}; rm "$f"; mkfifo "$f"; exec "$@"', after(0.3, signal.SIGTERM))


def around() -> Iterator[Row]:
    """Something is wrong with what is around a call."""
    family = "files"
    for call in CALLS:
        if call.reads:
            yield Row(family, "a folder that was removed", call, [(11, b"fault read\n")], 'mkdir gone; cd gone; rmdir ../gone; exec "$@"')
        if call.program != "launcher":
            # (a program whose libraries are files can't be begun then, and a shell neither)
            right = [(11, b"fault read\n"), (127, b"")] if call.reads else [calm(call), (127, b"")]
            yield Row(family, "no descriptor left (ulimit -n 0)", call, right, 'ulimit -n 0; exec "$@"')
        else:
            # (tools/suite finds another folder)
            right = [(127, b"") if b"#include" in call.files.get("a.c", b"") and not is_suite(call) else calm(call)]
            yield Row(family, "no folder for temporary files", call, right, 'export TMPDIR=/none; exec "$@"')
            yield Row(family, "a file as the folder for temporary files", call, right, 'export TMPDIR=/dev/full; exec "$@"')
        yield Row(family, "sixteen descriptors (ulimit -n 16)", call, [calm(call)], 'ulimit -n 16; exec "$@"')


def written() -> Iterator[Row]:
    """Files that the launcher writes: pipes, folders, devices that take nothing."""
    family = "files"
    for option in ("--tap", "--junit", "--sarif", "--record"):
        report = b"" if option == "--record" else b"pass 1\npass 2\nsuite cases=2 passed=2\n"
        told = Call("launcher", ["suite", "l", option, "../made"], CALLS[-2].files, 0, report, {}, "pv_suite")
        yield Row(family, f"suite {option}", told, [calm(told)])
        yield from badly_written(family, f"suite {option}", told)
    call = Call("launcher", ["run", "a.c"], {"a.c": HELLO}, 0, b"hello\nexit status=0 turn=6\n")
    for option in ("--report", "--keep", "--sarif"):
        apart = b"hello\n" if option == "--report" else call.out
        yield from badly_written(family, option, Call("launcher", ["run", "a.c", option, "../made"], call.files, 0, apart))


def badly_written(family: str, option: str, told: Call) -> Iterator[Row]:
    """Something else in the place of the file that an option has written."""
    yield Row(family, f"{option} into a pipe", told, [calm(told)], 'mkfifo ../made; cat ../made >/dev/null & "$@"')
    yield Row(family, f"{option} into a pipe that nobody reads", told, [(ended_by(signal.SIGTERM), Part)], 'mkfifo ../made; exec "$@"',
              after(0.5, signal.SIGTERM))
    yield Row(family, f"{option} into a pipe whose reader goes", told, [calm(told), (12, Part), (127, b"")], 'mkfifo ../made; : <../made & "$@"')
    yield Row(family, f"{option} into a folder", told, [(127, b"")], 'mkdir ../made; exec "$@"')
    yield Row(family, f"{option} into /dev/full", told, [(12, Part), (127, b"")], 'ln -s /dev/full ../made; exec "$@"')
    yield Row(family, f"{option} into no folder", told, [(127, b"")], 'ln -s none/made ../made; exec "$@"')


def too_long(call: Call, kind: str) -> "list[Right]":
    """What comes where a file has no end."""
    status, line = TOO_LONG[kind]
    right = [(15, Any) if is_suite(call) and kind in ("source", "script") else (status, line)]
    if kind == "source" and b"#include" in call.files["a.c"]:
        # (the preprocessor may want more memory than there is)
        return [*right, (127, b"")]
    if call.program == "pvwhere":
        return [(8, Any)]
    return right


def is_suite(call: Call) -> bool:
    """Whether it is the program of suites that answers."""
    return call.program == "pv_suite" or list(call.words[:1]) == ["suite"]


# ---- commands about single turns, which the launcher reads from standard input

STEPS_SHOWN = b"""turn 9 running            a.c:3: { int a = 1; p = &a; }
live p#1 base=0x10000 size=8
live count=1
turn 10 running           a.c:4: { int b = 2; }
live p#1 base=0x10000 size=8
live b#1 base=0x20000 size=4
live count=2
""" + ENDED_LINE[:-1] + b"  a.c:5: return *p;\n"
STEP = Call("launcher", ["step", "a.c", "--script", "s"], {"a.c": ENDED, "c": STEPS, "s": ENDED_PLACES}, 0, STEPS_SHOWN,
            {"a.c": "source", "s": "script"}, "pv_step")


def steps(chance: random.Random) -> Iterator[Row]:
    """What is done to `./pvrun step`."""
    family = "single turns"
    for name, shell, _ in OUTPUTS:
        yield Row(family, f"standard output: {name}", STEP, [(12, b"")], shell if " <&- " in shell else shell.replace('"$@"', '"$@" <c', 1))
    for name, shell in OTHER_STREAMS[:3]:
        yield Row(family, name, STEP, [calm(STEP)], shell.replace('"$@"', '"$@" <c', 1))
    for name, shell, status in [("closed", "<&-", 0), ("a folder", "</", 11), ("empty", "</dev/null", 0), ("nobody writes", "< <(sleep 0.1)", 0)]:
        yield Row(family, f"standard input: {name}", STEP, [(status, b"")], f'exec "$@" {shell}')
    yield Row(family, "standard input: no commands without end", STEP, [(19, b"")], 'exec "$@" < <(yes)')
    yield Row(family, "standard input: bytes by chance", STEP, [(19, b"")], 'exec "$@" < <(head -c 1048576 /dev/urandom)')
    for _ in range(20):
        number = chance.choice([signal.SIGTERM, signal.SIGHUP])
        right = [calm(STEP), (ended_by(number), Part)]
        yield Row(family, f"{number.name} at some moment", STEP, right, 'exec "$@" <c', after(chance.random() * 0.5, number))
    for number in (signal.SIGTERM, signal.SIGHUP):
        right = [(ended_by(number), b"")]
        yield Row(family, f"{number.name} while it waits for commands", STEP, right, 'exec "$@" < <(exec sleep 1)', after(0.9, number))


# ---- files that change meanwhile

def after(seconds: float, number: int) -> Meanwhile:
    """Sends a signal after so many seconds."""

    def meanwhile(running: Running) -> None:
        time.sleep(seconds)
        running.send(number)

    return meanwhile


def while_it_goes(change: "Callable[[str, int], None]", most: float = 5.0) -> Meanwhile:
    """Changes something in the folder of a call again and again while it goes on, but for so many seconds at most."""

    def meanwhile(running: Running) -> None:
        until = time.monotonic() + most
        turn = 0
        while running.goes_on() and time.monotonic() < until:
            change(running.folder, turn)
            turn += 1

    return meanwhile


def grow(name: str) -> "Callable[[str, int], None]":
    """A file that gets longer."""

    def change(folder: str, turn: int) -> None:
        with open(os.path.join(folder, name), "ab") as file:
            file.write(b" \n" * 5000)

    return change


def cut(name: str, held: bytes) -> "Callable[[str, int], None]":
    """A file that is emptied, and written anew."""

    def change(folder: str, turn: int) -> None:
        with open(os.path.join(folder, name), "wb") as file:
            file.write(held if turn % 2 else held[: len(held) // 2])

    return change


def replace(name: str, texts: "Sequence[bytes]") -> "Callable[[str, int], None]":
    """Another file under the same name, again and again."""

    def change(folder: str, turn: int) -> None:
        new = os.path.join(os.path.dirname(folder), "new")
        with open(new, "wb") as file:
            file.write(texts[turn % len(texts)])
        os.replace(new, os.path.join(folder, name))

    return change


def remove(name: str, held: bytes) -> "Callable[[str, int], None]":
    """A file that is there and isn't."""

    def change(folder: str, turn: int) -> None:
        path = os.path.join(folder, name)
        if turn % 2:
            with open(path + ".new", "wb") as file:
                file.write(held)
            os.replace(path + ".new", path)
        elif os.path.exists(path):
            os.remove(path)

    return change


# Two sources; halves of both together would return 6 or 10.
ONE = b"int x = 1;".ljust(SIZE // 2) + b"int main(void){return x;}".ljust(SIZE // 2)
OTHER = b"int x = 5;".ljust(SIZE // 2) + b"int main(void){return x + 5;}".ljust(SIZE // 2)
ONE_TOLD, OTHER_TOLD = b"exit status=1 turn=3\n", b"exit status=10 turn=5\n"


def changing(times: int) -> Iterator[Row]:
    """Files that grow, shrink, and are replaced while they are read."""
    for program, words in [("pvrun", ["run", "a.c"]), ("launcher", ["run", "a.c"])]:
        call = Call(program, words, {"a.c": ONE}, 0, ONE_TOLD)
        every = [(status, Any) for status in (0, 1, 2, 3, 4, 5, 6, 7, 8, 11)]
        for _ in range(times):
            longer = [calm(call), (8, b"refused reason=size\n")]
            yield Row("changing files", "a source that grows", call, longer, meanwhile=while_it_goes(grow("a.c")))
            yield Row("changing files", "a source that is written anew", call, every, meanwhile=while_it_goes(cut("a.c", ONE)))
            yield Row("changing files", "a source that is replaced by another one", call, [calm(call), (0, OTHER_TOLD)],
                      meanwhile=while_it_goes(replace("a.c", [OTHER, ONE])))
            yield Row("changing files", "a source that is there and isn't", call, [calm(call), (11, b"fault read\n")],
                      'ls >/dev/null; exec "$@"', while_it_goes(remove("a.c", ONE)))
    for call in CALLS:
        for name, kind in call.reads.items():
            if kind in ("journal", "list", "commands", "script"):
                every = [calm(call), *((status, Any) for status in (0, 1, 8, 9, 11, 15, 16, 17, 18, 19))]
                yield Row("changing files", f"a {kind} that grows", call, every, meanwhile=while_it_goes(grow(name)))


# ---- little room

DEEP = b"int main(void){return " + b"(" * 496 + b"0" + b")" * 496 + b";}"
MUCH = b"int a[4000000]; int main(void){int i; for (i = 0; i < 40000; i++) a[i] = i + 4; return a[3];}"
RECURSIVE = b"int f(int n){if (n == 0) return 0; return f(n - 1);} int main(void){return f(40000);}"
TOO_DEEP = b"int main(void){return " + b"(" * 500000 + b"0" + b")" * 500000 + b";}"


def room() -> Iterator[Row]:
    """Little stack, little memory, few seconds of a processor."""
    deep = [
        Call("pvrun", ["run", "a.c"], {"a.c": DEEP}, 0, b"exit status=0 turn=3\n"),
        Call("pvrun", ["run", "a.c"], {"a.c": TOO_DEEP}, 8, b"refused reason=syntax whole=0\n"),
        Call("pvrun", ["run", "a.c"], {"a.c": RECURSIVE}, 0, b"exit status=0 turn=400011\n"),
    ]
    for call in [*CALLS, *deep]:
        for size in (8192, 2048, 1024):
            yield Row("stack and time", f"ulimit -s {size}", call, [calm(call)], f'ulimit -s {size}; exec "$@"')
        for size in (512, 256, 128):
            if call.program != "launcher":
                yield Row("stack and time", f"ulimit -s {size}", call, [calm(call), (ended_by(signal.SIGSEGV), Part)], f'ulimit -s {size}; exec "$@"')
    for program in ("pvrun", "launcher"):
        call = LONG[0] if program == "pvrun" else LONG[3]
        yield Row("stack and time", "ulimit -t 1", call, [(ended_by(signal.SIGXCPU), b""), (ended_by(signal.SIGKILL), b"")], 'ulimit -t 1; exec "$@"')


def memory(programs: "Sequence[str]", floor: "Callable[[str], int]", steps: int) -> Iterator[Row]:
    """Little memory for these programs: from as much as a call without words needs (`floor`, in kilobytes) up."""
    large = [
        Call("pvrun", ["run", "a.c"], {"a.c": ONE}, 0, ONE_TOLD),
        Call("pvrun", ["run", "a.c", "--turns", "1000000"], {"a.c": MUCH}, 0, b"exit status=7 turn=520012\n"),
    ]
    least = {}
    for call in [*CALLS, *large]:
        if call.program != "launcher" and call.program in programs:
            if call.program not in least:
                least[call.program] = floor(call.program)
            for step in range(steps):
                yield Row("memory", "ulimit -v from what a call without words needs up", call, [calm(call), (13, Part)],
                          f'ulimit -v {least[call.program] + (1 << step) - 1}; exec "$@"')


# Programs that make pairs, allocate, print, and reach what has ended.
WHOLE = [
    Call("pvrun", ["run", "a.c"], {"a.c": EXIT}, 0, b"exit status=0 turn=3\n"),
    CALLS[0],
    Call("pvrun", ["run", "a.c", "--script", "s", "--watch", "pointers"], {"a.c": HALVES, "s": BESIDE}, 0, HALVES_TOLD),
    Call("pvrun", ["run", "a.c"], {"a.c": LIST}, 0, b"1\n2\n3\n3\n2\n1\nexit status=0 turn=330\n"),
    Call("pvrun", ["run", "a.c", "--script", "s", "--watch", "explain"], {"a.c": ENDED, "s": ENDED_PLACES}, 1,
         ENDED_LINE + b"create a#1 turn=2 base=0x20000 size=4\nend a#1 turn=9\nfault turn=15\n"),
]


def refused_memory(library: str, most: int) -> Iterator[Row]:
    """Each allocation refused, alone and with all behind it, by the library of tools/refuse_memory.c."""
    family = "refused allocations"
    for call in [*WHOLE, *(call for call in CALLS if call.program not in ("pvrun", "launcher"))]:
        shell = f'export LD_PRELOAD={library}; exec "$@"'
        yield Row(family, "all of them", call, [(13, b"")], f"export REFUSE=1 FROM=1; {shell}")
        for number in [*range(1, most), *(most << step for step in range(6))]:
            for name, more in [("alone", ""), ("with all behind it", " FROM=1")]:
                yield Row(family, f"number {number}, {name}", call, [calm(call), (13, Part)], f"export REFUSE={number}{more}; {shell}")


# ---- signals

def signals(chance: random.Random, times: int) -> Iterator[Row]:
    """INT, TERM and others, some moment or other after the beginning."""
    kinds = [signal.SIGINT, signal.SIGTERM, signal.SIGHUP]
    for turn in range(times):
        call = CALLS[turn % len(CALLS)]
        number = chance.choice(kinds)
        moment = chance.random() * (0.25 if call.program == "launcher" else 0.01)
        yield Row("signals", f"{number.name} at some moment", call, [calm(call), (ended_by(number), Part)], meanwhile=after(moment, number))
    for turn in range(times // 3):
        call = LONG[turn % len(LONG)]
        number = chance.choice(kinds)
        yield Row("signals", f"{number.name} in a long run", call, [(ended_by(number), b"")], meanwhile=after(0.1 + chance.random() * 0.9, number))
    for call in CALLS:
        yield Row("signals", "STOP, and CONT a while later", call, [calm(call)], meanwhile=stopped(chance.random() * 0.01))
        if call.program != "launcher":
            right = [calm(call), (ended_by(signal.SIGKILL), Part)]
            yield Row("signals", "KILL at some moment", call, right, meanwhile=after(chance.random() * 0.01, signal.SIGKILL))


def stopped(moment: float) -> Meanwhile:
    """Stops a call for a while."""

    def meanwhile(running: Running) -> None:
        time.sleep(moment)
        running.send(signal.SIGSTOP)
        time.sleep(0.05)
        running.send(signal.SIGCONT)

    return meanwhile


# ---- words

def words() -> Iterator[Row]:
    """Words that are none."""
    lists: "list[tuple[str, list[Union[str, bytes]]]]" = [
        ("none", []), ("an empty one", [""]), ("an empty name", ["run", ""]), ("ten thousand", ["run"] * 10000),
        ("one of 131000 bytes", ["r" * 131000]),
        ("one that isn't UTF-8", ["run", b"\xff\xfe.c"]), ("control bytes", ["run\n\x01", "\x7f"]), ("options alone", ["--", "--help=1", "-x"]),
        ("a number beyond 64 bits", ["run", "a.c", "--turns", "9" * 4000]),
    ]
    for program in ("pvrun", "pvwhere", "pv_suite", "pv_replay", "pv_step", "launcher"):
        for name, said in lists:
            yield Row("words", name, Call(program, said, {}, 10, b"words\n"), word_answers(program, said))
        for name, said in [("a name of 4096 bytes", "a" * 4096), ("a folder of 300 bytes in a name", "a" * 300 + "/a.c")]:
            for mode in {"pvrun": ["check"], "pv_replay": ["check"], "launcher": ["check"]}.get(program, []):
                yield Row("words", name, Call(program, [mode, said], {}, 11, b"fault read\n"), [(11, b"fault read\n")])
        if program != "launcher":
            yield Row("words", "and no environment", Call(program, [], {}, 10, b"words\n"), [(10, b"words\n")], 'exec env -i "$@"')


def word_answers(program: str, said: "list[Union[str, bytes]]") -> "list[Right]":
    """What comes of words that are none; where they are one name for a program that takes one, it is that of no file."""
    if program in ("pvwhere", "pv_suite") and len(said) == 1 and said[0]:
        return [(11, b"fault read\n"), (10, b"words\n")]
    if program == "pv_step" and len(said) == 2 and said[1]:
        return [(11, b"fault read\n"), (10, b"words\n")]
    return [(10, b"words\n")]


# ---- 2^20 bytes

def long_texts(seed: int) -> Iterator[Row]:
    """2^20 bytes of each shape, to each program that reads a text."""
    for name, made in shapes(seed):
        text = made()
        uses = [
            Call("pvrun", ["run", "t", "--turns", "10000"], {"t": text}, 0, b""),
            Call("pvwhere", ["t"], {"t": text}, 0, b""),
            Call("pv_replay", ["check", "t"], {"t": text}, 0, b""),
            Call("pv_suite", ["l"], {"l": b"t - t 1000 x\n", "t": text}, 0, b""),
            Call("pvrun", ["run", "a.c", "--script", "t"], {"a.c": EXIT, "t": text[:65536]}, 0, b""),
            Call("pv_suite", ["t"], {"t": text[:65536]}, 0, b""),
            Call("pv_step", ["a.c", "t"], {"a.c": EXIT, "t": text[:65536]}, 0, b""),
        ]
        every = [(status, Any) for status in (*range(10), 11, 14, 15, 16, 17, 18, 19)]
        for call in uses:
            yield Row("2^20 bytes", name, call, every)
