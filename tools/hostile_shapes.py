"""For tools/hostile: 2^20 bytes of many shapes, most of them parts of C without end."""
import bisect
import itertools
import random
from typing import Callable, Iterator

SIZE = 1 << 20


def filled(unit: bytes, head: bytes = b"", tail: bytes = b"") -> bytes:
    """A head, a unit as often as there is room for it, blanks, and a tail: as many bytes as a source may have."""
    room = SIZE - len(head) - len(tail)
    body = unit * (room // len(unit))
    return head + body + b" " * (room - len(body)) + tail


def numbered(form: bytes, head: bytes = b"", tail: bytes = b"") -> bytes:
    """The same, where each unit has a number of its own."""
    room = SIZE - len(head) - len(tail)
    first, *rest = form.decode().split("%")
    units = [first + "".join(f"{number}{part}" for part in rest) for number in range(room // len(form))]
    fit = bisect.bisect_right(list(itertools.accumulate(map(len, units))), room)
    body = "".join(units[:fit]).encode()
    return head + body + b" " * (room - len(body)) + tail


def nested(opening: bytes, closing: bytes, head: bytes = b"", middle: bytes = b"", tail: bytes = b"") -> bytes:
    """What is opened as often as there is room to close it."""
    times = (SIZE - len(head) - len(middle) - len(tail)) // (len(opening) + len(closing))
    text = head + opening * times + middle + closing * times + tail
    return text + b" " * (SIZE - len(text))


def mixed(seed: int, pieces: "list[bytes]") -> bytes:
    """Pieces one behind another, as chance has it."""
    return b"".join(random.Random(seed).choices(pieces, k=SIZE // 2)).ljust(SIZE)[:SIZE]


WORDS = (
    b"int char long short unsigned void struct union enum typedef static const if else while do for switch case default break"
    b" continue return sizeof goto x y main 0 1 0x7f 'a' \"s\" ( ) { } [ ] ; , . -> ++ -- & * + - ~ ! / % << >> < > <= >= == !="
    b" ^ | && || ? : = += # \\ /* */ // \n"
).replace(b" ", b"\0").split(b"\0")
MAIN, END = b"int main(void){", b"return 0;}\n"
VALUE = b"int main(void){return "

# One unit again and again: a name, the unit, what stands before the first and behind the last.
REPEATED = [
    *((f"{name} alone", unit, b"", b"") for name, unit in [
        ("zero bytes", b"\0"), ("bytes 255", b"\xff"), ("blanks", b" "), ("line feeds", b"\n"), ("carriage returns", b"\r"), ("tabs", b"\t"),
        ("opening parentheses", b"("), ("closing parentheses", b")"), ("opening braces", b"{"), ("closing braces", b"}"), ("opening brackets", b"["),
        ("semicolons", b";"), ("commas", b","), ("quotes", b'"'), ("apostrophes", b"'"), ("backslashes", b"\\"), ("number signs", b"#"),
        ("dots", b"."), ("letters", b"a"), ("ones", b"1"), ("octal zeros", b"0"), ("question marks", b"?"), ("bytes of UTF-8", b"\xc3\xa4"),
        ("UTF-16", b"i\0n\0t\0 \0x\0;\0"), ("spliced lines", b"\\\n"), ("empty comments", b"/**/"), ("lines of comments", b"// a\n"),
        ("directives", b"#define A\n"), ("line markers", b'# 1 "a.c"\n'), ("keywords", b"int char "), ("declarations of one name", b"int a;\n"),
        ("journal lines", b"create p#1 turn=1 base=0x10000 size=8\n"), ("script lines", b"x 1 0x20000\n"),
        ("list lines", b"a.c - - 1 turns bound=1\n"),
        ("commands", b"step 1\nlist\n"), ("lines of commands that go far", b"go 1000000\nprev\n"),
    ]),
    ("one hexadecimal number", b"f", b"unsigned long n = 0x", b"; " + MAIN + END),
    ("one string", b"a", b'char *s = "', b'"; ' + MAIN + END),
    ("one character constant", b"a", VALUE + b"'", b"';}"),
    ("a string that never ends", b"a", b'char *s = "', b""),
    ("a comment that never ends", b"a ", b"/* ", b""),
    ("a marker with a long name", b"a", b'# 1 "', b'"\n' + MAIN + END),
    ("strings side by side", b'"a" ', b"char *s = ", b"; " + MAIN + END),
    ("pointers", b"*", b"int ", b"x; " + MAIN + END),
    ("array after array", b"[1]", b"int x", b"; " + MAIN + END),
    ("statements", b"x;", b"int x; " + MAIN, END),
    ("empty statements", b";", MAIN, END),
    ("blocks side by side", b"{}", MAIN, END),
    ("ifs", b"if(1)", MAIN, b";" + END),
    ("else ifs", b"if(0);else ", MAIN, b";" + END),
    ("loops", b"while(0)", MAIN, b";" + END),
    ("a sum", b"1+", VALUE, b"1;}"),
    ("a product of ones", b"1*", VALUE, b"1;}"),
    ("differences", b"-", VALUE, b"1;}"),
    ("complements", b"~", VALUE, b"1;}"),
    ("negations", b"!", VALUE, b"1;}"),
    ("conditions", b"0?1:", VALUE, b"2;}"),
    ("commas in an expression", b"1,", VALUE, b"1;}"),
    ("assignments", b"x=", b"int x; " + VALUE, b"1;}"),
    ("casts", b"(int)", VALUE, b"1;}"),
    ("sizes of sizes", b"sizeof ", VALUE, b"1;}"),
    ("arguments", b"1,", b"int f(); " + VALUE + b"f(", b"1);}"),
    ("calls of calls", b"f(", b"int f(int n){return n;} " + VALUE, b"1;}"),
    ("values of an array", b"1,", b"int x[] = {", b"1}; " + MAIN + END),
    ("members of members", b".x", b"struct s {int x;} x; " + VALUE + b"x", b";}"),
    ("elements of elements", b"[0]", b"int x[1]; " + VALUE + b"x", b";}"),
    ("breaks of a switch", b"break;", MAIN + b"switch(0){", b"}" + END),
    ("output", b'printf("a");', b"int printf(const char *, ...); " + MAIN, END),
]
# The same, with a number in each.
NUMBERED = [
    ("declarations", b"int v%;\n", b"", MAIN + END),
    ("functions", b"int f%(void){return %;}\n", b"", MAIN + END),
    ("structures", b"struct s% {int x;};\n", b"", MAIN + END),
    ("members", b"int x%;", b"struct s {", b"} s; " + MAIN + END),
    ("constants of an enumeration", b"e%,", b"enum e {", b"last}; " + MAIN + END),
    ("types that stand for types", b"typedef int t%;", b"", MAIN + END),
    ("parameters", b"int p%,", b"int f(", b"int p); " + MAIN + END),
    ("objects of a function", b"int v%;", MAIN, END),
    ("cases", b"case %:;", MAIN + b"switch(0){", b"}" + END),
    ("literals", b'"%";', MAIN, END),
    ("labels", b"l%:;", MAIN, END),
    ("commands with numbers", b"go %\n", b"go 1\n", b""),
    ("requests of a script", b"x %1 0x%0\n", b"", b""),
    ("events of one instance each", b"create x#%1 turn=1 base=0x%000 size=1\n", b"", b""),
]
# What is opened and closed again.
NESTED = [
    ("parentheses", b"(", b")", VALUE, b"1", b";}"),
    ("blocks", b"{", b"}", MAIN, b"", END),
    ("braces of values", b"{", b"}", b"int x[1] = ", b"1", b"; " + MAIN + END),
    ("structures in structures", b"struct {", b"} x;", b"struct s {", b"int x;", b"}; " + MAIN + END),
    ("pointers to functions", b"(*", b")(void)", b"int ", b"x", b"; " + MAIN + END),
]


def shapes(seed: int) -> "Iterator[tuple[str, Callable[[], bytes]]]":
    """Each shape: a name, and what makes its bytes."""
    for name, unit, head, tail in REPEATED:
        yield name, lambda unit=unit, head=head, tail=tail: filled(unit, head, tail)
    for name, form, head, tail in NUMBERED:
        yield name, lambda form=form, head=head, tail=tail: numbered(form, head, tail)
    for name, opening, closing, head, middle, tail in NESTED:
        yield f"{name} within each other", lambda it=(opening, closing, head, middle, tail): nested(*it)
    yield "bytes by chance", lambda: random.Random(seed).randbytes(SIZE)
    yield "tokens by chance", lambda: mixed(seed, [word + b" " for word in WORDS])
