"""For tools/measure: the texts that are read and typed, and the shapes whose growth is measured."""
from typing import Callable, NamedTuple, Optional


class Text(NamedTuple):
    """A text that `check` is given: one unit again and again, between a beginning and an end."""

    label: str
    begin: str
    unit: Callable[[int], str]
    end: str

    def of(self, size: int) -> str:
        """Returns the text of about so many bytes."""
        pieces, left, at = [self.begin], size - len(self.begin) - len(self.end), 0
        while True:
            piece = self.unit(at)
            if len(piece) > left:
                return "".join(pieces) + self.end
            pieces.append(piece)
            left -= len(piece)
            at += 1


class Shape(NamedTuple):
    """What grows: a text for each size, or the number of `gen`, with a script perhaps, words behind it, and the status that is right."""

    label: str
    sizes: tuple[int, ...]
    text: Callable[[int], str]
    mode: str = "run"
    words: tuple[str, ...] = ()
    script: Callable[[int], Optional[str]] = lambda size: None
    status: int = 0


LIBRARY = "void *malloc(unsigned long); int printf(const char *, ...); void *memset(void *, int, unsigned long);\n"
CALLS = "int f%d(int *p, int n) { int s = 0; for (int i = 0; i < n; i++) { if (p[i] > %d) s += p[i]; else s -= i; } return s; }\n"


def in_main(body: str) -> str:
    """Returns a program of one function, which returns 0."""
    return f"{LIBRARY}int main(void) {{ {body} return 0; }}"


CHECKED = [
    Text("`a=a+1;`", "int a;int main(void){", lambda at: "a=a+1;", "return 0;}"),
    Text("`a=b;`", "int a,b;int main(void){", lambda at: "a=b;", "return 0;}"),
    Text("sums of 300 names", "int a;int main(void){", lambda at: "a=" + "+".join(["a"] * 300) + ";", "return 0;}"),
    Text("`?:` 150 deep", "int a;int main(void){", lambda at: "a=" + "a?a:" * 150 + "a;", "return 0;}"),
    Text("casts 200 deep", "int a;int main(void){", lambda at: "a=" + "(int)" * 200 + "a;", "return 0;}"),
    Text("parentheses 240 deep", "int a;int main(void){", lambda at: "a=" + "(" * 240 + "a" + ")" * 240 + ";", "return 0;}"),
    Text("`if` and `else`", "int a;int main(void){", lambda at: "if(a)a=1;else a=2;", "return 0;}"),
    Text("small functions", "", lambda at: CALLS % (at, at), "int main(void) { return 0; }\n"),
]


def assigned(size: int) -> str:
    return CHECKED[0].of(size)


def labels(n: int) -> str:
    rows = "".join(f"case {i}: s = {i}; break; " for i in range(n))
    return in_main(f"int s = 0; for (int r = 0; r < 100000; r++) switch ({n - 1}) {{ {rows} }}")


def stores(n: int) -> str:
    sums = " + ".join(f"(a[{i}] = r)" for i in range(n))
    return f"int a[{n}]; int main(void) {{ int s = 0; for (int r = 0; r < 1000; r++) s = {sums}; return s < 0; }}"


def blocks(n: int) -> str:
    opened = "".join(f"{{ int x{i} = r; " for i in range(n))
    return in_main(f"int s = 0; for (int r = 0; r < 1000; r++) {opened} s = s + 1; {'}' * n}")


def members(n: int) -> str:
    said = " ".join(f"int m{i};" for i in range(n))
    return f"struct s {{ {said} }}; struct s x; " + in_main(f"struct s *p = &x; for (int r = 0; r < 100000; r++) p->m{n - 1} = r;")


def requests(n: int) -> str:
    return in_main(f"for (int i = 0; i < {n}; i++) malloc(1);")


GROWTH = [
    Shape("bytes of a source, `check`", (2**18, 2**19, 2**20), assigned, "check"),
    Shape("bytes of a source, `run`", (2**18, 2**19, 2**20), assigned),
    Shape("bytes of small functions, `check`", (2**18, 2**19, 2**20), CHECKED[-1].of, "check"),
    Shape("live bytes of an allocation", (2**21, 2**22, 2**23), lambda n: in_main(f"char *p = malloc({n}ul); memset(p, 1, {n}ul);")),
    Shape("live bytes of a static array", (2**21, 2**22, 2**23), lambda n: f"char a[{n}]; int main(void) {{ return a[5]; }}"),
    Shape("instances that live", (80000, 160000, 320000), requests),
    Shape("instances made and ended", (250000, 500000, 1000000), lambda n: in_main(f"for (int i = 0; i < {n}; i++) {{ int t; t = i; }}")),
    Shape(
        "exposed instances, each made a pointer again",
        (20000, 40000, 80000),
        lambda n: in_main(f"for (int i = 0; i < {n}; i++) {{ unsigned long a = (unsigned long)malloc(16); char *p = (char *)a; *p = 1; }}"),
    ),
    Shape("`gen N`", (2048, 4096, 8192), str, "gen"),
    Shape(
        "calls within one another",
        (25000, 50000, 100000),
        lambda n: f"int f(int n) {{ if (n == 0) return 0; return f(n - 1); }} int main(void) {{ return f({n}); }}",
    ),
    Shape("calls of `printf`", (100000, 200000, 400000), lambda n: in_main(f'for (int i = 0; i < {n}; i++) printf("%d\\n", i);')),
    Shape("blocks within one another, 1000 rounds", (60, 120, 240), blocks),
    Shape("objects of a block, 100000 reads of one", (100, 1000, 10000), lambda n: in_main("".join(f"int x{i} = 1; " for i in range(n)) + "int s = 0; for (int r = 0; r < 100000; r++) s = x0;")),
    Shape("members of a structure, 100000 stores to the last", (100, 1000, 10000), members),
    Shape("bytes of a structure that is assigned, 100 times", (2**12, 2**14, 2**16), lambda n: f"struct s {{ char a[{n}]; }}; struct s x, y; " + in_main("for (int r = 0; r < 100; r++) x = y;")),
    Shape("labels of a `switch`, 100000 rounds to the last", (64, 256, 1024), labels),
    Shape("stores of one full expression, 1000 rounds", (50, 100, 200), stores),
    Shape("functions, each called once a round", (200, 400, 800), lambda n: "".join(f"int f{i}(void) {{ return {i}; }} " for i in range(n)) + in_main("for (int r = 0; r < 100; r++) { " + " ".join(f"f{i}();" for i in range(n)) + " }")),
    Shape("lines of a script, each used", (800, 1600, 3200), requests, script=lambda n: "".join(f"@heap {i + 1} 0x{0x100000 + i * 32:x}\n" for i in range(n))),
    Shape("events told to the census", (125000, 250000, 500000), lambda n: in_main(f"for (int i = 0; i < {n}; i++) {{ int t; t = i; }}"), words=("--watch", "census")),
]
