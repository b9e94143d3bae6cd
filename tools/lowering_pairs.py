"""Pairs of programs for tools/lower: one with a form, and one in the language's own words, which was written by hand as a template.

Both have the same lines. Values, shapes and faults are drawn: each place for a value may be a good one, or one that is undefined or
indeterminate. What the two come to must be the same in verdict, clause, reason, line and output; turns may differ.
"""
import random
import re

HEAD = """int printf(const char *, ...);
void *malloc(unsigned long);
void free(void *);
struct pair { int x, y; };
static int zero, most = 2147483647, calls;
static int three[3] = {7, 8, 9};
static int *ended(void) { int inner = 1; int *p = &inner; return p; }
static int nothing(int n) { if (n) return n; }
static int next(int n) { printf("next %d\\n", n); return ++calls + n; }
static int sum(int a, int b, int c) { return a + 10 * b + 100 * c; }
static int of(struct pair p) { return p.x - p.y; }
static int at(const struct pair *p) { return p->x * 2 + p->y; }
static int all(const int *a, int n) { int s = 0; for (int i = 0; i < n; i++) s = s * 3 + a[i]; return s; }
"""
LOCALS = "  int i = 3, k = 2, unset, *none = 0; char dull, *word = \"word\"; int *gone = ended(); k += i - 3;\n"
GOOD = ["i", "k", "(i + k)", "three[1]", "-5", "next(i)", "sum(1, k, i)", "(int)sizeof k", "'a'", "*word", "(i > k ? i : k)", "zero"]
BAD = ["(unset + 1)", "(dull + 1)", "*gone", "*none", "three[i]", "(most + 1)", "(i / zero)", "(i++ + i)", "(1 << 40)", "nothing(zero)", "unset"]


class Drawn:
    """What is drawn for one pair."""

    def __init__(self, seed):
        self.random = random.Random(seed)
        self.bad = self.random.random() < 0.55

    def value(self, good=GOOD, bad=BAD):
        """A value; at most one in a program is a bad one, and it is not always there."""
        chosen = good
        if self.bad and self.random.random() < 0.3:
            self.bad, chosen = False, bad
        value = self.random.choice(chosen)
        return self.one_of(value, "(%s %s %d)" % (value, self.one_of("+", "-", "^"), self.number(1, 9)))

    def calm(self):
        """A value without side effects."""
        return self.value([it for it in GOOD if not it.startswith("next")], [it for it in BAD if "++" not in it])

    def one_of(self, *choices):
        return self.random.choice(choices)

    def number(self, low, high):
        return self.random.randint(low, high)


def program(body, before="", main="int main(void) {"):
    return HEAD + before + main + "\n" + LOCALS + body + "  return 0;\n}\n"


def prune(draw):
    junk = ["double half(double x) { return x / 2; }", "int log_line(const char *, ...);", "struct bits { unsigned a : 3, b : 5; };",
            "static int vla(int n) { int a[n]; return sizeof a; }", "static float table[3] = {1, 2, 3};", "_Bool flag = 1;",
            "static inline int never(int n) { goto out; out: return n; }", "typedef long double wide; wide *wides;"]
    chosen = [draw.one_of(*junk) for _ in range(draw.number(1, 4))]
    chosen = list(dict.fromkeys(chosen))
    used = "static int used(int a) { return a + %d; }\n" % draw.number(0, 9)
    body = "  printf(\"%%d\\n\", used(\n    %s));\n  printf(\"%%d\\n\", sum(%s,\n    %s, 1));\n" % (draw.value(), draw.value(), draw.value())
    return program(body, "".join(it + "\n" for it in chosen) + used), program(body, "\n" * len(chosen) + used), []


def main_parameters(draw):
    words = [draw.one_of("a", "bc", "-x", "12", "") for _ in range(draw.number(0, 3))]
    body = "  for (int n = 1; n < argc; n++)\n    printf(\"%%s %%c\\n\", argv[n],\n      argv[n][0] + (%s) * 0);\n  argc = %s;\n" \
        "  printf(\"%%d %%d\\n\", argc, argv[%d] == 0);\n  if (*argv[%d] == 'b') printf(\"b\\n\");\n" % (
            draw.value(), draw.value(), draw.number(0, 5), draw.number(0, 4))
    end = draw.one_of("", "  return argc;\n")
    arrays = "static char w0[] = \"form\"; %s static char *ws[] = {w0%s, 0}; int argc = %d; char **argv = ws;" % (
        " ".join('static char w%d[] = "%s";' % (n + 1, it) for n, it in enumerate(words)),
        "".join(", w%d" % (n + 1) for n in range(len(words))), len(words) + 1)
    form = HEAD + "int main(int argc, char *%s) {\n" % draw.one_of("*argv", "argv[]") + LOCALS + body + end + "}\n"
    return form, HEAD + "int main(void) { " + arrays + "\n" + LOCALS + body + end + "}\n", words


def initializers(draw):
    """struct { int a; struct pair p; int t[3]; struct pair q[2]; int z; }, by designators, elided braces or both."""
    values = [draw.value() for _ in range(6)]
    kind = draw.number(0, 4)
    if kind == 0:
        form = "{ .p = { .y = %s },\n    .t[1] = %s, %s,\n    .z = %s }" % tuple(values[:4])
        plain = "{ 0, { 0, %s },\n    { 0, %s, %s },\n    {{0}, {0}}, %s }" % tuple(values[:4])
    elif kind == 1:
        form = "{ %s, %s, %s,\n    %s, %s,\n    %s }" % tuple(values)
        plain = "{ %s, { %s, %s },\n    { %s, %s,\n    %s } }" % tuple(values)
    elif kind == 2:
        form = "{ .q[1].x = %s,\n    %s,\n    %s }" % tuple(values[:3])
        plain = "{ 0, {0}, {0}, { {0}, { %s,\n    %s } },\n    %s }" % tuple(values[:3])
    elif kind == 3:
        form = "{ .a = %s, { %s },\n    { [2] = %s },\n    .q = { { %s } } }" % tuple(values[:4])
        plain = "{ %s, { %s },\n    { 0, 0, %s },\n    { { %s } } }" % tuple(values[:4])
    else:
        form, plain = "{ .z = 4,\n    .t = { 1, %s },\n    .a = 2 }" % values[0], "{ 2,\n {0}, { 1, %s },\n    {{0}, {0}}, 4 }" % values[0]
        plain = plain.replace("{ 2,\n {0}, ", "{ 2, {0},\n    ")
    body = "  struct all v = %s;\n  printf(\"%%d %%d %%d %%d\\n\", v.a, v.p.x, v.p.y, v.z);\n" \
        "  printf(\"%%d %%d %%d %%d %%d\\n\", v.t[0], v.t[1], v.t[2], v.q[0].x, v.q[1].x + v.q[%d].y);\n"
    record = "struct all { int a; struct pair p; int t[3]; struct pair q[2]; int z; };\n"
    index = draw.number(0, 2) if draw.bad else 1
    return program(body % (form, index), record), program(body % (plain, index), record), []


def members(draw):
    form = "struct any { int kind; union { int n; struct { char c, d; }; };\n  struct { struct pair p; int last; }; };\n"
    plain = "struct any { int kind; union { int n; struct { char c, d; } v; } u;\n  struct { struct pair p; int last; } r; };\n"
    body = "  struct any v, *p = &v;\n  p->kind = %s;\n  v.n = %s;\n  p->p.x = %s;\n  v.last = p->c +\n    %s;\n" \
        "  printf(\"%%d %%d\\n\", v.last, p->d);\n  printf(\"%%d\\n\", (&v)->p.%s);\n  p = %s;\n  printf(\"%%d\\n\", p->last);\n" % (
            draw.value(), draw.value(), draw.value(), draw.value(), draw.one_of("x", "y"), draw.one_of("&v", "&v", "0", "(struct any *)gone"))
    renamed = body
    for name, path in (("n ", "u.n "), ("c ", "u.v.c "), ("d)", "u.v.d)"), ("p.", "r.p."), ("last", "r.last")):
        renamed = renamed.replace("v." + name, "v." + path).replace("p->" + name, "p->" + path).replace(")->" + name, ")->" + path)
    return program(body, form), program(renamed, plain), []


def small(draw):
    value, other, kind = draw.value(), draw.value(), draw.number(0, 6)
    before, plain_before, main = "", "", "int main(void) {"
    if kind == 0:
        form = "  switch (k + %d) case 2: case %d:\n    printf(\"%%d\\n\", %s);\n  k = %s;\n" % (draw.number(0, 3), draw.number(3, 5), value, other)
        head = form.split("\n")[0]
        plain = form.replace(head, head.replace("case 2", "{ case 2")).replace(");\n  k", "); }\n  k")
    elif kind == 1:
        form = "  printf(\"%%s %%d\\n\", NAME, %s);\n  printf(\"%%c\\n\", NAME[%s]);\n" % (value, draw.one_of("0", "3", "4", "5", "k", "i"))
        plain, main = form.replace("NAME", "name"), "int main(void) { static const char name[] = \"main\";"
        return program(form.replace("NAME", "__func__")), program(plain, main=main), []
    elif kind == 2:
        form = "  _Static_assert(sizeof(int) == 4, \"int\"); void (*drop)(void *) = free;\n  int *p = malloc(4);\n  *p = %s;\n" \
            "  drop(p);\n  printf(\"%%d %%d\\n\", %s,\n    %s);\n" % (value, draw.one_of("*p", "k"), other)
        plain = form.replace("_Static_assert(sizeof(int) == 4, \"int\"); ", "").replace("= free", "= drops")
        plain_before = "static void drops(void *p) { free(p); } "
    elif kind == 3:
        before = "static int first(int n, const int a[static %d]) { return a[n]; }\n" % draw.number(1, 3)
        plain_before = "static int first(int n, const int a[3]) { return a[n]; }\n"
        form = plain = "  printf(\"%%d\\n\", first(%s,\n    three) + first(%d, three));\n" % (value, draw.number(0, 4))
    elif kind == 4:
        kind, size = draw.one_of(("char", 1), ("short", 2), ("int", 4), ("struct pair", 4), ("long *", 8), ("unsigned long[3]", 8))
        form = "  int at = _Alignof(%s) * %s;\n  printf(\"%%d %%lu\\n\", at, _Alignof(%s) + %d);\n  k = %s;\n" % (
            kind, value, kind, draw.number(0, 9), other)
        plain = form.replace("_Alignof(%s)" % kind, "%du" % size, 1).replace("_Alignof(%s)" % kind, "%dul" % size)
        form = form.replace("_Alignof(%s) *" % kind, "(unsigned)_Alignof(%s) *" % kind)
    elif kind == 5:
        before = "static __inline int twice(register int n) { return n * %d; }; struct odd { int a; ; };\n" % draw.number(1, 5)
        plain_before = before.replace("__inline ", "").replace("register ", "").replace("};", "}").replace("; ;", ";").replace("} ;", "};")
        plain_before = "static int twice(int n) { return n * %s; } struct odd { int a; };\n" % before.split("n * ")[1][0]
        form = "  register int r = %s; __extension__ __const int c = %s;\n  __typeof__(struct odd) o = {c};\n  printf(\"%%d\\n\", twice(r) + o.a);\n" % (value, other)
        plain = form.replace("register ", "").replace("__extension__ __const", "const").replace("__typeof__(struct odd)", "struct odd")
    else:
        form = "  int (*compare)(const char *, const char *) = strcmp;\n  k = %s;\n  printf(\"%%d\\n\", compare(word, %s) +\n    %s);\n" % (
            value, draw.one_of('"work"', '"word"', '""'), other)
        before = "int strcmp(const char *, const char *); "
        plain_before = before + "static int compares(const char *a, const char *b) { return strcmp(a, b); }"
        plain = form.replace("= strcmp", "= compares")
    return program(form, before, main), program(plain, plain_before, main), []


def scopes(draw):
    value, other, kind = draw.value(), draw.value(), draw.number(0, 3)
    if kind == 0:
        moved = "typedef struct { int n[%d]; } box; extern int shared;" % draw.number(2, 3)
        form = "  { MOVED\n  box b = {{%s, shared}};\n  printf(\"%%d\\n\", b.n[%d] + %s); }\n" % (value, draw.number(0, 3), other)
    elif kind == 1:
        moved = "int shows(int, const int *); typedef enum { low = %d, high } level;" % draw.number(-3, 3)
        form = "  if (k) { MOVED\n    level l = high;\n    printf(\"%%d %%d\\n\", shows(%s,\n      &i), l + low + %s); }\n" % (value, other)
    elif kind == 2:
        moved = "typedef int row[%d];" % draw.number(2, 4)
        form = "  for (int n = 0; n < 2; n++) { MOVED\n    row r = {%s, %s}; k += r[n + %d];\n    printf(\"%%d\\n\", k); }\n" % (
            value, other, draw.number(0, 1))
    else:
        moved = "extern int shared; typedef int *pointer;"
        form = "  { pointer last = 0; while (k-- > 0) { MOVED\n    pointer p = &shared; last = p; *p += %s; }\n  printf(\"%%d\\n\", *last +\n    %s); }\n" % (
            value, other)
        form = form.replace("{ pointer last", "{ int *last")
    after = "int shared = %d;\nint shows(int n, const int *p) { return n + *p; }\n" % draw.number(0, 9)
    return program(form.replace("MOVED", moved)) + after, program(form.replace("MOVED", ""), moved + " ") + after, []


def oldstyle(draw):
    value, other, kind = draw.value(), draw.value(), draw.number(0, 2)
    if kind == 0:
        before = "static int old(a, b) int a; struct pair *b; { return a + b->x * %d +\n b->y; }\n" % draw.number(1, 9)
        plain_before = before.replace("(a, b) int a; struct pair *b;", "(int a, struct pair *b)")
        form = "  struct pair p; p.x = %s;%s\n  printf(\"%%d\\n\", old(%s,\n    &p));\n" % (other, draw.one_of("", " p.y = 1;"), value)
        plain = form
    elif kind == 1:
        before = "static int narrow(c, n, s) char c; short s; { int t[3] = {c, n, s}; return t[%d] * 3 +\n t[n %% 3]; }\n" % draw.number(0, 2)
        plain_before = before.replace("(c, n, s) char c; short s;", "(char c, int n, short s)")
        before = before.replace("char c; short s;", "char c; int n; short s;")
        form = "  char c = %s;\n  printf(\"%%d\\n\", narrow(%s, %s,\n    %s));\n" % (draw.one_of("'a'", "k", "*word"), draw.one_of("c", "dull", "'b'", "*word"), value, other)
        plain = form.replace("narrow(c,", "narrow(+c,").replace("narrow(dull,", "narrow(+dull,").replace("narrow(*word,", "narrow(+*word,")
    else:
        before = "int later(); static int calls_it(int n) { return later(n, %d, \"abc\"); }\n" % draw.number(0, 4)
        plain_before = before.replace("later()", "later(int, int, char *)")
        form = plain = "  printf(\"%%d\\n\", calls_it(%s) -\n    %s);\n" % (value, other)
        after = "int later(int a, int b, char *s) { return a + s[b] * %d; }\n" % draw.number(1, 9)
        return program(form, before) + after, program(plain, plain_before) + after, []
    return program(form, before), program(plain, plain_before), []


CONVERSIONS = ["%5d", "%-6d", "%05d", "%+d", "% d", "%.3d", "%8.4d", "%#x", "%X", "%o", "%#o", "%08x", "%i", "%3u", "%-3u", "%.0d", "%+08d", "%7ld",
               "%-8lu", "%05lld", "%.2llx", "%3hhd", "%04hu", "%+5jd", "%3zu", "% td", "%-*d", "%.*d", "%*.2d", "%3c", "%-2c"]


def shown(conversion, number, width):
    """What a conversion makes of a number (7.21.6.1), and its arguments, each with its type."""
    flags, length, letter = re.fullmatch(r"%([-+ #0]*[*\d]*(?:\.[*\d]+)?)(hh|h|ll|l|j|z|t)?(\w)", conversion).groups()
    # (an unsigned short is promoted to int: 6.3.1.1p2)
    kind = ("unsigned " if letter in "uxXo" and length not in ("hh", "h") else "") + {"l": "long", "ll": "long long", "j": "long", "z": "long", "t": "long"}.get(length, "int")
    stars = (width,) * flags.count("*")
    given = [("int", "%d" % it) for it in stars] + [(kind, "(%s)%d" % (kind, number))]
    if letter == "c":
        return ("%" + flags + "c") % (stars + (chr(number),)), given
    number = {"hh": (number + 128) % 256 - 128, "h": number % 65536}.get(length, number)
    text = ("%" + flags + {"i": "d", "u": "d"}.get(letter, letter)) % (stars + (number,))
    if number == 0 and (".0" in flags or ".*" in flags and width == 0 or "#" in flags):
        return "0" if "#" in flags else text.replace("0", ""), given
    return text.replace("0o", "0") if letter == "o" else text, given


SHOWING = """static int prints(const char *s) { int n = 0; printf("%s", s); while (s[n]) n++; return n; } \
static int copies(char *to, unsigned long size, const char *s) { int n = 0; for (; s[n]; n++) if (n + 1ul < size) to[n] = s[n]; \
if (size) to[n + 1ul < size ? n : (int)size - 1] = 0; return n; }
"""
STRINGS = {"word": "word", '""': "", '"longer"': "longer"}
UNFIT = [("%3u", "-1"), ("%05lu", "-1l"), ("%-4d", "4000000000u"), ("%+ld", "18446744073709551615ul"), ("%#x", "-7"), ("%5lx", "-9l")]


def printf(draw):
    """Numbers whose texts Python makes; strings; values that do not fit, where the call stops as it does without widths."""
    declared = "int sprintf(char *, const char *, ...); int snprintf(char *, unsigned long, const char *, ...);\n"
    kind, room = draw.number(0, 4), draw.number(0, 30)
    if kind == 3:
        string = draw.one_of(*STRINGS, "(char *)none", "dulls", "(char *)gone")
        precision = draw.one_of("", ".0", ".2", ".9") if string in STRINGS else draw.one_of("", ".2")
        conversion = "%" + draw.one_of("", "-") + draw.one_of("", "1", "4", "9") + precision + "s"
        body = '  char dulls[3]; dulls[1] = 0; printf("%s|%%d\\n", %s,\n    %s);\n'
        value, plain = draw.value(), '"%s"' % (conversion % STRINGS[string]) if string in STRINGS else string
        return program(body % (conversion, string, value), declared), program(body % ("%s", plain, value), "\n"), []
    if kind == 4:
        conversion, wrong = draw.one_of(*UNFIT)
        body = '  printf("%s %%%%d %s\\n",\n    %s,\n    %s, %s);\n' % ("%s", "%s", wrong, draw.value(), wrong)
        native = re.sub(r"[-+#0-9]", "", conversion)
        return program(body % (conversion, conversion), declared), program(body % (native, native), "\n"), []
    parts, plains, given, words = [], [], [], []
    for _ in range(draw.number(1, 4)):
        parts.append(draw.one_of(*CONVERSIONS))
        lowest, highest = {"c": (35, 90), "d": (-300, 300), "i": (-300, 300)}.get(parts[-1][-1], (0, 300))
        text, arguments = shown(parts[-1], draw.number(lowest, highest), draw.number(0, 9))
        plains.append(text)
        given += [it for _, it in arguments[:-1]] + [arguments[-1][1] + " + (%s) * 0" % draw.calm()]
        words += ["%s a%d" % (it, len(words) + at) for at, (it, _) in enumerate(arguments)]
    calls = [("printf(", "prints("), ("sprintf(b, ", "copies(b, 200, "), ("snprintf(b, %d, " % room, "copies(b, %d, " % room)][kind]
    body = '  { char b[200]; b[0] = 0; int n = CALL,\n    %s;\n  printf("%%s %%d %%c|\\n", b, n, b[%s]); }\n' % (
        ",\n    ".join(given) + ")", draw.one_of("0", "n", str(room)) if kind else "0")
    form = body.replace("CALL", '%s"%s"' % (calls[0], " ".join(parts)))
    plain = body.replace("CALL", '%sshows("%s"' % (calls[1], " ".join(plains).replace("\\", "\\\\"))).replace(");\n", "));\n", 1)
    shows = "static const char *shows(const char *s, %s) { return s; } " % ", ".join(words)
    return program(form, declared), program(plain, shows + SHOWING), []


def literals(draw):
    """Each literal's object by hand: at the beginning of its block, and given its value by a function."""
    a, b, kind = draw.calm(), draw.calm(), draw.number(0, 6)
    makes = "static struct pair make(int x, int y) { struct pair p = {x, y}; return p; } struct two { int a[2]; }; " \
        "static struct two both(int x, int y) { struct two t = {{x, y}}; return t; } " \
        "static int one(int x) { return x; } struct near { int *p; }; static struct near points(int *p) { struct near n = {p}; return n; }\n"
    if kind == 0:
        form = "  printf(\"%%d\\n\", at(&(struct pair){ %s,\n    %s }));\n" % (a, b)
        plain = "  struct pair l; printf(\"%%d\\n\", at(&*(l = make(%s,\n    %s), &l)));\n" % (a, b)
    elif kind == 1:
        form = "  int *p = 0;\n  if (k) {\n    p = (int[]){ %s,\n      %s };\n    k += p[%d];\n  }\n  printf(\"%%d\\n\", %s);\n"
        plain = "  int *p = 0;\n  if (k) { struct two l;\n    p = (l = both(%s,\n      %s), &l)->a;\n    k += p[%d];\n  }\n  printf(\"%%d\\n\", %s);\n"
        rest = (a, b, draw.one_of(0, 1, 1, 2), draw.one_of("k", "*p"))
        form, plain = form % rest, plain % rest
    elif kind == 2:
        form = "  struct pair *p = 0;\n  for (int n = 0; n < 3; n++) {\n    struct pair *q = &(struct pair){ n, %s };\n    q->x += %s;\n" \
            "    printf(\"%%d %%d\\n\", q->x, %s);\n    p = q;\n  }\n"
        rest = (a, b, draw.one_of("q->y", "p ? p->x : 0", "n"))
        form = form % rest
        plain = form.replace("{\n    struct pair *q = &(struct pair){ n, %s };" % a, "{ struct pair l;\n    struct pair *q = &*(l = make(n, %s), &l);" % a)
    elif kind == 3:
        form = "  int *p = &(int){ %s };\n  *p += %s;\n  printf(\"%%d\\n\", *p);\n" % (a, b)
        plain = form.replace("int *p = &(int){ %s };" % a, "int l; int *p = &*(l = one(%s), &l);" % a)
    elif kind == 4:
        form = "  int *p = 0;\n  while (k-- > 0 && (p = (int[]){ k, %s })[%d])\n    i += %s;\n  printf(\"%%d %%d\\n\", i,\n    %s);\n" % (
            a, draw.number(0, 2), b, draw.one_of("k", "*p"))
        plain = form.replace("while", "{ struct two l; while").replace("(int[]){ k, %s }" % a, "(l = both(k, %s), &l)->a" % a).replace(";\n  printf", "; }\n  printf")
    elif kind == 5:
        form = "  struct near { int *p; } *n = &(struct near){ &(int){ %s } };\n  n->p[%d] += %s;\n  printf(\"%%d\\n\", *n->p);\n" % (
            a, draw.one_of(0, 0, 1), b)
        plain = form.replace("struct near { int *p; } *n", "int l; struct near m, *n").replace(
            "&(struct near){ &(int){ %s } }" % a, "&*(m = points(&*(l = one(%s), &l)), &m)" % a)
        form = form.replace("struct near { int *p; } *n", "struct near *n")
        return program(form, "struct near { int *p; };\n"), program(plain, makes), []
    else:
        form = "  printf(\"%%d\\n\", of((struct pair){ .y = %s }) +\n    (struct pair){ %s,\n    1 }.x);\n" % (a, b)
        plain = "  printf(\"%%d\\n\", of(make(0, %s)) +\n    make(%s,\n    1).x);\n" % (a, b)
    return program(form, "\n"), program(plain, makes), []


def gotos(draw):
    a, b, kind = draw.value(), draw.calm(), draw.number(0, 4)
    if kind == 0:
        form = "  int *p = 0;\n  { int inner = %s; p = &inner;\n    if (k %s 1) goto out;\n    printf(\"%%d\\n\", *p); }\n  k = %s;\nout:\n  printf(\"%%d\\n\", %s);\n"
        plain = "  int *p = 0; do {\n  { int inner = %s; p = &inner;\n    if (k %s 1) break;\n    printf(\"%%d\\n\", *p); }\n  k = %s;\n} while (0);\n  printf(\"%%d\\n\", %s);\n"
        rest = (a, draw.one_of("<", ">"), b, draw.one_of("k", "*p"))
    elif kind == 1:
        form = "  int n = 0, last = 0;\nagain:\n  last = %s;\n  int x = n + %s;\n  int *p = &x;\n  if (n++ < 2) { x = 5; goto again; }\n  printf(\"%%d %%d %%d\\n\", last, x, *p);\n"
        plain = "  int n = 0, last = 0; int x; int *p; for (;;) {\n\n  last = %s;\n  x = n + %s;\n  p = &x;\n  if (n++ < 2) { x = 5; continue; } break; }\n  printf(\"%%d %%d %%d\\n\", last, x, *p);\n"
        rest = (a, b)
    elif kind == 2:
        form = "  for (int n = 0; n < 3; n++)\n    for (int m = 0; m < 3; m++) {\n      if (n * m == 2) goto found;\n      k += %s;\n    }\n  k = -1;\nfound:\n  printf(\"%%d %%d\\n\", k,\n    %s);\n"
        plain = "  int go = 0; do { for (int n = 0; n < 3; n++) { \n    for (int m = 0; m < 3; m++) {\n      if (n * m == 2) { go = 1; break; }\n      k += %s;\n    } if (go) break; } if (go) break;\n  k = -1;\n} while (0);\n  printf(\"%%d %%d\\n\", k,\n    %s);\n"
        rest = (a, b)
    elif kind == 3:
        form = "  int n = 1;\n  if (k == %s) goto skip;\n  int x = %s;\n  n += x;\nskip:\n  printf(\"%%d %%d\\n\", n, %s);\n"
        plain = "  int n = 1; int x; do {\n  if (k == %s) break;\n  x = %s;\n  n += x;\n} while (0);\n  printf(\"%%d %%d\\n\", n, %s);\n"
        rest = (draw.one_of("2", "3"), a, draw.one_of("k", "x", b))
    if kind == 4:
        form = "  for (int n = 0; n < 4; n++) {\n    if (n == %d) goto last;\n    if (n == %d) continue;\n    if (n == %d) break;\n    k += %s;\n  last:\n" \
            "    printf(\"%%d %%d\\n\", n, k);\n  }\n  printf(\"%%d\\n\", %s);\n"
        plain = "  for (int n = 0; n < 4; n++) {\n    if (n != %d) {\n    if (n == %d) continue;\n    if (n == %d) break;\n    k += %s;\n  }\n" \
            "    printf(\"%%d %%d\\n\", n, k);\n  }\n  printf(\"%%d\\n\", %s);\n"
        rest = (draw.number(0, 4), draw.number(0, 4), draw.number(1, 4), a, b)
    return program(form % rest), program(plain % rest), []


def variadic(draw):
    kind = draw.number(0, 2)
    if kind:
        values = [draw.value() for _ in range(draw.number(1, 4))]
        given, words = ",\n    ".join(values), ", ".join("int v%d" % n for n in range(len(values)))
        format = "%d ".replace("d", draw.one_of("d", "x", "c", "u")) * (len(values) + draw.one_of(0, 0, 0, 1))
        head, end = "typedef __builtin_va_list va_list; int vprintf(const char *, va_list); static void say(const char *f, ...) { va_list l;", "}\n"
        form = head + " __builtin_va_start(l, f);\n  vprintf(f, l); __builtin_va_end(l); " + end
        plain = "static void say(%s) {\n  printf(\"%s\", %s); " % (words, format, ", ".join("v%d" % n for n in range(len(values)))) + end
        return program("  say(\"%s\",\n    %s);\n  printf(\"\\n\");\n" % (format, given), form), program(
            "  say(\n    %s);\n  printf(\"\\n\");\n" % given, plain), []
    values = [draw.value() for _ in range(draw.number(1, 4))]
    count = len(values) + (draw.one_of(0, 0, 1) if draw.bad else 0)
    lists = "typedef __builtin_va_list va_list; static int add(int n, ...) { va_list l; int t = 0; __builtin_va_start(l, n);\n" \
        "  for (int i = 0; i < n; i++) { t = t * 2 +\n    __builtin_va_arg(l, int); }\n  __builtin_va_end(l); return t; }\n"
    plains = "struct list { int a[%d]; }; static struct list make(%s) { struct list l = {{%s}}; return l; } " \
        "static int add(int n, struct list l) { int t = 0;\n  for (int i = 0; i < n; i++) { t = t * 2 +\n    l.a[i]; }\n  return t; }\n" % (
            len(values), ", ".join("int v%d" % n for n in range(len(values))), ", ".join("v%d" % n for n in range(len(values))))
    given = ",\n    ".join(values)
    return program("  printf(\"%%d\\n\", add(%d,\n    %s));\n" % (count, given), lists), \
        program("  printf(\"%%d\\n\", add(%d, make(\n    %s)));\n" % (count, given), plains), []


RULES = {"prune": prune, "main": main_parameters, "initializers": initializers, "members": members, "small": small, "scopes": scopes, "oldstyle": oldstyle,
         "printf": printf,
         "literals": literals, "goto": gotos, "variadic": variadic}


def pairs(rule, count):
    """That many pairs, no two alike: each the form, the plain words, main's arguments, and its seed."""
    seen, seed = set(), 0
    while len(seen) < count:
        form, plain, arguments = RULES[rule](Drawn("%s %d" % (rule, seed)))
        if (form, *arguments) not in seen:
            seen.add((form, *arguments))
            yield form, plain, arguments, seed
        seed += 1
