"""Small forms, each with a rule of its own.

Each is exact since the form is another way to write the same (its section of C17 stands at its rule), once clang has looked at what the
standard makes a constraint.
"""
import re

from lowering.forms import TYPE_WORDS, body_of, declare, parameters_of, spelling, uses_of
from lowering.text import IDENTIFIER, File, Left

NAMING = ("TypedefDecl", "VarDecl", "ParmVarDecl", "FunctionDecl", "EnumConstantDecl")


class Assertions:
    """C17 6.7.10p3: a `_Static_assert` that holds has no effect; clang looked at it. Left: one that declares a tag within."""

    NAME = "_Static_assert"

    def apply(self, text, notes):
        for node in text.of("StaticAssertDecl"):
            with notes.attempt(self.NAME, node["b"]):
                if "{" in text.part(node):
                    raise Left(node["b"], "it declares a type")
                text.blank(node["b"], text.past(node))


class Semicolons:
    """A `;` that ends nothing, at file scope or among members, is no C17 (6.9p1, 6.7.2.1p1), and every compiler skips it."""

    NAME = "a ; that ends nothing"

    def apply(self, text, notes):
        places = [it["b"] for it in text.of("EmptyDecl")]
        for node in text.of("RecordDecl"):
            if node.get("completeDefinition") and node["up"]["kind"] != "RecordDecl":
                tokens = list(text.tokens(node["b"], node["e"]))
                places += [at for (_, before), (at, token) in zip(tokens, tokens[1:]) if token == ";" and before in ";{"]
        for at in places:
            text.blank(at, at + 1)
            notes.used(self.NAME, at)


class FunctionNames:
    """C17 6.4.2.2p1: `__func__` is declared as `static const char __func__[] = "name";` after the opening brace of the function. So it is,
    by another name, in functions that use it."""

    NAME = "__func__"

    def apply(self, text, notes):
        names = {}
        for node in text.of("PredefinedExpr"):
            if text.part(node) in ("__func__", "__FUNCTION__"):
                function = text.function_of(node)
                if function["id"] not in names:
                    names[function["id"]] = text.name("func")
                    begin = body_of(function)["b"] + 1
                    text.insert(begin, ' static const char %s[] = "%s";' % (names[function["id"]], function["name"]))
                text.edit(node["b"], node["e"], names[function["id"]])
                notes.used(self.NAME, node["b"])


class Switches:
    """C17 6.8.4p3: the statement of a `switch` is a block, with braces or without."""

    NAME = "a switch without braces"

    def apply(self, text, notes):
        for node in text.of("SwitchStmt"):
            body = node["inner"][-1]
            if body["kind"] != "CompoundStmt":
                text.edit(body["b"], text.end_of(body), "{ ", (body["b"], text.end_of(body)), " }")
                notes.used(self.NAME, body["b"])


class Spellings:
    """Words that GNU C spells in another way, `register` (6.7.1p6: a hint; clang looked whether a pointer is made to such an object), and
    `inline` with static or extern (6.7.4p6: a hint). Left: `inline` alone (6.7.4p7: it defines no function for other calls), `typeof` of an
    expression."""

    NAME = "spellings"
    WORDS = {"__extension__": "", "__const": "const", "__const__": "const", "__signed": "signed", "__signed__": "signed",
             "__volatile": "volatile", "__volatile__": "volatile", "__restrict": "restrict", "__restrict__": "restrict", "register": ""}

    def apply(self, text, notes):
        tokens = list(text.tokens(0, len(text.text)))
        for index, (at, token) in enumerate(tokens):
            if token in self.WORDS:
                text.edit(at, at + len(token), self.WORDS[token])
                notes.used("%s %s" % (self.NAME, token), at)
            elif token in ("inline", "__inline", "__inline__", "typeof", "__typeof__", "__typeof"):
                with notes.attempt("%s %s" % (self.NAME, token), at):
                    (self.typeof if "typeof" in token else self.inline)(text, tokens, index, at, at + len(token))

    def inline(self, text, tokens, index, begin, end):
        top = next((it for it in text.tops if it["b"] <= begin < it["e"]), None)
        names = {it.get("storageClass") for it in text.tops if top and it.get("name") == top.get("name")}
        if not names & {"static", "extern"}:
            raise Left(begin, "inline without static or extern defines no function for other calls")
        text.edit(begin, end, "")

    def typeof(self, text, tokens, index, begin, end):
        """Of a type of words alone; a pointer's would need a name of its own."""
        close = next(it for it in range(index, len(tokens)) if tokens[it][1] == ")")
        first, *words = [token for _, token in tokens[index + 2:close]]
        if not all(IDENTIFIER.fullmatch(it) for it in [first] + words):
            raise Left(begin, "typeof of more than a type's words")
        meant = [it["kind"] for it in text.nodes if it.get("name") == first and it["b"] < begin and it["kind"] in NAMING]
        if set(meant) != {"TypedefDecl"} and first not in TYPE_WORDS:
            raise Left(begin, "typeof of an expression")
        text.edit(begin, tokens[close][0] + 1, "", (tokens[index + 2][0], tokens[close][0]))


class Alignments:
    """C17 6.5.3.4p3, p5: `_Alignof (type)` is a constant of type size_t. So is what a structure of a character and the type (6.7.2.1p14, p15)
    has more than the type: as many bytes as the type's alignment, of which the sizes of both are multiples."""

    NAME = "_Alignof"

    def apply(self, text, notes):
        for node in text.of("UnaryExprOrTypeTraitExpr"):
            if text.part(node).startswith("_Alignof"):
                with notes.attempt(self.NAME, node["b"]):
                    name, spelled = text.name("alignment"), spelling(text, dict(node, type=node["argType"]), text.function_of(node))
                    text.before(node, "struct {0} {{ char {0}_first; {1}; }};".format(name, declare(spelled, name + "_last")))
                    text.edit(node["b"], node["e"], "(sizeof(struct %s) - sizeof(%s))" % (name, spelled))


class Promises:
    """C17 6.7.6.3p7: `[static n]` promises that each argument points to n elements. Exact where each call hands over the array of a named
    object, or a string, that has as many; else left, since a promise that is broken is undefined."""

    NAME = "[static n]"

    def apply(self, text, notes):
        for function in text.of("FunctionDecl"):
            for which, parameter in enumerate(it for it in parameters_of(function) if it["b"] >= 0):
                tokens = list(text.tokens(parameter["b"], parameter["e"]))
                for index, (at, token) in enumerate(tokens):
                    if token == "static":
                        with notes.attempt(self.NAME, at):
                            self.check(text, function["name"], which, at, [it for _, it in tokens[index - 1:index + 3]])
                            text.blank(at, at + 6)

    def check(self, text, name, which, at, tokens):
        if tokens[0] != "[" or not re.fullmatch(r"[1-9]\d*", tokens[2]) or tokens[3] != "]":
            raise Left(at, "its size is no plain number")
        for node, call in uses_of(text, (name,)):
            if not call or len(call["inner"]) <= which + 1:
                raise Left(node["b"], "the function is called by a pointer")
            self.check_argument(text, call["inner"][which + 1], int(tokens[2]))

    def check_argument(self, text, given, size):
        at = given["b"]
        while given["kind"] in ("ImplicitCastExpr", "ParenExpr"):
            given = given["inner"][-1]
        array = re.search(r"\[(\d+)\]", text.type_of(given))
        while given["kind"] == "MemberExpr" and not given.get("isArrow"):
            given = given["inner"][0]
        if given["kind"] not in ("DeclRefExpr", "StringLiteral") or not array or int(array[1]) < size:
            raise Left(at, "the argument is no array that is known to be long enough")


class LibraryValues:
    """C17 6.5.1p2, 7.1.4p1: the name of a library function may stand as a value. It is that of a function here that calls it; one for each
    name, so that equal pointers stay equal. Other than it was: what is undefined in the library function is told in that function's
    line, in a file of its own, as it is of all functions that the headers define."""

    NAME = "library functions as values"
    FUNCTIONS = {
        "malloc": ("void *", "unsigned long"), "calloc": ("void *", "unsigned long", "unsigned long"), "free": ("void", "void *"),
        "realloc": ("void *", "void *", "unsigned long"), "memcpy": ("void *", "void *", "const void *", "unsigned long"),
        "memmove": ("void *", "void *", "const void *", "unsigned long"), "memset": ("void *", "void *", "int", "unsigned long"),
        "memcmp": ("int", "const void *", "const void *", "unsigned long"), "strlen": ("unsigned long", "const char *"),
        "strcmp": ("int", "const char *", "const char *"), "strcpy": ("char *", "char *", "const char *"),
        "exit": ("void", "int"), "abort": ("void",)}

    def apply(self, text, notes):
        uses = [node for node, call in uses_of(text, self.FUNCTIONS) if not call]
        wrappers = {}
        for node in uses:
            name = node["referencedDecl"]["name"]
            if name not in wrappers:
                wrappers[name] = self.wrapper(text, node, name)
            text.edit(node["b"], node["e"], wrappers[name])
            notes.used(self.NAME, node["b"])

    def wrapper(self, text, node, name):
        result, *kinds = self.FUNCTIONS[name]
        wrapper, given = text.name(name), [text.name("given") for _ in kinds]
        head = ", ".join("%s %s" % pair for pair in zip(kinds, given)) or "void"
        written = "static %s %s(%s) { %s%s(%s); }" % (result, wrapper, head, "" if result == "void" else "return ", name, ", ".join(given))
        text.insert(text.begin_of_top(node), File("the library's %s as a value" % name), written, " ")
        return wrapper
