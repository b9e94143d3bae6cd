"""The program's own functions with `...`, and vprintf, vsprintf, vsnprintf.

C17 6.5.2.2p6, p7, 7.16: the arguments after the last parameter are promoted and handed over; va_arg gives one after the other. They are handed
over in a structure here, which a function makes of them: it stands where they stood, so they keep lines, order and sequencing, and pointers are
copied by memcpy, which is no use of them. A va_list is such a structure, of which va_arg takes the next value. 7.21.6.1p9: what vprintf and its
like do with a format that the run has is done by a function in the call's line, which knows each argument's type.
Exact where va_arg's type is known to fit (7.16.1.1p2): all va_arg of a function, and of those that it hands its va_list to, have one type, and
each call of it hands over that type alone; a va_list that was handed over is used no more (7.16p3). Left: all else, a function with `...`
whose address is taken, two va_arg in one expression, a va_list in a structure or by its address.
Other than it was: an argument that isn't there is told as an access outside of an object, 6.5.3.2p4, at va_arg's line, since the language has
no clause for it; a way out of the function without va_end is not told.
"""
from lowering.forms import LOOPS, around, listed, parameters_of, strip, unqualified, uses_of
from lowering.shared import Shared, called, kind_of, promoted
from lowering.text import Left

NAME = "functions with ..."
PRINTING = ("vprintf", "vsprintf", "vsnprintf")
MACROS = ("__builtin_va_start", "__builtin_va_end", "__builtin_va_copy")


def is_list(node):
    return "va_list" in node["type"].get("desugaredQualType", "") + node["type"]["qualType"]


def loop_of(node):
    return next((it for it in around(node) if it["kind"] in LOOPS), None)


class Unit:
    """All functions with ... of a text, and what becomes of their lists."""

    def __init__(self, text):
        self.text, self.bodies, self.calls = text, text.defined, []
        self.own = {name for name, it in self.bodies.items() if it.get("variadic")}

    # ---- what is known to fit

    def check(self):
        for node, call in uses_of(self.text, self.own):
            if not call:
                raise Left(node["b"], "the address of a function with ... is taken")
            self.calls.append((call, node["referencedDecl"]["name"]))
        for node in self.text.nodes:
            if node["kind"] == "FieldDecl" and is_list(node):
                raise Left(node["b"], "a va_list within a structure")
            if node["kind"] in ("VarDecl", "ParmVarDecl") and node.get("name") and is_list(node):
                self.check_list(node)
        for node in self.text.functions:
            if node.get("variadic") and node["name"] not in self.own | {"printf", "sprintf", "snprintf"}:
                raise Left(node["b"], "a function with ... that is not defined here")
        for name in self.own:
            self.check_types(name)

    def check_list(self, variable):
        uses, handed, started = [], [], []
        for node in self.text.of("DeclRefExpr"):
            if node["referencedDecl"].get("id") == variable["id"]:
                outer = node["up"]
                while outer["kind"] in ("ImplicitCastExpr", "ParenExpr"):
                    outer = outer["up"]
                name = called(outer) if outer["kind"] == "CallExpr" else None
                if outer["kind"] == "VAArgExpr":
                    uses.append(node)
                elif name in ("__builtin_va_start", "__builtin_va_copy") and strip(outer["inner"][1]) is node:
                    started.append(node)
                elif name in PRINTING or name in self.bodies and name not in self.own:
                    handed.append(node)
                elif name not in MACROS:
                    raise Left(node["b"], "a va_list that is used in another way")
        if len(handed) > 1 or len(started) > 1 or any(it["b"] > handed[0]["b"] for it in uses if handed):
            raise Left(variable["b"], "a va_list that is used again after it was handed over, or begun twice")
        if handed and loop_of(handed[0]) is not (loop_of(started[0]) if started else None):
            raise Left(handed[0]["b"], "a va_list that a loop hands over")
        if handed and any(self.text.function_of(it) is self.text.function_of(handed[0]) for it in self.text.of("GotoStmt")):
            raise Left(handed[0]["b"], "a va_list that a jump may hand over again")
        expressions = [id(self.expression(it)) for it in uses + handed]
        if len(set(expressions)) < len(expressions):
            raise Left(variable["b"], "a va_list that one expression uses twice")

    def expression(self, node):
        chain = [node, *around(node)]
        return next(it for it, outer in zip(chain, chain[1:]) if outer["kind"].endswith("Stmt") or outer["kind"].endswith("Decl"))

    def types_of(self, name, seen=()):
        """The types that va_arg gives in a function, and in those that it hands a list to."""
        found = set()
        for node in self.text.nodes:
            if (self.text.function_of(node) or {}).get("name") != name:
                continue
            if node["kind"] == "VAArgExpr":
                found.add(unqualified(self.text.type_of(node)))
            elif node["kind"] == "CallExpr" and called(node) in self.bodies and called(node) not in seen and \
                    any(is_list(it) for it in parameters_of(self.bodies[called(node)])):
                found |= self.types_of(called(node), seen + (name,))
        return found

    def check_types(self, name):
        kinds = self.types_of(name)
        if len(kinds) > 1:
            raise Left(self.bodies[name]["b"], "va_arg of several types")
        if not kinds:
            return
        wanted = kinds.pop()
        for call, callee in self.calls:
            if callee == name:
                for it in self.given(call, name):
                    have = promoted(self.text, it)
                    if have.replace("const ", "") != wanted.replace("const ", "") and {kind_of(have), kind_of(wanted)} != {7, 8}:
                        raise Left(it["b"], "an argument of another type than va_arg's")

    def given(self, call, name):
        return call["inner"][1 + len(parameters_of(self.bodies[name])):]

    # ---- what is written

    def write(self, notes):
        self.shared = Shared(self.text, "lists of arguments, 7.16")
        self.prefix = self.shared.prefix
        for begin, token in self.text.tokens(0, len(self.text.text)):
            top = next((it for it in self.text.functions if it["b"] <= begin < it["e"] and token == "..." and it["name"] in self.own), None)
            if top or token == "__builtin_va_list":
                self.text.edit(begin, begin + len(token), "struct %s_list" % self.prefix, " %s_rest" % self.prefix if top else "")
                self.shared.needed(next(it for it in reversed(self.text.tops) if it["b"] <= begin), "format.c", "list.c")
            if top:
                notes.used(NAME, begin)
        for node in self.text.nodes:
            name = called(node)
            if node["kind"] == "VAArgExpr":
                self.argument(node)
            elif name in MACROS:
                self.macro(node, name)
            elif name in PRINTING and name not in self.bodies:
                self.print(node, name, node["inner"][1:])
        for call, name in self.calls:
            self.call(call, self.given(call, name))
        self.shared.write()

    def argument(self, node):
        kind = kind_of(unqualified(self.text.type_of(node)))
        if kind is None:
            raise Left(node["b"], "va_arg of this type")
        begin, end = node["inner"][0]["b"], node["inner"][0]["e"]
        self.text.edit(node["b"], node["e"], "((%s)%s_next(&(" % (node["type"]["qualType"], self.prefix), (begin, end), "), (",
                       self.text.text[begin:end], ").{0}_at)->{0}_{1})".format(self.prefix, "n" if kind < 7 else "f" if kind == 10 else "p"))

    def macro(self, node, name):
        first, *rest = [(it["b"], it["e"]) for it in node["inner"][1:]]
        if name.endswith("end"):
            pieces = [").%s_left = -1" % self.prefix]
        else:
            pieces = [") = ", "(", rest[0], ")"] if name.endswith("copy") else [") = %s_rest" % self.prefix]
        self.text.edit(node["b"], node["e"], "((void)((", first, *pieces, "))")

    def print(self, node, name, given):
        to, rest = listed(given[:-2]), listed(given[-2:])
        before = {"vprintf": ["(1, 0, 0"], "vsprintf": ["(2, "] + to + [", 18446744073709551615u"], "vsnprintf": ["(2, "] + to}
        self.text.edit(node["b"], node["e"], self.shared.printing(node, name), *before[name], ", ", *rest, ")")

    def call(self, call, given):
        pieces = self.shared.handed(call, given)
        if given:
            self.text.edit(given[0]["b"], given[-1]["e"], *pieces)
        else:
            self.text.edit(call["e"] - 1, call["e"], ", ", *pieces, ")")


def apply(text, notes):
    unit = Unit(text)
    if unit.own:
        unit.check()
        unit.write(notes)
