"""What written functions share, and arguments that are handed over in a structure.

C17 6.5.2.2p6, p7: arguments are promoted and handed over. A function makes the structure of them, which stands where they stood: so they keep
lines, order and sequencing, and pointers are copied by memcpy, which is no use of them.
"""
import os
import re

from lowering.forms import TYPE_WORDS, declare, listed, spelling, strip, unqualified
from lowering.text import IDENTIFIER, TOKEN, File, Left

KINDS = {"int": 1, "unsigned int": 2, "long": 3, "unsigned long": 4, "long long": 5, "unsigned long long": 6}
# The names in the C texts that stand there for what they are in C, or are put in.
KEPT = TYPE_WORDS | set("static sizeof if else for while break return printf abort memcpy BLANKS MOST".split())


def called(node):
    """The name of the function that a call names."""
    declared = strip(node["inner"][0]).get("referencedDecl", {}) if node["kind"] == "CallExpr" else {}
    return declared.get("name") if declared.get("kind") == "FunctionDecl" else None


def promoted(text, given):
    """The promoted type of an argument; that of an enumeration is int here."""
    if given["kind"] == "ImplicitCastExpr" and given.get("castKind") == "IntegralCast" and text.type_of(given["inner"][0]) == "int":
        return "int"
    return unqualified(text.type_of(given))


def kind_of(spelled):
    """The number of a type in the structure: each integer's, that of pointers to characters, void, other objects, and functions."""
    if spelled in KINDS:
        return KINDS[spelled]
    if re.match(r"(const )?((un)?signed )?char \*$", spelled):
        return 7
    if re.match(r"(const )?void \*$", spelled):
        return 8
    return 10 if "(*" in spelled else 9 if spelled.endswith("*") else None


def in_one_line(file, prefix):
    """A C text; its names begin with a prefix, so that they mean nothing in the program."""
    with open(os.path.join(os.path.dirname(os.path.realpath(__file__)), file), encoding="ascii") as lines:
        text = " ".join(it.strip() for it in lines)
    return TOKEN.sub(lambda it: prefix + "_" + it[0] if IDENTIFIER.match(it[0]) and it[0] not in KEPT else it[0], text)


class Shared:
    """What is written before the first function that needs it, once, in a file of its own."""

    def __init__(self, text, title):
        self.text, self.title, self.prefix = text, title, text.name("shared")
        self.files, self.blanks, self.most, self.at = [], 1, 1, None

    def needed(self, node, *files):
        at = self.text.begin_of_top(node)
        self.at = at if self.at is None else min(at, self.at)
        self.files += [it for it in files if it not in self.files]

    def write(self):
        if self.files:
            written = " ".join(in_one_line(it, self.prefix) for it in sorted(self.files)).replace("MOST", str(self.most))
            pieces = File(self.title), written.replace("BLANKS", '"%s"' % (" " * self.blanks)), " "
            self.text.edits.insert(0, (self.at, -len(self.text.text) - 1, -1, self.at, pieces))

    def handed(self, call, given):
        """The pieces of a call of the function, written here, that makes the structure of arguments."""
        made, words, steps = self.text.name("given"), [], []
        self.most = max(self.most, len(given))
        for index, it in enumerate(given):
            spelled = promoted(self.text, it)
            kind, value, slot = kind_of(spelled), "%s_v%d" % (made, index), "%s.%s_all[%d].%s_" % (made, self.prefix, index, self.prefix)
            if kind is None:
                raise Left(it["b"], "an argument that is neither a number nor a pointer")
            spelled = spelled if kind < 9 else spelling(self.text, it, self.text.function_of(it))
            words.append(declare(spelled, value))
            copied = "memcpy(&{0}{1}, &{2}, sizeof {2})".format(slot, "f" if kind == 10 else "p", value)
            steps.append("%skind = %d; %s; " % (slot, kind, "%sn = %s" % (slot, value) if kind < 7 else copied))
        self.text.before(
            call, "static struct {0}_list {1}_make({2}) {{ struct {0}_list {1}; {1}.{0}_at = 0; {1}.{0}_left = {3}; {4}return {1}; }}".format(
                self.prefix, made, ", ".join(words) or "void", len(given), "".join(steps)))
        return [made + "_make("] + listed(given) + [")"]

    def printing(self, call, name):
        """The function, written in the call's line, that prints such a structure."""
        self.needed(call, "format.c", "list.c", "print.c")
        function, self.blanks = self.text.name(name), 4095
        self.text.before(call, in_one_line("call.c", self.prefix).replace(self.prefix + "_NAME", function))
        return function
