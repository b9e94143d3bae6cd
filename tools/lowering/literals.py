"""Compound literals.

C17 6.5.2.5p5: the object lies as long as the innermost block around the literal, or always at file scope; 6.8.4p3, 6.8.5p5: each `if`, `switch`
and loop is a block, and so is its statement, with braces or without. So an object is declared at the beginning of that block, and where the
literal stands it is given its value anew, each time (6.2.4p6), by a function that makes the value as an initializer does (6.7.9). A literal
whose value alone is needed is that function's call. Values stand where they stood, as the function's arguments, converted to their members'
types in their lines. Exact where no value has a side effect (6.8p4: a literal's initializer is no full expression, but here a sequence point
comes after it), since all accesses stay unsequenced towards those of the other operands.
Left: a value with a side effect; a pointer that a call gives, or beside a call (as an argument it is read once more, which 6.2.4p2 makes a
use); a const literal in a block whose values are no constants; types that the file scope doesn't see; what `initializers` leaves.
"""
import re

from lowering.forms import around, calls, declare, decays, is_const, is_constant, listed, spelling, strip, unqualified, within, writes
from lowering.initializers import List, check as check_order, first_members
from lowering.text import Left

NAME = "compound literals"
BLOCKS = ("IfStmt", "SwitchStmt", "WhileStmt", "DoStmt", "ForStmt")
ALLOCATING = ("malloc", "calloc")


def is_plain_number(node):
    node = strip(node)
    if node["kind"] == "UnaryOperator" and node["opcode"] == "-":
        node = strip(node["inner"][0])
    return node["kind"] in ("IntegerLiteral", "CharacterLiteral")


def is_looked_at(node):
    """Whether the pointer that an expression gives was looked at when it was made: so that it is no use to read it once more."""
    kinds = []
    while node["kind"] in ("ImplicitCastExpr", "ParenExpr", "CStyleCastExpr"):
        kinds.append(node.get("castKind"))
        node = node["inner"][-1]
    if set(kinds) & {"LValueToRValue", "ArrayToPointerDecay", "FunctionToPointerDecay", "NullToPointer"}:
        return True
    if node["kind"] == "ConditionalOperator":
        return all(map(is_looked_at, node["inner"][1:]))
    if node["kind"] == "CallExpr":
        return strip(node["inner"][0]).get("referencedDecl", {}).get("name") in ALLOCATING
    return node["kind"] in ("BinaryOperator", "UnaryOperator", "IntegerLiteral") and node.get("opcode") != ","


class Handed(List):
    """The initializer within the function: numbers and the strings of arrays as they are, all other values as parameters."""

    def __init__(self, text, node, firsts, name):
        self.name, self.parameters = name, []
        super().__init__(text, node, firsts)

    def value(self, node):
        if is_plain_number(node) or strip(node)["kind"] == "StringLiteral" and not decays(node):
            return re.sub(r"\s*\n(#[^\n]*\n)*", " ", self.text.text[node["b"]:node["e"]])
        self.parameters.append(node)
        return "%s_v%d" % (self.name, len(self.parameters) - 1)


class Literal:
    def __init__(self, text, node, firsts):
        self.text, self.node, self.firsts = text, node, firsts
        self.function = text.function_of(node)
        self.spelled = spelling(text, node, self.function)
        self.name = text.name("literal")
        self.list = node["inner"][-1]
        if "{" in text.text[node["b"]:self.list["b"]]:
            raise Left(node["b"], "its type is declared within it")
        self.is_array = text.type_of(node).endswith("]")

    def write(self):
        if not self.function:
            self.write_static()
        elif not self.is_array and self.is_value():
            self.text.edit(self.node["b"], self.node["e"], *self.make(unqualified(self.spelled)))
        elif is_const(self.text, self.node):
            self.write_const()
        else:
            self.write_object()

    # ---- at file scope

    def write_static(self):
        written = List(self.text, self.list, self.firsts)
        check_order(self.text, self.list, written.values, True)
        self.text.before(self.node, "static %s = " % declare(self.spelled, self.name), *written.pieces, ";")
        self.text.edit(self.node["b"], self.node["e"], self.name)

    # ---- in a function

    def is_value(self):
        """Whether nothing but the value of the literal, or of a member that is no array, is needed."""
        for outer in around(self.node):
            if outer["kind"] == "ImplicitCastExpr":
                return outer["castKind"] == "LValueToRValue"
            if outer["kind"] == "MemberExpr" and outer.get("isArrow") or outer["kind"] not in ("ParenExpr", "MemberExpr"):
                return False
        return False

    def check_values(self, values):
        check_order(self.text, self.list, values, False)
        for it in values:
            if writes(it):
                raise Left(it["b"], "a value with a side effect")
            if re.search(r"\*\s*(const)?$|\(\*", self.text.type_of(it)):
                if not is_looked_at(it):
                    raise Left(it["b"], "a pointer that a call gives")
                if any(calls(other) for other in values if other is not it):
                    raise Left(it["b"], "a pointer beside a call")

    def make(self, result, opened="", closed=""):
        """The function that makes the value, and the pieces of its call."""
        handed = Handed(self.text, self.list, self.firsts, self.name)
        self.check_values(handed.values)
        words = [declare(spelling(self.text, it, self.function), "%s_v%d" % (self.name, index))
                 for index, it in enumerate(handed.parameters)]
        body = "%s = %s%s%s; return %s;" % (declare(result, self.name), opened, "".join(handed.pieces), closed, self.name)
        head = "static %s(%s)" % (declare(result, self.name + "_make"), ", ".join(words) or "void")
        self.text.before(self.node, "%s { %s }" % (head, body))
        return [self.name + "_make("] + listed(handed.parameters) + [")"]

    def write_object(self):
        if self.is_array:
            kind = "struct %s_t" % self.name
            self.text.before(self.node, "%s { %s; };" % (kind, declare(self.spelled, self.name + "_all")))
            made = self.make(kind, "{", "}")
            pieces = ["((%s = " % self.name] + made + [", &{0})->{0}_all)".format(self.name)]
        else:
            kind = self.spelled
            pieces = ["(*(%s = " % self.name] + self.make(kind) + [", &%s))" % self.name]
        self.declare(declare(kind, self.name) + ";")
        self.text.edit(self.node["b"], self.node["e"], *pieces)

    def write_const(self):
        """Nothing may change the object, and its values are the same each time: it has them from its block's beginning on."""
        written = List(self.text, self.list, self.firsts)
        check_order(self.text, self.list, written.values, False)
        if not all(is_constant(it) and not any(inner["kind"] == "DeclRefExpr" and inner["referencedDecl"]["kind"] not in
                   ("EnumConstantDecl", "FunctionDecl") for inner in within(it)) for it in written.values):
            raise Left(self.node["b"], "a const literal whose values are no constants")
        self.declare(declare(self.spelled, self.name) + " = ", *written.pieces, "; ", is_initialized=True)
        self.text.edit(self.node["b"], self.node["e"], self.name)

    def declare(self, *pieces, is_initialized=False):
        """At the beginning of the innermost block around the literal."""
        inner = self.node
        for outer in around(self.node):
            if outer["kind"] == "CompoundStmt":
                if is_initialized and outer["up"]["kind"] == "SwitchStmt":
                    raise Left(self.node["b"], "a const literal in the block of a switch")
                self.text.insert(outer["b"] + 1, " ", *pieces)
                return
            if outer["kind"] in BLOCKS:
                is_body = inner is outer["inner"][0 if outer["kind"] == "DoStmt" else -1] or \
                    outer["kind"] == "IfStmt" and inner is not outer["inner"][0]
                block = inner if is_body else outer
                end = self.text.end_of(block)
                self.text.edit(block["b"], end, "{ ", *pieces, " ", (block["b"], end), " }")
                return
            inner = outer


def apply(text, notes):
    firsts = first_members(text)
    # (within a literal at file scope another one comes first)
    for node in sorted(text.of("CompoundLiteralExpr"), key=lambda it: (text.function_of(it) is None) * -it["b"]):
        with notes.attempt(NAME, node["b"]):
            Literal(text, node, firsts).write()
