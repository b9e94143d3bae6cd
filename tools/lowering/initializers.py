"""Initializers: designators, braces that are left away, `{}`, and a scalar in braces.

C17 6.7.9p17 to p20 say which value which subobject gets; clang's tree has the list in that meaning, and it is written with all its braces,
each value in its line. p19, p21: what no value is given to is zero, like an object of static storage: a gap before a value is written as
0 (or `{0}`), the rest is left away, as the language zeroes it. p23: the values of one list are indeterminately sequenced; here, as
everywhere, they are evaluated in the order of the text. `{}` is C23's, and means as much in each compiler.
Left: a value that is given and overridden (p19 lets it be evaluated or not), a list in another order than its members if two values
are no constants, a union that is initialized by a later member, more than 65536 zeros before a value.
Other than it was: a written 0 has its type for 6.5p6, also where its bytes are copied to an allocation; places of string literals, where
the order changes.
"""
import re

from lowering.forms import is_aggregate, is_constant, strip
from lowering.text import Left

NAME = "initializers"
ZERO = re.compile(r"\{\s*0\s*,?\s*\}$")
MOST = 65536


def first_members(text):
    """The first member of each union."""
    members = [[it["id"] for it in node["inner"] if it["kind"] == "FieldDecl"] for node in text.of("RecordDecl") if node["tagUsed"] == "union"]
    return {it[0] for it in members if it}


def lacks_braces(text, node):
    """Whether a list has a designator, a part without its braces, nothing in it, or stands for a scalar."""
    part = text.part(node)
    if ZERO.match(part):
        return not is_aggregate(text, node)
    tokens = [token for _, token in text.tokens(node["b"], node["e"])]
    if tokens[:2] == ["{", "}"] or not is_aggregate(text, node):
        return True
    if any(before in "{," and token in (".", "[") for before, token in zip(tokens, tokens[1:])):
        return True
    return any(it["kind"] == "InitListExpr" and (text.text[it["b"]] != "{" or lacks_braces(text, it)) for it in node["inner"])


class List:
    """One initializer, written with all its braces."""

    def __init__(self, text, node, firsts):
        self.text, self.firsts, self.zeros, self.values = text, firsts, 0, []
        self.pieces = self.written(node)

    def written(self, node):
        if node["kind"] == "ImplicitValueInitExpr":
            self.zeros += 1
            if self.zeros > MOST:
                raise Left(node["up"]["b"], "too many zeros stand before a value")
            return ["{0}" if is_aggregate(self.text, node) else "0"]
        if node["kind"] != "InitListExpr":
            if node["b"] < 0:
                raise Left(node["up"]["b"], "a value that has no place")
            self.values.append(node)
            return [self.value(node)]
        return self.list(node)

    def value(self, node):
        return node["b"], node["e"]

    def list(self, node):
        inner = node["inner"]
        while inner and inner[-1]["kind"] == "ImplicitValueInitExpr":
            inner = inner[:-1]
        if node.get("field") and inner and node["field"]["id"] not in self.firsts:
            raise Left(node["b"], "a union that is initialized by a later member")
        if not is_aggregate(self.text, node) and inner:
            return self.written(inner[0])
        if not inner or node["b"] >= 0 and ZERO.match(self.text.part(node)):
            return ["{0}"]
        if len(inner) == 1 and strip(inner[0])["kind"] == "StringLiteral" and re.search(r"\bchar ?\[", self.text.type_of(node)):
            return self.written(inner[0])
        pieces = ["{"]
        for index, it in enumerate(inner):
            pieces += ([", "] if index else []) + self.written(it)
        return pieces + ["}"]


def check(text, node, values, is_static):
    """Whether the order of evaluation is that of the text."""
    if any(node["b"] <= at < node["e"] for at in text.overridden):
        raise Left(node["b"], "a value of the list overrides another one")
    acting = [it["b"] for it in values if not is_constant(it)]
    if not is_static and acting != sorted(acting):
        raise Left(node["b"], "the values stand in another order than the members, and two are no constants")


def apply(text, notes):
    firsts = first_members(text)
    for node in text.of("VarDecl"):
        given = node["inner"][-1] if node.get("init") and node["inner"] else node
        if given["kind"] == "InitListExpr" and lacks_braces(text, given):
            with notes.attempt(NAME, given["b"], given["e"]):
                written = List(text, given, firsts)
                check(text, given, written.values, node.get("storageClass") == "static" or node["up"] is text.tree)
                text.edit(given["b"], given["e"], *written.pieces)
