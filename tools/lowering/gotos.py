"""goto and labels.

C17 6.8.6.1p2: a jump to a label of a block that is around it. The statements of that block from the first label or jump on to the last become
those of a loop round a `switch`, whose cases stand where the labels stood; a jump sets the number of its case and begins the loop anew. What a
jump leaves ends as a `break` or `continue` ends it (6.2.4p6), and the block itself is not left, since the objects that are declared between
labels are declared before the loop: they live as long as before, and keep their values over a jump. Reaching their declarations stores their
initializers, as an assignment does. Jumps that leave loops set a flag that each loop on the way asks.
Left: a jump into a block; a label that stands in no block directly, or in that of a `switch`; and, between the labels, a declaration without
initializer that a jump may reach again (6.2.4p6 makes it indeterminate then), of a const, static or array object with an initializer, of a
list, of a type, or of a name that stands there before.
"""
import re

from lowering.forms import LOOPS, around, declare, is_const, writes
from lowering.text import Left

NAME = "goto"
# One block of a function at a time.
TIMES = 60


def innermost(statement, kinds, end):
    """The nearest statement of these kinds around another one, up to a block; None where there is none."""
    for outer in around(statement):
        if outer is end or outer["kind"] in kinds:
            return None if outer is end else outer
    return None


class Block:
    """A block that has labels of its own."""

    def __init__(self, text, node, labels, function):
        self.text, self.node, self.items = text, node, node["inner"]
        self.labels = {it["declId"]: it for it in labels}
        self.jumps = [(it, self.index_of(it)) for it in text.of("GotoStmt") if it["targetLabelDeclId"] in self.labels]
        self.function = function
        self.where = {key: self.index_of(it) for key, it in self.labels.items()}
        self.wrapped, self.out = {}, None

    def index_of(self, node):
        """The number of the item that a node stands in."""
        inner = node
        for outer in around(node):
            if outer is self.node:
                return next(index for index, it in enumerate(self.items) if it is inner)
            inner = outer
        raise Left(node["b"], "it leads into a block")

    def write(self):
        used = {it["targetLabelDeclId"] for it, _ in self.jumps}
        for key in set(self.labels) - used:
            self.replace_label(self.labels[key], "")
        if not used:
            return
        self.check()
        places = [self.where[key] for key in used] + [index for _, index in self.jumps]
        self.first, self.last = min(places), max(places)
        self.number = {key: index + 1 for index, key in enumerate(it for it in self.labels if it in used)}
        self.end = len(self.number) + 1
        self.at, self.go = self.text.name("at"), self.text.name("go")
        for key in self.number:
            self.replace_label(self.labels[key], "case %d: ;" % self.number[key])
        for jump, _ in self.jumps:
            self.jump(jump)
        self.leave()
        for outer, words in self.wrapped.values():
            end = self.text.end_of(outer)
            self.text.edit(outer["b"], end, "{ ", (outer["b"], end), " ", " ".join(sorted(words)), " }")
        self.wrap(self.hoisted())

    def check(self):
        if self.node["up"]["kind"] == "SwitchStmt":
            raise Left(self.node["b"], "a label in the block of a switch")
        for it in self.text.of("CaseStmt", "DefaultStmt"):
            if self.node["b"] <= it["b"] < self.node["e"] and not innermost(it, ("SwitchStmt",), self.node):
                raise Left(it["b"], "a case of a switch around the labels")

    def replace_label(self, label, written):
        colon = next(at for at, token in self.text.tokens(label["b"], label["e"]) if token == ":")
        self.text.edit(label["b"], colon + 1, written)

    def ways(self, statement):
        """The loops and switches to be left, the innermost first, up to the outermost loop; what lies around that is passed by `continue`."""
        ways = []
        for outer in around(statement):
            if outer is self.node:
                break
            if outer["kind"] in LOOPS + ("SwitchStmt",):
                ways.append(outer)
        while ways and ways[-1]["kind"] == "SwitchStmt":
            ways.pop()
        return ways

    def jump(self, jump):
        number = self.number[jump["targetLabelDeclId"]]
        ways, end = self.ways(jump), self.text.past(jump)
        if not ways:
            self.text.edit(jump["b"], end, "{ %s = %d; continue; }" % (self.at, number))
            return
        self.text.edit(jump["b"], end, "{ %s = %d; %s = 1; break; }" % (self.at, number, self.go))
        for outer in ways:
            word = "if (%s) { %s = 0; continue; }" % (self.go, self.go) if outer is ways[-1] else "if (%s) break;" % self.go
            words = self.wrapped.setdefault(outer["id"], (outer, set()))[1]
            words.add(word)

    def leave(self):
        """The break and continue statements between the labels that mean a loop or a switch around the block."""
        begin, end = self.items[self.first]["b"], self.items[self.last]["e"]
        for it in self.text.of("BreakStmt", "ContinueStmt"):
            kinds = LOOPS + (("SwitchStmt",) if it["kind"] == "BreakStmt" else ())
            if begin <= it["b"] < end and not innermost(it, kinds, self.node):
                self.out = self.out or self.text.name("out")
                words = self.out, 1 if it["kind"] == "BreakStmt" else 2, self.at, self.end
                self.text.edit(it["b"], self.text.past(it), "{ %s = %d; %s = %d; continue; }" % words)

    def hoisted(self):
        """The declarations of what is declared between the labels; where it was declared it is assigned to."""
        words = []
        for index in range(self.first, self.last + 1):
            item = self.items[index]
            if item["kind"] != "DeclStmt":
                continue
            spans = [(self.where[jump["targetLabelDeclId"]], at) for jump, at in self.jumps]
            again = any(label <= index <= at for label, at in spans)
            pieces = []
            for it in item["inner"]:
                words.append(self.checked(it, again))
                if it.get("init"):
                    value = it["inner"][-1]
                    pieces += ["%s = " % it["name"], (value["b"], value["e"]), "; "]
            self.text.edit(item["b"], item["e"], *(pieces or [";"]))
        return words

    def checked(self, it, again):
        """The declaration without its initializer."""
        if it["kind"] != "VarDecl" or it.get("storageClass"):
            raise Left(it["b"], "a declaration between labels of what is no automatic object")
        spelled, kind = it["type"]["qualType"], self.text.type_of(it)
        if is_const(self.text, it) or re.search(r"\((unnamed|anonymous)", spelled):
            raise Left(it["b"], "a declaration between labels of a const object, or of a type without a name")
        begin = self.items[self.first]["b"]
        names = self.text.ordinary_names_in(begin, it["loc"]["offset"])
        if it.get("init"):
            value = it["inner"][-1]
            names += self.text.ordinary_names_in(value["b"], value["e"])
            if value["kind"] == "InitListExpr" or kind.endswith("]"):
                raise Left(it["b"], "a list between labels")
            if again and writes(value):
                raise Left(it["b"], "an initializer between labels that has a side effect")
        elif again:
            raise Left(it["b"], "a declaration that a jump may reach again makes the object indeterminate")
        if it["name"] in names:
            raise Left(it["b"], "the name '%s' stands before its declaration" % it["name"])
        return declare(spelled, it["name"]) + "; "

    def wrap(self, words):
        begin, end = self.items[self.first]["b"], self.text.end_of(self.items[self.last])
        flags = "int %s = 0; " % self.at + ("int %s = 0; " % self.go if self.wrapped else "") + ("int %s = 0; " % self.out if self.out else "")
        after = " case %d: ; } break; }" % self.end
        if self.out:
            after += " if (%s == 1) break;" % self.out if innermost(self.node, LOOPS + ("SwitchStmt",), self.function) else ""
            after += " if (%s == 2) continue;" % self.out if innermost(self.node, LOOPS, self.function) else ""
        head = "".join(words) + flags + "for (;;) { switch (%s) { case 0: ; " % self.at
        self.text.edits.insert(0, (begin, -end - 1, -1, end, (head, (begin, end), after)))


def blocks_of(text, function):
    """The blocks with labels, the innermost first, each with its labels."""
    found = {}
    for node in text.of("LabelStmt"):
        if text.function_of(node) is function:
            outer = node["up"]
            while outer["kind"] == "LabelStmt":
                outer = outer["up"]
            if outer["kind"] != "CompoundStmt":
                raise Left(node["b"], "a label that stands in no block directly")
            found.setdefault(outer["id"], (outer, []))[1].append(node)
    return sorted(found.values(), key=lambda it: it[0]["e"] - it[0]["b"])


def apply(text, notes):
    for function in text.functions:
        with notes.attempt(NAME):
            if any(text.function_of(it) is function for it in text.of("IndirectGotoStmt", "AddrLabelExpr", "StmtExpr")):
                raise Left(function["b"], "a computed goto, or a statement in an expression")
            blocks = blocks_of(text, function)
            if blocks:
                Block(text, *blocks[0], function).write()
                for label in blocks[0][1]:
                    notes.used(NAME, label["b"], label["b"])
