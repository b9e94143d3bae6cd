"""The rules in their order, and what is said of them."""
import contextlib
import copy
import os
import re
import shutil

from lowering import arguments, gotos, initializers, literals, members, oldstyle, printf, prune, scopes, small, variadic
from lowering.text import Left, Refused, Text

# The project's own headers: of what is written out in them the number is told, and no line.
HEADERS = os.path.realpath(os.path.join(os.path.dirname(os.path.realpath(__file__)), "..", "..", "include"))

# Each is asked once, of the text that the rules before it wrote.
RULES = {
    "prune": prune,
    "spellings": small.Spellings(),
    "assertions": small.Assertions(),
    "semicolons": small.Semicolons(),
    "scopes": scopes,
    "oldstyle": oldstyle,
    "main": arguments,
    "alignof": small.Alignments(),
    "promises": small.Promises(),
    "initializers": initializers,
    "literals": literals,
    "members": members,
    "func": small.FunctionNames(),
    "values": small.LibraryValues(),
    "switch": small.Switches(),
    "variadic": variadic,
    "goto": gotos,
    "printf": printf,
}


def find_clang():
    names = [os.environ["CLANG"]] if os.environ.get("CLANG") else ["clang"] + ["clang-%d" % it for it in range(22, 13, -1)]
    return next(filter(None, map(shutil.which, names)), None)


class Notes:
    """What is said on standard error, and what main is given."""

    def __init__(self, program, arguments):
        self.program, self.arguments, self.text = program, arguments, None
        self.lines, self.left = {}, []

    def used(self, name, begin, end=None):
        """A rule was used at these places."""
        first, file = self.text.line(begin)
        last = self.text.line(end)[0] if end is not None else first
        self.lines.setdefault(name, {}).setdefault(file[1:-1], []).append((first, max(first, last)))

    @contextlib.contextmanager
    def attempt(self, name, *places):
        """One form, used at these places; where it is left, the edits made for it are taken back."""
        count = len(self.text.edits)
        try:
            yield
        except Left as left:
            del self.text.edits[count:]
            self.leave(name, left)
        else:
            if places:
                self.used(name, *places)

    def leave(self, name, left):
        sentence = "left: %s: %s: %s" % (name, self.text.shown(left.at), left.reason)
        if sentence not in self.left:
            self.left.append(sentence)

    def sentences(self):
        for name, files in self.lines.items():
            places = []
            for file, spans in files.items():
                own = os.path.realpath(os.path.dirname(file)) == HEADERS
                places.append("%s (%d)" % (os.path.basename(file), len(spans)) if own else file + ":" + ",".join(joined(spans)))
            yield "lowered: %s: %s" % (name, " ".join(places))
        yield from self.left


def joined(spans):
    """Lines and ranges of lines, each once and in order."""
    done = []
    for first, last in sorted(spans):
        if done and first <= done[-1][1] + 1:
            done[-1][1] = max(done[-1][1], last)
        else:
            done.append([first, last])
    return ["%d" % first if first == last else "%d-%d" % (first, last) for first, last in done]


def ask(rule, tree, notes, read):
    """What one rule writes, read anew; None where it writes nothing, or the rule itself, or clang of what it wrote, says no."""
    notes.text, lines = tree, copy.deepcopy(notes.lines)
    try:
        rule.apply(tree, notes)
        return read(tree.render()) if tree.edits else None
    except Left as left:
        notes.leave(rule.NAME, left)
    except Refused as refused:
        notes.left.append("left: %s: what the rule wrote is refused: %s" % (rule.NAME, refused))
    except (LookupError, ValueError, TypeError, AttributeError, AssertionError, StopIteration, RecursionError) as error:
        # (a fault of the rule's own leaves the text as it is, and is told)
        notes.left.append("left: %s: the rule itself failed: %r" % (rule.NAME, error))
    tree.edits, notes.lines = [], lines
    return None


def lower(text, file, clang, notes, wanted=None):
    def read(written):
        return Text(written, '"%s"' % re.sub(r'["\\]', lambda it: "\\" + it[0], file), clang)

    try:
        tree = read(text)
    except Refused as refused:
        notes.left.append("left as it is, since clang says: %s" % refused)
        return text
    for name, rule in RULES.items():
        for _ in range(getattr(rule, "TIMES", 1) if wanted is None or name in wanted else 0):
            written = ask(rule, tree, notes, read)
            if not written:
                break
            tree = written
    return tree.text
