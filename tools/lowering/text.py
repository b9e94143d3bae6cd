"""A preprocessed text that is written out anew: its places, its lines, clang's tree of it, and edits.

Clang is the only reader: its tree says where each form begins and ends, and of which type it is. Whatever no edit names stays byte
for byte. A piece of the text that is moved, or that stands after something written, is brought to the line that it had (by line feeds, or
by a line marker), so that every token keeps its file and line.
"""
import bisect
import json
import re
import subprocess
from collections import namedtuple

# An extra `;` and `{}` are no C17, and mean nothing else to anyone; the lengths of C17 5.2.4.1 are no constraint.
FLAGS = ["-pedantic-errors", "-fno-builtin", "-Wno-extra-semi", "-Wno-gnu-empty-initializer", "-Wno-overlength-strings"]
MARKER = re.compile(r'^[ \t]*#[ \t]*(\d+)[ \t]+("(?:[^"\\\n]|\\.)*")[^\n]*$', re.M)
TOKEN = re.compile(r"""/\*.*?\*/|//[^\n]*|^[ \t]*\#[^\n]*|"(?:\\.|[^"\\\n])*"|'(?:\\.|[^'\\\n])*'|[A-Za-z_]\w*|\.?\d(?:[eEpP][+-]|[\w.])*|\.\.\.|\S""",
                   re.S | re.M)
LINE = re.compile(r'\n(?:[ \t]*#[ \t]*\d+[ \t]+"[^\n]*)?')
IDENTIFIER = re.compile(r"[A-Za-z_]\w*")


class Refused(Exception):
    """Clang's first word about a text that is no C17."""


class Left(Exception):
    """A form that has no exact rule, or none that is known here to be exact; the place and the reason."""

    def __init__(self, at, reason):
        Exception.__init__(self, reason)
        self.at, self.reason = at, reason


# In the pieces of an edit: from here on the line of this place counts; from here on stands the first line of a file of this name; a part
# of the text, without edits.
At, File, Raw = namedtuple("At", "at"), namedtuple("File", "name"), namedtuple("Raw", "begin end")


def bare(node):
    """Without the node that says that clang has the value."""
    while node["kind"] == "ConstantExpr" and node.get("inner"):
        node = node["inner"][0]
    return node


class Text:
    """A text and clang's tree of it. `nodes` are all nodes in order; a node has `b` and `e`, its bytes, and `up`, the node around it."""

    def __init__(self, text, name, clang):
        self.text, self.edits, self.serial = text, [], 0
        self.marks = [(0, 1, name)] + [(it.end() + 1, int(it[1]), it[2]) for it in MARKER.finditer(text)]
        self.starts = [it[0] for it in self.marks]
        self.lines = [0] + [it.start() + 1 for it in re.finditer("\n", text)]
        self.read(clang)

    def read(self, clang):
        plain = MARKER.sub(lambda it: " " * len(it[0]), self.text)
        flags = ["-std=gnu17" if re.search(r"\btypeof\b", plain) else "-std=c17"] + FLAGS
        words = [clang, "-x", "cpp-output"] + flags + ["-fsyntax-only", "-Winitializer-overrides", "-Xclang", "-ast-dump=json", "-"]
        done = subprocess.run(words, input=plain.encode("latin1"), stdout=subprocess.PIPE, stderr=subprocess.PIPE)
        said = done.stderr.decode("latin1")
        error = re.search(r"^<stdin>:(\d+):\d+: (?:fatal )?error: (.*)$", said, re.M)
        if error:
            raise Refused("%s: %s" % (self.shown(self.lines[min(int(error[1]), len(self.lines)) - 1]), error[2]))
        if done.returncode:
            raise Refused(said.strip().split("\n")[-1][:200])
        self.overridden = [self.lines[int(it[1]) - 1] + int(it[2]) - 1 for it in
                           re.finditer(r"^<stdin>:(\d+):(\d+): warning: initializer.*overrides", said, re.M)]
        self.tree = json.loads(done.stdout)
        self.nodes, self.types = [], {}
        self.number(self.tree, None)
        self.tops = [it for it in self.tree.get("inner", []) if it["b"] >= 0 and not it.get("isImplicit")]
        self.functions = [it for it in self.tops if it["kind"] == "FunctionDecl"]
        self.defined = {it["name"]: it for it in self.functions if any(inner["kind"] == "CompoundStmt" for inner in it["inner"])}
        # What each typedef name of the text stands for, where it has one meaning alone. A type without a tag is spelled there as if it had the
        # name for its tag: so what comes of it says which kind of type it is, and is not written anywhere.
        for node in self.of("TypedefDecl"):
            meant = node["type"].get("desugaredQualType", node["type"]["qualType"])
            meant = node["type"]["qualType"] if meant == node["name"] else meant
            self.types[node["name"]] = meant if self.types.get(node["name"], meant) == meant else None

    def number(self, root, up):
        waiting = [(root, up)]
        while waiting:
            node, up = waiting.pop()
            around = node.get("range", {})
            begin, end = around.get("begin", {}), around.get("end", {})
            node["b"], node["e"] = begin.get("offset", -1), end.get("offset", -1) + end.get("tokLen", 0)
            node["up"] = up
            # (a filler of the rest of an array stands before the elements that are written)
            node["inner"] = [bare(it) for it in node.get("inner", node.get("array_filler", [])[1:]) if it.get("kind")]
            self.nodes.append(node)
            waiting += [(it, node) for it in reversed(node["inner"])]

    def of(self, *kinds):
        """The nodes of these kinds, in order."""
        return [it for it in self.nodes if it["kind"] in kinds]

    # ---- places and lines

    def line(self, at):
        """The line, and the file's name in quotes, of a place."""
        start, line, name = self.marks[bisect.bisect_right(self.starts, at) - 1]
        return line + bisect.bisect_left(self.lines, at + 1) - bisect.bisect_left(self.lines, start + 1), name

    def shown(self, at):
        line, name = self.line(at)
        return "%s:%d" % (name[1:-1], line)

    def part(self, node):
        return self.text[node["b"]:node["e"]]

    def past(self, node, mark=";"):
        """The place after the `;` that comes after a node."""
        found = re.compile(r"(?:\s|/\*.*?\*/|//[^\n]*|^[ \t]*#[^\n]*)*" + re.escape(mark), re.S | re.M).match(self.text, node["e"])
        if not found:
            raise Left(node["b"], "it does not end with '%s'" % mark)
        return found.end()

    def end_of(self, statement):
        """The place after a statement, its `;` with it."""
        kind = statement["kind"]
        if kind in ("CompoundStmt", "DeclStmt", "NullStmt"):
            return statement["e"]
        if kind in ("IfStmt", "ForStmt", "WhileStmt", "SwitchStmt", "LabelStmt", "CaseStmt", "DefaultStmt"):
            return self.end_of(statement["inner"][-1])
        return self.past(statement)

    def tokens(self, begin, end):
        """The tokens between two places: place and text; neither comments nor markers."""
        for it in TOKEN.finditer(self.text[:end], begin):
            if not it[0].startswith(("/*", "//")) and not it[0].lstrip(" \t").startswith("#"):
                yield it.start(), it[0]

    def names_in(self, begin, end):
        return [token for _, token in self.tokens(begin, end) if IDENTIFIER.match(token)]

    def ordinary_names_in(self, begin, end):
        """The same without tags, members and labels (6.2.3p1)."""
        tokens = [token for _, token in self.tokens(begin, end)]
        return [token for before, token in zip([""] + tokens, tokens) if IDENTIFIER.match(token) and
                before not in ("struct", "union", "enum", ".", "->", "goto")]

    def function_of(self, node):
        while node and node["kind"] != "FunctionDecl":
            node = node["up"]
        return node

    def begin_of_top(self, node):
        """Where the external declaration begins; declarators of one declaration begin at one place."""
        while node["up"] is not self.tree:
            node = node["up"]
        at = node["b"]
        return min([at] + [it["b"] for it in self.tops if it["b"] <= at < it["e"]])

    def name(self, what):
        """A name that stands nowhere in the text: reserved (7.1.3p1), so that no program may have it."""
        while True:
            self.serial += 1
            name = "__pv_%s_%d" % (what, self.serial)
            if name not in self.text:
                return name

    # ---- types

    def plain(self, spelled):
        """A type's spelling without typedef names, where they stand for words alone."""
        for _ in range(20):
            found = next((it for it in IDENTIFIER.finditer(spelled) if self.types.get(it[0]) and
                          not re.search(r"(?:struct|union|enum) $", spelled[:it.start()])), None)
            if not found:
                break
            before, meant, after = spelled[:found.start()], self.types[found[0]], spelled[found.end():]
            is_pointer = meant.endswith("*") and not after.strip(" *const") and "const" not in before
            if not is_pointer and not re.fullmatch(r"[\w ]+", meant):
                break
            spelled = before + meant + after
        return re.sub(r"\benum \w+(?=\s*($|\*))", "int", spelled)

    def type_of(self, node):
        """A node's type, its typedef names replaced."""
        return self.plain(node["type"].get("desugaredQualType", node["type"]["qualType"]))

    # ---- edits

    def edit(self, begin, end, *pieces):
        """Between two places these pieces stand: text, a pair of places (that part of the text, with its edits), or At. Of two edits
        of the same places the later one is made within the earlier one's parts."""
        self.edits.append((begin, -end, len(self.edits), end, pieces))

    def insert(self, at, *pieces):
        """Before what stands at a place, and before every edit that begins there."""
        self.edits.append((at, -len(self.text) - 1, len(self.edits), at, pieces))

    def blank(self, begin, end):
        """Nothing stands there; the lines stay."""
        lines = [(begin + it.start(), begin + it.end()) for it in LINE.finditer(self.text[begin:end])]
        self.edit(begin, end, " ", *lines)

    def before(self, node, *pieces):
        """Before the external declaration, with the line of the node: what is written there."""
        self.insert(self.begin_of_top(node), At(node["b"]), *pieces, " ")

    def render(self):
        self.edits.sort(key=lambda it: it[:3])
        out = Writer(self)
        out.copy(0, len(self.text) + 1, -1)
        return "".join(out.parts)


class Writer:
    """Writes the text with its edits, and keeps count of the line that the next byte has."""

    def __init__(self, text):
        self.source, self.parts, self.now = text, [], text.line(0)

    def copy(self, begin, end, above):
        """The text between two places, with the edits that lie there, but for those that come before the one numbered `above`."""
        edits, at = self.source.edits, begin
        for index in range(max(bisect.bisect_left(edits, (begin,)), above + 1), len(edits)):
            start, _, _, stop, pieces = edits[index]
            if start >= end:
                break
            if start < at or stop > end:
                continue
            self.text(at, start)
            self.pieces(pieces, index)
            at = stop
        self.text(at, min(end, len(self.source.text)))

    def pieces(self, pieces, index):
        for piece in pieces:
            if isinstance(piece, At):
                self.move(self.source.line(piece.at))
            elif isinstance(piece, File):
                self.move((1, '"%s"' % piece.name))
            elif isinstance(piece, Raw):
                self.text(piece.begin, piece.end)
            elif isinstance(piece, tuple):
                self.copy(piece[0], piece[1], index)
            elif piece:
                assert "\n" not in piece
                self.parts.append(piece)

    def text(self, begin, end):
        if begin < end:
            self.move(self.source.line(begin))
            self.parts.append(self.source.text[begin:end])
            self.now = self.source.line(end)

    def move(self, wanted):
        (line, name), (to, file) = self.now, wanted
        if name == file and 0 <= to - line <= 4:
            self.parts.append("\n" * (to - line))
        else:
            begun = not self.parts or "".join(self.parts[-2:]).endswith("\n")
            self.parts.append('%s# %d %s\n' % ("" if begun else "\n", to, file))
        self.now = wanted
