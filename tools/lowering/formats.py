"""The formats of C17 7.21.6.1: what a literal says, and what each conversion asks of its argument."""
import re

from lowering.text import Left

CONVERSION = re.compile(r"%([-+ #0]*)(\*|\d+)?(?:\.(\*|\d*))?(hh|h|ll|l|j|z|t)?(.)", re.S)
ESCAPE = re.compile(r"\\([0-7]{1,3}|x[0-9a-fA-F]+|.)|([^\\])", re.S)
LETTERS = {"n": "\n", "t": "\t", "a": "\a", "b": "\b", "f": "\f", "r": "\r", "v": "\v"}
# C17 7.21.6.1p15: no conversion need make more characters.
MOST = 4095
# The sizes of the arguments' types by the length modifier: int, long (which is size_t, intmax_t and ptrdiff_t here), long long.
KINDS = {None: "int", "h": "int", "hh": "int", "l": "long", "j": "long", "z": "long", "t": "long", "ll": "long long"}
FLAGS = "-+ #0"
# What means nothing, or is undefined (p4, p6, p7): flags, a precision, a length with other conversions than theirs; and what is left.
LEFT = re.compile(r"(?:[+ ].*[^di]|#.*[^oxX]|0.*[csp]|\..*[cp]|[hljzt].*[csp]|[^diouxXcsp])\Z", re.S)


def meant(literal):
    """The characters of adjacent string literals, up to the first zero: a format ends there (p3)."""
    out = []
    for piece in re.findall(r'"((?:\\.|[^"\\])*)"', literal):
        for it in ESCAPE.finditer(piece):
            escape = it[1]
            if escape is None:
                out.append(it[2])
            elif escape[0] in "01234567":
                out.append(chr(int(escape, 8) % 256))
            elif escape[0] == "x":
                out.append(chr(int(escape[1:], 16) % 256))
            else:
                out.append(LETTERS.get(escape, escape))
    return "".join(out).split("\0")[0]


def quoted(characters):
    """Their literal; what could mean something else in one, or in what is written around it, in octal digits."""
    return '"%s"' % re.sub(r'[^ !#->A-\[\]-~]', lambda it: "\\%03o" % ord(it[0]), characters)


class Conversion:
    """One conversion, and its arguments: their numbers among those after the format."""

    def __init__(self, found, at, count):
        self.text, self.at = found[0], at
        self.flags, self.width, self.precision, self.length, self.kind = found.groups()
        said = self.flags + ("" if self.precision is None else ".") + (self.length or "") + self.kind
        if LEFT.search(said):
            raise Left(at, "the conversion " + self.text)
        if any(it and it.isdigit() and int(it) > MOST for it in (self.width, self.precision)):
            raise Left(at, "more than %d characters of one conversion" % MOST)
        self.given = range(count, count + [self.width, self.precision].count("*") + 1)
        self.left = "-" in self.flags
        # Whether it has no flag, width or precision, and the language has it, by this name or by another one: and what it calls it.
        self.is_plain = not self.flags and self.width is None and self.precision is None and self.kind not in "oX"
        is_long = self.kind not in "csp" and KINDS[self.length] != "int"
        # The type that its length asks for (p7), where that is none of promoted ones.
        narrow = {"h": "short", "hh": "char"}.get(self.length)
        self.narrow = narrow and "%s %s" % ("signed" if self.kind in "di" else "unsigned", narrow)
        self.native = "%" + ("l" if is_long else "") + {"i": "d", "X": "x"}.get(self.kind, self.kind)


def pieces_of(characters, at):
    """Text and conversions in turn; the numbers of the arguments that each takes, and how many all take."""
    pieces, last, count = [], 0, 0
    for found in CONVERSION.finditer(characters):
        pieces.append(characters[last:found.start()] + ("%" if found[0] == "%%" else ""))
        last = found.end()
        if found[0] != "%%":
            pieces.append(Conversion(found, at, count))
            count = pieces[-1].given[-1] + 1
    if re.search("%", CONVERSION.sub("", characters)):
        raise Left(at, "a % without a conversion")
    pieces.append(characters[last:])
    return [it for it in pieces if it], count
