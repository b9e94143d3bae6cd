"""printf, sprintf, snprintf and puts with a literal format: flags, width, precision, all lengths.

C17 7.21.6.1, 7.21.6.5, 7.21.6.6, 7.21.7.9. A call whose conversions the language has under another name keeps its place, with another format
and, for `hh`, `h` and `ll`, the conversion that p7 asks for. Each other call becomes the call of a function of its own, which stands in the
call's line. That of printf has one parameter an argument, of the argument's promoted type: so the arguments keep their lines, their order and
their (missing) sequence points (6.5.2.2p10), pointers go in flight, and a value that doesn't fit is told as 7.21.6.1p9. It makes the texts of
the numbers, and hands all over to one printf of the language's own: a call that stops has written nothing. Those of sprintf and snprintf
have their arguments in a structure (`shared.py`), and take them in the order of the format.
Left: other formats than literals, conversions of floating-point numbers, wide characters and %n, flags that mean nothing or are undefined
with their conversion (p6), wrong types (they are refused), fewer arguments than conversions, other arguments beyond them than numbers, more
than 4095 characters (p15).
Other than it was: a string with a width or a precision, and each string of sprintf, is read here byte by byte: one that leaves its object is
told by the clause of that access (6.5.3.2p4 in place of 7.1.4p1), in its line and with its reason. Of two strings of one printf that can't be
read, one with a width or a precision is told first. Default places of later objects.
"""
import re

from lowering.forms import listed, strip
from lowering.formats import FLAGS, KINDS, MOST, meant, pieces_of, quoted
from lowering.shared import Shared, called, kind_of, promoted
from lowering.text import Left

NAME = "formats"
# The number of the format among the arguments.
CALLS = {"printf": 0, "sprintf": 1, "snprintf": 2}
GREATEST = {"int": "2147483647", "long": "9223372036854775807", "long long": "9223372036854775807"}


def check_types(text, conversion, given):
    """Each argument has a type that its conversion may take; what depends on the value is told by the run."""
    *amounts, kind = [promoted(text, given[it]) for it in conversion.given]
    if conversion.kind in "sp":
        fits = kind_of(kind) in ((7,) if conversion.kind == "s" else (7, 8))
    elif conversion.narrow or conversion.kind == "c" and not conversion.is_plain:
        fits = kind == "int"
    else:
        fits = kind.replace("unsigned ", "") == KINDS[conversion.length]
    if not fits or any(it != "int" for it in amounts):
        raise Left(conversion.at, "a wrong type for " + conversion.text)


class Function:
    """The function that is written for one call of printf. An @ stands for its name and _ in what is written."""

    def __init__(self, text, shared, pieces, given):
        self.name, self.shared = text.name("printf"), shared
        self.steps, self.format, self.handed = [], "", []
        self.kinds = [promoted(text, it) for it in given]
        for it in pieces:
            if isinstance(it, str):
                self.format += it.replace("%", "%%")
            else:
                self.conversion(it, "@a%d" % it.given[-1], self.kinds[it.given[-1]])

    def written(self):
        words = ", ".join("%s @a%d" % (kind, index) for index, kind in enumerate(self.kinds)) or "void"
        body = "static int %s(%s) { %s return %s }" % (self.name, words, " ".join(self.steps), self.printed())
        return body.replace("@", self.name + "_")

    def printed(self, *more):
        """All that was handed over so far, and a conversion."""
        return "printf(%s);" % ", ".join([quoted(self.format + "".join(more[:1]))] + self.handed + list(more[1:]))

    def hand(self, conversion, value):
        self.format += conversion
        self.handed.append(value)

    def conversion(self, it, value, kind):
        if it.is_plain and not it.narrow:
            self.hand(it.native, "(%s)%s" % (kind.replace("long long", "long"), value) if it.length == "ll" else value)
            return
        width, precision = self.amount(it.width, it.given[0], "0"), self.amount(it.precision, it.given[-2:][0], "-1")
        if it.left and width.startswith("@"):
            self.steps.append("if (%s > 0) %s = -%s;" % (width, width, width))
        elif it.left:
            width = "-" + width
        if it.kind == "c":
            self.padded(width, "%c", value, "1")
        elif it.kind == "s":
            self.string(value, width, precision)
        elif it.kind == "p":
            raise Left(it.at, "the conversion " + it.text)
        else:
            self.number(it, value, kind, width, precision)

    def amount(self, said, given, absent):
        """A width or a precision; one that is an argument is kept within what a conversion need make."""
        self.shared.blanks = max(self.shared.blanks, MOST if said == "*" else int(said or 0))
        if said != "*":
            return absent if said is None else str(int(said or 0))
        name = "@n%d" % given
        self.steps.append("int %s = @a%d; if (%s > %d || %s < -%d) %s_too_long();" % (
            name, given, name, MOST, name, MOST, self.shared.prefix))
        return name

    def number(self, it, value, kind, width, precision):
        name, most = "@b%d" % len(self.steps), 32 + max(MOST if "@" in size else abs(int(size)) for size in (width, precision))
        is_signed = not kind.startswith("unsigned")
        if it.narrow:
            value = "(%s)%s" % (it.narrow, value)
        elif is_signed != (it.kind in "di"):
            # (a call that stops as the conversion does: those before it are looked at first)
            self.steps.append("if (%s %s) %s" % (value, "< 0" if is_signed else "> " + GREATEST[KINDS[it.length]], self.printed("%d")))
        letter, flags = "d" if it.kind == "i" else it.kind, sum(1 << FLAGS.index(flag) for flag in set(it.flags))
        self.steps.append("char %s[%d]; char *%s_t = %s_number(%s + %d, (unsigned long)%s, '%s', %d, %s, %s);" % (
            name, most, name, self.shared.prefix, name, most - 1, value, letter, flags, width, precision))
        self.padded(width, "%s", name + "_t", "(unsigned long)(%s + %d - %s_t)" % (name, most - 1, name))

    def string(self, value, width, precision):
        """Reads the string up to its zero or its precision (p8)."""
        length, buffer = "@l%d" % len(self.steps), "@b%d" % len(self.steps)
        self.steps.append("if (!%s) %s unsigned long %s;" % (value, self.printed("%s", value), length))
        if precision == "-1":
            self.steps.append("for (%s = 0; %s[%s]; %s++) ;" % (length, value, length, length))
        else:
            most = MOST if "@" in precision else int(precision)
            self.steps.append(
                "char {b}[{most} + 1]; for ({l} = 0; ({p} < 0 || {l} < (unsigned long){p}) && {v}[{l}]; {l}++) {{ if ({l} == {most}) "
                "{pv}_too_long(); {b}[{l}] = {v}[{l}]; }} {b}[{l}] = 0;".format(
                    b=buffer, l=length, p=precision, v=value, most=most, pv=self.shared.prefix))
            value = buffer
        self.padded(width, "%s", value, length)

    def padded(self, width, conversion, value, length):
        pad = "%s_pad(%s, %s, %%d)" % (self.shared.prefix, width, length)
        if width != "0":
            self.hand("%s", pad % 0)
        self.hand(conversion, value)
        if width != "0":
            self.hand("%s", pad % 1)


class Rewriter:
    def __init__(self, text, notes):
        self.text, self.notes, self.shared = text, notes, Shared(text, "formatting, 7.21.6.1")

    def call(self, node, name):
        which = CALLS[name]
        given, literal, rest = node["inner"][1:which + 1], node["inner"][which + 1:which + 2], node["inner"][which + 2:]
        written = "".join(token for it in literal for _, token in self.text.tokens(it["b"], it["e"]))
        if not literal or strip(literal[0])["kind"] != "StringLiteral" or re.search(r"\\[uU]", written):
            raise Left(node["b"], "the format of %s is no plain literal" % name)
        pieces, count = pieces_of(meant(written), node["b"])
        conversions = [it for it in pieces if not isinstance(it, str)]
        if name == "printf" and all(it.is_plain and it.length in (None, "l") and it.kind != "i" for it in conversions):
            return
        if len(rest) < count:
            raise Left(node["b"], "fewer arguments than the format takes")
        if any(kind_of(promoted(self.text, it)) not in range(1, 7) for it in rest[count:]):
            raise Left(node["b"], "an argument that no conversion takes, and that is no number")
        for it in conversions:
            check_types(self.text, it, rest)
        if name != "printf":
            self.store(node, name, listed(given), listed(literal), rest)
        elif all(it.is_plain for it in conversions):
            self.rename(literal[0], pieces, rest)
        else:
            written = Function(self.text, self.shared, pieces, rest)
            self.shared.needed(node, "format.c")
            self.text.before(node, written.written())
            self.text.edit(node["b"], node["e"], written.name + "(", *listed(rest), ")")
        self.notes.used("%s of %s" % (NAME, name), node["b"])

    def store(self, node, name, given, literal, rest):
        handed = self.shared.handed(node, rest)
        limit = [", 18446744073709551615u"] if name == "sprintf" else []
        self.text.edit(node["b"], node["e"], self.shared.printing(node, name), "(2, ", *given, *limit, ", ", *literal, ", ", *handed, ")")

    def rename(self, literal, pieces, rest):
        """The format in the language's own words, in its place."""
        self.text.edit(literal["b"], literal["e"], quoted("".join(
            it.replace("%", "%%") if isinstance(it, str) else it.native for it in pieces)))
        for it in pieces:
            if not isinstance(it, str) and (it.narrow or it.length == "ll"):
                value = rest[it.given[-1]]
                kind = it.narrow or promoted(self.text, value).replace("long long", "long")
                self.text.edit(value["b"], value["e"], "(%s)(" % kind, (value["b"], value["e"]), ")")


def apply(text, notes):
    rewriter, kept = Rewriter(text, notes), set()
    for node in text.nodes:
        name = called(node)
        if name in text.defined:
            continue
        if name in CALLS:
            count = len(text.edits)
            with notes.attempt(NAME):
                rewriter.call(node, name)
            if len(text.edits) == count:
                kept.add(name)
        elif name == "puts" and len(node["inner"]) == 2:
            text.edit(node["b"], node["e"], 'printf("%s\\n", ', *listed(node["inner"][1:]), ")")
            notes.used("%s of puts" % NAME, node["b"])
    rewriter.shared.write()
    # Functions with ... that nothing calls any more are declared no more; printf is, where puts became it.
    for node in text.functions:
        if node["name"] in {"sprintf", "snprintf"} - kept - set(text.defined):
            text.blank(node["b"], text.past(node))
        elif node["name"] == "puts" and "puts" not in text.defined:
            text.insert(node["b"], "int printf(const char *, ...); ")
