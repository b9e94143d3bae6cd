"""Definitions of the old style, and declarations without a prototype of functions that are defined here: with a prototype.

C17 6.9.1p7, p10 and 6.5.2.2p6: a call without a prototype promotes its arguments, and is undefined unless they are as many as the
parameters, and of compatible types. With the prototype each is converted to its parameter, as by assignment, which does what 6.9.1p10 does.
Exact where each call in the text hands over as many arguments as there are parameters, each of its parameter's promoted type (an integer of
the other sign only where it is a constant that both have; `void *` and character pointers for each other). The promotion of a character or a
short is an operation of its own, so it is written: `+(c)`. Left: a call that doesn't fit, a function whose address is taken, a parameter of
type _Bool.
"""
import re

from lowering.forms import body_of, declare, parameters_of, strip, unqualified, uses_of
from lowering.text import Left

NAME = "definitions of the old style"
SMALL = ("char", "signed char", "unsigned char", "short", "unsigned short", "_Bool")


def promoted(spelled):
    return "int" if spelled in SMALL else spelled


def before_conversion(given):
    """The argument as it is written; clang converts it to the parameter of a definition that it has seen."""
    while given["kind"] == "ImplicitCastExpr" and given["castKind"] in ("IntegralCast", "BitCast", "NullToPointer", "NoOp", "IntegralToBoolean"):
        given = given["inner"][0]
    return given


def fits(text, given, parameter):
    """Whether an argument of a call without a prototype has a type that is compatible with its parameter's."""
    have, want = promoted(unqualified(text.type_of(given))), promoted(unqualified(text.type_of(parameter)))
    if have.replace(" ", "") == want.replace(" ", ""):
        return True
    characters = re.compile(r"(const )?((un)?signed )?(char|void) \*$")
    if characters.match(have) and characters.match(want):
        return "void" in have + want or have.replace("const ", "") == want.replace("const ", "")
    greatest = {"int": 2147483647, "long": 9223372036854775807, "long long": 9223372036854775807}.get(want.replace("unsigned ", ""), 0)
    return strip(given)["kind"] == "IntegerLiteral" and have.replace("unsigned ", "") == want.replace("unsigned ", "") and \
        int(strip(given)["value"]) <= greatest


def check_calls(text, definition, parameters, is_old):
    for node, call in uses_of(text, (definition["name"],)):
        if not call:
            raise Left(node["b"], "the address of '%s' is taken" % definition["name"])
        given = call["inner"][1:]
        if len(given) != len(parameters):
            raise Left(call["b"], "a call with another number of arguments")
        if re.search(r"\(\)", node["type"]["qualType"]) or is_old:
            for it, parameter in zip(map(before_conversion, given), parameters):
                kind = unqualified(text.type_of(parameter))
                if kind == "_Bool" or not is_old and kind in SMALL or not fits(text, it, parameter):
                    raise Left(it["b"], "an argument whose type is not its parameter's")
                if unqualified(text.type_of(it)) in SMALL:
                    text.edit(it["b"], it["e"], "+(", (it["b"], it["e"]), ")")


def head_of(function, parameters):
    if any(re.search(r"\(anonymous|\(unnamed", it["type"]["qualType"]) for it in parameters):
        raise Left(function["b"], "a parameter's type has no name")
    return "(%s)" % ", ".join(declare(it["type"]["qualType"], it["name"]) for it in parameters)


def apply(text, notes):
    for name, definition in text.defined.items():
        parameters = parameters_of(definition)
        # (the parameters' types stand after the closing parenthesis)
        is_old = any(token == ";" for _, token in text.tokens(definition["loc"]["offset"], body_of(definition)["b"]))
        bare = [it for it in text.functions if it["name"] == name and it is not definition and "()" in it["type"]["qualType"]]
        if parameters and (is_old or bare):
            with notes.attempt(NAME):
                check_calls(text, definition, parameters, is_old)
                for it in bare + ([definition] if is_old else []):
                    write(text, notes, it, head_of(definition, parameters))


def write(text, notes, function, head):
    begin, body = function["loc"]["offset"] + function["loc"]["tokLen"], body_of(function)
    found = re.compile(r"\s*\(" if body else r"\s*\(\s*\)").match(text.text, begin)
    if not found:
        raise Left(function["b"], "its name does not stand before its parameters")
    text.blank(begin, body["b"] if body else found.end())
    text.insert(begin, head)
    notes.used(NAME, begin)
