"""The parameters of main.

C17 5.1.2.2.1p2: argv[argc] is null, the strings and the array may be written, and keep what was stored last until the program ends: they
are static objects here, and argc and argv automatic ones of main's outermost block, in whose scope its parameters are (6.2.1p4). 5.1.2.2.3:
`}` of main still answers 0, since the function keeps its name. argv[0] is the source's name without its suffix, the others those of --args.
Left: a main that the program calls or points to itself (its parameters then come from there), other types than `int (int, char **)`, a
third parameter, an array's size in the parameters (6.9.1p10 evaluates it).
"""
import re

from lowering.formats import quoted
from lowering.forms import body_of, declare, parameters_of, unqualified
from lowering.text import Left

NAME = "main's parameters"


def check(text, main):
    if any(it["kind"] == "DeclRefExpr" and it["referencedDecl"].get("name") == "main" and
           it["referencedDecl"]["kind"] == "FunctionDecl" for it in text.nodes):
        raise Left(main["b"], "the program names main itself")
    words = parameters_of(main)
    kinds = [unqualified(text.type_of(it)).replace(" ", "") for it in words]
    if kinds != ["int", "char**"] or not text.plain(main["type"]["qualType"]).startswith("int ("):
        raise Left(main["b"], "main has another type than int (int, char **)")
    if not all(it.get("name") for it in words):
        raise Left(main["b"], "a parameter without a name")


def apply(text, notes):
    mains, main = [it for it in text.functions if it["name"] == "main"], text.defined.get("main")
    if not main or not any(map(parameters_of, mains)):
        return
    if not parameters_of(main):
        raise Left(main["b"], "a declaration of main with parameters, and a definition without")
    check(text, main)
    count, words = parameters_of(main)
    block = body_of(main)
    for it in mains:
        begin = it["loc"]["offset"] + 4
        end = block["b"] if it is main else text.past(it) - 1
        if not re.match(r"\s*\(", text.text[begin:]) or re.search(r"\[[^\]]*[A-Za-z(]", text.text[begin:end]):
            raise Left(it["b"], "main is declared in another way")
        if it is not main and it["type"]["qualType"] == "int ()":
            continue
        text.blank(begin, next(at for at, token in text.tokens(parameters_of(it)[-1]["e"], end) if token == ")") + 1)
        text.insert(begin, "(void)")
        notes.used(NAME, begin)
    given = [notes.program] + notes.arguments
    names = [text.name("argument") for _ in given]
    array = text.name("arguments")
    written = ["static char %s[] = %s; " % pair for pair in zip(names, map(quoted, given))]
    written.append("static char *%s[] = {%s, 0}; " % (array, ", ".join(names)))
    spelled = [declare(it["type"]["qualType"], it["name"]) for it in (count, words)]
    written.append("%s = %d; %s = %s; " % (spelled[0], len(given), spelled[1], array))
    text.insert(block["b"] + 1, " ", *written)
