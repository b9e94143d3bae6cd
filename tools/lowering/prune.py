"""External declarations that nothing reaches from main stand no longer there.

C17 5.1.2.2.1: the program is what `main` does. 6.9p2 to p5: an external declaration that no expression names and no declaration needs
has no part in it. Exact: what is reached is found by names, each spelling in the text of a declaration that is reached taking all
external declarations with it that declare that spelling (as a function, an object, a type, a tag or an enumerator); so more is kept than
is needed, and never less. A `_Static_assert` that holds (clang looked at it) declares nothing (6.7.10p3).
Other than it was: the default places of static objects and literals (they are numbered by what is there), and with them `storage`, where
an object that nothing reaches is too large. Left: a text without main.
"""
import re

from lowering.forms import body_of

NAME = "what main does not reach"
TAGS = ("RecordDecl", "EnumDecl", "EnumConstantDecl")


def names_of(node):
    """The names that an external declaration brings: its own, and those of tags and enumerators within tags."""
    yield node.get("name")
    for it in node["inner"]:
        if it["kind"] in TAGS:
            yield from names_of(it)


def spans_of(text):
    """The external declarations: begin, end, and the nodes that clang made of each (one a declarator)."""
    spans = []
    for node in sorted(text.tops, key=lambda it: it["b"]):
        if spans and node["b"] < spans[-1][1]:
            spans[-1][1] = max(spans[-1][1], node["e"])
            spans[-1][2].append(node)
        else:
            spans.append([node["b"], node["e"], [node]])
    for index, span in enumerate(spans):
        end = spans[index + 1][0] if index + 1 < len(spans) else len(text.text)
        if not any(it["kind"] == "FunctionDecl" and body_of(it) or it["kind"] == "EmptyDecl" for it in span[2]):
            span[1] = next((at + 1 for at, token in text.tokens(span[1], end) if token == ";"), span[1])
    return spans


def reached_from(spans, names, roots):
    """The numbers of the declarations that declare one of the roots, or a name that stands in one that is reached."""
    by_name = {}
    for index, (_, _, nodes) in enumerate(spans):
        for name in {name for it in nodes for name in names_of(it)}:
            by_name.setdefault(name, []).append(index)
    reached, waiting = set(), list(roots)
    while waiting:
        for index in by_name.pop(waiting.pop(), ()):
            if index not in reached:
                reached.add(index)
                waiting += names[index]
    return reached


def apply(text, notes):
    if "main" not in text.defined:
        return
    spans = spans_of(text)
    names = [set(text.names_in(begin, end)) for begin, end, _ in spans]
    reached = reached_from(spans, names, ["main"])
    for index, (begin, end, _) in enumerate(spans):
        if index not in reached and re.search(r"\w", text.text[begin:end]):
            text.blank(begin, end)
            notes.used(NAME, begin, end)
