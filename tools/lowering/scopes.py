"""Declarations in blocks that the language has at file scope alone: `typedef`, `extern`, and functions. They are moved before the function.

C17 6.2.1p4, 6.2.2p4, 6.7.8p3: such a declaration brings no object and no action; what it declares has the same type (and, for `extern` and
functions, the same linkage, since what is visible at file scope is visible there too) wherever it stands. Exact where the name means
nothing else in the places that come to see it. Left: a typedef name, or a tag or enumerator with it, that stands outside of its block; an
`extern` whose name the function declares in another way too; a declaration that names what a block declares; `typedef` of an array whose
size is no constant (6.7.8p3 evaluates it).
"""
import re
from collections import Counter

from lowering.forms import around
from lowering.text import Left, Raw

NAME = "declarations in a block"
DECLARING = ("VarDecl", "ParmVarDecl", "TypedefDecl", "RecordDecl", "EnumDecl", "EnumConstantDecl", "FunctionDecl", "FieldDecl")


def is_moved(node):
    """Whether a block's declaration is one of those that are moved; a typedef may declare a tag on the way."""
    kinds = {it["kind"] for it in node["inner"]}
    if kinds == {"FunctionDecl"} or kinds == {"VarDecl"}:
        return all(it["kind"] == "FunctionDecl" or it.get("storageClass") == "extern" for it in node["inner"])
    return "TypedefDecl" in kinds and kinds <= {"TypedefDecl", "RecordDecl", "EnumDecl"}


def check(text, node, moved):
    function = text.function_of(node)
    block = next(it for it in around(node) if it["kind"] == "CompoundStmt")
    declared = [it for it in text.of(*DECLARING) if it.get("name")]
    here = [it for it in declared if node["b"] <= it["b"] < node["e"]]
    mine = {it["name"] for it in here if it["kind"] not in ("FieldDecl", "ParmVarDecl")}
    within_block = {it["name"] for it in declared if text.function_of(it) is function and it is not function and
                    it["kind"] != "FieldDecl" and not node["b"] <= it["b"] < node["e"] and it["b"] not in moved}
    used = Counter(text.names_in(node["b"], node["e"]))
    used.subtract(it["name"] for it in here if it["kind"] == "FieldDecl")
    used = set(+used) - mine
    if used & within_block:
        raise Left(node["b"], "it names '%s', which a block declares" % sorted(used & within_block)[0])
    if mine & within_block:
        raise Left(node["b"], "'%s' is declared in another way too" % sorted(mine & within_block)[0])
    if any(it["kind"] == "TypedefDecl" for it in node["inner"]):
        outside = text.names_in(0, block["b"]) + text.names_in(block["e"], len(text.text))
        if mine & set(outside):
            raise Left(node["b"], "'%s' stands outside of the block too" % sorted(mine & set(outside))[0])
        if sum(it["kind"] in DECLARING and it.get("name") in mine for it in text.nodes) > len(node["inner"]) + len(mine):
            raise Left(node["b"], "a name of it is declared again")
        if re.search(r"\[[^\]\d]", " ".join(it["type"]["qualType"] for it in node["inner"] if it["kind"] == "TypedefDecl")):
            raise Left(node["b"], "an array's size is no constant")


def apply(text, notes):
    statements = [it for it in text.of("DeclStmt") if it["inner"]]
    moved = {inner["b"] for it in statements if is_moved(it) for inner in it["inner"] if inner["kind"] in ("TypedefDecl", "RecordDecl", "EnumDecl")}
    for node in statements:
        if is_moved(node):
            with notes.attempt(NAME, node["b"]):
                check(text, node, moved)
                text.before(node, Raw(node["b"], node["e"]))
                text.blank(node["b"], node["e"])
        elif any(it["kind"] in ("TypedefDecl", "FunctionDecl") or it.get("storageClass") == "extern" for it in node["inner"]):
            notes.leave(NAME, Left(node["b"], "a declaration of several kinds"))
