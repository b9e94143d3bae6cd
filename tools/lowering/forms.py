"""What several rules ask of an expression or a declaration."""
import re

from lowering.text import IDENTIFIER, Left

LOOPS = ("ForStmt", "WhileStmt", "DoStmt")
WRAPPERS = ("ImplicitCastExpr", "ParenExpr", "ConstantExpr")
TYPE_WORDS = set("struct union enum const volatile restrict unsigned signed char short int long _Bool void".split())


def strip(node):
    """The expression within parentheses and implicit conversions."""
    while node["kind"] in WRAPPERS and node["inner"]:
        node = node["inner"][-1]
    return node


def within(node):
    """A node and all in it, but for operands of sizeof, which are not evaluated (6.5.3.4p2)."""
    waiting = [node]
    while waiting:
        node = waiting.pop()
        yield node
        if node["kind"] != "UnaryExprOrTypeTraitExpr":
            waiting += reversed(node["inner"])


def around(node):
    """The nodes around a node, the nearest first."""
    while node["up"]:
        node = node["up"]
        yield node


def uses_of(text, names):
    """Each place where a function of these names is named, and the call that it is the callee of, or None."""
    for node in text.nodes:
        declared = node.get("referencedDecl", {})
        if node["kind"] == "DeclRefExpr" and declared["kind"] == "FunctionDecl" and declared["name"] in names:
            inner, outer = node, node["up"]
            while outer["kind"] in WRAPPERS:
                inner, outer = outer, outer["up"]
            yield node, outer if outer["kind"] == "CallExpr" and outer["inner"][0] is inner else None


def writes(node):
    """Whether an expression has a side effect of its own: an assignment, ++ or --."""
    return any(it["kind"] == "CompoundAssignOperator" or it.get("opcode") in ("=", "++", "--") or
               it["kind"] in ("StmtExpr", "VAArgExpr") for it in within(node))


def calls(node):
    return any(it["kind"] == "CallExpr" for it in within(node))


def is_constant(node):
    """Whether an expression has a value that nothing can change, and no fault: literals, enumerators, sizeof, addresses of what is
    named, and signs and conversions of those."""
    node, outer = strip(node), node
    kind = node["kind"]
    if kind in ("IntegerLiteral", "CharacterLiteral", "StringLiteral", "UnaryExprOrTypeTraitExpr", "ImplicitValueInitExpr"):
        return True
    if kind == "DeclRefExpr":
        # (the name of an object is read, unless it is an array's)
        return node["referencedDecl"]["kind"] in ("EnumConstantDecl", "FunctionDecl") or decays(outer)
    if kind == "UnaryOperator" and node["opcode"] == "&":
        return strip(node["inner"][0])["kind"] == "DeclRefExpr"
    if kind == "UnaryOperator":
        return node["opcode"] in ("+", "-", "~", "!") and is_constant(node["inner"][0])
    if kind == "CStyleCastExpr":
        return is_constant(node["inner"][-1])
    if kind == "InitListExpr":
        return all(is_constant(it) for it in node["inner"])
    return False


def decays(node):
    """Whether a conversion from an array to a pointer stands above what was stripped."""
    while node["kind"] in WRAPPERS:
        if node.get("castKind") == "ArrayToPointerDecay":
            return True
        node = node["inner"][-1]
    return False


def body_of(function):
    """The block of a function's definition, or None."""
    return next((it for it in function["inner"] if it["kind"] == "CompoundStmt"), None)


def parameters_of(function):
    return [it for it in function["inner"] if it["kind"] == "ParmVarDecl"]


def declare(spelled, name):
    """A declaration of a name with a type, as clang spells the type."""
    spelled = spelled.strip()
    found = re.search(r"\(\*[*\s]*(?:const|volatile|restrict|\s)*", spelled) or re.search(r"(?=\[)|$", spelled)
    return spelled[:found.end()] + " " + name + spelled[found.end():]


def spelling(text, node, function):
    """The type as it may be written before the function."""
    spelled = node["type"]["qualType"]
    if re.search(r"\((unnamed|anonymous)", spelled):
        raise Left(node["b"], "a type without a name")
    names = set(IDENTIFIER.findall(spelled)) - TYPE_WORDS
    if function and any(it.get("name") in names and it["kind"] in ("TypedefDecl", "RecordDecl", "EnumDecl") and
                        text.function_of(it) is function for it in text.nodes):
        raise Left(node["b"], "a type that a block declares")
    return spelled


def is_aggregate(text, node):
    spelled = text.type_of(node)
    return spelled.endswith("]") or re.match(r"(const |volatile )*(struct|union)\b", spelled) is not None and "*" not in spelled


def is_const(text, node):
    """Whether the object itself is const."""
    return re.search(r"\bconst\b", re.sub(r"^.*\*", "", text.type_of(node))) is not None


def unqualified(spelled):
    """A type without the qualifiers of the object itself."""
    if "*" not in spelled:
        return re.sub(r"\b(const|volatile|restrict)\b ?", "", spelled).strip()
    return re.sub(r"\*\s*(const|volatile|restrict|\s)+$", "*", spelled)


def listed(nodes):
    """The pieces of an edit for arguments, each in its line."""
    return [piece for it in nodes for piece in (", ", (it["b"], it["e"]))][1:]
