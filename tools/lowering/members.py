"""Members without a name.

C17 6.7.2.1p13: the members of a structure or union without a tag that is a member without a declarator are members of the one around it. It
gets a name here, and each access goes by that name: layout (6.7.2.1p15) and the objects accessed are the same, since the new name denotes
the same subobject. A member is selected in two steps, the first of which has a smaller address: one that fails fails likewise.
Other than it was: `layout` shows the invented name.
"""
from lowering.text import Left

NAME = "members without a name"


def apply(text, notes):
    names = {}
    for node in text.nodes:
        if node["kind"] == "FieldDecl" and not node.get("name") and not node.get("isBitfield"):
            records = [it for it in node["up"]["inner"] if it["kind"] == "RecordDecl"]
            record = next((it for it in records if it["b"] <= node["b"] < it["e"] or node["b"] <= it["b"] < node["e"]), None)
            if record:
                names[node["id"]] = text.name("member")
                end = next(at for at, token in text.tokens(record["e"], node["up"]["e"]) if token == ";")
                text.insert(end, " " + names[node["id"]])
                notes.used(NAME, node["b"])
    for node in text.nodes:
        if node["kind"] == "MemberExpr" and node.get("name") and node["inner"][0]["kind"] == "MemberExpr":
            path, inner = [], node["inner"][0]
            while inner["kind"] == "MemberExpr" and not inner.get("name"):
                path.append(names.get(inner.get("referencedMemberDecl")))
                inner = inner["inner"][0]
            if None in path:
                raise Left(node["b"], "a member whose structure was not met")
            if path:
                text.insert(node["range"]["end"]["offset"], "".join(it + "." for it in reversed(path)))
