"""What the promises of the programs rest on: the definitions of `specs/` that are reached by name from the contracts of their top calls and of
the laws. tools/documents asks it; it reads the texts of crates/ alone."""
import os
import re
from typing import Iterator, NamedTuple

# The calls whose contracts are the promises of the programs. A law is a public function without a body's work.
TOPS = {
    "pv_serve": ("serve", "serve_calmly", "serve_shipped"),
    "pv_explain": ("new",),
    "pvwhere": ("locate", "locate_calmly"),
    "pv_suite": ("suite", "suite_calmly"),
    "pv_replay": ("replay", "replay_calmly"),
    "pv_step": ("step", "step_calmly"),
    "pv_state": ("state", "state_calmly"),
    "pv_values": ("state_text", "type_name"),
}

# Calls of the libraries that programs of others may rest on; what they promise beyond those is counted by itself.
CALLED = {"pv_exec": ("run",), "pv_serve": ("judge", "check")}

USE = re.compile(r"^(?:ghost )?(?:pub )?use Rattle\.(\w+)\.specs\.([\w.]+)\.\{([^}]*)\}", re.M)
USE_FILE = re.compile(r"^(?:ghost )?use Rattle\.(\w+)\.specs\.([\w.]+) as (\w+)", re.M)
ITEM = re.compile(r"^(?:abbrev |unfoldable |opaque |pub )*(?:(record|data) )?([^\s:(){}]+)(?=[\s:({])")
MUTUAL = re.compile(r"^(?:abbrev |unfoldable |opaque )*mutual$")
WORD = re.compile(r"(?<![^\s()\[\]{},;λ])([^\s()\[\]{},;.:λ]+)")
QUALIFIED = re.compile(r"(?<![\w.])(\w+\.[^\s()\[\]{},;.:λ]+)")
LABEL = re.compile(r"([{;]\s*)[^\s()\[\]{},;.:=]+(\s*=\s)")
# A string, or a comment to the end of the line: two hyphens within a string begin none.
UNREAD = re.compile(r'"(?:[^"\\]|\\.)*"|--.*')
HEADS = ("use ", "pub use ", "pub mod ", "mod ", "infix", "--", "{-", "#")


class Name(NamedTuple):
    """A definition: `name` in crates/CRATE/specs/FILE.antt."""

    crate: str
    file: str
    name: str

    def __str__(self) -> str:
        return f"{self.crate}/{self.file}.{self.name}"


class Definition(NamedTuple):
    name: Name
    line: int
    lines: int
    words: set[str]


class Specs:
    """All definitions of specs/, which names each of them uses, and what is reached from some."""

    def __init__(self, top: str) -> None:
        self.top = top
        self.found: dict[Name, Definition] = {}
        self.brought: dict[tuple[str, str], dict[str, Name]] = {}
        self.crates = crates_of(top)
        for crate in self.crates:
            for file, path in spec_files(f"{top}/crates/{crate}/specs"):
                self.read(crate, file, path)

    def read(self, crate: str, file: str, path: str) -> None:
        with open(path, encoding="utf-8") as it:
            text = it.read()
        self.brought[crate, file] = imports(text)
        for names, line, block in blocks(text):
            words = words_of(block)
            lines = sum(1 for it in block.split("\n") if it.strip())
            for at, name in enumerate(names):
                # (a block of several names is counted with the first)
                made = Definition(Name(crate, file, name), line, 0 if at else lines, words | set(names))
                self.found.setdefault(made.name, made)
                for part in parts_of_operator(name):
                    self.brought[crate, file].setdefault(part, made.name)

    def named(self, crate: str, file: str, word: str) -> Name | None:
        """Returns the definition that the word stands for in that file."""
        own = Name(crate, file, word)
        if own in self.found:
            return own
        brought = self.brought.get((crate, file), {})
        there = brought.get(word) or qualified(brought, word)
        if there is None or there in self.found or (there.crate, there.file) == (crate, file):
            return there if there in self.found else None
        return self.named(there.crate, there.file, there.name)

    def reached(self, first: set[Name]) -> set[Name]:
        seen, left = set(), list(first)
        while left:
            name = left.pop()
            if name in seen:
                continue
            seen.add(name)
            for word in self.found[name].words:
                other = self.named(name.crate, name.file, word)
                if other is not None and other not in seen:
                    left.append(other)
        return seen

    def promised(self, calls: dict[str, tuple[str, ...]] | None = None) -> set[Name]:
        """Returns the definitions that the contracts of the top calls and of the laws name, or those of these calls alone."""
        first = set()
        for crate in self.crates:
            for at, _, files in os.walk(f"{self.top}/crates/{crate}/src"):
                for name in sorted(files):
                    with open(f"{at}/{name}", encoding="utf-8") as it:
                        text = it.read()
                    brought = imports(text)
                    for call, contract, is_law in contracts(text):
                        if call in (TOPS if calls is None else calls).get(crate, ()) or (is_law and calls is None):
                            found = [brought.get(it) or qualified(brought, it) for it in words_of(contract)]
                            first |= {self.named(*it) for it in found if it} - {None}
        return first

    def files(self, crate: str) -> dict[str, list[Name]]:
        """Returns the definitions of each file of the crate's specs/, in their order."""
        told: dict[str, list[Name]] = {}
        for name, made in sorted(self.found.items(), key=lambda it: it[1].line):
            if name.crate == crate:
                told.setdefault(name.file, []).append(name)
        return dict(sorted(told.items()))


def words_of(text: str) -> set[str]:
    """Returns the words by which a text may name definitions."""
    text = LABEL.sub(r"\1 \2", text)
    return {*WORD.findall(text), *QUALIFIED.findall(text)}


def qualified(brought: dict[str, Name], word: str) -> Name | None:
    """Returns what `file.name` stands for, where a file was brought in under that name."""
    file, dot, name = word.partition(".")
    there = brought.get(f"{file}.") if dot else None
    return there and Name(there.crate, there.file, name)


def crates_of(top: str) -> list[str]:
    """Returns the names of crates.txt, in order."""
    with open(f"{top}/crates.txt", encoding="utf-8") as it:
        return [line.split(":")[0] for line in it if ":" in line and not line.startswith("#")]


def spec_files(folder: str) -> Iterator[tuple[str, str]]:
    for at, folders, names in os.walk(folder):
        folders.sort()
        for name in sorted(names):
            path = f"{at}/{name}"
            if name.endswith(".antt") and path != f"{folder}/Lib.antt":
                yield os.path.relpath(path, folder)[: -len(".antt")].replace("/", "."), path


def imports(text: str) -> dict[str, Name]:
    """Returns which definition of this repository each name that is brought in stands for."""
    told = {}
    for crate, file, names in USE.findall(text):
        if file.startswith("declared"):
            continue
        for part in filter(None, map(str.strip, names.split(","))):
            name, _, other = part.partition(" as ")
            for word in (other.strip() or name, *parts_of_operator(name)):
                told[word] = Name(crate, file, name)
    for crate, file, word in USE_FILE.findall(text):
        if not file.startswith("declared"):
            told[f"{word}."] = Name(crate, file, "")
    return told


def parts_of_operator(name: str) -> list[str]:
    """Returns the words by which an operator is used; steps below one another (`do`) use `>>=` where they have a name (`x ← a`), else `>>`."""
    parts = [it for it in name.split("◌") if it] if "◌" in name else []
    more = {">>=": "←", ">>": "do"}
    return parts + [more[it] for it in parts if it in more]


def blocks(text: str) -> Iterator[tuple[list[str], int, str]]:
    """Yields each definition of a file, or each group that is one: its names, its first line, its text without comments and strings."""
    rows = [UNREAD.sub(lambda it: '""' if it[0][0] == '"' else "", row).rstrip() for row in text.split("\n")]
    starts = [at for at, row in enumerate(rows) if row and not row.startswith((" ", *HEADS))]
    groups: list[tuple[list[str], int, list[str]]] = []
    for at, start in enumerate(starts):
        end = starts[at + 1] if at + 1 < len(starts) else len(rows)
        # (what stands at the margin behind a definition, an import say, is no part of it)
        body = [rows[start], *(it for it in rows[start + 1 : end] if it.startswith(" "))]
        if MUTUAL.match(rows[start]):
            names = [ITEM.match(it.strip())[2] for it in body if re.match(r"  (pub |record |data )+\S+", it)]
            groups.append((names, start + 1, body))
            continue
        name = ITEM.match(rows[start])
        if name is None:
            continue
        if groups and continues(rows[start], name[2], groups[-1][0]):
            groups[-1][2].extend(body)
        else:
            groups.append(([name[2], *made_by(name[1], body)], start + 1, body))
    for names, line, body in groups:
        yield names, line, "\n".join(body)


def continues(row: str, name: str, names: list[str]) -> bool:
    """Returns whether the row is an equation of what stands above it."""
    return name in names or any(part in row.split() for it in names for part in parts_of_operator(it))


def made_by(kind: str | None, body: list[str]) -> list[str]:
    """Returns the constructors of a data type: each stands with the type."""
    if kind != "data":
        return []
    return [it[1] for it in (re.match(r"  (?:pub )?([^\s:(){}]+)(?= .*:| *:)", row) for row in body[1:]) if it]


def contracts(text: str) -> Iterator[tuple[str, str, bool]]:
    """Yields each public function with its contract, and whether it is a law: it has clauses and does nothing."""
    rows = text.split("\n")
    for at, row in enumerate(rows):
        name = re.match(r"\s*pub fn (\w+)", row)
        if name is None:
            continue
        end = next((it for it in range(at + 1, len(rows)) if re.fullmatch(r"\s*\{\}?", rows[it]) or re.match(r"\s*pub fn ", rows[it])), len(rows))
        contract = "\n".join(it.partition("//")[0] for it in rows[at:end])
        is_law = end < len(rows) and rows[end].strip() == "{}" and "ensures" in contract
        yield name[1], contract, is_law
