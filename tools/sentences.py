"""The table tools/sentences.txt. For tools/suite and tools/page."""
import os

HERE = os.path.dirname(os.path.realpath(__file__))


def sentences() -> "dict[tuple[str, str], str]":
    """The sentence of each clause and reason, and of each other end and its reason."""
    found = {}
    with open(os.path.join(HERE, "sentences.txt"), encoding="utf-8") as file:
        for line in file:
            if not line.startswith("#"):
                clause, reason, sentence = line.rstrip("\n").split(" ", 2)
                found[clause, reason] = sentence
    return found
