"""For tools/page: what a journal says of a run's storage instances and pairs (docs/FORMATS.md, Journals)."""
from dataclasses import dataclass, field
from typing import Optional

LONGEST = 65536  # events: of a longer run the first ones are told


@dataclass
class Instance:
    """A storage instance: where it lies, and the turns at which it was made, exposed and ended."""

    id: str
    base: int
    size: int
    made: int
    exposed: Optional[int] = None
    ended: Optional[int] = None
    lines: list[str] = field(default_factory=list)

    @property
    def name(self) -> str:
        return self.id.rpartition("#")[0]

    @property
    def number(self) -> str:
        return self.id.rpartition("#")[2]

    @property
    def end(self) -> int:
        return self.base + self.size

    def lives_at(self, turn: int) -> bool:
        """Whether it lives behind all events of this turn."""
        return self.made <= turn and (self.ended is None or turn < self.ended)


@dataclass
class Use:
    """A use of a pair that had both candidates: the test that was made, and which of them passed it."""

    turn: int
    test: str
    left: list[str]
    line: str


@dataclass
class Pair:
    """A pointer that was made where one instance ends and another begins, and what became of it."""

    number: int
    turn: int
    address: int
    low: str
    high: str
    line: str
    uses: list[Use] = field(default_factory=list)

    @property
    def settled(self) -> Optional[Use]:
        """The use that left one candidate alone."""
        return next((use for use in self.uses if len(use.left) == 1), None)


class Journal:
    """The instances of a run in the order of their making, its pairs, and its fault's turn."""

    def __init__(self, text: str):
        self.lines = [line for line in text.splitlines() if not line.startswith("events ")]
        self.instances: dict[str, Instance] = {}
        self.pairs: list[Pair] = []
        self.fault: Optional[int] = None
        for line in self.lines:
            self.take(line)

    @property
    def is_cut(self) -> bool:
        """Whether the run may have had more events than are told."""
        return len(self.lines) >= LONGEST

    @property
    def turns(self) -> list[int]:
        """The turns at which something happened, in order, none twice."""
        return sorted({turn_of(line) for line in self.lines})

    def take(self, line: str) -> None:
        kind, subject, *rest = line.split(" ")
        said = dict(word.split("=", 1) for word in rest)
        turn = turn_of(line)
        if kind == "create":
            self.instances[subject] = Instance(subject, int(said["base"], 16), int(said["size"]), turn, lines=[line])
        elif kind in ("expose", "end"):
            instance = self.instances[subject]
            instance.lines.append(line)
            if kind == "end":
                instance.ended = turn
            else:
                instance.exposed = turn
        elif kind == "pair":
            address = int(said["address"], 16)
            self.pairs.append(Pair(int(subject), turn, address, said["low"], said["high"], line))
        elif kind == "use":
            self.pairs[int(subject) - 1].uses.append(Use(turn, said["test"], said["left"].split(","), line))
        elif kind == "fault":
            self.fault = turn

    def live_at(self, turn: int) -> list[Instance]:
        """The instances that live behind all events of this turn, in the order of their making."""
        return [it for it in self.instances.values() if it.lives_at(turn)]


def turn_of(line: str) -> int:
    """The turn of an event's line."""
    return int(line.partition("turn=")[2].partition(" ")[0])
