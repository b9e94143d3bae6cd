"""For tools/page: memory over turns as a picture in SVG.

Addresses go upward, in pixels, and turns to the right, in hundredths of the width, so that the picture fits any page.
A bar is the life of a storage instance, hatched from its exposure on. The marks lie where the events of the journal do.
"""
import math
from bisect import bisect_right
from collections import Counter
from itertools import accumulate, pairwise
from typing import Iterable

from page_journal import Instance, Journal, Pair
from page_text import counted, tag

MOST_BARS = 4000  # of more instances those are drawn that ended last
FULL_ROWS = 40  # where there are more ranges of addresses, each is lower
ROW, GAP, LEAST_ROW = 18, 9, 4  # pixels
HEAD, FOOT = 18, 20  # pixels for the flag of a fault, and for the numbers of turns
DIGIT = 6.7  # pixels of an address, a digit
LABEL = 12  # pixels between two addresses that are told
TICK = 9  # hundredths between two turns that are told


class Turns:
    """Where turns lie, from 0 (left) to 100 (right). What turn n leaves stands from at(n) to at(n + 1).

    Turns at which nothing happens are pressed together: n of them have the room of 1 + log2(n).
    """

    def __init__(self, turns: Iterable[int], last: int):
        self.last = last
        self.turns = sorted({0, *turns, last, last + 1})
        widths = [1 + math.log2(after - before) for before, after in pairwise(self.turns)]
        places = list(accumulate(widths, initial=0.0))
        self.places = [100 * place / places[-1] for place in places]

    def at(self, turn: int) -> float:
        index = min(bisect_right(self.turns, turn), len(self.turns) - 1)
        before, after = self.turns[index - 1], self.turns[index]
        left, right = self.places[index - 1], self.places[index]
        return left + (right - left) * (turn - before) / (after - before)

    def ticks(self) -> list[int]:
        """The turns whose numbers are shown: of those at which something happens, as many as there is room for."""
        last = self.at(self.last)
        found = [0]
        for turn in self.turns:
            if self.at(turn) - self.at(found[-1]) >= TICK and last - self.at(turn) >= TICK:
                found.append(turn)
        return found + ([self.last] if last >= TICK else [])


class Addresses:
    """How high addresses lie, in pixels from the top. What no instance uses is cut out: a low gap stands for it."""

    def __init__(self, instances: list[Instance]):
        begins, ends = Counter(it.base for it in instances), Counter(it.end for it in instances)
        self.bounds = sorted(begins.keys() | ends.keys())
        depths = list(accumulate(begins[bound] - ends[bound] for bound in self.bounds))[:-1]
        self.ranges = [(low, high, depth > 0) for (low, high), depth in zip(pairwise(self.bounds), depths)]
        self.shrink = min(1.0, FULL_ROWS / max(1, sum(is_used for _, _, is_used in self.ranges)))
        places = list(accumulate((self.height_of(*part) for part in self.ranges), initial=0.0))
        self.height = HEAD + places[-1]
        self.places = {bound: self.height - place for bound, place in zip(self.bounds, places)}

    def height_of(self, low: int, high: int, is_used: bool) -> float:
        full = ROW + 2 * math.log2(high - low) if is_used else GAP
        return max(LEAST_ROW if is_used else 2, full * self.shrink)

    def at(self, bound: int) -> float:
        """How high the beginning or the end of an instance lies."""
        return self.places[bound]


def chosen(journal: Journal) -> list[Instance]:
    """The instances that are drawn, in the order of their making."""
    instances = list(journal.instances.values())
    if len(instances) <= MOST_BARS:
        return instances
    kept = sorted(instances, key=lambda it: math.inf if it.ended is None else it.ended)[-MOST_BARS:]
    ids = {it.id for it in kept}
    return [it for it in instances if it.id in ids]


def kind_of(instance: Instance) -> str:
    """Which instances look alike: allocations, string literals, what is there before main, and objects of blocks."""
    if instance.name in ("@heap", "@lit"):
        return instance.name[1:]
    return "block" if instance.made else "static"


class Picture:
    """The picture of a run: its journal, its last turn, and the instances that the story of its fault tells of."""

    def __init__(self, journal: Journal, last: int, told: set[str]):
        self.journal = journal
        self.told = told
        self.instances = chosen(journal)
        self.counts = Counter(it.name for it in journal.instances.values())
        self.turns = Turns(journal.turns, last)
        self.addresses = Addresses(self.instances)

    def html(self) -> str:
        """The addresses and the picture beside them."""
        return tag("div", self.axis(), self.canvas(), class_="memory-picture")

    def axis(self) -> str:
        """The address at which each range begins, as far as there is room."""
        labels = [(self.addresses.height + 15, "turn")]
        below = math.inf
        for low, _, is_used in self.addresses.ranges:
            y = self.addresses.at(low) - 3
            if is_used and below - y >= LABEL:
                labels.append((y, hex(low)))
                below = y
        width = DIGIT * max(len(words) for _, words in labels) + 12
        texts = [tag("text", words, x=width - 8, y=y, text_anchor="end") for y, words in labels]
        return tag("svg", *texts, class_="axis", width=width, height=self.addresses.height + FOOT, aria_hidden="true")

    def canvas(self) -> str:
        what = [counted(len(self.instances), "bar"), counted(len(self.journal.pairs), "pair"), counted(self.turns.last, "turn")]
        parts = [HATCHES, *self.gaps(), *map(self.bar, self.instances), *self.ticks()]
        for pair in self.journal.pairs:
            parts += self.pair(pair)
        parts += self.fault()
        parts += self.cursor()
        return tag(
            "svg", *parts, class_="canvas", width="100%", height=self.addresses.height + FOOT, role="img",
            aria_label=f"Memory over turns: {', '.join(what)}. The list below follows the turn.",
            data_turns=" ".join(map(str, self.turns.turns)), data_places=" ".join(f"{place:.6g}" for place in self.turns.places),
        )

    def cursor(self) -> list[str]:
        """The turn that is looked at, and a veil over what comes behind it: the last turn, until the script moves them."""
        x = self.turns.at(self.turns.last)
        place = {"y": HEAD, "height": self.addresses.height - HEAD}
        return [
            tag("rect", class_="veil", x="100%", width="0%", **place),
            tag("rect", class_="cursor", x=hundredths(x), width=hundredths(100 - x), **place),
        ]

    def gaps(self) -> list[str]:
        """A dotted line for each range that nobody uses."""
        gaps = [(low, high) for low, high, is_used in self.addresses.ranges if not is_used]
        heights = [(self.addresses.at(low) + self.addresses.at(high)) / 2 for low, high in gaps]
        return [line(0, 100, y, y, class_="gap") for y in heights]

    def ticks(self) -> list[str]:
        ticks = []
        for turn in self.turns.ticks():
            x = self.turns.at(turn)
            anchor = "start" if x < 2 else "end" if x > 98 else "middle"
            ticks.append(line(x, x, self.addresses.height, self.addresses.height + 4, class_="tick"))
            ticks.append(tag("text", str(turn), x=hundredths(x), y=self.addresses.height + 15, text_anchor=anchor, class_="turn"))
        return ticks

    def bar(self, it: Instance) -> str:
        left = self.turns.at(it.made)
        right = 100.0 if it.ended is None else max(self.turns.at(it.ended), left + 0.2)
        top, bottom = self.addresses.at(it.end), self.addresses.at(it.base)
        parts = [tag("title", "\n".join(it.lines)), tag("rect", class_="life", width="100%", height="100%")]
        if it.exposed is not None:
            begins = 100 * (self.turns.at(it.exposed) - left) / (right - left)
            parts.append(tag("rect", class_="exposed", x=hundredths(begins), width=hundredths(100 - begins), height="100%"))
        if it.ended is not None:
            parts.append(line(100, 100, "0", "100%", class_="ended"))
        if bottom - top >= LABEL:
            parts.append(tag("text", self.label(it), x=5, y=(top + bottom) / 2 + 4 - top))
        return tag(
            "svg", *parts, class_=f"bar {kind_of(it)}" + (" told" if it.id in self.told else ""), data_id=it.id,
            x=hundredths(left), width=hundredths(right - left), y=top, height=bottom - top,
        )

    def label(self, it: Instance) -> str:
        """Its name, with its number where the run made more of that name."""
        return it.id if self.counts[it.name] > 1 or it.name.startswith("@") else it.name

    def pair(self, pair: Pair) -> list[str]:
        """Two marks where the pair is made, a line for as long as it has both candidates, and a mark for each use."""
        if pair.address not in self.addresses.places:
            return []
        y = self.addresses.at(pair.address)
        until = pair.settled.turn if pair.settled else self.turns.last + 1
        parts = [line(self.turns.at(pair.turn), self.turns.at(until), y, y, class_="open")]
        for side, shape, below in (("low", "M-6 2h12l-6 10z", 11), ("high", "M-6-2h12l-6-10z", -4)):
            number = tag("text", str(pair.number), x=8, y=below)
            parts.append(self.mark(pair.turn, y, pair.line, tag("path", d=shape) + number, class_=f"mark {side}"))
        for use in pair.uses:
            offset = 0 if len(use.left) == 2 else 8 if use.left == [pair.low] else -8
            shape = tag("circle", r=4.5, cy=offset) + tag("text", str(pair.number), x=7, y=offset + (-1 if offset == 0 else 4))
            parts.append(self.mark(use.turn, y, use.line, shape, class_="mark use" + (" settles" if offset else "")))
        return parts

    def mark(self, turn: int, y: float, event: str, shape: str, class_: str) -> str:
        return tag("svg", tag("title", event), shape, class_=class_, x=hundredths(self.turns.at(turn)), y=y, data_line=event)

    def fault(self) -> list[str]:
        turn = self.journal.fault
        if turn is None:
            return []
        x = self.turns.at(turn)
        place = {"x": hundredths(x), "dx": -7, "text_anchor": "end"} if x > 50 else {"x": hundredths(x), "dx": 7}
        return [
            line(x, x, HEAD - 6, self.addresses.height, class_="fault"),
            self.mark(turn, HEAD - 8, f"fault turn={turn}", tag("path", d="M-5-5 5 5M-5 5 5-5"), class_="mark fault"),
            tag("text", f"fault, turn {turn}", y=HEAD - 5, class_="fault", **place),
        ]


# Lines from below to above for what is exposed.
HATCHES = tag(
    "defs",
    tag("pattern", tag("path", d="M-2 2 2-2M0 8 8 0M6 10 10 6"), id="hatch", width=8, height=8, patternUnits="userSpaceOnUse"),
)


def hundredths(place: float) -> str:
    return f"{place:.6g}%"


def line(left: float, right: float, top: "float | str", bottom: "float | str", class_: str) -> str:
    return tag("line", x1=hundredths(left), x2=hundredths(right), y1=top, y2=bottom, class_=class_)
