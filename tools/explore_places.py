"""For tools/explore: which scripts of addresses are tried of a run, by the journal of its instances.

Nothing here runs a program. A journal (docs/FORMATS.md) says which instances a run made, how large they are, and which lived at one time. Each
function that KINDS names makes lines of scripts of its kind, with the reason in words; `choose` takes of all kinds what is tried.
"""
import re
from collections import Counter
from itertools import chain, islice
from typing import Callable, Iterable, Iterator, NamedTuple, Optional

Key = tuple[str, int]  # the name of an instance, and the number of its request for that name
Lines = dict[Key, Optional[int]]  # the lines of a script: an address for each request, or None for `null`

HEAP = "@heap"
HEAP_ALIGNMENT = 16
GREATEST_ALIGNMENT = 8  # of a declared object
LOWEST, HIGHEST = 0x1000, 1 << 47  # no instance begins below, none ends above
HIGH_PLACE = 1 << 31  # no int says this address or a greater one
LONGEST_SCRIPT = 65536  # bytes
LONGEST_JOURNAL = 65536  # events: of a longer run the first ones are told
FURTHER_REFUSED = 8  # requests behind the run's last one, of a program that asks again when it is refused
MOST_REFUSED = 1000  # requests in a row

CREATE = re.compile(r"create (\S+)#(\d+) turn=\d+ base=0x([0-9a-f]+) size=(\d+)")
END = re.compile(r"end (\S+)#(\d+) turn=\d+")
LINE = re.compile(r"([^#\s]\S*) (\d+) (?:0x([0-9a-fA-F]+)|null)")


class Instance(NamedTuple):
    """A storage instance as its run made it."""

    name: str
    k: int
    base: int
    size: int

    @property
    def key(self) -> Key:
        return self.name, self.k

    @property
    def end(self) -> int:
        return self.base + self.size


class Script(NamedTuple):
    """A script: its kind, all its lines, what they do in words, and the run whose instances it lays elsewhere."""

    kind: str
    lines: Lines
    reason: str
    ground: "Ground"


def lines_of(text: str) -> Lines:
    """The lines of a script that the program reads."""
    found = map(LINE.fullmatch, text.split("\n"))
    return {(it[1], int(it[2])): int(it[3], 16) if it[3] else None for it in found if it}


def text_of(lines: Lines) -> str:
    """The lines as a script."""
    return "".join(f"{name} {k} {'null' if address is None else hex(address)}\n" for (name, k), address in lines.items())


def called(key: Key) -> str:
    """An instance in words."""
    name, k = key
    return {HEAP: f"allocation {k}", "@lit": f"string literal {k}"}.get(name, name if k == 1 else f"{name}#{k}")


def up(address: int, step: int) -> int:
    """The least multiple of the step that is not below the address."""
    return -(-address // step) * step


def alignment_of(it: Instance) -> int:
    """An alignment that is enough for it: a type's alignment divides its size."""
    return HEAP_ALIGNMENT if it.name == HEAP else min(it.size & -it.size, GREATEST_ALIGNMENT)


class Journal:
    """The makings and endings of a run's instances, in order."""

    def __init__(self, text: str):
        self.made: dict[Key, Instance] = {}
        self.steps: list[tuple[bool, Instance]] = []  # whether it begins, and which
        lines = text.splitlines()
        self.is_cut = len(lines) > LONGEST_JOURNAL
        for line in lines:
            if found := CREATE.fullmatch(line):
                it = Instance(found[1], int(found[2]), int(found[3], 16), int(found[4]))
                self.made[it.key] = it
                self.steps.append((True, it))
            elif found := END.fullmatch(line):
                self.steps.append((False, self.made[found[1], int(found[2])]))


class Ground:
    """A run whose instances are laid elsewhere: its journal, the lines of its script, and which of its instances are its own.

    Its own are those that the run had not, if there is one, of whose list its script was made. What its script says stays.
    """

    def __init__(self, journal: Journal, said: Lines, script: Optional[Script] = None):
        self.made = journal.made
        self.steps = journal.steps
        self.said = said
        self.behind = f"{script.reason}; " if script else ""
        self.own = self.made.keys() - (script.ground.made.keys() if script else ())
        # (an address behind all instances but high ones, with room before it for some that another run makes)
        self.free = up(max((it.end for it in self.made.values() if it.end < HIGH_PLACE), default=0) + 0x8000, 0x10000)

    def movable(self) -> list[Instance]:
        """The run's own instances that its script leaves open; the first of each name, then the second ones, and so on."""
        return sorted((it for it in self.made.values() if it.key in self.own and it.key not in self.said), key=lambda it: it.k)


# ---- pairs of instances

class Rounds:
    """Pairs of instances in rounds: each round has one pair of each two names."""

    def __init__(self, most: int):
        """As soon as `most` pairs of two names are there, more of these two are not wanted."""
        self.most = most
        self.rounds: list[list[tuple[Instance, Instance]]] = []
        self.count: Counter[tuple[str, str]] = Counter()

    def add(self, other: Instance, made: Instance) -> bool:
        """Takes a pair; answers whether one more of these two names is wanted."""
        names = other.name, made.name
        if self.count[names] == len(self.rounds):
            self.rounds.append([])
        self.rounds[self.count[names]].append((other, made))
        self.count[names] += 1
        return self.count[names] < self.most

    def wants(self, names: tuple[str, str]) -> bool:
        return self.count[names] < self.most

    def is_full(self) -> bool:
        """Whether the first round alone is enough, or there are very many pairs."""
        return bool(self.rounds) and (len(self.rounds[0]) >= self.most or sum(self.count.values()) > 50 * self.most)


def meetings(ground: Ground, living: bool) -> Iterator[tuple[Instance, dict[str, dict[Key, Instance]]]]:
    """Each instance as it is made, with those that live then (or else, that have ended by then), by name; one of the two is the run's own."""
    everyone: dict[str, dict[Key, Instance]] = {}
    own: dict[str, dict[Key, Instance]] = {}
    for begins, it in ground.steps:
        if begins:
            yield it, everyone if it.key in ground.own else own
        for there in (everyone, own) if it.key in ground.own else (everyone,):
            if begins == living:
                there.setdefault(it.name, {})[it.key] = it
            else:
                there.get(it.name, {}).pop(it.key, None)


def pairs(ground: Ground, living: bool, most: int) -> Iterator[tuple[Instance, Instance]]:
    """Pairs of an instance that lives (or else, that has ended) and one that is made then, the last ones first; `most` of them or more are enough."""
    rounds = Rounds(most)
    for made, others in meetings(ground, living):
        for name, those in others.items():
            wanted = rounds.wants((name, made.name))
            for other in reversed(those.values()) if wanted else ():
                if not rounds.add(other, made):
                    break
        if rounds.is_full():
            break
    return chain.from_iterable(rounds.rounds)


# ---- the kinds of scripts: lines, and what they do in words

Told = Iterator[tuple[Lines, str]]


def refused_alone(ground: Ground, _most: int) -> Told:
    """Each allocation gets no memory, the others do."""
    for it in ground.movable():
        if it.name == HEAP:
            yield {it.key: None}, f"{called(it.key)} is refused"


def refused_from(ground: Ground, _most: int) -> Told:
    """Each allocation and all behind it get no memory, but for those that come very long after it."""
    behind = max((k for name, k in ground.made if name == HEAP), default=0) + 1 + FURTHER_REFUSED
    for it in ground.movable():
        if it.name == HEAP:
            numbers = range(it.k, min(behind, it.k + MOST_REFUSED))
            lines: Lines = {(HEAP, k): None for k in numbers if (HEAP, k) not in ground.said}
            yield lines, f"{called(it.key)} and all behind it are refused"


def side_by_side(ground: Ground, first: Instance, second: Instance) -> Lines:
    """Lines that put the second right after the first; none where the script says already where both lie."""
    if first.key in ground.said and second.key in ground.said:
        return {}
    if first.key in ground.said:
        return {second.key: first.end}
    if second.key in ground.said:
        return {first.key: second.base - first.size}
    end = ground.free + first.size
    if end % alignment_of(second) and first.name != HEAP:
        end = up(end, max(alignment_of(second), GREATEST_ALIGNMENT))  # (so that the first one's alignment stays)
    return {first.key: end - first.size, second.key: end}


def neighbours(ground: Ground, most: int) -> Told:
    """Each ordered pair of instances that live at one time, the second right after the first."""
    for one, other in pairs(ground, True, most):
        for first, second in ((one, other), (other, one)):
            yield side_by_side(ground, first, second), f"{called(second.key)} lies right after {called(first.key)}"


def reused(ground: Ground, most: int) -> Told:
    """Each instance at the base of one that has ended by then: where that lay, or both elsewhere if it is too long for that place."""
    for old, new in pairs(ground, False, most):
        if new.key in ground.said:
            continue
        if new.size <= old.size or old.key in ground.said:
            lines: Lines = {new.key: old.base}
        else:
            lines = {old.key: ground.free, new.key: ground.free}
        yield lines, f"{called(new.key)} lies where {called(old.key)} lay"


def high(ground: Ground, _most: int) -> Told:
    """Each instance where an int can't say its address, where 32 bits can't, and at the greatest addresses."""
    for it in ground.movable():
        highest = HIGHEST - it.size
        yield {it.key: HIGH_PLACE}, f"{called(it.key)} lies at 2^31"
        yield {it.key: 1 << 32}, f"{called(it.key)} lies at 2^32"
        yield {it.key: highest - highest % alignment_of(it)}, f"{called(it.key)} lies as high as it can, below 2^47"


def uneven(ground: Ground, _most: int) -> Told:
    """Each declared object and literal at a multiple of 1, 2 and 4 alone, as far as its size allows that alignment."""
    words = {1: "an odd address", 2: "a multiple of 2 alone", 4: "a multiple of 4 alone"}
    for it in ground.movable():
        for step in words if it.name != HEAP else ():
            if it.size % step == 0:
                yield {it.key: ground.free + step}, f"{called(it.key)} lies at {words[step]}"


def in_reverse(ground: Ground, _most: int) -> Told:
    """All instances as they lie, mirrored: what lay lowest lies highest."""
    mirrored = ground.movable()
    top = ground.free + up(max((it.end for it in mirrored), default=0), HEAP_ALIGNMENT)
    lines: Lines = {it.key: (top - it.end) // HEAP_ALIGNMENT * HEAP_ALIGNMENT for it in mirrored}
    if len(lines) > 1:
        yield lines, "all instances lie in reverse order"


KINDS = {
    "with one allocation refused": refused_alone,
    "with allocations refused from one on": refused_from,
    "with two side by side": neighbours,
    "with a place used again": reused,
    "with a high place": high,
    "at a least alignment": uneven,
    "in reverse order": in_reverse,
}


# ---- what is tried

def is_possible(lines: Lines) -> bool:
    """Whether there are lines, and nothing is known to be wrong with their places. (Alignments of declared objects are the program's to know.)"""
    places = [(name, address) for (name, _), address in lines.items() if address is not None]
    return bool(lines) and all(
        LOWEST <= address and (name != HEAP or address % HEAP_ALIGNMENT == 0) for name, address in places
    )


def scripts_of(ground: Ground, most: int) -> list[Iterator[Script]]:
    """The scripts of each kind, made as they are wanted."""

    def of_kind(kind: str) -> Iterator[Script]:
        for lines, reason in KINDS[kind](ground, most):
            if is_possible(lines):
                yield Script(kind, {**ground.said, **lines}, ground.behind + reason, ground)

    return [of_kind(kind) for kind in KINDS]


class Chooser:
    """Takes scripts without repeats, and tells what it left out."""

    def __init__(self) -> None:
        self.seen: set[frozenset] = set()
        self.is_cut = False
        self.too_long = 0

    def new_ones(self, scripts: Iterable[Script]) -> Iterator[Script]:
        """Those that were not taken before, and are no longer than a script may be."""
        for script in scripts:
            lines = frozenset(script.lines.items())
            if len(text_of(script.lines)) > LONGEST_SCRIPT:
                self.too_long += 1
            elif lines not in self.seen:
                self.seen.add(lines)
                yield script

    def choose(self, kinds: list[Iterator[Script]], most: int) -> list[Script]:
        """Of all kinds, in their order, as many as `most`: an equal part of each, and of what some leave over an equal part of the others."""
        streams = [self.new_ones(kind) for kind in kinds]
        taken: list[list[Script]] = [[] for _ in streams]
        room, left = most, list(range(len(streams)))  # those that may have more
        while room and left:
            part = max(room // len(left), 1)
            now, later = left[:room], left[room:]
            more = {at: list(islice(streams[at], part)) for at in now}
            for at in now:
                taken[at] += more[at]
            room -= sum(map(len, more.values()))
            left = [at for at in now if len(more[at]) == part] + later
        self.is_cut = self.is_cut or any(next(stream, None) for stream in streams)
        return list(chain.from_iterable(taken))


def least(keys: list[Key], holds: Callable[[list[Key]], bool]) -> list[Key]:
    """Some of the keys, one at least, of which it holds as it does of all, and not without any one of them."""
    step = len(keys)
    while step:
        before = len(keys)
        for drop in [set(keys[at : at + step]) for at in range(0, before, step)]:
            fewer = [key for key in keys if key not in drop]
            if fewer and holds(fewer):
                keys = fewer
        step = step // 2 if step > 1 else int(len(keys) < before)
    return keys
