"""The calls of a log, alike ones counted together, and what was not mapped, by reason and name."""

import functools
from typing import Any, Dict, Iterable, List, NamedTuple, Set, Tuple

from .mapping import FREE, TIME, Call, Mapper, Missed, is_of_service, text

# So many names are told apart, and so many sessions of a call; and the characters of a name.
NAMES, SESSIONS = 1000, 4
LONG = 300
OTHERS = "others"


class Example(NamedTuple):
    """An event of several that are alike, the first of them."""

    time: str
    event: str
    session: str


class Made(NamedTuple):
    """How often a call was made, when first and last, an example, and the names of the first sessions."""

    times: int
    first: str
    last: str
    example: Example
    sessions: Tuple[str, ...]

    def joined(self, other: "Made") -> "Made":
        times, first, last, example, sessions = self
        if other.sessions != sessions:
            sessions = tuple(sorted({*sessions, *other.sessions})[:SESSIONS])
        return Made(
            times + other.times,
            first if first < other.first else other.first,
            last if last > other.last else other.last,
            example if example < other.example else other.example,
            sessions,
        )


class Tally:
    """What some events come to. `mapped` counts those of which all is asked, `served` those that a service made for somebody,
    `doubled` the objects in which a key comes twice; `seen` has the principals of whom there is an event."""

    def __init__(self) -> None:
        self.events = self.mapped = self.served = self.doubled = 0
        self.calls: Dict[Call, Made] = {}
        self.missed: Dict[Tuple[str, str], int] = {}
        self.seen: Set[str] = set()

    def __getstate__(self) -> Dict[str, Any]:
        """What one process sends to another: columns, since calls are many and alike."""
        made = columns(self.calls.values())
        made[3:4] = [columns(made[3])] if made else []
        return {**vars(self), "calls": (columns(self.calls), made)}

    def __setstate__(self, state: Dict[str, Any]) -> None:
        calls, made = state["calls"]
        made[3:4] = [rows(Example, made[3])] if made else []
        self.__dict__.update(state, calls=dict(zip(rows(Call, calls), rows(Made, made))))

    def miss(self, reason: str, name: str, count: int = 1) -> None:
        key = reason, name[:LONG]
        if key not in self.missed and len(self.missed) >= NAMES:
            key = reason, OTHERS
        self.missed[key] = self.missed.get(key, 0) + count

    def add(self, call: Call, made: Made) -> None:
        before = self.calls.get(call)
        self.calls[call] = made if before is None else before.joined(made)

    def count(self, event: Any, mapper: Mapper) -> None:
        self.events += 1
        try:
            session, calls, lacking = mapper.calls(event, self.seen)
        except Missed as why:
            self.miss(why.reason, why.name)
            self.mapped += why.reason == FREE
            return
        for it in lacking:
            self.miss(it.reason, it.name)
        self.mapped += not lacking
        self.served += is_of_service(event)
        time = time_of(text(event, "eventTime")[:LONG])
        example = Example(time, text(event, "eventID")[:64], session)
        made = Made(1, time, time, example, (session,) if session else ())
        for call in calls:
            self.add(call, made)

    def join(self, other: "Tally") -> None:
        self.events += other.events
        self.mapped += other.mapped
        self.served += other.served
        self.doubled += other.doubled
        self.seen |= other.seen
        for (reason, name), count in other.missed.items():
            self.miss(reason, name, count)
        if not self.calls:
            self.calls = other.calls
            return
        for call, made in other.calls.items():
            self.add(call, made)


@functools.lru_cache(maxsize=4096)
def time_of(given: str) -> str:
    return given if TIME.fullmatch(given) else ""


def columns(some: Iterable[Any]) -> List[Any]:
    return list(zip(*some))


def rows(kind: Any, some: List[Any]) -> Iterable[Any]:
    """The tuples of a kind that columns hold."""
    return map(functools.partial(tuple.__new__, kind), zip(*some))


def ordered(missed: Dict[Tuple[str, str], int]) -> List[Tuple[str, str, int]]:
    """(reason, name, count), the most frequent of each reason first."""
    return sorted(((*key, count) for key, count in missed.items()), key=lambda it: (it[0], -it[2], it[1]))


def counted(count: int, what: str) -> str:
    """So many of something, in words."""
    return f"{count} {what}{'' if count == 1 else 's'}"
