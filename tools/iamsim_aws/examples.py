"""Asking iamsim what may be allowed whatever values the keys have that nothing gives: 'matrix --any-key' (docs/LOGIC.md, 13.11)."""

import datetime
import os
import tempfile
from typing import Any, Dict, Iterator, List, NamedTuple, Optional, Sequence, Tuple

from . import decimals, points
from .arns import principal_text
from .asking import ask_all, ask_allowed, explained
from .bounds import at_most, closed, hanging_keys
from .documents import FOREIGN, World, cells_of
from .faults import Fault
from .keys import with_key
from .program import Refused, each_of, world_bytes
from .reports import REFUSED, Answer, Answers, rows_of
from .splitting import Part, parts, parts_of_all

TOLD = [word for it in ("always", "possible", "open") for word in ("--decision", it)]
REQUEST = ("principal", "action", "resource")
Row = Dict[str, Any]


class Example(NamedTuple):
    """Keys that nothing gives, with their values, and a moment that is not that of the world, with which a request is allowed."""

    keys: Tuple[Tuple[str, Tuple[str, ...]], ...]
    moment: Optional[int]

    def words(self) -> str:
        found = [f"`{key}` is {' and '.join(f'`{it}`' for it in values)}" for key, values in self.keys]
        return " and ".join(found + ([f"the moment is {self.date}"] if self.moment is not None else []))

    @property
    def pairs(self) -> List[Tuple[str, str]]:
        """Each key with each of its values, the moment among them."""
        found = [(key, it) for key, values in self.keys for it in values]
        return found + ([("aws:CurrentTime", self.date)] if self.moment is not None else [])

    @property
    def date(self) -> str:
        """The moment as policies write it."""
        return (datetime.datetime(1970, 1, 1) + datetime.timedelta(seconds=self.moment or 0)).isoformat() + "Z"

    def given_to(self, world: World) -> World:
        """The world in which the requests have these keys, at this moment."""
        for key, values in self.keys:
            world = with_key(world, key, list(values))
        return world if self.moment is None else {**world, "moment": self.moment}


class Turned(NamedTuple):
    """The requests of a world that are allowed with some values of the keys that nothing gives, those allowed always without an example,
    and those of which it is not shown."""

    answers: Answers
    examples: Dict[int, Example]
    opens: List[int]

    def row(self, cell: int) -> Row:
        """The row of a request."""
        answer = self.answers.at(cell)
        request = dict(zip(REQUEST, self.answers.texts(cell)))
        said = {"decision": answer.decision, "statements": list(answer.statements), "lacks": list(answer.lacks)}
        return {**request, **said, "example": self.examples.get(cell)}

    def open_words(self, cell: int) -> str:
        """Why it is not known whether a request may be allowed."""
        p, a, r = self.answers.place(cell)
        row, world = self.answers.row(cell), self.answers.world
        one = {**world, "principals": [world["principals"][p]], "resources": [world["resources"][r]]}
        keys = ", ".join(hanging_keys(one, [row.action]))
        return f"{row.principal} {row.action} {row.resource}: which values of {keys} allow it is not shown"


def example_of(given: Optional[Dict[str, Any]], world: World, scales: Dict[str, int]) -> Optional[Example]:
    """The example that a row shows, in the words of the policies; what is absent there is so already."""
    if given is None:
        return None
    written = lambda key, it: decimals.as_written(it, scales.get(key.lower(), 0))
    found = {key: tuple(written(key, it) for it in values) for key, values in given["context"].items() if values}
    moment = given["moment"] if given["moment"] != world["moment"] else None
    return Example(tuple(sorted(found.items())), moment) if found or moment is not None else None


class Job(NamedTuple):
    """A part of a world that is asked, whose principals have these numbers in the whole, and the places of decimals there."""

    number: int
    people: List[int]
    part: Part
    scales: Dict[str, int]


def scales_of(worlds: Sequence[World]) -> Dict[str, int]:
    """The places of decimals of worlds that are asked together, where they can be made whole."""
    try:
        return decimals.scales(worlds)
    except Fault:
        return {}


def jobs_of(worlds: Sequence[World]) -> Iterator[Job]:
    """What is asked of each world, of those by themselves who are of none of its organisations."""
    for number, world in enumerate(worlds):
        foreign: Dict[Any, List[int]] = {}
        for n, it in enumerate(world["principals"]):
            foreign.setdefault(it.get(FOREIGN), []).append(n)
        for people in foreign.values():
            own = closed({**world, "principals": [world["principals"][n] for n in people]})
            scales = scales_of([own])
            yield from (Job(number, people, it, scales) for it in parts(decimals.scaled(own, scales)))


def alone(worlds: Sequence[World]) -> List[Turned]:
    """What may be allowed in each world by itself."""
    jobs = [it for it in jobs_of(worlds) if cells_of(it.part.world)]
    found = [Turned(Answers(it, cells_of(it)), {}, []) for it in worlds]
    for it in found:
        it.answers.number(REFUSED, lambda: REFUSED)
    command = ["matrix", "--any-key", "--format", "json", "--allow-empty", *TOLD]
    texts = each_of(((command, world_bytes(it.part.world)) for it in jobs), len(jobs))
    for job in jobs:
        try:
            rows = rows_of(next(texts).decode())
        except Refused as refused:
            raise explained(job.part.world, refused) from None
        for row in rows:
            put(found[job.number], job, row)
    return found


def put(turned: Turned, job: Job, row: Row) -> None:
    """Puts a row of a part in its place."""
    width, actions = len(job.part.world["resources"]), len(job.part.world["actions"])
    p, a, r = row["cell"] // (actions * width), row["cell"] // width % actions, row["cell"] % width
    cell = turned.answers.cell(job.people[job.part.principal + p], a, job.part.resource + r)
    if row["decision"] == "open":
        turned.opens.append(cell)
        return
    it = Answer("allowed", tuple(row["statements"]), ())
    turned.answers.numbers[cell] = turned.answers.number(it, lambda: it)
    example = example_of(row["example"], job.part.world, job.scales)
    if example:
        turned.examples[cell] = example


def ask_any_key(worlds: Sequence[World]) -> List[Turned]:
    """What may be allowed in each world; by an access point of S3 what its policy and its bucket's allow together."""
    inside = [(n, *it) for n, world in enumerate(worlds) for it in points.buckets(world)]
    every = alone([*map(points.alone, worlds), *(it for _, _, it in inside)])
    found = every[: len(worlds)]
    for turned, world in zip(found, worlds):
        turned.answers.world = world
    for (n, numbers, _), part in zip(inside, every[len(worlds) :]):
        join(found[n], numbers, part)
    return [it._replace(opens=sorted(possible(it))) for it in found]


def possible(turned: Turned) -> List[int]:
    """The requests that are not shown, of those that are allowed where all is that any values of keys may allow."""
    if not turned.opens:
        return []
    flags = ask_allowed([at_most(turned.answers.world)])[0].flags()
    return [it for it in turned.opens if flags[it]]


def join(turned: Turned, numbers: List[int], part: Turned) -> None:
    """Joins what may be allowed in a bucket, whose resources have these numbers in the whole: with the same values both allow, or it is
    not shown."""
    people, actions, _ = turned.answers.shape
    for p, a, (n, r) in ((p, a, it) for p in range(people) for a in range(actions) for it in enumerate(numbers)):
        cell, own = turned.answers.cell(p, a, r), part.answers.cell(p, a, n)
        states = [(it.answers.at(at).decision == "allowed", at in it.opens) for it, at in ((turned, cell), (part, own))]
        if not any(states[0]):
            continue
        examples = [it for it in (turned.examples.get(cell), part.examples.get(own)) if it]
        turned.answers.numbers[cell] = turned.answers.number(REFUSED, lambda: REFUSED)
        turned.examples.pop(cell, None)
        turned.opens[:] = [it for it in turned.opens if it != cell]
        if any(states[1]):
            both = confirmed(turned.answers.world, (p, a, r), examples)
            if both is None:
                turned.opens.append(cell)
                continue
            turned.answers.numbers[cell] = turned.answers.number(both[0], lambda: both[0])
            if both[1]:
                turned.examples[cell] = both[1]


def confirmed(
    world: World, place: Tuple[int, int, int], examples: List[Example]
) -> Optional[Tuple[Answer, Optional[Example]]]:
    """The answer to a request with the first of these examples that allows it, or without one."""
    p, a, r = place
    who, what, where = world["principals"][p], world["actions"][a], world["resources"][r]
    one, tried = {**world, "principals": [who], "actions": [what], "resources": [where]}, [None, *examples]
    for it, answers in zip(tried, ask_all([it.given_to(one) if it else one for it in tried])):
        if answers.at(0).decision == "allowed":
            return answers.at(0), it
    return None


# --- two worlds -------------------------------------------------------------------------------------------------------


def ask_pairs(pairs: List[List[World]]) -> List[List[Row]]:
    """The rows of 'changes --any-key' from the one world of each pair to the other (docs/LOGIC.md, 13.12)."""
    found: List[List[Row]] = [[] for _ in pairs]
    jobs = [(n, *it) for n, pair in enumerate(pairs) for it in parts_of_pair(pair)]
    with tempfile.TemporaryDirectory() as room:

        def made() -> Iterator[Tuple[List[str], bytes]]:
            for n, (_, (before, after), _) in enumerate(jobs):
                path = os.path.join(room, str(n))
                with open(path, "wb") as it:
                    it.write(world_bytes(before))
                yield ["changes", path, "--any-key", "--format", "json"], world_bytes(after)

        for (n, (_, after), scales), text in zip(jobs, each_of(made(), len(jobs))):
            rows = rows_of(text.decode())
            found[n] += [{**it, "example": example_of(it["example"], after, scales)} for it in rows]
    return found


def parts_of_pair(pair: List[World]) -> Iterator[Tuple[List[World], Dict[str, int]]]:
    """Both worlds in parts within the limits, with the places of decimals there; by themselves for those who are of none of their
    organisations."""
    every = {principal_text(it): it.get(FOREIGN) for world in pair for it in world["principals"]}
    for foreign in dict.fromkeys(every.values()):
        people = [[one for one in it["principals"] if every[principal_text(one)] == foreign] for it in pair]
        own = [closed({**it, "principals": some}) for it, some in zip(pair, people)]
        scales = scales_of(own)
        for parts_of_both in parts_of_all([decimals.scaled(it, scales) for it in own]):
            yield [it.world for it in parts_of_both], scales
