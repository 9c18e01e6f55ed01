"""Answers to all requests of worlds, which may be past the limits of one."""

import array
import os
import tempfile
from typing import Any, Callable, Dict, Iterator, List, Tuple

from . import decimals, points
from .checking import lines, refused_documents, with_name
from .documents import World, cells_of
from .faults import Fault
from .program import Refused, each_of, side_by_side, world_bytes
from .reports import Answers, read_allowed, read_report, rows_of
from .splitting import parts


def whole(world: World) -> World:
    """The world without decimals, where that can be."""
    try:
        return decimals.whole(world)
    except Fault:
        return world


def put(all_of: Answers, principal: int, resource: int, part: Answers) -> None:
    """Puts the answers of a part in their place."""
    count, actions, width = part.shape
    new = [all_of.number(it, lambda it=it: it) for it in part.table]
    numbers = array.array("I", map(new.__getitem__, part.numbers))
    for p in range(count):
        for a in range(actions):
            first, of = all_of.cell(principal + p, a, resource), part.cell(p, a, 0)
            all_of.numbers[first : first + width] = numbers[of : of + width]


def explained(world: World, refused: Refused) -> Fault:
    """The fault of a world, by the name of its policy, or of who is refused."""
    told = lines(world, refused_documents(world))
    if not told:
        return Fault(with_name(world, str(refused)))
    more = f", and {len(told) - 1} more: iamsim-aws check tells all" if len(told) > 1 else ""
    return Fault(f"iamsim refuses a policy: {told[0]}{more}")


def asked(worlds: List[World], words: List[str], read: Callable[[World, str], Answers]) -> List[Answers]:
    """The answers to all requests of each world, as they are read of the matrix that these words ask for; those by an access
    point of S3 are joined with what they are in its bucket."""
    inside = [(n, *it) for n, world in enumerate(worlds) for it in points.buckets(world)]
    every = asked_alone([*map(points.alone, worlds), *(it for _, _, it in inside)], words, read)
    found = every[: len(worlds)]
    for answers, world in zip(found, worlds):
        points.tell_points(world, True)
        answers.world = world
    for (n, numbers, _), part in zip(inside, every[len(worlds) :]):
        points.join(found[n], numbers, part)
    return found


def asked_alone(worlds: List[World], words: List[str], read: Callable[[World, str], Answers]) -> List[Answers]:
    """The answers to all requests of each world by itself."""
    several = [(n, part) for n, world in enumerate(worlds) for part in parts(whole(world))]
    found = [Answers(world, cells_of(world)) for world in worlds]
    command = ["matrix", "--format", "json", *words]
    texts = side_by_side(command, (world_bytes(part.world) for _, part in several), len(several))
    for n, part in several:
        try:
            text = next(texts).decode()
        except Refused as refused:
            raise explained(part.world, refused) from None
        put(found[n], part.principal, part.resource, read(part.world, text))
    return found


def ask_all(worlds: List[World], brief: bool = False) -> List[Answers]:
    """The answers to all requests of each world."""
    return asked(worlds, ["--brief"] if brief else [], read_report)


def ask_allowed(worlds: List[World]) -> List[Answers]:
    """The answers to all requests of each world; why one is not allowed is not asked."""
    return asked(worlds, ["--decision", "allowed", "--allow-empty"], read_allowed)


def ask(world: World, brief: bool = False) -> Answers:
    return ask_all([world], brief)[0]


def ask_changes(pairs: List[Tuple[World, World]]) -> List[List[Dict[str, Any]]]:
    """The rows of what has changed from the one world of each pair to the other, both within the limits of a world."""
    with tempfile.TemporaryDirectory() as room:

        def jobs() -> Iterator[Tuple[List[str], bytes]]:
            for n, (before, after) in enumerate(pairs):
                path = os.path.join(room, str(n))
                with open(path, "wb") as it:
                    it.write(world_bytes(whole(before)))
                yield ["changes", "--format", "json", path], world_bytes(whole(after))

        return [list(rows_of(it.decode())) for it in each_of(jobs(), len(pairs))]
