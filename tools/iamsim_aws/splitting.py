"""Several worlds of one that is past the limits of a world (docs/LOGIC.md, section 15)."""

from typing import Any, Dict, Iterable, List, NamedTuple, Sequence, Set, Tuple

from .arns import account_of, principal_arn, principal_text
from .documents import MEMBERS, World, cells_of, changed, statements_of
from .faults import Fault
from .files import compact

STATEMENTS, CELLS, BYTES = 4096, 16777216, 8388608


class Part(NamedTuple):
    """A world of some principals and resources, which begin at these numbers of the whole world's."""

    world: World
    principal: int
    resource: int


class Weight(NamedTuple):
    statements: int
    size: int
    name: str


def count_of(document: Any) -> int:
    return len(statements_of(document))


def size_of(value: Any) -> int:
    return len(compact(value).encode("utf-8", "surrogatepass"))


def weighed(axis: str, holder: Dict[str, Any], name: str) -> Weight:
    """How many statements and bytes a principal, resource or account brings."""
    counts: List[int] = []

    def take(_kind: str, _path: str, policy: Any) -> Any:
        counts.append(count_of(policy.document))
        return policy.document

    made = changed(holder, axis, MEMBERS[axis], take)
    return Weight(sum(counts), size_of(made) + 1, name)


def weights(world: World) -> Tuple[List[Weight], List[Weight], List[Weight]]:
    accounts = [weighed("accounts", it, it["id"]) for it in world["accounts"]]
    principals = [weighed("principals", it, principal_text(it)) for it in world["principals"]]
    return accounts, principals, [weighed("resources", it, it["arn"]) for it in world["resources"]]


def room_of(world: World) -> int:
    """The bytes of what all parts have, but for the accounts."""
    return size_of([world.get("context", {}), world["actions"]]) + 100


def limits(world: World) -> List[str]:
    """A line for each limit of a world that this one is past."""
    every = [it for axis in weights(world) for it in axis]
    statements, size = sum(it.statements for it in every), sum(it.size for it in every) + room_of(world)
    cells = cells_of(world)
    past = [(statements, STATEMENTS, "statements"), (cells, CELLS, "cells"), (size, BYTES, "bytes")]
    return [
        f"the world has {n} {what}, and at most {most} are read: iamsim-aws split makes several worlds of it"
        for n, most, what in past
        if n > most
    ]


def runs(items: List[Weight], most: Weight, count: int) -> List[Tuple[int, int]]:
    """Cuts a list into runs that are within the limits, in order; `most` names what is cut."""
    found, first, statements, size = [], 0, 0, 0
    for n, it in enumerate(items):
        if it.statements > most.statements or it.size > most.size:
            raise Fault(f"one {most.name} alone is too large for a world: {it.name}")
        if n > first and (
            n - first == count or statements + it.statements > most.statements or size + it.size > most.size
        ):
            found.append((first, n))
            first, statements, size = n, 0, 0
        statements, size = statements + it.statements, size + it.size
    return [*found, (first, len(items))] if items else [(0, 0)]


def total(items: Iterable[Weight]) -> Weight:
    every = list(items)
    return Weight(sum(it.statements for it in every), sum(it.size for it in every), "")


def parts(world: World, cells: int = CELLS) -> List[Part]:
    """The world in parts, which together have its requests, each once."""
    return [it for [it] in parts_of_all([world], cells)]


def parts_of_all(worlds: List[World], cells: int = CELLS) -> List[List[Part]]:
    """Worlds in parts, each of all of them with the same principals and resources."""
    accounts, principals, resources = map(most_of, zip(*map(weights, worlds)))
    kept, room = total(accounts).statements, total(accounts).size + max(map(room_of, worlds))
    if kept > STATEMENTS // 2 or room > BYTES // 2:
        raise Fault("the organisation's policies and the actions alone are too large for several worlds")
    free = Weight(STATEMENTS - kept, BYTES - room, "")
    whole = total([*principals, *resources])
    if whole.statements <= free.statements and whole.size <= free.size and max(map(cells_of, worlds)) <= cells:
        return [[Part(it, 0, 0) for it in worlds]]
    of_resources = runs(resources, Weight(free.statements // 2, free.size // 2, "resource"), 4096)
    largest = [total(resources[first:end]) for first, end in of_resources]
    left = Weight(
        free.statements - max(it.statements for it in largest), free.size - max(it.size for it in largest), "principal"
    )
    longest = max(end - first for first, end in of_resources)
    most = max(1, cells // max(1, max(len(it["actions"]) for it in worlds) * longest))
    of_principals = runs(principals, left, most)
    if len(worlds) == 1:
        return [[part_of(worlds[0], some, of)] for some in of_principals for of in of_resources]
    people = [{it.name for it in principals[slice(*some)]} for some in of_principals]
    things = [({it.name for it in resources[slice(*of)]}, of[0]) for of in of_resources]
    return [[named_part(it, some, *of) for it in worlds] for some in people for of in things]


def most_of(axes: Sequence[List[Weight]]) -> List[Weight]:
    """What each brings at most, of one world in its order; of several by name, those of the last one first."""
    if len(axes) == 1:
        return axes[0]
    found: Dict[str, Weight] = {}
    for it in (it for axis in reversed(axes) for it in axis):
        known = found.get(it.name, it)
        found[it.name] = Weight(max(it.statements, known.statements), max(it.size, known.size), it.name)
    return list(found.values())


def named_part(world: World, people: Set[str], things: Set[str], first: int) -> Part:
    principals = [it for it in world["principals"] if principal_text(it) in people]
    resources = [it for it in world["resources"] if it["arn"] in things]
    return Part({**world, "principals": principals, "resources": resources}, 0, first)


def part_of(world: World, some: Tuple[int, int], of: Tuple[int, int]) -> Part:
    principals, resources = world["principals"][slice(*some)], world["resources"][slice(*of)]
    used = {account_of(principal_arn(it)) for it in principals} | {it["account"] for it in resources}
    accounts = [it for it in world["accounts"] if it["id"] in used]
    return Part({**world, "accounts": accounts, "principals": principals, "resources": resources}, some[0], of[0])
