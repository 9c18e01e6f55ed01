"""The walker of a world's documents.

Inside the package a world is the dictionary of its JSON in which a Policy stands for each document: the document with
its policy's name. `dressed` makes such a world, and `bare` gives back the JSON.
"""

from typing import Any, Callable, Dict, Iterator, List, NamedTuple, Tuple

World = Dict[str, Any]


def cells_of(world: World) -> int:
    """How many requests a world has."""
    return len(world["principals"]) * len(world["actions"]) * len(world["resources"])


class Policy(NamedTuple):
    name: str
    document: Any


class Place(NamedTuple):
    kind: str  # org, control, resource, or identity
    path: str
    policy: Any


Change = Callable[[str, str, Any], Any]


def one(kind: str, path: str, value: Any, change: Change) -> Any:
    return change(kind, path, value)


def listed(kind: str, path: str, value: Any, change: Change) -> Any:
    return [change(kind, f"{path}/{n}", it) for n, it in enumerate(value)] if isinstance(value, list) else value


def levels(kind: str, path: str, value: Any, change: Change) -> Any:
    if not isinstance(value, list):
        return value
    return [listed(kind, f"{path}/{n}", level, change) for n, level in enumerate(value)]


# What the requests on an access point of S3 are in its bucket: a resource within a resource, which no world of iamsim has.
THROUGH = "through"
# The id of an organisation of which a principal is known not to be, and whether all tags are known that a principal may have or
# sessions may set some: no world of iamsim has these either.
FOREIGN, TAGS = "foreign", "tags"


def within(_kind: str, path: str, value: Any, change: Change) -> Any:
    return changed(value, path, OF_RESOURCE, change)


OF_RESOURCE: Dict[str, Tuple[str, Callable[..., Any]]] = {"control": ("control", levels), "policy": ("resource", one)}
# Where documents stand, in the order in which they are told.
MEMBERS: Dict[str, Dict[str, Tuple[str, Callable[..., Any]]]] = {
    "accounts": {"org": ("org", levels)},
    "resources": {**OF_RESOURCE, THROUGH: ("resource", within)},
    "principals": {
        "identity": ("identity", listed),
        "sessionPolicies": ("identity", listed),
        "boundary": ("identity", one),
    },
}


def changed(holder: Any, path: str, members: Dict[str, Tuple[str, Callable[..., Any]]], change: Change) -> Any:
    if not isinstance(holder, dict):
        return holder
    made = dict(holder)
    for name, (kind, walk) in members.items():
        if name in holder:
            made[name] = walk(kind, f"{path}/{name}", holder[name], change)
    return made


def mapped(world: World, change: Change) -> World:
    """The world with change(kind, path, policy) in place of each policy."""
    made = dict(world)
    for axis, members in MEMBERS.items():
        if isinstance(world.get(axis), list):
            made[axis] = [changed(it, f"{axis}/{n}", members, change) for n, it in enumerate(world[axis])]
    return made


def places(world: World) -> List[Place]:
    found: List[Place] = []
    mapped(world, lambda *it: found.append(Place(*it)))
    return found


def layer_of(it: Place) -> str:
    """The layer and level of which a document is one."""
    parts_of_path = it.path.split("/")[2:]
    return "/".join(parts_of_path[:-1] if parts_of_path[-1].isdigit() else parts_of_path)


def dressed(world: World, names: Dict[str, str]) -> World:
    """The world with its policies' names; a policy without one is named by its path."""
    return mapped(world, lambda _, path, document: Policy(str(names.get(path, path)), document))


def bare(world: World) -> World:
    """The JSON of a world."""
    made = mapped(world, lambda _, path, policy: policy.document)
    for axis, name in (("resources", THROUGH), ("principals", FOREIGN), ("principals", TAGS)):
        for it in made[axis] if isinstance(made.get(axis), list) else ():
            if isinstance(it, dict):
                it.pop(name, None)
    return made


def names_of(world: World) -> Dict[str, str]:
    return {it.path: it.policy.name for it in places(world) if f"/{THROUGH}/" not in it.path}


def with_contexts(world: World, change: Callable[[Dict[str, Any]], Any]) -> World:
    """The world with change(context) in place of each context."""

    def inside(holder: Any) -> Any:
        if isinstance(holder, dict) and isinstance(holder.get("context"), dict):
            return {**holder, "context": change(holder["context"])}
        return holder

    made = inside(world)
    return {**made, **{it: [inside(one) for one in made[it]] for it in ("principals", "resources")}}


def contexts(world: World) -> List[Dict[str, Any]]:
    found: List[Dict[str, Any]] = []
    with_contexts(world, found.append)
    return found


def each(value: Any) -> List[Any]:
    """The members of a list, or the one value."""
    return value if isinstance(value, list) else [value]


def statements_of(document: Any) -> List[Any]:
    """The statements of a document, whatever it is."""
    return each(document.get("Statement", [])) if isinstance(document, dict) else []


def conditions_of(statement: Any) -> Iterator[Tuple[str, str, Any]]:
    """(operator, key, value) of a statement's conditions."""
    given = statement.get("Condition") if isinstance(statement, dict) else None
    for operator, keys in given.items() if isinstance(given, dict) else ():
        for key, value in keys.items() if isinstance(keys, dict) else ():
            yield operator, key, value
