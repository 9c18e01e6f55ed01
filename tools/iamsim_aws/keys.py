"""The condition keys that policies ask for and requests lack (docs/LOGIC.md, 7.5 and 4.4)."""

from typing import Any, Dict, Iterator, List, Set, Tuple

from .arns import account_of, principal_arn
from .documents import FOREIGN, TAGS, World, conditions_of, each, places, statements_of
from .patterns import variables_of

# Those that follow from the request.
DERIVED = [
    "aws:PrincipalArn",
    "aws:username",
    "aws:PrincipalType",
    "aws:PrincipalAccount",
    "aws:ResourceAccount",
    "aws:CurrentTime",
    "aws:EpochTime",
]
# The account of who calls KMS.
CALLER = "kms:CallerAccount"
# How keys begin that are tags of a principal.
TAG = "aws:principaltag/"
OF_ORGANIZATION = ("aws:principalorgid", "aws:principalorgpaths")


def plain_operator(operator: str) -> str:
    """The operator without its quantifier and 'IfExists'."""
    for before in ("ForAllValues:", "ForAnyValue:"):
        operator = operator[len(before) :] if operator.startswith(before) else operator
    return operator[: -len("IfExists")] if operator.endswith("IfExists") else operator


def has_variables(operator: str) -> bool:
    return plain_operator(operator).startswith(("String", "Arn"))


def variables_in(value: Any) -> List[str]:
    return [key for it in each(value) if isinstance(it, str) for key in variables_of(it)]


def asked_by(statement: Any, version: Any) -> Iterator[str]:
    """The keys that a statement asks for; variables stand in documents of one version alone."""
    is_new = version == "2012-10-17"
    for operator, key, value in conditions_of(statement):
        yield key
        if is_new and has_variables(operator):
            yield from variables_in(value)
    for element in ("Resource", "NotResource") if is_new and isinstance(statement, dict) else ():
        yield from variables_in(statement.get(element, []))


def asked(world: World) -> Iterator[Tuple[str, str, str]]:
    """(key, path of the document, place) of each key that a policy asks for."""
    for _, path, policy in places(world):
        version = policy.document.get("Version") if isinstance(policy.document, dict) else None
        for n, statement in enumerate(statements_of(policy.document)):
            for key in asked_by(statement, version):
                yield key, path, f"{path} statement {n}"


# The axis whose members give a key, and their numbers; no axis where each request has it.
Givers = Dict[str, Tuple[str, Set[int]]]


def givers(world: World) -> Givers:
    """Who gives each key, by its lower case. What a world gives for all, no principal and no resource gives besides, and of
    these two one kind alone gives a key (docs/LOGIC.md, 12.4)."""
    found: Givers = {}
    for axis in ("principals", "resources"):
        for n, it in enumerate(world[axis]):
            for key in context_of(it):
                found.setdefault(key.lower(), (axis, set()))[1].add(n)
    found.update((key.lower(), ("", set())) for key in [*DERIVED, *context_of(world)])
    return found


def context_of(holder: Any) -> Dict[str, Any]:
    given = holder.get("context") if isinstance(holder, dict) else None
    return given if isinstance(given, dict) else {}


def lacks(world: World, given: Givers, path: str, key: str) -> bool:
    """Whether a request that the document at a path may decide lacks a key."""
    if key.lower() not in given:
        return True
    by, numbers = given[key.lower()]
    axis, n = path.split("/")[:2]
    return by != "" and (int(n) not in numbers if axis == by else len(numbers) < len(world[by]))


def may_have(holder: Any, key: str, value: Any) -> bool:
    """Whether a principal may have a value of a key: not that of an organisation of which it is known not to be."""
    of = {str(it).split("/")[0] for it in each(value)} if key.lower() in OF_ORGANIZATION else set()
    return not isinstance(holder, dict) or holder.get(FOREIGN) not in of


def with_key(world: World, key: str, value: Any) -> World:
    """The world with a value of a key for each request that lacks it and may have it."""
    is_free = all(may_have(it, key, value) for it in world["principals"])
    by, numbers = givers(world).get(key.lower(), ("context" if is_free else "principals", set()))
    if by == "context":
        return {**world, "context": {**context_of(world), key: value}}
    if by == "":
        return world
    some = [
        {**it, "context": {**context_of(it), key: value}} if n not in numbers and may_have(it, key, value) else it
        for n, it in enumerate(world[by])
    ]
    return {**world, by: some}


def with_own_keys(world: World) -> World:
    """The world in which each principal gives what follows from who it is, where a document asks for it and the world does not give
    it: its own account as that of who calls KMS, and of its tags, where all are known, that it has none."""
    given, wanted = givers(world), {key.lower(): key for key, _, _ in asked(world)}
    some = {it: key for it, key in wanted.items() if given.get(it, ("principals",))[0] == "principals"}
    callers = [it for it in some if it == CALLER.lower()]
    tags = [it for it in some if it.startswith(TAG)]

    def own(it: Any) -> Dict[str, Any]:
        made: Dict[str, Any] = {some[key]: account_of(principal_arn(it)) for key in callers}
        made.update({some[key]: [] for key in tags if it.get(TAGS)})
        has = {key.lower() for key in context_of(it)}
        return {key: value for key, value in made.items() if key.lower() not in has}

    if not callers and not tags:
        return world
    more = [(it, own(it)) for it in world["principals"]]
    return {**world, "principals": [{**it, "context": {**context_of(it), **of}} if of else it for it, of in more]}


def lacking(world: World) -> Dict[str, List[str]]:
    """The keys that policies ask for and requests lack, sorted without regard to case, each with the places that ask."""
    given = givers(world)
    names: Dict[str, str] = {}
    found: Dict[str, Set[str]] = {}
    for key, path, place in asked(world):
        if lacks(world, given, path, key):
            names.setdefault(key.lower(), key)
            found.setdefault(key.lower(), set()).add(place)
    return {names[it]: sorted(found[it]) for it in sorted(found)}
