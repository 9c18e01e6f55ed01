"""Which documents and other parts of a world iamsim refuses, all of them, each in words."""

import re
from typing import Any, Dict, List, NamedTuple, Optional, Tuple

from .arns import principal_text
from .documents import Place, Policy, World, bare, mapped, places
from .files import compact, encoded
from .program import Refused, run
from .splitting import BYTES, STATEMENTS, count_of, size_of

ACCOUNT = "000000000000"
NAMES = ["user", "role", "arn", "id"]
AT_DOCUMENT = re.compile(r"fault 2 World: 8 Policy at ([^:]+): (document|statement \d+): (\d+) (\w+)")
AT_PLACE = re.compile(r"fault 2 World: \d+ \w+ at ([^:]+)(?:: .*)?")
NOTHING = Policy("", {"Version": "2012-10-17", "Statement": []})

# The faults of a document, in words.
WORDS = {
    "NotObject": "it is no JSON object",
    "UnknownElement": "it has an element that the language does not know, or an Id that is no text",
    "BadVersion": "its Version is none that is read",
    "NoStatement": "it has no Statement",
    "BadStatement": "its Statement, or a member of that list, is no object",
    "BadSid": "the Sid is no text",
    "DuplicateSid": "the Sid is that of an earlier statement",
    "BadEffect": "the Effect is neither Allow nor Deny",
    "ActionCount": "it has to have one of Action and NotAction",
    "BadAction": "an action is not written as 'service:Name' or '*', or the list is empty",
    "PrincipalMisplaced": "Principal and NotPrincipal have no place in a policy of this kind",
    "PrincipalMissing": "a resource's policy has to name a Principal",
    "BadPrincipal": "the Principal is not of a form that is read",
    "NotPrincipalAllow": "NotPrincipal stands with Deny alone",
    "ResourceCount": "it has to have one of Resource and NotResource",
    "BadResource": "a resource is neither '*' nor begins with 'arn:', or the list is empty",
    "BadVariable": "a '${' begins no variable, or stands before the fifth colon of a resource",
    "UnknownOperator": "a condition has an operator that the language does not know",
    "BadCondition": "the Condition is not of the form {operator: {key: values}}",
    "BadValue": "a value of a condition is none that its operator reads, as a decimal (iamsim-aws decimals) or a wrong "
    "date or address",
    "TooMany": "it has over 4,096 statements, or members of one list",
}


class Finding(NamedTuple):
    """A fault of the document, or other part, at a path."""

    path: str
    fault: str


def world_of(some: List[Place]) -> Tuple[World, Dict[str, int]]:
    """A world of documents, and the number of each by its path there."""
    kinds: Dict[str, List[Any]] = {it: [] for it in ("org", "identity", "resource", "control")}
    numbers: Dict[str, int] = {}
    for n, it in enumerate(some):
        at = len(kinds[it.kind])
        kinds[it.kind].append(it.policy.document)
        paths = {
            "org": f"accounts/0/org/0/{at}",
            "identity": f"principals/0/identity/{at}",
            "resource": f"resources/{at}/policy",
            "control": f"resources/0/control/0/{at}",
        }
        numbers[paths[it.kind]] = n
    resources = [{"arn": "*", "account": ACCOUNT, "policy": it} for it in kinds["resource"]]
    if kinds["control"]:
        resources = resources or [{"arn": "*", "account": ACCOUNT}]
        resources[0]["control"] = [kinds["control"]]
    principal = {"user": f"arn:aws:iam::{ACCOUNT}:user/x", "identity": kinds["identity"]}
    world = {"moment": 0, "accounts": [{"id": ACCOUNT, "org": [kinds["org"]]}], "principals": [principal]}
    return {**world, "actions": [], "resources": resources}, numbers


def refusal(world: World) -> Optional[str]:
    """The line by which iamsim refuses the JSON of a world."""
    try:
        run(["check"], encoded(compact(world)))
    except Refused as refused:
        if not str(refused).startswith("fault "):
            raise
        return str(refused)
    return None


def batches(some: List[Place]) -> List[List[Place]]:
    """The documents in lists that are within the limits of a world; one that is past them stands alone."""
    found: List[List[Place]] = [[]]
    statements = size = 0
    for it in some:
        more, larger = count_of(it.policy.document), size_of(it.policy.document) + 100
        if found[-1] and (statements + more > STATEMENTS or size + larger > BYTES - 1000):
            found.append([])
            statements = size = 0
        found[-1].append(it)
        statements, size = statements + more, size + larger
    return found


def faults_in(batch: List[Place]) -> Dict[int, str]:
    """The fault of each document of a batch that iamsim refuses, by its number there."""
    left = list(batch)
    found: Dict[int, str] = {}
    while True:
        world, numbers = world_of(left)
        line = refusal(world)
        told = AT_DOCUMENT.fullmatch(line or "")
        if not told or told.group(1) not in numbers:
            return {**found, **({0: line} if line and len(batch) == 1 else {})}
        _, place, number, name = told.groups()
        n = numbers[told.group(1)]
        where = "" if place == "document" else f"{place}: "
        found[n] = f"{where}{WORDS.get(name, name)} (fault {number} {name})"
        left[n] = left[n]._replace(policy=NOTHING)


def refused_documents(world: World) -> List[Finding]:
    """The documents that iamsim refuses; alike ones are asked for once."""
    alike: Dict[Tuple[str, str], List[Place]] = {}
    every = places(world)
    for it in every:
        alike.setdefault((it.kind, compact(it.policy.document)), []).append(it)
    found: Dict[str, str] = {}
    for batch in batches([of[0] for of in alike.values()]):
        for n, fault in faults_in(batch).items():
            it = batch[n]
            found.update((one.path, fault) for one in alike[it.kind, compact(it.policy.document)])
    return [Finding(it.path, found[it.path]) for it in every if it.path in found]


def other_faults(world: World, refused: List[Finding]) -> List[Finding]:
    """What iamsim refuses of a world besides its documents, each fault that can be passed by once."""
    out = {it.path for it in refused}
    rest = bare(mapped(world, lambda _, path, policy: NOTHING if path in out else policy))
    # Without an account those that are of it would be at fault too.
    axes = [it for it in ("principals", "actions", "resources") if isinstance(rest.get(it), list)]
    numbers = {axis: list(range(len(rest[axis]))) for axis in axes}
    found: List[Finding] = []
    line = refusal(rest)
    while line is not None:
        place = AT_PLACE.fullmatch(line)
        path = place.group(1).split("/") if place else []
        if len(path) < 2 or path[0] not in numbers or not path[1].isdigit() or int(path[1]) >= len(numbers[path[0]]):
            return [*found, Finding("", line)]
        n = int(path[1])
        told = "/".join([path[0], str(numbers[path[0]].pop(n)), *path[2:]])
        found.append(Finding(told, line.replace("/".join(path), told, 1) + named(rest, path)))
        rest[path[0]] = rest[path[0]][:n] + rest[path[0]][n + 1 :]
        line = refusal(rest)
    return found


def holder_of(world: World, path: str) -> str:
    """Who has the document or part at a path."""
    axis, n = path.split("/")[:2]
    it = world[axis][int(n)]
    if axis == "principals":
        return principal_text(it)
    return f"account {it['id']}" if axis == "accounts" else str(it["arn"])


def named(world: World, path: List[str]) -> str:
    """The name of the principal, action or resource at a path, behind the line of its fault."""
    it = world[path[0]][int(path[1])]
    texts: List[Any] = [it.get(name) for name in NAMES] if isinstance(it, dict) else [it]
    found = [text for text in texts if isinstance(text, str)]
    return f" ({found[0]})" if found else ""


def with_name(world: World, line: str) -> str:
    """The line of a fault with the name of what stands at its place."""
    place = AT_PLACE.fullmatch(line)
    path = place.group(1).split("/") if place else []
    return line + (named(world, path) if len(path) > 1 and path[0] in world and path[1].isdigit() else "")


def lines(world: World, found: List[Finding]) -> List[str]:
    """A line for each refused policy and fault, with who has it."""
    names = {it.path: it.policy.name for it in places(world)}
    holders: Dict[Tuple[str, str], List[str]] = {}
    for path, fault in found:
        holders.setdefault((names[path], fault), []).append(holder_of(world, path))
    return [
        f"{name}: {fault}; of {', '.join(of[:3])}{f' and {len(of) - 3} more' if len(of) > 3 else ''}"
        for (name, fault), of in holders.items()
    ]
