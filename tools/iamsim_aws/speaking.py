"""What policies speak of: actions, resources and the patterns of these, and which resource speaks for another."""

import functools
from typing import Any, Dict, Iterator, List, NamedTuple, Optional, Tuple

from .arns import account_of, bucket_of, in_bucket, owner_of, principal_arn, resource_part, service_of
from .documents import THROUGH, Place, World, each, places, statements_of
from .patterns import common, is_pattern, matcher, opened, variables_of

Resource = Dict[str, Any]


class Origin(NamedTuple):
    """What a text stands for: a pattern of a policy; without a policy what else is meant by the pattern that is asked for."""

    pattern: str
    policy: str

    def words(self) -> str:
        return f"{self.pattern} of {self.policy}" if self.policy else f"what else {self.pattern} means"


# What the texts among the actions and resources stand for; others stand for themselves.
Origins = Dict[str, Origin]


def stand_words(origins: Origins, *texts: str) -> List[str]:
    """What those texts stand for that are made up."""
    return [f"{it} {words}" for it, words in stands(origins).items() if it in texts]


def made_up(origins: Origins) -> Origins:
    """The texts that are made up; one that is a pattern of a policy as it is stands for itself."""
    return {it: of for it, of in origins.items() if of.pattern != it}


def stands(origins: Origins) -> Dict[str, str]:
    """What the texts stand for that are made up, in words."""
    return {it: f"stands for {of.words()}" for it, of in made_up(origins).items()}


def texts_of(statement: Any, *elements: str) -> List[str]:
    if not isinstance(statement, dict):
        return []
    return [it for name in elements for it in each(statement.get(name, [])) if isinstance(it, str)]


@functools.lru_cache(maxsize=None)
def meets(patterns: Tuple[str, ...], actions: Tuple[str, ...]) -> bool:
    return any(shares(pattern, action) for pattern in patterns for action in actions)


def shares(pattern: str, action: str) -> bool:
    """Whether a pattern may mean an action, or one that a pattern means."""
    return common(pattern, action, True) is not None if is_pattern(action) else bool(matcher(pattern, True)(action))


def speaks_of(statement: Any, actions: Tuple[str, ...]) -> bool:
    """Whether a statement may speak of one of the actions, which may be patterns."""
    is_open = isinstance(statement, dict) and "NotAction" in statement
    return is_open or meets(tuple(texts_of(statement, "Action")), actions)


def statements(world: World, actions: List[str]) -> Iterator[Tuple[Place, Any, bool]]:
    """(place of the document, statement, whether it has variables) of those that may speak of the actions."""
    wanted = tuple(actions)
    for it in places(world):
        document = it.policy.document
        for statement in statements_of(document):
            if speaks_of(statement, wanted):
                yield it, statement, isinstance(document, dict) and document.get("Version") == "2012-10-17"


def first_text(value: Any) -> Optional[str]:
    """The value of a key that has one."""
    if isinstance(value, list):
        return first_text(value[0]) if len(value) == 1 else None
    if isinstance(value, bool):
        return str(value).lower()
    return str(value) if isinstance(value, (str, int)) else None


def values_of(world: World, path: str) -> Tuple[Dict[str, str], str]:
    """The variables' values for the holder of a document, and the account that its open ARNs are in."""
    axis, n = path.split("/")[:2]
    it = world[axis][int(n)]
    context = {**world.get("context", {}), **it.get("context", {})}
    values = {key.lower(): first_text(value) for key, value in context.items()}
    found = {key: value for key, value in values.items() if value is not None}
    if axis != "principals":
        return found, it["id"] if axis == "accounts" else it["account"]
    arn = principal_arn(it)
    found.update({"aws:principalarn": arn, "aws:principalaccount": account_of(arn)})
    if "user" in it:
        found["aws:username"] = arn.split("/")[-1]
    return found, account_of(arn)


def beside(world: World, arn: str, account: str) -> Resource:
    """A resource that the world does not name; the policy of a bucket or access point is that of each of its objects."""
    owner = owner_of(arn)
    return owned(owners([it for it in world["resources"] if owner_of(it["arn"]) == owner]), arn, account)


def owners(resources: List[Resource]) -> Dict[str, Resource]:
    """Of each bucket, access point or other resource the one of these that speaks for it: one with a policy if there is one."""
    found: Dict[str, Resource] = {}
    for it in sorted(resources, key=lambda it: "policy" not in it):
        found.setdefault(owner_of(it["arn"]), it)
    return found


def owned(of: Dict[str, Resource], arn: str, account: str) -> Resource:
    """A resource with what the one has that speaks for it."""
    it = of.get(owner_of(arn))
    if it is None:
        return {"arn": arn, "account": account}
    made: Resource = {"arn": arn, **{name: it[name] for name in ("account", "policy", "control") if name in it}}
    if THROUGH in it:
        made[THROUGH] = {**it[THROUGH], "arn": in_bucket(arn, bucket_of(it[THROUGH]["arn"]))}
    return made


def is_absent_role(world: World, arn: str) -> bool:
    """Whether a role is asked to be assumed that an account does not have of whose principals the world is."""
    is_role = service_of(arn) == "iam" and resource_part(arn).startswith("role/")
    is_assumed = any(it.lower().startswith("sts:") for it in world["actions"])
    known = {account_of(principal_arn(it)) for it in world["principals"]}
    return is_role and is_assumed and account_of(arn) in known and all(it["arn"] != arn for it in world["resources"])


def may_come(place: Place, text: str, values: Dict[str, str], asked: str) -> bool:
    """Whether a text of which nothing gives a variable may be of what is asked for: a session has no user's name."""
    lacking = {it.lower() for it in variables_of(text)} - set(values)
    is_never = place.path.startswith("principals/") and "aws:username" in lacking
    return not is_never and common(opened(text), in_parts_of(opened(text), asked)) is not None


def in_parts_of(pattern: str, asked: str) -> str:
    """What is asked for as a pattern of ARNs; a name stands behind the parts of the pattern that it meets."""
    if asked.startswith(("arn:", "*")):
        return asked
    parts = pattern.split(":", 5)
    return ":".join([*(parts[:5] if len(parts) == 6 else ["arn", *"****"]), asked])


def patterns_of_actions(world: World) -> Dict[str, str]:
    """The actions and action patterns that policies name, each once with its first policy's name."""
    found: Dict[str, str] = {}
    for it in places(world):
        for statement in statements_of(it.policy.document):
            for text in texts_of(statement, "Action", "NotAction"):
                found.setdefault(text, it.policy.name)
    return found
