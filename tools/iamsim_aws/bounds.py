"""What is allowed at most, and what at least, whatever values keys have that nothing gives: worlds in which these keys play no part.

A statement that hangs on such a key may hold or not. Further allows and fewer denies allow no less (docs/LOGIC.md, 11.2): where those
allows are taken to hold and those denies not to, all is allowed that any values allow; the other way round what each allows. What these
worlds tell apart, and what each such statement does, tells apart all that values of the keys may (`told_apart`).
"""

from typing import Any, Callable, Dict, Iterator, List, NamedTuple, Optional, Tuple

from .arns import account_of, principal_arn
from .dates import OF_MOMENT, is_past
from .documents import FOREIGN, Place, Policy, World, conditions_of, each, layer_of, mapped, places, statements_of
from .files import compact
from .keys import OF_ORGANIZATION, givers, has_variables, lacks, plain_operator, variables_in
from .patterns import VARIABLE, any_matches, of_policy, opened, variables_of
from .speaking import speaks_of, texts_of

ALLOW, DENY = "Allow", "Deny"
# Statements that are told apart at most, and what is said where there are more.
MOST = 1000
TOO_MANY = "what its answers hang on was not asked, since it is too much"
NEW = "2012-10-17"
NEVER = {"Null": {"aws:PrincipalArn": "true"}}
Statement = Dict[str, Any]
# A statement that tells texts apart, and whether it has variables.
Probe = Tuple[bool, Statement]
IsOpen = Callable[[str], bool]


class Spoken(NamedTuple):
    """A statement, where its document stands, whether it has variables, which keys may have any value there, and the moment from which on
    it is asked."""

    place: Place
    statement: Any
    is_new: bool
    is_open: IsOpen
    moment: int

    @property
    def keys(self) -> List[str]:
        """The keys that it hangs on, each once."""
        found = [key for it in conditions_of(self.statement) for key in self.keys_of(*it)]
        for text in texts_of(self.statement, "Resource", "NotResource") if self.is_new else ():
            found += filter(self.is_open, variables_of(text))
        return list(dict.fromkeys(found))

    def keys_of(self, operator: str, key: str, value: Any) -> List[str]:
        """The keys that a condition hangs on."""
        is_settled = key.lower() in OF_MOMENT and is_past(operator, value, self.moment)
        variables = variables_in(value) if self.is_new and has_variables(operator) else []
        return list(filter(self.is_open, [*([] if is_settled else [key]), *variables]))


def openness(world: World) -> Callable[[str], IsOpen]:
    """For the path of a document: which keys may have any value in the requests that it may decide. What the world does not name has none
    of the keys that its resources give."""
    given = givers(world)

    def is_open(path: str, key: str) -> bool:
        is_of_named = given.get(key.lower(), ("",))[0] == "resources" and not path.startswith("resources/")
        return key.lower() in OF_MOMENT or is_of_named or lacks(world, given, path, key)

    return lambda path: lambda key: is_open(path, key)


def is_new(policy: Policy) -> bool:
    return isinstance(policy.document, dict) and policy.document.get("Version") == NEW


def spoken(world: World, actions: Optional[List[str]] = None) -> Iterator[Spoken]:
    """The statements of a world, or those that may speak of some actions."""
    is_open = openness(world)
    for it in places(world):
        of = is_open(it.path)
        for one in statements_of(it.policy.document):
            if isinstance(one, dict) and (actions is None or speaks_of(one, tuple(actions))):
                yield Spoken(it, one, is_new(it.policy), of, world["moment"])


def hangs(world: World, actions: Optional[List[str]] = None) -> bool:
    """Whether some statement hangs on a key that nothing gives."""
    return any(it.keys for it in spoken(world, actions))


def hanging_people(world: World) -> List[Any]:
    """The principals whose requests for the world's actions some statement decides that hangs on a key that nothing gives."""
    found = {tuple(it.place.path.split("/")[:2]) for it in spoken(world, world["actions"]) if it.keys}
    if any(axis != "principals" for axis, _ in found):
        return list(world["principals"])
    return [it for n, it in enumerate(world["principals"]) if ("principals", str(n)) in found]


def hanging_keys(world: World, actions: List[str]) -> List[str]:
    """The keys that nothing gives, and by which statements on some actions hang."""
    found: Dict[str, str] = {}
    for it in spoken(world, actions):
        for key in it.keys if may_speak_of(it, [one["arn"] for one in world["resources"]]) else ():
            found.setdefault(key.lower(), key)
    return sorted(found.values(), key=str.lower)


def may_speak_of(of: Spoken, arns: List[str]) -> bool:
    """Whether a statement may be of one of some resources."""
    some = texts_of(of.statement, "Resource")
    return not some or any_matches([opened(it) if of.is_new else of_policy(it) for it in some], arns)


def with_runs(text: str, is_open: IsOpen) -> str:
    """A text of a policy in which each variable may be any text that has an open key."""
    return VARIABLE.sub(lambda it: "*" if it.group(1) and is_open(it.group(1)) else it.group(0), text)


def is_open_text(text: str, of: Spoken) -> bool:
    return of.is_new and any(map(of.is_open, variables_of(text)))


def most_of(of: Spoken) -> Statement:
    """A statement that speaks of all of which it may with any values of open keys."""
    made = {key: it for key, it in of.statement.items() if key not in ("Condition", "Resource", "NotResource")}
    conditions: Dict[str, Dict[str, Any]] = {}
    for operator, key, value in conditions_of(of.statement):
        if not of.keys_of(operator, key, value):
            conditions.setdefault(operator, {})[key] = value
    if conditions:
        made["Condition"] = conditions
    if "Resource" in of.statement:
        some = texts_of(of.statement, "Resource")
        made["Resource"] = [with_runs(it, of.is_open) if of.is_new else it for it in some]
    if "NotResource" in of.statement:
        some = [it for it in texts_of(of.statement, "NotResource") if not is_open_text(it, of)]
        made.update({"NotResource": some} if some else {"Resource": ["*"]})
    return made


def least_of(of: Spoken) -> Optional[Statement]:
    """A statement that speaks of that alone of which it does with all values of open keys, if there is any."""
    if any(of.keys_of(*it) for it in conditions_of(of.statement)):
        return None
    if any(is_open_text(it, of) for it in texts_of(of.statement, "NotResource")):
        return None
    if "Resource" not in of.statement:
        return dict(of.statement)
    some = [it for it in texts_of(of.statement, "Resource") if not is_open_text(it, of)]
    return {**of.statement, "Resource": some} if some else None


def bounded(world: World, favoured: str) -> World:
    """The world in which the statements of one effect say the most that they may with any values of open keys, and those of the
    other one the least."""
    is_open, made = openness(world), {}  # type: Any, Dict[Any, Policy]

    def change(kind: str, path: str, policy: Any) -> Any:
        asked = is_open(path)
        place, moment = Place(kind, path, policy), world["moment"]
        some = [Spoken(place, it, is_new(policy), asked, moment) for it in statements_of(policy.document)]
        keys = [it.keys if isinstance(it.statement, dict) else [] for it in some]
        if not any(keys):
            return policy
        known = id(policy), compact(keys)
        if known not in made:
            left = [bound_of(it, favoured) if of else it.statement for it, of in zip(some, keys)]
            document = {**policy.document, "Statement": [it for it in left if it is not None]}
            made[known] = policy._replace(document=document)
        return made[known]

    return mapped(world, change)


def bound_of(of: Spoken, favoured: str) -> Optional[Statement]:
    return most_of(of) if of.statement.get("Effect") == favoured else least_of(of)


def at_most(world: World) -> World:
    """The world in which all is allowed that is with any values of open keys."""
    return bounded(closed(world), ALLOW)


def at_least(world: World) -> World:
    """The world in which nothing is allowed but what is with all values of open keys."""
    return bounded(closed(world), DENY)


# --- what each statement tells apart ----------------------------------------------------------------------------------


def probes_of(world: World) -> List[Probe]:
    """Statements that tell apart, each by itself, what those on the world's actions do that hang on an open key, and what the allows do that
    stand in one layer with such an allow: there both would be taken as one."""
    every = list(spoken(closed(world), world["actions"]))
    loose = {place_of(it) for it in every if it.statement.get("Effect") == ALLOW and it.keys}
    found: Dict[str, Probe] = {}
    for it in every:
        if it.keys or (it.statement.get("Effect") == ALLOW and place_of(it) in loose):
            for one in probes_for(it):
                found.setdefault(compact([it.is_new, one]), (it.is_new, one))
    return list(found.values())


def place_of(of: Spoken) -> Tuple[str, str]:
    """Who has a statement, and in which layer."""
    return "/".join(of.place.path.split("/")[:2]), layer_of(of.place)


def probes_for(of: Spoken) -> Iterator[Statement]:
    """What tells apart what a statement does: by the texts without open variables, and by the others."""
    own = {name: of.statement[name] for name in ("Action", "NotAction") if name in of.statement}
    texts = texts_of(of.statement, "Resource", "NotResource")
    opened_texts = [it for it in texts if is_open_text(it, of)]
    rest = [it for it in texts if it not in opened_texts]
    for some in (rest, [with_runs(it, of.is_open) for it in opened_texts]):
        if some:
            yield {"Effect": ALLOW, **own, "NotResource": some}
    if not texts:
        yield {"Effect": ALLOW, **own, "Resource": "*"}


def with_probes(world: World, probes: List[Probe]) -> World:
    """The world with a level of the organisation that allows everything, and whose statements tell texts apart, each by itself."""
    everything: Statement = {"Effect": ALLOW, "Action": "*", "Resource": "*"}
    level = [Policy("", {"Version": NEW, "Statement": [everything, *(it for is_new, it in probes if is_new)]})]
    level.append(Policy("", {"Version": "2008-10-17", "Statement": [it for is_new, it in probes if not is_new]}))
    # An account that manages its organisation has no levels, and its resources have no limits.
    managing = {it["id"] for it in world["accounts"] if it.get("management")}
    asking = {account_of(principal_arn(it)) for it in world["principals"]}
    accounts = [
        {"id": it["id"], "org": [*([] if it["id"] in managing else it.get("org", [])), level]}
        if it["id"] in asking
        else it
        for it in world["accounts"]
    ]
    managing &= asking
    resources = [
        {name: one for name, one in it.items() if name != "control" or it["account"] not in managing}
        for it in world["resources"]
    ]
    return {**world, "accounts": accounts, "resources": resources}


def told_apart(world: World) -> World:
    """The world in which all is allowed that is with any values of open keys, and in which names of one kind are allowed with the same
    values."""
    return with_probes(at_most(world), probes_of(world))


# --- keys that who is outside cannot have -----------------------------------------------------------------------------


def closed(world: World) -> World:
    """The world of principals of whom it is known that they are not of an organisation, where no value is asked for that its members
    alone have."""
    foreign = {str(it.get(FOREIGN, "")) for it in world["principals"]}
    own = foreign.pop() if len(foreign) == 1 else ""
    return mapped(world, lambda _kind, _path, it: without_members(it, own)) if own else world


def without_members(policy: Policy, organization: str) -> Policy:
    """The policy for principals that are not of an organisation, with its statements at their places."""
    some = [without_member(it, organization) for it in statements_of(policy.document)]
    return policy._replace(document={**policy.document, "Statement": some}) if some else policy


def without_member(statement: Any, organization: str) -> Any:
    entries, left = list(conditions_of(statement)), {}  # type: Any, Dict[str, Dict[str, Any]]
    if not entries:
        return statement
    for operator, key, value in entries:
        some = [it for it in each(value) if str(it).split("/")[0] != organization]
        is_left = key.lower() in OF_ORGANIZATION and len(some) < len(each(value))
        if is_left and not some and wants_value(operator):
            return {**statement, "Condition": NEVER}
        if not is_left or some or not takes_all(operator):
            left.setdefault(operator, {})[key] = some if is_left else value
    rest = {name: it for name, it in statement.items() if name != "Condition"}
    return {**rest, "Condition": left} if left else rest


def wants_value(operator: str) -> bool:
    """Whether an entry holds with none but the values that it has (docs/LOGIC.md, 7.5)."""
    is_lenient = operator.endswith("IfExists") or operator.startswith("ForAllValues:")
    return not is_lenient and "Not" not in plain_operator(operator)


def takes_all(operator: str) -> bool:
    """Whether an entry without values holds whatever values the key has, and without one (docs/LOGIC.md, 7.5)."""
    is_any = operator.startswith("ForAnyValue:") and not operator.endswith("IfExists")
    return "Not" in plain_operator(operator) and not is_any
