"""What differs between two worlds: documents and statements, for whom, for which resources, and which actions are in question."""

from typing import Any, Callable, Dict, FrozenSet, Iterable, Iterator, List, NamedTuple, Optional, Sequence, Set, Tuple

from .arns import account_of, is_access_point, name_of, principal_arn, principal_text, service_of
from .checking import NOTHING
from .documents import FOREIGN, MEMBERS, THROUGH, World, layer_of, mapped, places, statements_of
from .every import UNNAMED
from .files import compact
from .keys import CALLER, context_of
from .names import Names, Row, Side, controlled, everybody
from .patterns import any_matches, of_policy, opened
from .speaking import speaks_of, texts_of
from .strangers import is_stranger

ANY = "*"
Principal = Dict[str, Any]


def holders(world: World) -> Dict[Tuple[str, str], List[str]]:
    """The documents of each account, principal and resource."""
    found: Dict[Tuple[str, str], List[str]] = {}
    for it in places(world):
        axis, n = it.path.split("/")[:2]
        found.setdefault((axis, name_of(axis, world[axis][int(n)])), []).append(compact(it.policy.document))
    return found


def differing(before: World, after: World) -> Tuple[World, World]:
    """The two worlds with those documents alone that their holders do not have in both."""
    of_before, of_after = holders(before), holders(after)

    def left(world: World, other: Dict[Tuple[str, str], List[str]]) -> World:
        def keep(_kind: str, path: str, policy: Any) -> Any:
            axis, n = path.split("/")[:2]
            key = axis, name_of(axis, world[axis][int(n)])
            return NOTHING if compact(policy.document) in other.get(key, []) else policy

        return mapped(world, keep)

    return left(before, of_after), left(after, of_before)


def rules_in(axis: str, holder: Dict[str, Any]) -> Set[Tuple[str, str, str]]:
    """What the documents of a holder say: (pattern of actions, layer, all else of its statement)."""
    found: Set[Tuple[str, str, str]] = set()
    for it in places({axis: [holder]}):
        document = it.policy.document
        version = document.get("Version") if isinstance(document, dict) else None
        for one in statements_of(document):
            texts = texts_of(one, "Action")
            rest = {key: value for key, value in one.items() if key not in ("Action", "Sid")} if texts else one
            said = layer_of(it), compact([version, rest])
            found.update((text, *said) for text in texts or [ANY])
    return found


def frame_of(axis: str, holder: Dict[str, Any]) -> str:
    """What a holder has besides documents, and how many limits of each kind bind it."""
    own = {key: it for key, it in holder.items() if key not in (*MEMBERS[axis], THROUGH, FOREIGN, "context")}
    # Who calls KMS follows from the principal, and stands there where a document asks for it.
    context = {key: it for key, it in context_of(holder).items() if key.lower() != CALLER.lower()}
    limits = [len(holder.get(it, [])) for it in ("org", "control")]
    inside = frame_of(axis, holder[THROUGH]) if THROUGH in holder else ""
    return compact([own, context, "boundary" in holder, bool(holder.get("sessionPolicies")), limits, inside])


def spoken_between(axis: str, before: Dict[str, Any], after: Dict[str, Any]) -> Optional[Set[str]]:
    """The patterns of the actions whose answers may change by a holder; None where any may."""
    if frame_of(axis, before) != frame_of(axis, after):
        return None
    return {text for text, _, _ in rules_in(axis, before) ^ rules_in(axis, after)}


def allows(axis: str, holder: Dict[str, Any]) -> Set[str]:
    """The patterns of the actions that the documents of a holder allow."""
    every = (one for it in places({axis: [holder]}) for one in statements_of(it.policy.document))
    some = [it for it in every if isinstance(it, dict) and it.get("Effect") == "Allow"]
    return {text for it in some for text in texts_of(it, "Action") or [ANY]}


class Difference:
    """What differs between two worlds: for whom, and for which resources, with the patterns of the actions in question."""

    def __init__(self, sides: Sequence[Side]):
        self.sides = sides
        self.granted = {it for side in sides for one in side.world["resources"] for it in allows("resources", one)}
        frames = [compact([it.world["moment"], context_of(it.world)]) for it in sides]
        self.is_all = len(set(frames)) > 1
        self.accounts = self.pairs("accounts", "id")

    def pairs(self, axis: str, key: str) -> Dict[str, List[Dict[str, Any]]]:
        found: Dict[str, List[Dict[str, Any]]] = {}
        for side in self.sides:
            for it in side.world[axis]:
                found.setdefault(it[key], []).append(it)
        return found

    def of_account(self, account: str) -> Optional[Set[str]]:
        some = self.accounts.get(account, [])
        return spoken_between("accounts", *some) if len(some) == 2 else set()

    def people(self) -> Iterator[Tuple[FrozenSet[str], List[Principal]]]:
        """The principals by the patterns of the actions that are in question for them."""
        found: Dict[FrozenSet[str], Dict[str, Principal]] = {}
        known = [{principal_text(it): it for it in side.world["principals"]} for side in self.sides]
        of_accounts = {it: self.of_account(it) for it in self.accounts}
        for it in everybody(self.sides):
            text = principal_text(it)
            some = [of[text] for of in known if text in of]
            limits = of_accounts.get(account_of(principal_arn(it)), set())
            own = spoken_between("principals", *some) if len(some) == 2 and not self.is_all else None
            spoken = own | limits if own is not None and limits is not None else self.granted | may(some)
            if spoken:
                found.setdefault(frozenset(spoken), {})[text] = it
        yield from ((spoken, list(of.values())) for spoken, of in found.items())

    def resources(self) -> Iterator[Tuple[FrozenSet[str], Set[str]]]:
        """The ARNs of resources, and of those that stand for what is unnamed, by the patterns of the actions in question."""
        ids = [it["id"] for side in self.sides for it in side.world["accounts"]]
        owner = {of: it["account"] for side in self.sides for of, it in side.owners.items()}
        every = {arn: it["account"] for side in self.sides for arn, it in side.named.items()}
        every.update((f"{it}/{UNNAMED}", account) for it, account in owner.items() if service_of(it) == "s3")
        services = [*controlled(self.sides[-1].scope.source.estate), ""]
        every.update((f"arn:aws:{it}::{account}:{UNNAMED}", account) for account in ids for it in services)
        found: Dict[FrozenSet[str], Set[str]] = {}
        for arn, account in every.items():
            some = [side.resource(arn, account, "-") for side in self.sides]
            spoken = spoken_between("resources", *some)
            if spoken is None:
                spoken = {it for one in some for it in allows("resources", one)} | may(everybody(self.sides))
            if spoken:
                found.setdefault(frozenset(spoken), set()).add(arn)
        yield from found.items()


def may(people: Iterable[Principal]) -> Set[str]:
    """The patterns of the actions that policies of principals allow; who is outside may do what policies of resources say."""
    return {it for one in people if not is_stranger(one) for it in allows("principals", one)}


# --- what a request may change by -------------------------------------------------------------------------------------


class Said(NamedTuple):
    """A statement, and whether it has variables."""

    statement: Any
    is_new: bool

    def may_speak_of(self, row: Row) -> bool:
        texts = texts_of(self.statement, "Resource")
        if not isinstance(self.statement, dict) or not speaks_of(self.statement, (row["action"],)):
            return False
        patterns = [opened(it) if self.is_new else of_policy(it) for it in texts]
        return not texts or is_access_point(row["resource"]) or any_matches(patterns, [row["resource"]])


def said_in(axis: str, holder: Dict[str, Any]) -> Dict[Tuple[str, bool, str], Said]:
    """The statements of a holder, by their layers and levels and all that they say."""
    found: Dict[Tuple[str, bool, str], Said] = {}
    for it in places({axis: [holder]}):
        document = it.policy.document
        is_new = isinstance(document, dict) and document.get("Version") == "2012-10-17"
        for one in statements_of(document):
            found[layer_of(it), is_new, compact(one)] = Said(one, is_new)
    return found


def said_newly(before: World, after: World) -> World:
    """The world after, with those statements of resources' policies alone that these do not have before; with all of them where a deny
    goes."""
    known, there = ({it["arn"]: said_in("resources", it) for it in of["resources"]} for of in (before, after))

    def keep(kind: str, path: str, policy: Any) -> Any:
        arn = after["resources"][int(path.split("/")[1])]["arn"] if kind == "resource" else ""
        of = known.get(arn, {})
        gone = [it.statement for key, it in of.items() if key not in there.get(arn, {})]
        if kind != "resource" or any(isinstance(it, dict) and it.get("Effect") == "Deny" for it in gone):
            return policy
        some = said_in("resources", {"arn": arn, "policy": policy})
        left = [it.statement for key, it in some.items() if key not in of]
        return policy._replace(document={**policy.document, "Statement": left})

    return mapped(after, keep)


def said_between(axis: str, pair: Sequence[Optional[Dict[str, Any]]]) -> Optional[List[Said]]:
    """The statements that one alone of two holders has; nothing where more than these differs."""
    before, after = pair
    if before is None or after is None:
        return [] if before is after else None
    if frame_of(axis, before) != frame_of(axis, after):
        return None
    first, second = said_in(axis, before), said_in(axis, after)
    return [it for key, it in {**first, **second}.items() if (key in first) != (key in second)]


def changers(names: Names) -> Callable[[Row], bool]:
    """Whether a request may change: where all statements that may speak of it are the same before and after, it does not."""
    frames = {compact([it.world["moment"], context_of(it.world)]) for it in names.sides}
    people = [{principal_text(it): it for it in side.world["principals"]} for side in names.sides]
    accounts = [{it["id"]: it for it in side.world["accounts"]} for side in names.sides]
    named, shown, known = names.named, names.shown(), {}  # type: Any, Any, Dict[Any, Optional[List[Said]]]

    def between(axis: str, key: str, pair: Sequence[Any]) -> Optional[List[Said]]:
        if (axis, key) not in known:
            known[axis, key] = said_between(axis, pair)
        return known[axis, key]

    def of(row: Row) -> bool:
        who, text = row["principal"], row["resource"]
        things, home = shown(text), text if text in named else names.line_of(text).of["arn"]
        own = account_of(who)
        some = [
            between("principals", who, [it.get(who) for it in people]),
            between("accounts", own, [it.get(own) for it in accounts]),
            between("resources", home, things),
        ]
        owner = things[-1]["account"]
        is_wide = len(frames) > 1 or between("accounts", owner, [it.get(owner) for it in accounts]) is None
        return is_wide or any(it is None or any(one.may_speak_of(row) for one in it) for it in some)

    return of
