"""Who is an administrator: whom nothing of his own keeps from anything. His own are his policies and his boundary; what the
organisation's policies and those of resources leave to nobody, an administrator does not have either."""

from typing import Any, Dict, Iterator, List, Optional, Set, Tuple

from .. import bounds
from ..arns import account_of, principal_arn
from ..asking import ask_all, explained, whole
from ..documents import Policy, World, statements_of
from ..keys import with_own_keys
from ..making import bound
from ..patterns import common, is_pattern
from ..program import Refused, side_by_side, world_bytes
from ..reports import rows_of
from ..speaking import patterns_of_actions
from ..telling import is_everything
from .nodes import EVERYTHING, GIVEN, Node, Principal
from .requests import Things

# Actions that most who are none are not allowed, beside some that policies name: of whoever is not, all names are not asked.
FEW = ["iam:CreateUser", "iam:PassRole", "s3:DeleteBucket", "ec2:TerminateInstances", "kms:ScheduleKeyDeletion"]
MOST = 250
REFUSED = ["--decision", "explicitDeny", "--decision", "implicitDeny", "--brief", "--format", "json"]


def unlimited(principal: Principal) -> Principal:
    """The principal with a policy that allows everything, and nothing else of its own."""
    made = {key: it for key, it in principal.items() if key not in ("boundary", "sessionPolicies")}
    return {**made, "identity": [Policy(GIVEN, EVERYTHING)]}


def plain(principal: Principal) -> Principal:
    """The principal without statements that allow something beside one that allows everything: they add nothing."""
    if not any(is_everything(one) for it in principal["identity"] for one in statements_of(it.document)):
        return principal
    some = [(it, [one for one in statements_of(it.document) if not is_allow(one)]) for it in principal["identity"]]
    rest = [it._replace(document={**it.document, "Statement": of}) for it, of in some if of]
    return {**principal, "identity": [Policy(GIVEN, EVERYTHING), *rest]}


def is_allow(statement: Any) -> bool:
    return isinstance(statement, dict) and statement.get("Effect") == "Allow"


def anything(things: Things, account: str) -> Dict[str, Any]:
    """A resource of an account of which nothing else is known."""
    return bound(things.estate, {"arn": "*", "account": account})


def world_for(things: Things, account: str, principals: List[Principal]) -> World:
    """The world of principals of an account, of anything there, and of the resources of which more is known."""
    known = anything(things, account)
    own = [it for it in things.base["resources"] if it["account"] == account and it["arn"] != known["arn"]]
    more = [it for it in own if it != {**known, "arn": it["arn"]}]
    return {**things.base, "actions": [], "principals": principals, "resources": [known, *more]}


def likely(things: Things, principals: List[Principal]) -> List[Optional[bool]]:
    """Whether each is allowed a few requests, as far as it would be without limits; None where it would be allowed nothing."""
    accounts = sorted({account_of(principal_arn(it)) for it in principals})
    resources = [anything(things, it) for it in accounts]
    named = [it if not is_pattern(it) else common(it, "*:*", True) or "" for it in patterns_of_actions(things.base)]
    named = list(dict.fromkeys(filter(None, [*FEW, *named])))
    actions = list(dict.fromkeys([*FEW, *named[:: len(named) // MOST + 1]]))
    made = {**things.base, "actions": actions, "resources": resources}
    own, every = ask_all([{**made, "principals": of} for of in (principals, list(map(unlimited, principals)))], True)
    some: List[Set[int]] = [set() for _ in principals]
    for cell, (is_own, is_any) in enumerate(zip(own.flags(), every.flags())):
        p, _, r = own.place(cell)
        if is_any and resources[r]["account"] == account_of(principal_arn(principals[p])):
            some[p].add(is_own)
    return [it == {1} if it else None for it in some]


def refused(things: Things, principals: List[Principal]) -> Iterator[List[Dict[str, Any]]]:
    """Of each principal the kinds of requests that it is not allowed, each as one of them: 'iamsim every' of all actions on
    all texts of its account."""
    worlds = [whole(world_for(things, account_of(principal_arn(it)), [it])) for it in principals]
    words = ["every", "--resource", "*", "--like", "0", "--action", "*", *REFUSED]
    texts = side_by_side(words, map(world_bytes, worlds), len(worlds))
    for world in worlds:
        try:
            yield list(rows_of(next(texts).decode()))
        except Refused as why:
            raise explained(world, why) from None


def left(things: Things, principal: Principal, rows: List[Dict[str, Any]]) -> Tuple[World, List[Tuple[str, str]]]:
    """The world in which the principal without limits is asked for what it is refused."""
    account = account_of(principal_arn(principal))
    world = world_for(things, account, [unlimited(principal)])
    pairs = [(str(it["action"]), str(it["resource"])) for it in rows]
    there = {it["arn"]: it for it in world["resources"]}
    texts = dict.fromkeys(arn for _, arn in pairs)
    resources = [there.get(it) or {**anything(things, account), "arn": it} for it in texts]
    return {**world, "actions": list(dict.fromkeys(it for it, _ in pairs)), "resources": resources}, pairs


def at_most(things: Things, principal: Principal) -> Optional[Principal]:
    """The principal whose own policies allow all that they do with any values of keys; nothing where they hang on none."""
    world = with_own_keys({**things.base, "accounts": [], "principals": [principal], "resources": []})
    [made] = bounds.at_most(world)["principals"]
    return made if any(made.get(it) != principal.get(it) for it in ("identity", "boundary", "sessionPolicies")) else None


def administrators(things: Things, given: Dict[Node, Principal]) -> Dict[Node, Optional[bool]]:
    """Whether each node is an administrator, as it is given; None where that is not shown."""
    nodes = list(given)
    found: Dict[Node, Optional[bool]] = dict.fromkeys(nodes, False)
    every = {it: plain(one) for it, one in given.items()}
    if nodes:
        found.update(zip(nodes, likely(things, list(every.values()))))
    likeliest = [it for it in nodes if found[it]]
    asked: List[Tuple[Node, World, List[Tuple[str, str]]]] = []
    for it, rows in zip(likeliest, refused(things, [every[it] for it in likeliest])):
        found[it] = None if any(row["decision"] == "notShown" for row in rows) else True
        rows = [row for row in rows if row["decision"] != "notShown"]
        if rows:
            asked.append((it, *left(things, every[it], rows)))
    for (it, world, pairs), answers in zip(asked, ask_all([world for _, world, _ in asked], True)):
        arns, flags = [one["arn"] for one in world["resources"]], answers.flags()
        places = ((world["actions"].index(action), arns.index(arn)) for action, arn in pairs)
        if any(flags[answers.cell(0, a, r)] for a, r in places):
            found[it] = False
    return found
