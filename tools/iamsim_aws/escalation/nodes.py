"""Principals as they are, and as they are once their policies, groups or boundary are changed."""

from typing import Any, Dict, Iterator, List, NamedTuple, Optional, Tuple

from ..arns import account_of, names_of_principal, principal_arn, principal_text
from ..documents import TAGS, Policy, World
from ..exports import Account, objects, once, policy
from ..making import Estate
from ..roles import spoken_of, tagged, with_sessions
from .table import ANY, GROUP, REPLACED, VERSION

Principal = Dict[str, Any]
EVERYTHING = {"Version": "2012-10-17", "Statement": {"Effect": "Allow", "Action": "*", "Resource": "*"}}
GIVEN = "the policy that was given"
# So many groups and versions a principal is given at most.
MOST = 2


class Change(NamedTuple):
    """What is changed of a principal: by which kind of way, and what is joined, replaced or put in force."""

    kind: str
    what: str = ""
    version: str = ""


class Node(NamedTuple):
    """A principal of a number, with what is changed of it."""

    number: int
    changes: Tuple[Change, ...] = ()

    def changed(self, change: Change) -> Optional["Node"]:
        """The principal with one change more, if that gives it anything: of more groups and versions than a few nobody is
        asked, and who has any policy wants no other."""
        kinds = [it.kind for it in self.changes]
        more = kinds.count(GROUP) + kinds.count(VERSION)
        if change in self.changes or (change.kind in (GROUP, VERSION) and (ANY in kinds or more == MOST)):
            return None
        return self._replace(changes=tuple(sorted((*self.changes, change))))


class Holder(NamedTuple):
    """What an export says of a principal: whether it is a user, its groups, its managed policies, and its boundary."""

    account: Account
    arn: str
    is_user: bool
    groups: List[str]
    policies: List[str]
    boundary: str

    def group_arns(self) -> List[str]:
        return [str(self.account.groups[it]["Arn"]) for it in self.groups]


def is_limited(principal: Principal) -> bool:
    """Whether it is a session with session policies."""
    return bool(principal.get("sessionPolicies"))


def sessions_in(world: World, speaking: List[World]) -> Tuple[List[Principal], List[Principal]]:
    """The principals of a world with each session of their roles that policies name, and with one that sets tags of each role whose trust
    policy may allow that; and the same of the other roles, to which they come who change that policy."""
    spoken = spoken_of([world, *speaking])
    roles = [it for it in world["principals"] if "role" in it and not is_limited(it)] if spoken.tags else []
    free = {principal_text(one): (one, it) for it in roles for one in [tagged({**it, TAGS: False}, spoken)]}
    [every] = with_sessions([world], speaking)
    some = (it for it in every["principals"] if principal_text(it) not in free)
    plain = [it if is_limited(it) else {**it, TAGS: True} for it in some]
    asked, hidden = ([one for one, it in free.values() if (it.get(TAGS) is False) == is_asked] for is_asked in (True, False))
    return [*plain, *asked], hidden


def attached(holder: Dict[str, Any]) -> List[str]:
    found = objects(holder, "AttachedManagedPolicies", str(holder.get("Arn")))
    return [str(it.get("PolicyArn")) for it in found]


def boundary_of(holder: Dict[str, Any]) -> str:
    return str((holder.get("PermissionsBoundary") or {}).get("PermissionsBoundaryArn") or "")


def holders(estate: Estate) -> Dict[str, Holder]:
    """The users and roles of the exports, by their ARNs."""
    found: Dict[str, Holder] = {}
    for account in estate.accounts:
        for it in account.users:
            groups = list(it.get("GroupList") or [])
            policies = [*attached(it), *(arn for name in groups for arn in attached(account.groups[name]))]
            found[it["Arn"]] = Holder(account, it["Arn"], True, groups, policies, boundary_of(it))
        for it in account.roles:
            found[it["Arn"]] = Holder(account, it["Arn"], False, [], attached(it), boundary_of(it))
    return found


def versions_of(account: Account, arn: str) -> Iterator[str]:
    """The versions of a managed policy that are not in force."""
    for it in objects(account.policies.get(arn, {}), "PolicyVersionList", arn):
        if it.get("IsDefaultVersion") is not True and "Document" in it:
            yield str(it.get("VersionId"))


def version(account: Account, arn: str, name: str) -> Policy:
    every = objects(account.policies[arn], "PolicyVersionList", arn)
    return next(policy(f"{arn} version {name}", it["Document"]) for it in every if str(it.get("VersionId")) == name)


def replaced(principal: Principal, name: str, by: Policy) -> Principal:
    """The principal with another document in place of a managed policy, also where that is its boundary."""
    made: Principal = {**principal, "identity": [by if it.name == name else it for it in principal["identity"]]}
    if made.get("boundary") and made["boundary"].name == name:
        made["boundary"] = by
    return made


def with_change(principal: Principal, holder: Holder, change: Change) -> Principal:
    account, what = holder.account, change.what
    if change.kind == ANY:
        return {**principal, "identity": [*principal["identity"], Policy(GIVEN, EVERYTHING)]}
    if change.kind == REPLACED:
        return replaced(principal, what, Policy(f"{what}, as it was made", EVERYTHING))
    if change.kind == VERSION:
        return replaced(principal, what, version(account, what, change.version))
    if change.kind == GROUP:
        name = next(name for name, it in account.groups.items() if it["Arn"] == what)
        more = account.own(account.groups[name], "GroupPolicyList")
        return {**principal, "identity": once([*principal["identity"], *more])}
    return {key: it for key, it in principal.items() if key != "boundary"}


class People:
    """The principals of the exports and who stands for those outside, and each of them with changes."""

    def __init__(self, principals: List[Principal], hidden: List[Principal], outside: List[Principal], estate: Estate):
        self.made: Dict[Node, Principal] = {}
        self.principals = [*principals, *hidden, *outside]
        # So many are asked; who is `hidden` is come to alone.
        self.asked, self.own = len(principals), len(principals) + len(hidden)
        self.holders = holders(estate)
        # Who becomes a role has a session of his own, which no session policy limits: the first of each, and any that policies name or
        # that sets tags.
        self.sessions: Dict[str, List[int]] = {}
        for n, it in enumerate([*principals, *hidden]):
            if not is_limited(it):
                self.sessions.setdefault(principal_arn(it), []).append(n)
        self.numbers = {arn: some[0] for arn, some in self.sessions.items()}
        further = {n for some in self.sessions.values() for n in some[1:]}
        self.limited = [it for n, it in enumerate(principals) if is_limited(it) or n in further]

    def arn(self, node: Node) -> str:
        return principal_arn(self.principals[node.number])

    def called(self, node: Node) -> str:
        """Its ARN; of a session that its policies limit the session's."""
        principal = self.principals[node.number]
        return principal_text(principal) if self.is_apart(node) else principal_arn(principal)

    def is_apart(self, node: Node) -> bool:
        """Whether it is another session of a role than the one that stands for all of it."""
        return node.number < self.own and node.number != self.numbers.get(self.arn(node))

    def is_own(self, number: int) -> bool:
        return number < self.own

    def become(self, arn: str, tags: bool) -> List[int]:
        """The sessions that who comes to a role may have, those that set tags or the others; the user."""
        every = self.sessions.get(arn, [])
        return [it for it in every if (self.principals[it].get(TAGS) is False) == tags]

    def names(self, node: Node) -> List[str]:
        """The texts that a pattern of '--to' is compared with. A session that its policies limit is not all of its role; who
        is the role may make that session."""
        principal = self.principals[node.number]
        if self.is_apart(node):
            return [principal_text(principal)]
        role = principal.get("role")
        own = [principal_text(it) for it in self.limited if it["role"] == role]
        return [*names_of_principal(principal), *own]

    def account(self, node: Node) -> str:
        return account_of(self.arn(node))

    def holder(self, node: Node) -> Optional[Holder]:
        """What the exports say of it; of who is outside nothing."""
        return self.holders.get(self.arn(node)) if self.is_own(node.number) else None

    def principal(self, node: Node) -> Principal:
        if node not in self.made:
            made, holder = self.principals[node.number], self.holder(node)
            for it in node.changes:
                assert holder is not None
                made = with_change(made, holder, it)
            self.made[node] = made
        return self.made[node]
