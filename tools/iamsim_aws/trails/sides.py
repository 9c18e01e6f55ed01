"""A source as a log wants it: its principals and resources by their names, sessions by the names they had, and the worlds of
requests, within the limits."""

import functools
from typing import Any, Dict, Iterator, List, NamedTuple, Optional, Set, Tuple

from .. import keys, speaking
from ..arns import account_of, principal_arn, resource_part, service_of, session_arn
from ..documents import Policy, World, places
from ..exports import ACCOUNT
from ..files import compact
from ..keys import with_own_keys
from ..making import bound, has_service
from ..sources import Source
from .mapping import Known

# What stands for the policy of a resource of another account, of which nothing is known.
TAKEN = "what another account grants by its resource (taken from the log)"
GRANTS = Policy(
    TAKEN, {"Version": "2012-10-17", "Statement": {"Effect": "Allow", "Principal": "*", "Action": "*", "Resource": "*"}}
)
# The services whose resources have policies, of those that the table of events has.
WITH_POLICIES = ("s3", "kms", "sqs", "sns", "lambda", "secretsmanager", "dynamodb")
# What a document says where it tells the sessions of a role apart.
OF_SESSIONS = ("assumed-role", "aws:userid", "rolesessionname")


class Request(NamedTuple):
    """What is asked: the principal's ARN, the name of its session, an action, a resource with its account, and keys."""

    who: str
    session: str
    action: str
    resource: str
    account: str
    keys: Tuple[Tuple[str, str], ...]

    @property
    def principal(self) -> str:
        return session_arn(self.who, self.session) if self.session else self.who


class Base(NamedTuple):
    """A world of a source by names."""

    world: World
    people: Dict[str, Dict[str, Any]]
    sessions: Dict[Tuple[str, str], Dict[str, Any]]
    things: Dict[str, Dict[str, Any]]
    owners: Dict[str, Dict[str, Any]]
    accounts: Set[str]


class Thing(NamedTuple):
    """A resource as a world has it; whether it is taken to grant, since nothing tells its policy, and whether it may have a
    policy and has none here."""

    resource: Dict[str, Any]
    is_taken: bool
    is_bare: bool


class Side:
    """One of the worlds before and after a change, or the only one."""

    def __init__(self, source: Source):
        self.source = source
        self.bases: Dict[Tuple[bool, bool], Base] = {}
        self.by_action: Dict[str, Base] = {}
        self.joined: Dict[Tuple[str, str], Dict[str, Any]] = {}
        # The resources of one round, and their accounts.
        self.made: Dict[Tuple[int, str, str, bool], Thing] = {}
        self.homes: Dict[Tuple[int, str, str], str] = {}

    def base(self, action: str) -> Base:
        if action not in self.by_action:
            kind = has_service([action], "sts"), has_service([action], "iam")
            if kind not in self.bases:
                self.bases[kind] = self.made_base(action)
            self.by_action[action] = self.bases[kind]
        return self.by_action[action]

    def made_base(self, action: str) -> Base:
        world = self.source.world([action])
        people: Dict[str, Dict[str, Any]] = {}
        sessions: Dict[Tuple[str, str], Dict[str, Any]] = {}
        for it in world["principals"]:
            people.setdefault(principal_arn(it), it)
            sessions.setdefault((principal_arn(it), str(it.get("session", ""))), it)
        things = {it["arn"]: it for it in world["resources"]}
        of = {account_of(it) for it in people}
        return Base(world, people, sessions, things, speaking.owners(world["resources"]), of)

    def every(self) -> List[World]:
        """The worlds of the three kinds of actions: of sts, of iam, and of others."""
        return [self.base(it).world for it in ("s3:GetObject", "sts:AssumeRole", "iam:PassRole")]

    def has(self, who: str) -> bool:
        return who in self.base("s3:GetObject").people

    def account_for(self, action: str, arn: str, hint: str, given: Optional[str]) -> str:
        """The account of a resource: by its ARN, by the world, by the event, or by --account."""
        base = self.base(action)
        key = id(base), arn, hint
        if key not in self.homes:
            own = account_of(arn)
            known = own if ACCOUNT.fullmatch(own) else speaking.owned(base.owners, arn, "")["account"]
            self.homes[key] = next((it for it in (known, hint, given or "") if ACCOUNT.fullmatch(it)), "")
        return self.homes[key]

    def is_absent(self, action: str, arn: str) -> bool:
        """Whether a role is assumed that the export of its account lacks, or of which no trust policy is known."""
        if action[:4].lower() != "sts:" or not resource_part(arn).startswith("role/"):
            return False
        base = self.base(action)
        return account_of(arn) in base.accounts and "policy" not in base.things.get(arn, {})

    def principal(self, request: Request) -> Dict[str, Any]:
        """The user, or the session of the role by the name that it had."""
        base = self.base(request.action)
        own = base.sessions.get((request.who, request.session))
        if own is not None:
            return own
        it = base.people[request.who]
        made: Dict[str, Any] = {**it, "session": request.session}
        userid = it.get("context", {}).get("aws:userid")
        if isinstance(userid, str) and userid.endswith(f":{it['session']}"):
            made["context"] = {**it["context"], "aws:userid": f"{userid[: -len(it['session'])]}{request.session}"}
        return made

    def thing(self, request: Request) -> Thing:
        """The resource; where it is of another account, and nothing tells its policy, it is taken to grant."""
        base, arn = self.base(request.action), request.resource
        is_own = home_of(request.who) == request.account
        key = id(base), arn, request.account, is_own
        found = self.made.get(key)
        if found is None:
            it = base.things.get(arn)
            if it is None or it["account"] != request.account:
                found = self.further(base, request, is_own)
            else:
                found = Thing(it, False, is_bare(it))
            self.made[key] = found
        return found

    def let_go(self) -> None:
        """Forgets the resources of a round."""
        self.made.clear()
        self.homes.clear()

    def further(self, base: Base, request: Request, is_own: bool) -> Thing:
        """A resource that the world does not name."""
        made = self.with_limits(speaking.owned(base.owners, request.resource, request.account))
        is_taken = not is_own and request.resource != "*" and "policy" not in made
        made = {**made, "policy": GRANTS} if is_taken else made
        return Thing(made, is_taken, is_bare(made))

    def with_limits(self, resource: Dict[str, Any]) -> Dict[str, Any]:
        """A resource with the keys and the limits that those of its account and service have."""
        estate = self.source.estate
        if estate is None:
            return resource
        key = resource["account"], resource["arn"].split(":")[2] if ":" in resource["arn"] else ""
        if key not in self.joined:
            one = bound(estate, {"arn": resource["arn"], "account": resource["account"]})
            self.joined[key] = {name: one[name] for name in ("control", "context") if name in one}
        return {**self.joined[key], **resource}

    def account(self, id_: str) -> Dict[str, Any]:
        for it in self.base("s3:GetObject").world["accounts"]:
            if it["id"] == id_:
                return dict(it)
        estate = self.source.estate
        return estate.organization.account(id_) if estate else {"id": id_}

    def world(self, some: List[Request]) -> World:
        """The world of some requests, all of one service and of resources of one account."""
        people: Dict[Tuple[str, str], Dict[str, Any]] = {}
        things: Dict[str, Dict[str, Any]] = {}
        for it in some:
            if (it.who, it.session) not in people:
                people[it.who, it.session] = self.principal(it)
            if it.resource not in things:
                things[it.resource] = self.thing(it).resource
        ids = {some[0].account, *(home_of(who) for who, _ in people)}
        made = {
            **self.base(some[0].action).world,
            "accounts": [self.account(it) for it in sorted(ids)],
            "principals": list(people.values()),
            "actions": list(dict.fromkeys(it.action for it in some)),
            "resources": list(things.values()),
        }
        return with_own_keys(made) if self.source.estate else made


# Of principals, which are few.
home_of = functools.lru_cache(maxsize=65536)(account_of)


@functools.lru_cache(maxsize=65536)
def prefix_of(action: str) -> str:
    return action.partition(":")[0].lower()


def is_bare(resource: Dict[str, Any]) -> bool:
    """Whether a resource may have a policy, and has none here."""
    return "policy" not in resource and service_of(resource["arn"]) in WITH_POLICIES


def grouped(some: List[Request]) -> Iterator[List[int]]:
    """The numbers of requests that one world may have, by accounts and service."""
    found: Dict[Tuple[str, str, str], List[int]] = {}
    for n, it in enumerate(some):
        found.setdefault((home_of(it.who), prefix_of(it.action), it.account), []).append(n)
    yield from found.values()


def asked_keys(sides: List[Side]) -> Set[str]:
    """The keys, in lower case, for which a policy asks."""
    return {key.lower() for side in sides for world in side.every() for key, _, _ in keys.asked(world)}


def tells_sessions(sides: List[Side]) -> bool:
    """Whether a document may tell sessions of one role apart, or a world has several of one."""
    if any(len(it.base("s3:GetObject").people) < len(it.every()[0]["principals"]) for it in sides):
        return True
    texts = {compact(it.policy.document).lower() for side in sides for world in side.every() for it in places(world)}
    return any(of in text for text in texts for of in OF_SESSIONS)


def known_of(side: Side) -> Known:
    """What the log's names are resolved by."""
    secrets: Dict[str, List[str]] = {}
    for it in side.base("s3:GetObject").things:
        if service_of(it) == "secretsmanager":
            secrets.setdefault(it.rpartition("-")[0], []).append(it)
    return Known(frozenset(side.base("s3:GetObject").people), names_in(side), secrets)


def names_in(side: Side) -> Dict[Tuple[str, str], str]:
    """The ARN of each user, role, group and instance profile, by its account and by what stands before and behind its path."""
    found: Dict[Tuple[str, str], str] = {}
    arns = [principal_arn(it) for it in side.base("s3:GetObject").world["principals"]]
    arns += [it["arn"] for it in side.base("iam:PassRole").world["resources"]]
    estate = side.source.estate
    for account in estate.accounts if estate else ():
        arns += [str(it.get("Arn")) for it in [*account.users, *account.groups.values(), *account.roles]]
        profiles = (
            it for role in account.roles for it in role.get("InstanceProfileList") or [] if isinstance(it, dict)
        )
        arns += [str(it.get("Arn")) for it in profiles]
    for arn in arns:
        kind, _, name = resource_part(arn).partition("/")
        found[account_of(arn), f"{kind}/{name.rpartition('/')[2]}"] = arn
    return found
