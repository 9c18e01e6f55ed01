"""The requests of the ways: the worlds in which they are asked, and which of them are allowed."""

import re
from typing import Any, Callable, Dict, Iterator, List, NamedTuple, Optional, Set, Tuple

from ..arns import account_of, principal_arn, principal_text
from ..asking import ask_allowed
from ..bounds import hanging_people
from ..documents import Policy, World, each, statements_of
from ..examples import Example, ask_any_key
from ..exports import is_service_linked, policy, tags
from ..keys import with_key, with_own_keys
from ..making import RUNS_AS, bound, has_service
from ..names import Names, answers_of, stands
from ..naming import trust_policy
from ..patterns import is_pattern
from ..questions import Scope
from ..reports import Answers
from ..sources import ASSUME, Source
from ..speaking import Origin, meets, texts_of
from ..strangers import is_stranger
from .nodes import Node, People, boundary_of
from .table import ADMINISTRATOR, BOUNDARY_KEY, ELSEWHERE, HELD, OWN, POLICY_KEY, SERVICE_KEY, WAYS, Ask
from .unnamed import ACTIONS, OPENED, Shown, names_for, shown_of

OPEN, ASSUMED, EVERY, NAMED = "role open to all", "role to assume", "*", "named"
OPEN_RANK = 2
PASSED = "iam:PassRole"
# A service that a policy names with its region, or by its name in China.
OF_REGION = re.compile(r"(?:\.[a-z]{2}(?:-[a-z]+)+-\d)?(\.amazonaws\.com)(?:\.cn)?$")

Resource = Dict[str, Any]
# Requests of one kind of resource and with the same keys share a world.
Group = Tuple[str, Tuple[Tuple[str, str], ...]]


class Request(NamedTuple):
    """A request that is allowed: as it is, or with an example of keys that nothing gives, or perhaps; and for what its resource stands."""

    answers: Optional[Answers]
    cell: int
    ask: Ask
    turn: Optional[Example]
    is_open: bool
    origin: Callable[[], Optional[Origin]]

    @property
    def rank(self) -> int:
        """Less where less is needed."""
        return OPEN_RANK if self.is_open else int(self.turn is not None)


def is_of_trust(action: str) -> bool:
    """Whether trust policies decide on an action."""
    return has_service([action], "sts")


def group_of(ask: Ask) -> Group:
    """The world in which a request is asked that names its resource: that of the trust policies is one."""
    if is_of_trust(ask.action):
        return ask.kind if ask.kind == OPEN else ASSUMED, ()
    return (ask.kind, ask.keys) if ask.kind in HELD else (EVERY, ())


def trusted(role: Dict[str, Any]) -> Set[str]:
    """The services that the trust policy of a role lets assume it."""
    found: Set[str] = set()
    trust = policy(trust_policy(role["Arn"]), role.get("AssumeRolePolicyDocument"))
    for it in statements_of(trust.document):
        given = it.get("Principal") if isinstance(it, dict) and it.get("Effect") == "Allow" else None
        if isinstance(given, dict) and meets(tuple(texts_of(it, "Action")), (ASSUME,)):
            found.update(OF_REGION.sub(r"\1", str(one).lower()) for one in each(given.get("Service", [])))
    return found


class Things:
    """What requests are asked on."""

    def __init__(self, source: Source):
        assert source.estate is not None
        self.source, self.estate, self.scope = source, source.estate, Scope(source)
        self.trust: Dict[str, Set[str]] = {}
        self.profiles: Set[str] = set()
        self.runs = {it["arn"]: it[RUNS_AS] for it in self.estate.further if it.get(RUNS_AS)}
        for it in (one for account in self.estate.accounts for one in account.roles):
            self.trust[it["Arn"]] = trusted(it)
            if it.get("InstanceProfileList"):
                self.profiles.add(it["Arn"])
        [self.assumed] = source.worlds([ASSUME])
        self.base = source.world([PASSED])
        self.held = {kind: self.held_of(kind) for kind in HELD}

    @property
    def trusting(self) -> World:
        """The world of the trust policies, for all by which a role is assumed."""
        return {**self.assumed, "actions": [ASSUME, f"{ASSUME}WithSAML", f"{ASSUME}WithWebIdentity"]}

    def held_of(self, kind: str) -> List[Dict[str, Any]]:
        """The objects of a kind that the exports have and that their account may change."""
        found: List[Dict[str, Any]] = []
        for account in self.estate.accounts:
            lists = {"role": account.roles, "user": account.users, "group": account.groups.values()}
            every = lists.get(kind, account.policies.values())
            found += [it for it in every if account_of(it["Arn"]) == account.account and not is_service_linked(it)]
        return found

    def resource(self, it: Dict[str, Any], keys: Dict[str, str]) -> Resource:
        context = {**tags(it, "aws:ResourceTag/"), **tags(it, "iam:ResourceTag/")}
        own = boundary_of(it) if keys.get(BOUNDARY_KEY) == OWN else ""
        context.update({BOUNDARY_KEY: own} if own else {})
        made = {"arn": it["Arn"], "account": account_of(it["Arn"]), **({"context": context} if context else {})}
        return bound(self.estate, made)

    def of_kind(self, kind: str, keys: Dict[str, str]) -> List[Resource]:
        service = keys.get(SERVICE_KEY)
        some = [it for it in self.held[kind] if not service or service in self.trust[it["Arn"]]]
        return [self.resource(it, keys) for it in some]

    def opened(self) -> List[Resource]:
        """The roles with a trust policy that lets in everybody."""
        own = {it["Arn"] for it in self.held["role"]}
        some = [it for it in self.assumed["resources"] if it["arn"] in own]
        return [{**it, "policy": Policy(f"{trust_policy(it['arn'])}, as it was written", OPENED)} for it in some]

    def why_open(self, arn: str, origin: str) -> str:
        """Why nothing says where a step leads that is allowed on a resource, which stands for a pattern of a policy."""
        if origin:
            roles = f"roles of other accounts that {origin} means" if is_pattern(origin) else f"role {origin}"
            return f"no export has the {roles}"
        role = self.runs.get(arn)
        return f"the exports have no principal {role}" if role else "nothing tells under which role"

    def world(self, group: Group, actions: List[str], people: People, nodes: List[Node]) -> World:
        """The world of these nodes, of what is named, and of the keys."""
        kind, keys = group
        own = {it["Arn"] for it in self.held["role"]}
        principals = [people.principal(it) for it in nodes if kind in (ASSUMED, NAMED) or people.is_own(it.number)]
        base = self.assumed if kind in (OPEN, ASSUMED) else self.base
        world: World = {**base, "actions": actions, "principals": principals}
        if kind == OPEN:
            world["resources"] = self.opened()
        elif kind == ASSUMED:
            world["resources"] = [it for it in base["resources"] if it["arn"] in own]
        elif kind == EVERY:
            accounts = {account_of(principal_arn(it)) for it in principals}
            world["resources"] = [{"arn": EVERY, "account": it} for it in sorted(accounts)]
        elif kind != NAMED:
            world["resources"] = self.of_kind(kind, dict(keys))
        return with_own_keys(self.with_keys(self.with_accounts(world), keys))

    def with_accounts(self, world: World) -> World:
        """The world with the accounts of its principals and resources too."""
        ids = {it["id"] for it in world["accounts"]}
        some = {account_of(str(it.get("user") or it.get("role"))) for it in world["principals"]}
        new = sorted((some | {it["account"] for it in world["resources"]}) - ids)
        return {**world, "accounts": world["accounts"] + [self.estate.organization.account(it) for it in new]}

    def with_keys(self, world: World, keys: Tuple[Tuple[str, str], ...]) -> World:
        """The world with the keys that its requests have; of those of other requests of the ways it is known that they are absent."""
        for key, value in keys:
            if value == ADMINISTRATOR:
                partition = self.estate.accounts[0].partition
                value = f"arn:{partition}:iam::aws:{value}"
            world = with_key(world, key, value) if value != OWN else world
        for key in (POLICY_KEY, BOUNDARY_KEY, SERVICE_KEY):
            world = with_key(world, key, [])
        return world


class Round:
    """The answers to all requests of the ways for some nodes."""

    def __init__(self, things: Things, people: People, nodes: List[Node]):
        self.things, self.people, self.nodes = things, people, nodes
        self.numbers = {it: n for n, it in enumerate(nodes)}
        # What is known of the node that was asked for last.
        self.last: Tuple[Optional[Node], Dict[Tuple[Ask, bool], Dict[str, Request]]] = (None, {})
        actions: Dict[Group, Dict[str, None]] = {}
        for ask in (it for way in WAYS for it in way.asks if it.kind not in ACTIONS):
            actions.setdefault(group_of(ask), {})[ask.action] = None
        worlds = {group: things.world(group, list(some), people, nodes) for group, some in actions.items()}
        some = {group: world for group, world in worlds.items() if world["resources"] and world["principals"]}
        self.answers: Dict[Group, Answers] = dict(zip(some, ask_allowed(list(some.values()))))
        self.flags = {group: it.flags() for group, it in self.answers.items()}
        self.turns = dict(zip(some, turns_of(list(self.answers.values()))))
        self.worlds = [*some.values()]
        # By the number of a node, the kind and the action: what no export names.
        self.unnamed: Dict[Tuple[int, str, str], Dict[str, Shown]] = {}
        self.ask_unnamed()

    def ask_unnamed(self) -> None:
        """Asks for all that no export names; of those who are outside roles elsewhere are not asked."""
        some: List[Tuple[str, Names]] = []
        number_of: Dict[Tuple[int, str], int] = {}
        for kind, actions in ACTIONS.items():
            group = ASSUMED if kind == ELSEWHERE else NAMED
            world = self.things.world((group, ()), actions, self.people, self.nodes)
            numbers = {id(it): n for n, it in enumerate(world["principals"])}
            if kind == ELSEWHERE:
                world = {**world, "principals": [it for it in world["principals"] if not is_stranger(it)]}
            for names in names_for(self.things.scope, kind, world):
                number_of.update({(len(some), principal_text(it)): numbers[id(it)] for it in names.people})
                some.append((kind, names))
            self.worlds.append(world)
        for n, it in shown_of(some):
            key = number_of[n, it.row["principal"]], some[n][0], it.row["action"]
            self.unnamed.setdefault(key, {}).setdefault(it.row["resource"], it)

    def allowed(self, node: Node, ask: Ask, anywhere: bool = False) -> Dict[str, Request]:
        """The resources on which a request of a node is allowed: roles, and what else is of its own account, or of any."""
        if self.last[0] != node:
            self.last = node, {}
        known, anywhere = self.last[1], anywhere or is_of_trust(ask.action)
        if (ask, anywhere) not in known:
            own = self.people.account(node)
            find = self.found_unnamed if ask.kind in ACTIONS else self.found
            some = ((arn, account, it) for arn, account, it in find(node, ask))
            known[ask, anywhere] = {arn: it for arn, account, it in some if anywhere or account == own}
        return known[ask, anywhere]

    def found_unnamed(self, node: Node, ask: Ask) -> Iterator[Tuple[str, str, Request]]:
        for text, it in self.unnamed.get((self.numbers[node], ask.kind, ask.action), {}).items():
            [resource] = it.names.shown()(text) if it.row["decision"] == "allowed" else [{"account": self.people.account(node)}]
            yield text, resource["account"], shown_request(it, ask)

    def found(self, node: Node, ask: Ask) -> Iterator[Tuple[str, str, Request]]:
        group = group_of(ask)
        answers = self.answers.get(group)
        if answers is None or self.numbers[node] >= answers.shape[0]:
            return
        action = answers.world["actions"].index(ask.action)
        first, flags, turns = answers.cell(self.numbers[node], action, 0), self.flags[group], self.turns[group]
        for n, it in enumerate(answers.world["resources"]):
            if flags[first + n]:
                yield it["arn"], it["account"], Request(answers, first + n, ask, None, False, lambda: None)
            elif first + n in turns:
                of, cell, turn = turns[first + n]
                yield it["arn"], it["account"], Request(of, cell, ask, turn, turn is None, lambda: None)

    def together(
        self, node: Node, asks: List[Ask], on: Dict[str, str], anywhere: bool = False
    ) -> Optional[List[Request]]:
        """A request for each ask, all allowed, those of one kind on the same resource, by which the least is needed; `on` says on which."""
        found: List[Request] = []
        for kind in dict.fromkeys(it.kind for it in asks):
            every = [self.allowed(node, it, anywhere) for it in asks if it.kind == kind]
            wanted = on.get(kind)
            common = [it for it in every[0] if all(it in one for one in every) and wanted in (None, it)]
            if not common:
                return None
            best = min(common, key=lambda text: max(it[text].rank for it in every))
            found += [it[best] for it in every]
        return found


def turns_of(several: List[Answers]) -> List[Dict[int, Tuple[Answers, int, Optional[Example]]]]:
    """Of the requests of worlds that are not allowed as they are, by their cells: those that are with values of keys, each with an
    example, and those of which it is not shown."""
    hung = [(it, hanging_people(it.world)) for it in several]
    worlds = [{**it.world, "principals": people} for it, people in hung]
    found: List[Dict[int, Tuple[Answers, int, Optional[Example]]]] = []
    for (answers, people), turned in zip(hung, ask_any_key(worlds)):
        numbers = {id(it): n for n, it in enumerate(answers.world["principals"])}
        own: Dict[int, Tuple[Answers, int, Optional[Example]]] = {}
        for cell in (*turned.examples, *turned.opens):
            p, a, r = turned.answers.place(cell)
            own[answers.cell(numbers[id(people[p])], a, r)] = turned.answers, cell, turned.examples.get(cell)
        found.append(own)
    return found


def shown_request(it: Shown, ask: Ask) -> Request:
    """A request on what no export names."""
    text = it.row["resource"]
    if it.row["decision"] != "allowed":
        return Request(None, 0, ask, None, True, lambda: None)
    [answers] = answers_of(it.names, [it.row])
    return Request(answers, 0, ask, it.row["example"], it.is_open, lambda: stands(it.names)(it.row).get(text))
