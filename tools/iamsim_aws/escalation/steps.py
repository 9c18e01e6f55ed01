"""The steps that nodes may take: each is a way whose requests are all allowed."""

from typing import Dict, Iterator, List, NamedTuple, Tuple

from ..arns import account_of
from .nodes import Change, Holder, Node, People, versions_of
from .requests import OPEN, Request, Round, Things, is_of_trust
from .table import ANY, BECOMES, BOUNDARY, ELSEWHERE, GROUP, REPLACED, TAGGED, UNTOLD, VERSION, WAYS, Way


class Part(NamedTuple):
    """A way that is gone, what it is gone on, and its requests."""

    way: Way
    what: str
    requests: List[Request]

    def words(self) -> str:
        return self.way.words.format(self.what)


class Step(NamedTuple):
    """From one node to another, by one way, or by two: somebody's policies are changed, and then he is become."""

    source: Node
    target: Node
    parts: List[Part]

    @property
    def rank(self) -> int:
        """What its requests need at most."""
        return max(it.rank for part in self.parts for it in part.requests)


class Open(NamedTuple):
    """A way whose requests are allowed, and of which nothing says where it leads, and why."""

    node: Node
    part: Part
    why: str

    @property
    def rank(self) -> int:
        return max(it.rank for it in self.part.requests)


class Steps:
    """The steps of the nodes of a round."""

    def __init__(self, things: Things, people: People, asked: Round):
        self.things, self.people, self.asked = things, people, asked
        self.open: List[Open] = []

    def of(self, node: Node) -> Iterator[Step]:
        """The steps of a node: whom it becomes, then what it changes of itself and of these."""
        first: Dict[Node, Step] = {}
        for it in (one for way in WAYS for one in self.becoming(node, way)):
            if it.target not in first or it.rank < first[it.target].rank:
                first[it.target] = it
        yield from first.values()
        for target, parts in self.changes(node, node):
            yield Step(node, target, parts)
        for target, step in first.items():
            for changed, parts in self.changes(node, target):
                yield Step(node, changed, [*parts, *step.parts])

    def becoming(self, node: Node, way: Way) -> Iterator[Step]:
        if way.gain == UNTOLD:
            yield from self.running(node, way)
        kind = way.asks[0].kind
        for arn in self.asked.allowed(node, way.asks[0]) if way.gain in BECOMES else ():
            every = self.people.become(arn, way.gain == TAGGED)
            # A session that a service makes has no name of its own choice.
            own = every if is_of_trust(way.asks[-1].action) else every[:1]
            numbers = [it for it in own if it != node.number]
            if not numbers or (way.name == "ec2-new" and arn not in self.things.profiles):
                continue
            found = self.asked.together(node, way.asks, {kind: arn, OPEN: arn})
            for number in numbers if found else ():
                yield Step(node, Node(number), [Part(way, arn, found or [])])

    def running(self, node: Node, way: Way) -> Iterator[Step]:
        """By what is there already: to the role that --resources tells, else to one that nothing tells, or that no export has."""
        for arn in self.asked.allowed(node, way.asks[0], anywhere=True):
            found = self.asked.together(node, way.asks, {way.asks[0].kind: arn}, anywhere=True)
            role = self.things.runs.get(arn, "")
            number = self.people.numbers.get(role)
            if found and number is None:
                origin = found[0].origin() if way.asks[0].kind == ELSEWHERE else None
                pattern = (origin.pattern if origin.policy else "*") if origin else ""
                what = role or pattern or "a role that nothing tells"
                self.open.append(Open(node, Part(way, what, found), self.things.why_open(arn, pattern)))
            elif found and number is not None and number != node.number:
                yield Step(node, Node(number), [Part(way, f"{role} by {arn}", found)])

    def changes(self, node: Node, of: Node) -> Iterator[Tuple[Node, List[Part]]]:
        """What a node may change of a principal, itself or another: each with what it comes to be."""
        holder = self.people.holder(of)
        if holder is None:
            return
        is_given = False
        for way in (it for it in WAYS if it.gain not in (*BECOMES, UNTOLD)):
            if is_given and way.gain in (GROUP, VERSION):
                continue
            for arn, change, what in targets(way, holder):
                made, found = of.changed(change), self.asked.together(node, way.asks, {way.asks[0].kind: arn})
                if made and found:
                    is_given = is_given or (way.gain == ANY and not any(it.rank for it in found))
                    yield made, [Part(way, what, found)]


def targets(way: Way, holder: Holder) -> Iterator[Tuple[str, Change, str]]:
    """What a way is gone on to change a principal, with the change, and what it is called."""
    kind, own = way.asks[0].kind, "user" if holder.is_user else "role"
    if way.gain == BOUNDARY and kind == own and holder.boundary:
        yield holder.arn, Change(BOUNDARY), holder.arn
    elif way.gain == ANY and kind in (own, "group"):
        for arn in [holder.arn] if kind == own else holder.group_arns():
            yield arn, Change(ANY), arn
    elif way.gain == GROUP and holder.is_user:
        for name, it in holder.account.groups.items():
            if name not in holder.groups:
                yield it["Arn"], Change(GROUP, it["Arn"]), it["Arn"]
    elif way.gain in (REPLACED, VERSION):
        for arn in dict.fromkeys([*holder.policies, *filter(None, [holder.boundary])]):
            if account_of(arn) == holder.account.account:
                yield from versions(way, holder, arn)


def versions(way: Way, holder: Holder, arn: str) -> Iterator[Tuple[str, Change, str]]:
    if way.gain == REPLACED:
        yield arn, Change(REPLACED, arn), arn
        return
    for name in versions_of(holder.account, arn):
        yield arn, Change(VERSION, arn, name), f"{name} of {arn}"


def words(change: Change) -> str:
    told = {
        ANY: "with any policy",
        REPLACED: f"with any policy in place of {change.what}",
        VERSION: f"with version {change.version} of {change.what}",
        GROUP: f"in the group {change.what}",
        BOUNDARY: "without its boundary",
    }
    return told[change.kind]
