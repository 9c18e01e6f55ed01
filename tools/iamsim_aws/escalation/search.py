"""Who can come to be an administrator, or a given principal: the shortest way of each."""

from typing import Dict, List, NamedTuple, Optional, Set, Tuple

from .. import chains
from ..bounds import hanging_keys
from ..covering import is_open, unasked
from ..dates import OF_MOMENT
from ..patterns import any_matches
from ..sources import Source
from ..strangers import shown, strangers
from .administrators import administrators, at_most
from .nodes import Node, People, sessions_in
from .requests import Round, Things
from .steps import Open, Step, Steps


class Found(NamedTuple):
    """Whom the ways lead to, those of whom it is not shown, a way for each that comes there, those with keys that nothing gives last,
    and the steps that lead where nothing tells."""

    people: People
    ends: List[Node]
    unshown: List[Node]
    ways: Dict[Node, List[Step]]
    open: List[Open]
    keys: List[str]
    # Who else might come there, or be there, by requests of which it is not shown, or with keys that nothing gives.
    maybe: List[Node]
    # Who is outside, is let into a role that is an end or comes to one, and is not asked for: a line each.
    unasked: List[str]

    def name(self, node: Node) -> str:
        return self.people.called(node) if self.people.is_apart(node) else shown(self.people.principals[node.number])


class Search:
    """Rounds: all nodes that are new are asked, and lead to others, until none is new."""

    def __init__(self, source: Source, to: Optional[str]):
        assert source.estate is not None
        self.things = Things(source)
        people = sessions_in(self.things.assumed, [self.things.base])
        self.people = People(*people, strangers(source, [self.things.assumed]), source.estate)
        self.to = to
        # Where who comes there is at an end; and who may be with some values of keys.
        self.is_end: Dict[Node, Optional[bool]] = {}
        self.keyed_ends: Set[Node] = set()
        self.steps: Dict[Tuple[Node, Node], Step] = {}
        # The first of each: the principal as it is, or with the least changes, comes first.
        self.open: Dict[Tuple[int, str, str], Open] = {}
        self.keys: Dict[str, None] = {}

    def judge(self, nodes: List[Node]) -> None:
        """Which nodes are what ways lead to."""
        if self.to is not None:
            self.is_end.update({it: any_matches([self.to], self.people.names(it)) for it in nodes})
            return
        self.is_end.update(administrators(self.things, {it: self.people.principal(it) for it in nodes}))
        rest = {it: at_most(self.things, self.people.principal(it)) for it in nodes if not self.is_end[it]}
        loose = {it: one for it, one in rest.items() if one is not None}
        self.keyed_ends.update(it for it, is_end in administrators(self.things, loose).items() if is_end is not False)

    def round(self, nodes: List[Node]) -> List[Node]:
        """The nodes that are new after one step of these."""
        asked = Round(self.things, self.people, nodes)
        for world in asked.worlds:
            keys = hanging_keys(world, world["actions"])
            self.keys.update(dict.fromkeys(it for it in keys if it.lower() not in OF_MOMENT))
        steps = Steps(self.things, self.people, asked)
        new: Dict[Node, None] = {}
        for step in (it for node in nodes for it in steps.of(node)):
            pair = step.source, step.target
            if pair not in self.steps or step.rank < self.steps[pair].rank:
                self.steps[pair] = step
            if step.target not in self.is_end:
                new[step.target] = None
        for it in steps.open:
            known = self.open.setdefault((it.node.number, it.part.way.name, it.why), it)
            if it.rank < known.rank:
                self.open[it.node.number, it.part.way.name, it.why] = it
        return list(new)

    def found(self) -> Found:
        own, outside = list(range(self.people.asked)), list(range(self.people.own, len(self.people.principals)))
        self.judge(list(map(Node, own)))
        self.is_end.update(dict.fromkeys(map(Node, outside), False))
        starts = list(map(Node, [*own, *outside]))
        new = [it for it in starts if not self.is_end[it]]
        while new:
            new = self.round(new)
            self.judge(new)
            # Who becomes one that comes there, as he is, comes there by him: what else may be changed of him adds nothing.
            ends = [it for it, is_end in self.is_end.items() if is_end]
            arrived = {it.number for it in (*self.ways(ends, 0), *ends) if not it.changes}
            new = [it for it in new if not self.is_end[it] and it.number not in arrived]
        ends = [it for it, is_end in self.is_end.items() if is_end]
        unshown = [it for it, is_end in self.is_end.items() if is_end is None]
        plain, keyed = self.ways(ends, 0), self.ways(ends, 1)
        ways = {it: way for it, way in {**keyed, **plain}.items() if it in starts}
        ways = dict(sorted(ways.items(), key=lambda it: (it[0] not in plain, it[0])))
        shown_open = [it for it in self.open.values() if it.rank < 2]
        own_unshown = [it for it in unshown if not it.changes]
        made = Found(self.people, ends, own_unshown, ways, shown_open, list(self.keys), [], [])
        there = self.arrived(made)
        maybe = sorted(self.may_arrive(starts, [*ends, *unshown]) - self.told(made))
        return made._replace(maybe=maybe, unasked=self.let_in(there))
    def arrived(self, found: Found) -> List[Node]:
        """Who is at an end, or comes to one."""
        return [it for it in (*found.ends, *found.ways) if not it.changes]

    def told(self, found: Found) -> Set[Node]:
        """Those, and who is where something is open, or comes there once something is changed."""
        some = [*found.unshown, *(it.node for it in found.open)]
        changed = self.ways([it for it in some if it.changes], 1)
        return {*self.arrived(found), *changed, *(it for it in some if not it.changes)}

    def may_arrive(self, starts: List[Node], ends: List[Node]) -> Set[Node]:
        """Who might come to an end, or to what nothing tells, by requests that are not shown and with any keys."""
        there = [*ends, *self.keyed_ends, *(it.node for it in self.open.values())]
        return {it for it in (*there, *self.ways(there, 2)) if it in starts}

    def let_in(self, arrived: List[Node]) -> List[str]:
        """Who is outside, is let into one of these, and is not asked for."""
        arns = {self.people.called(it) for it in arrived}
        told = unasked(self.things.source, [self.things.trusting], asks_all=False)
        return [line for line, roles in told.items() if is_open(line) and arns & roles]

    def ways(self, ends: List[Node], rank: int) -> Dict[Node, List[Step]]:
        """For each principal that is no end itself a shortest way to one, by steps that need no more than this."""
        nodes = list(self.is_end)
        texts = {it: f"{n:09}" for n, it in enumerate(nodes)}
        into: chains.Steps = {}
        for (source, target), step in self.steps.items():
            if step.rank <= rank:
                into.setdefault(texts[target], []).append(chains.Step(texts[source], ""))
        found: Dict[Node, List[Step]] = {}
        for text, way in chains.ways(into, {texts[it]: "" for it in ends}, len(nodes)).items():
            node, path = nodes[int(text)], [nodes[int(it.principal)] for it in way.steps]
            if not node.changes:
                found[node] = [self.steps[pair] for pair in zip(path, path[1:])]
        return dict(sorted(found.items()))
