"""Which calls of a log would be refused after a change; and, of one world alone, where it answers otherwise than the log."""

from typing import Any, Dict, List, NamedTuple, Optional, Set, Tuple

from ..arns import owner_of
from ..reports import Answer
from ..telling import BY, HINTS, LACKS, deciding
from .counting import Made, Tally, ordered
from .deciding import answers_of, decide
from .mapping import FREE, THING, Call
from .sides import Request, Side

# What a row says: refused by the change; refused before it too; and, without a change, where the log says otherwise.
NEW, OLD, HERE, LOGGED = "refused then", "refused before too", "refused here", "allowed here"
GONE, NO_ROLE = "the principal is no longer there", "the role is no longer there"


class Row(NamedTuple):
    """Calls of one principal and action that are decided by the same reasons: an example, and what was before."""

    change: str
    principal: str
    action: str
    why: Tuple[str, ...]
    made: Made
    denied: int
    resource: str
    found: str
    before: Tuple[str, ...]

    def joined(self, other: "Row") -> "Row":
        first = min((self, other), key=lambda it: (it.made.example, it.resource))
        return first._replace(made=self.made.joined(other.made), denied=self.denied + other.denied)


class Case(NamedTuple):
    """Alike events of one request: how they ended, by what their resource was found, and how often they were made."""

    outcome: str
    found: str
    made: Made


class Unused(NamedTuple):
    """The statements that decided something, by their policies' names and numbers, and the principals with an event."""

    statements: Set[Tuple[str, int]]
    people: Set[str]


class Replay:
    """What the rounds of a log come to."""

    def __init__(self, before: Side, after: Optional[Side], account: Optional[str], is_unused: bool):
        self.before, self.after, self.account = before, after, account
        self.total = Tally()
        self.rows: Dict[Any, Row] = {}
        self.words: Dict[Any, List[str]] = {}
        self.calls = self.requests = self.worlds = self.failed = self.taken = self.bare = 0
        self.unused = Unused(set(), set()) if is_unused else None

    @property
    def last(self) -> Side:
        return self.after or self.before

    def take(self, tally: Tally) -> None:
        """Asks for the calls of a round."""
        cases = self.cases(tally)
        self.total.join(tally)
        if self.unused:
            self.unused.people.update(tally.seen)
        some = list(cases)
        self.requests += len(some)
        self.calls += sum(it.made.times for of in cases.values() for it in of)
        if some and self.after:
            self.compare(some, cases)
        elif some:
            self.test(some, cases)
        for side in filter(None, (self.before, self.after)):
            side.let_go()

    def cases(self, tally: Tally) -> Dict[Request, List[Case]]:
        """The requests of the calls; sessions of a role that no policy tells apart are asked for as one."""
        found: Dict[Request, List[Case]] = {}
        sessions: Dict[str, str] = {}
        while tally.calls:
            # What becomes a request is let go, so that a round is not held twice.
            call, made = tally.calls.popitem()
            request = self.request(call, made, sessions)
            if not request:
                tally.miss(THING, f"{call.action} ({self.lacking(call)})", made.times)
                continue
            found.setdefault(request, []).append(Case(call.outcome, call.found, made))
            thing = self.before.thing(request)
            self.taken += made.times if thing.is_taken else 0
            self.bare += made.times if thing.is_bare else 0
        return found

    def request(self, call: Call, made: Made, sessions: Dict[str, str]) -> Optional[Request]:
        account = self.before.account_for(call.action, call.resource, call.account, self.account)
        if not account or self.before.is_absent(call.action, call.resource):
            return None
        own = made.example.session
        session = call.session or (own and sessions.setdefault(call.who, own))
        return Request(call.who, session, call.action, call.resource, account, call.keys)

    def lacking(self, call: Call) -> str:
        if self.before.is_absent(call.action, call.resource):
            return f"{call.resource}: no export has this role with its trust policy"
        return "the account of its resource"

    def asked(self, side: Side, some: List[Request], is_full: bool) -> List[Answer]:
        found, worlds = decide(side, some, is_full)
        self.worlds += worlds
        return found

    def compare(self, some: List[Request], cases: Dict[Request, List[Case]]) -> None:
        """Tells the calls that are refused after the change: first in short, and then those alone with their reasons."""
        assert self.after is not None
        gone = {it: why for it, why in ((it, self.gone(it)) for it in some) if why}
        there = [it for it in some if it not in gone] if gone else some
        answers = self.asked(self.after, there, self.unused is not None)
        self.use(there, answers)
        refused = [it for it, answer in zip(there, answers) if answer.decision != "allowed"]
        lost = [*refused, *gone]
        before = dict(zip(lost, self.asked(self.before, lost, True)))
        new = [it for it in refused if before[it].decision == "allowed"]
        after = dict(zip(new, self.asked(self.after, new, True)))
        for it in lost:
            if before[it].decision != "allowed":
                self.tell(OLD, it, cases[it], self.before, before[it], ())
                continue
            was = tuple(f"was {BY['allowed']} {one}" for one in self.statements(self.before, it, before[it]))
            if it in after:
                self.tell(NEW, it, cases[it], self.after, after[it], was)
            else:
                self.add(NEW, it, cases[it], (gone[it],), was)

    def gone(self, it: Request) -> str:
        """Who or what the change takes away, if it does."""
        assert self.after is not None
        if not self.after.has(it.who):
            return GONE
        return NO_ROLE if self.after.is_absent(it.action, it.resource) else ""

    def test(self, some: List[Request], cases: Dict[Request, List[Case]]) -> None:
        """Tells the calls that the world decides otherwise than the log."""
        answers = self.asked(self.before, some, self.unused is not None)
        self.use(some, answers)
        found = []
        for it, answer in zip(some, answers):
            wanted = "" if answer.decision != "allowed" else "denied"
            change = LOGGED if wanted else HERE
            of = [case for case in cases[it] if case.outcome == wanted]
            self.failed += sum(case.made.times for case in cases[it] if case.outcome == "failed")
            if of and not (change == LOGGED and self.before.thing(it).is_taken):
                found.append((it, change, of))
        full = self.asked(self.before, [it for it, _, _ in found], True) if found else []
        for (it, change, of), answer in zip(found, full):
            self.tell(change, it, of, self.before, answer, ())

    def tell(
        self, change: str, it: Request, cases: List[Case], side: Side, answer: Answer, before: Tuple[str, ...]
    ) -> None:
        why = [f"{BY[answer.decision]} {one}" for one in self.statements(side, it, answer)]
        why += [f"lacks {layer}: {LACKS[layer]}" for layer in answer.lacks]
        old = self.rows.get((change, it.who, it.action, tuple(why)))
        first = min(case.made.example for case in cases), it.resource
        hints = hinted(side, it, answer) if old is None or first < (old.made.example, old.resource) else ()
        self.add(change, it, cases, tuple(why), (*hints, *before))

    def statements(self, side: Side, it: Request, answer: Answer) -> List[str]:
        """The statements that decide, in words, which are those of all alike requests."""
        is_of_resource = any(of.startswith(("resource", "control")) for of in answer.statements)
        resource = (owner_of(it.resource), it.account) if is_of_resource else None
        key = side is self.before, it.who, it.session, it.action.partition(":")[0], resource, answer
        if key not in self.words:
            self.words[key] = [of.words() for of in deciding(answers_of(side, it, answer), 0)]
        return self.words[key]

    def add(self, change: str, it: Request, cases: List[Case], why: Tuple[str, ...], before: Tuple[str, ...]) -> None:
        for case in cases:
            denied = case.made.times if case.outcome == "denied" else 0
            row = Row(change, it.who, it.action, why, case.made, denied, it.resource, case.found, before)
            old = self.rows.get((change, it.who, it.action, why))
            self.rows[change, it.who, it.action, why] = old.joined(row) if old else row

    def use(self, some: List[Request], answers: List[Answer]) -> None:
        """Notes the statements that decided something."""
        for it, answer in zip(some, answers) if self.unused else ():
            for place in answer.statements:
                layer, *numbers = place.split("/")
                if layer in ("identity", "resource"):
                    holder = (
                        self.last.principal(it)["identity"]
                        if layer == "identity"
                        else [self.last.thing(it).resource["policy"]]
                    )
                    policy = holder[int(numbers[0]) if layer == "identity" else 0]
                    assert self.unused is not None
                    self.unused.statements.add((policy.name, int(numbers[-1])))

    def told(self) -> List[Row]:
        """The rows, those that the change refuses first, the most frequent of each first."""
        order = [NEW, HERE, LOGGED, OLD]
        every = self.rows.values()
        return sorted(every, key=lambda it: (order.index(it.change), -it.made.times, it.principal, it.action, it.why))

    def count(self, *changes: str) -> int:
        return sum(it.made.times for it in self.rows.values() if it.change in changes)

    def missed(self) -> List[Tuple[str, str, int]]:
        """What was not mapped: (reason, name, count)."""
        return [it for it in ordered(self.total.missed) if it[0] != FREE]

    def free(self) -> int:
        """How many calls want no permission."""
        return sum(count for reason, _, count in ordered(self.total.missed) if reason == FREE)


def hinted(side: Side, request: Request, answer: Answer) -> Tuple[str, ...]:
    """What is nearest to an allow, where a layer lacks."""
    answers = answers_of(side, request, answer)
    return tuple(line.strip() for layer in answer.lacks if layer in HINTS for line in HINTS[layer](answers, 0))
