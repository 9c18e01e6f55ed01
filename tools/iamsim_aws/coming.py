"""Who comes by roles, one after the other, to what a rule never allows."""

from typing import Any, Dict, List

from .chains import Steps, Way, chains, comers, steps_of
from .faults import TOLD
from .never import Break, Finding, findings, never
from .questions import Scope
from .roles import with_named
from .ruling import Outcome, Rule
from .sources import ASSUME
from .strangers import is_excepted, is_meant, shown


def with_chains(scope: Scope, outcomes: List[Outcome], as_given: bool, depth: int) -> List[Outcome]:
    """The outcomes, in which those too break a `never` who come to it by roles."""
    asks = [it.rule.kind == "never" and it.state != "empty" for it in outcomes]
    told = len(TOLD)
    steps = steps_of(scope.source) if any(asks) else {}
    people = people_of(scope) if any(asks) else []
    unasked = [it for it in dict.fromkeys(TOLD[told:]) if "not asked" in it]

    def more(it: Outcome) -> Outcome:
        found = open_to(scope, it.rule, as_given)
        opens = list(dict.fromkeys(it.opens + found.opens + unasked))
        broken = it.broken + coming(it, found.broken, steps, people, as_given, depth)
        return it._replace(broken=broken, opens=opens, by_roles=f"who comes by at most {depth} roles and is no service")

    return [more(it) if is_asked else it for it, is_asked in zip(outcomes, asks)]


def people_of(scope: Scope) -> List[Dict[str, Any]]:
    """Whom steps begin with: the principals, and who is outside and may assume a role."""
    world = with_named(scope.source, scope.source.world([ASSUME]))
    return [*world["principals"], *comers(scope.source, world)]


def open_to(scope: Scope, rule: Rule, as_given: bool) -> Finding:
    """The requests of a rule that are allowed to anybody, those that need no key first."""
    every = rule.question._replace(principal="*", exceptions=[])
    [found] = findings(scope, [never(scope, every)], as_given)
    return found._replace(broken=sorted(found.broken, key=lambda it: (it.turn is not None, it.is_mixed())))


def coming(
    outcome: Outcome, ends_of: List[Break], steps: Steps, people: List[Dict[str, Any]], as_given: bool, depth: int
) -> List[Break]:
    """For each principal that a rule means, and that does not break it by itself, a way to a request of the rule."""
    ends: Dict[str, Break] = {}
    for it in ends_of:
        ends.setdefault(it.answers.row(it.cell).principal, it)
    plain = {who for who, it in ends.items() if it.turn is None}
    keyed = {who: it.turn.words() for who, it in ends.items() if it.turn is not None}
    known = steps if not as_given else {it: [one for one in of if not one.given] for it, of in steps.items()}
    own = {it.answers.row(it.cell).principal for it in outcome.broken}
    question = outcome.rule.question
    meant = {
        shown(it) for it in people if is_meant(it, question.principal) and not is_excepted(it, question.exceptions)
    }
    ways: List[Way] = [way for of in chains(known, plain, keyed, depth) for way in of]
    some = [way for way in ways if way.steps[0].principal in meant - own]
    return [ends[way.steps[-1].principal]._replace(way=way) for way in some]
