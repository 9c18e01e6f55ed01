"""Who may come to a request by assuming roles, one after the other."""

from typing import Any, Dict, List, NamedTuple, Sequence, Set

from .arns import principal_arn, principal_text
from .asking import ask_all
from .covering import is_open, unasked
from .documents import World
from .examples import ask_any_key
from .faults import tell
from .outsiders import Outsider, outsider_of
from .reports import Answers
from .roles import with_sessions
from .sources import ASSUME, Source
from .strangers import everyone_outside, with_strangers

# The actions by which web identities and SAML identities assume a role.
BY_TOKENS = ["sts:AssumeRoleWithWebIdentity", "sts:AssumeRoleWithSAML"]
SERVICES = "services that roles trust are not asked"


class Step(NamedTuple):
    """A principal that may assume a role, or do what is asked, and the key that it lacks for that, in words."""

    principal: str
    given: str


class Way(NamedTuple):
    """The steps from the first principal to the one that may do what is asked."""

    steps: List[Step]

    def words(self) -> str:
        return " -> ".join(f"{it.principal} (if {it.given})" if it.given else it.principal for it in self.steps)


# The steps that lead to each session.
Steps = Dict[str, List[Step]]


def opened(several: List[Answers]) -> List[Dict[int, str]]:
    """The requests that are allowed with keys that they lack, each with an example."""
    every = ask_any_key([it.world for it in several])
    for turned, it in ((turned, it) for turned in every for it in turned.opens):
        tell(f"{turned.open_words(it)}, so who may come by it was not asked")
    flags = [it.flags() for it in several]
    return [{n: it.words() for n, it in of.examples.items() if not own[n]} for of, own in zip(every, flags)]


def is_no_service(who: Outsider) -> bool:
    return who.kind != "Service"


def comers(source: Source, world: World) -> List[Dict[str, Any]]:
    """Who is outside and is let into a role of a world, but for services."""
    some = [(it, outsider_of(it)) for it in everyone_outside(source, [world])]
    return [it for it, who in some if who is None or is_no_service(who)]


def asked_of(source: Source, world: World) -> List[World]:
    """The requests to assume a role of a world: of users, roles and accounts, and of those who have a token."""
    outside = comers(source, world)
    tokens = [it for it in outside if outsider_of(it)]
    first = with_strangers(source, world, [it for it in outside if it not in tokens])
    second = with_strangers(source, {**world, "principals": [], "actions": BY_TOKENS}, tokens)
    return [first, *([second] if tokens else [])]


def steps_of(source: Source, speaking: Sequence[World] = ()) -> Steps:
    """Who may assume which role, also by sessions that policies of further worlds name."""
    [world] = with_sessions(source.worlds([ASSUME]), speaking)
    sessions: Dict[str, List[str]] = {}
    for it in world["principals"]:
        if "role" in it:
            sessions.setdefault(principal_arn(it), []).append(principal_text(it))
    narrow = {**world, "resources": [it for it in world["resources"] if it["arn"] in sessions]}
    untold = sorted(set(sessions) - {it["arn"] for it in narrow["resources"]})
    if untold:
        tell(f"who may assume these roles was not asked, since nothing gives their trust policies: {', '.join(untold)}")
    for line in unasked(source, [{**narrow, "actions": [ASSUME, *BY_TOKENS]}], means=is_no_service):
        if is_open(line):
            tell(f"{line}, so who may come by it was not asked")
    found: Steps = {}
    several = ask_all(asked_of(source, narrow))
    for answers, keyed in zip(several, opened(several)):
        for cell, given in [*((it, "") for it in answers.allowed()), *keyed.items()]:
            row = answers.row(cell)
            for it in sessions[row.resource]:
                if it != row.principal:
                    found.setdefault(it, []).append(Step(row.principal, given))
    return found


def ways(steps: Steps, ends: Dict[str, str], depth: int) -> Dict[str, Way]:
    """For each principal that is no end itself a shortest way to one, of at most `depth` steps."""
    found = {it: Way([Step(it, given)]) for it, given in sorted(ends.items())}
    reached = list(found)
    for _ in range(depth):
        nearer = []
        for it in reached:
            for step in steps.get(it, []):
                if step.principal not in found:
                    found[step.principal] = Way([step, *found[it].steps])
                    nearer.append(step.principal)
        if not nearer:
            break
        reached = nearer
    return {principal: way for principal, way in found.items() if len(way.steps) > 1}


def chains(steps: Steps, allowed: Set[str], lacking: Dict[str, str], depth: int) -> List[List[Way]]:
    """The ways to those that are allowed, and the further ones with keys that nothing gives."""
    plain = {it: [step for step in of if not step.given] for it, of in steps.items()}
    first = ways(plain, dict.fromkeys(allowed, ""), depth)
    keyed = ways(steps, {**lacking, **dict.fromkeys(allowed, "")}, depth)
    return [list(first.values()), [way for who, way in keyed.items() if who not in first]]
