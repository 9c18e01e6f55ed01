"""The requests of ways on what no export names: of all names of a kind, and with all values of the keys that nothing gives."""

from typing import Any, Dict, Iterator, List, NamedTuple, Set, Tuple

from ..arns import account_of, principal_arn, principal_text
from ..asking import ask_allowed
from ..bounds import ALLOW, Probe, at_most, closed, hangs, probes_for, spoken, with_probes
from ..documents import Policy, World, conditions_of, each
from ..every import NOT_SHOWN, UNNAMED, ask_every
from ..examples import ask_any_key
from ..exports import ACCOUNT
from ..files import compact
from ..making import bound
from ..names import REQUEST, Line, Names, Row, companies, is_told, jobs_of, naming, side_of, unnamed, with_lines
from ..never import with_bound
from ..patterns import matcher, of_given
from ..questions import Question, Scope
from ..speaking import statements, texts_of
from .table import ELSEWHERE, KINDS, WAYS

OPENED = {"Version": "2012-10-17", "Statement": {"Effect": "Allow", "Principal": {"AWS": "*"}, "Action": "sts:*"}}
ABROAD = Policy("a trust policy of an account without an export (assumed)", OPENED)
ROLES = "arn:*:iam::*:role/*"
ALLOWED = ["--decision", "allowed"]
ASKS = [it for way in WAYS for it in way.asks if it.kind in (*KINDS, ELSEWHERE)]
# The actions of each kind by which ways go.
ACTIONS = {kind: sorted({it.action for it in ASKS if it.kind == kind}) for kind in dict.fromkeys(it.kind for it in ASKS)}


class Shown(NamedTuple):
    """A request of a principal of these names, with its row: as it is, with an example, or, where neither is shown, open."""

    names: Names
    row: Row
    is_open: bool


def is_of(pattern: str, arn: str) -> bool:
    """Whether an ARN is of a kind's pattern, part by part: no run goes past the end of a part, nor into a kind of its own, as in
    'image/:instance/'; behind a name stands a version at most."""
    parts = list(zip(pattern.split(":", 5), arn.split(":", 5)))
    if len(parts) < 6 or not all(matcher(part)(text) for part, text in parts):
        return False
    name = parts[5][1][len(parts[5][0].partition("*")[0]) :]
    return name.count(":") < 2 and "/" not in name.partition(":")[2]


def probes_in(world: World) -> List[Probe]:
    """Statements that tell apart, each by itself, what those on the world's actions do, whichever action they are of."""
    found: Dict[str, Probe] = {}
    for it in spoken(closed(world), world["actions"]):
        for one in probes_for(it):
            if "*" not in one.get("NotResource", ["*"]):
                probe = it.is_new, {"Effect": ALLOW, "Action": "*", "NotResource": one["NotResource"]}
                found.setdefault(compact(probe), probe)
    return list(found.values())


def in_common(world: World) -> World:
    """The world in which all is allowed that is with any values of keys, and in which names of one kind are allowed all actions alike, with
    the same values."""
    return with_probes(at_most(world), probes_in(world))


def lines_elsewhere(scope: Scope, world: World, partition: str) -> Iterator[Line]:
    """The lines for roles of accounts without an export, each account that policies name by itself; their trust policies, which nobody knows,
    let in everybody."""
    estate, known = scope.source.estate, scope.source.accounts()
    named: Dict[str, None] = {}
    for _, it, _ in statements(world, world["actions"]):
        named.update(dict.fromkeys(map(account_of, texts_of(it, "Resource", "NotResource"))))
        values = (str(one) for _, key, of in conditions_of(it) if key.lower() == "aws:resourceaccount" for one in each(of))
        named.update(dict.fromkeys(values))
    nobody = next(it for it in map("{:012d}".format, range(len(named) + 1)) if it not in named and it not in known)
    yield from (Line(f"arn:*:iam::{it}:*", {"arn": "", "account": nobody}, 0, True) for it in sorted(known))
    for account in [*(it for it in named if ACCOUNT.fullmatch(it) and it not in known), nobody]:
        form = "*" if account == nobody else account
        one = {"arn": f"arn:{partition}:iam::{account}:role/{UNNAMED}", "account": account, "sealed": True, "policy": ABROAD}
        yield Line(f"arn:{partition}:iam::{form}:role/*", bound(estate, one) if estate else one)


def lines_for(scope: Scope, kind: str, world: World, partition: str, account: str) -> Iterator[Line]:
    """The lines for all of a kind that an account may have; of roles elsewhere for those of the other accounts."""
    if kind == ELSEWHERE:
        yield from lines_elsewhere(scope, world, partition)
        return
    parts = KINDS[kind].split(":", 5)
    form = ":".join([parts[0], partition, *parts[2:4], account if parts[4] else "", parts[5]])
    yield Line(form, unnamed([side_of(scope, world)], parts[2], account))


def names_for(scope: Scope, kind: str, world: World) -> Iterator[Names]:
    """The requests on all of a kind, by the accounts of the principals; who is outside may be let in by what is named alone."""
    question = Question("*", ACTIONS[kind][0], KINDS.get(kind, ROLES))
    named = [it for it in world["resources"] if kind != ELSEWHERE and is_of(question.resource, it["arn"])]
    for account, of in companies(world["principals"]).items():
        for people in of:
            own = {**world, "actions": ACTIONS[kind], "resources": named, "principals": people}
            partitions = sorted({principal_arn(it).split(":")[1] for it in people if account})
            lines = [line for it in partitions for line in lines_for(scope, kind, own, it, account)]
            abroad = [it.of for it in lines if kind == ELSEWHERE and not it.is_shut]
            lines += [Line(of_given(it["arn"]), it) for it in named]
            if lines:
                side = side_of(scope, {**own, "resources": [*named, *abroad]})
                yield with_lines(Names([side], lines, question, "", ()), lines)


def rows_of(some: List[Names]) -> List[List[Row]]:
    """What may be allowed of each, of texts that can be of the kind; where there are too many kinds of them a row is open."""
    jobs = [(n, *it) for n, names in enumerate(some) for it in jobs_of(names, ALLOWED)]
    found: List[List[Row]] = [[] for _ in some]
    for (n, _, here_is), rows in zip(jobs, ask_every((job for _, job, _ in jobs), len(jobs))):
        pattern = some[n].question.resource
        own = (it for it in rows if is_told(some[n], here_is, it) and not it["resource"].endswith(UNNAMED))
        found[n] += [it for it in own if it["decision"] == NOT_SHOWN or is_of(pattern, it["resource"])]
    return found


def may_go(kind: str, actions: Set[str]) -> bool:
    """Whether some way asks nothing of a kind but these actions."""
    asks = ({it.action for it in way.asks if it.kind == kind} for way in WAYS)
    return any(it and it <= actions for it in asks)


def actions_of(kind: str, row: Row) -> List[str]:
    """The actions of which a row may be."""
    return ACTIONS[kind] if row["decision"] == NOT_SHOWN else [row["action"]]


def at_most_of(some: List[Tuple[str, Names]]) -> List[List[Row]]:
    """What each may be allowed with any values of keys: of each principal that may go a way the names that all statements tell apart."""
    found = rows_of([with_bound(it, at_most) for _, it in some])
    made: List[List[Row]] = [[] for _ in some]
    further: List[Tuple[int, Names]] = []
    for n, (kind, names) in enumerate(some):
        rows: Dict[str, List[Row]] = {}
        for row in found[n]:
            rows.setdefault(row["principal"], []).append(row)
        for own, one in ((rows.get(principal_text(it), []), it) for it in names.people):
            if not may_go(kind, {action for it in own for action in actions_of(kind, it)}):
                continue
            alone = names.of([one])
            if probes_in(alone.world):
                further.append((n, alone))
            else:
                made[n] += own
    apart = rows_of([with_bound(it, in_common) for _, it in further])
    for (n, _), rows in zip(further, apart):
        made[n] += rows
    return made


def shown_of(some: List[Tuple[str, Names]]) -> Iterator[Tuple[int, Shown]]:
    """(number of the names, request) of all that is allowed, with some values of keys, or perhaps."""
    most = at_most_of(some)
    for n, rows in enumerate(most):
        kind, names = some[n]
        hidden = [it for it in rows if it["decision"] == NOT_SHOWN]
        yield from ((n, Shown(names, {**it, "action": action}, True)) for it in hidden for action in ACTIONS[kind])
    plain = [[it for it in rows if it["decision"] != NOT_SHOWN] for rows in most]
    worlds = [(n, world) for n, rows in enumerate(plain) for [world] in naming(some[n][1], rows)]
    hung = [(n, it) for n, it in worlds if hangs(it, it["actions"])]
    done: Set[Any] = set()
    for (n, _), answers in zip(worlds, ask_allowed([it for _, it in worlds])):
        for cell in answers.allowed():
            answer, texts = answers.at(cell), answers.texts(cell)
            done.add((n, texts))
            row = {**dict(zip(REQUEST, texts)), "decision": "allowed", "statements": list(answer.statements)}
            yield n, Shown(some[n][1], {**row, "lacks": [], "example": None}, False)
    for (n, _), turned in zip(hung, ask_any_key([it for _, it in hung])):
        for cell in (*turned.examples, *turned.opens):
            if (n, turned.answers.texts(cell)) not in done:
                yield n, Shown(some[n][1], turned.row(cell), cell not in turned.examples)
