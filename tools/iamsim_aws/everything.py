"""What principals may do at all: all actions on all resources, asked by 'iamsim every' (docs/LOGIC.md, 11.6 and 13.9)."""

import re
from typing import Any, Dict, Iterator, List, NamedTuple, Set, Tuple

from .arns import account_of, owner_of, principal_arn, principal_text, service_of
from .asking import ask_all, whole
from .bounds import MOST as PROBES
from .bounds import TOO_MANY, hangs, probes_of, told_apart
from .documents import THROUGH, World, places, statements_of
from .every import NOT_SHOWN, UNNAMED, WORLDS, Job, ask_every
from .faults import Fault, tell
from .speaking import owners, patterns_of_actions, speaks_of, texts_of
from .making import bound
from .names import asking_alike, named_world, unresolved
from .patterns import common, is_pattern, matcher, of_given
from .points import tell_points
from .questions import Question, Scope, missing, principals
from .references import is_mixed
from .roles import with_sessions
from .slips import is_wide
from .sources import ASSUME
from .telling import Cause, cause_of
from .turning import Turn, hanging

ACCOUNT = re.compile(r"arn:[^:]*:[^:]*:[^:]*:([0-9]{12}):")
# The services that no run of their own is of.
REST = "*"
# Names of one kind that are told in words.
MOST = 10


class Kinds(NamedTuple):
    """Actions that a principal may do alike: on which resources, on which others of their service not, and the statements
    that allow. Each name stands for all of its kind."""

    principal: str
    service: str
    actions: List[str]
    resources: List[str]
    others: List[str]
    causes: List[Cause]

    @property
    def where(self) -> str:
        """The resources in words."""
        if not self.others:
            return "all"
        is_open = any(service_of(it) == "" and it != "*" for it in self.resources)
        return f"all but {listed(self.others)}" if is_open else listed(self.resources)


def listed(names: List[str]) -> str:
    """The first of some names, and how many more there are."""
    more = len(names) - MOST
    return ", ".join(names[:MOST]) + (f" and {more} more" if more > 0 else "")


class Lines(NamedTuple):
    """A world, with what is said of the texts that it does not name, the number of the resource that speaks for each ARN or
    bucket, and the accounts of which others are: of their resources without a policy nothing is allowed."""

    world: World
    texts: List[Dict[str, Any]]
    number_of: Dict[str, int]
    others: List[str]

    def resource(self, text: str) -> Dict[str, Any]:
        """What is said of a text."""
        named = [it for it in self.world["resources"] if it["arn"] == text]
        said = {"account": ""} if named else next(it for it in self.texts if matcher(it["pattern"])(text))
        of = named[0] if named else self.world["resources"][said["like"]] if "like" in said else said
        return {"arn": text, **{name: one for name, one in of.items() if name not in ("arn", "pattern", THROUGH)}}

    def is_asked(self, text: str) -> bool:
        """Whether a row is told of a resource."""
        return not text.endswith(f":{UNNAMED}") and (text in self.number_of or account_of(text) not in self.others)


def is_meant(question: Question) -> bool:
    """Whether a question asks for everything, of all services or of one."""
    service, _, name = question.action.rpartition(":")
    return question.resource == "*" and is_pattern(name) and is_wide(name) and bool(name)


def services_of(scope: Scope, question: Question) -> List[str]:
    """The services that are asked for one by one, since a kind of actions may be of several: those that policies and lists name,
    and whose roles are resources."""
    asked = question.action.rpartition(":")[0].lower() or "*"
    if not is_pattern(asked):
        return [asked]
    spoken = patterns_of_actions(scope.source.world([ASSUME]))
    named = [*scope.source.references.actions(), *scope.source.actions, *spoken]
    found = {it.partition(":")[0].lower() for it in named if ":" in it} | {"iam", "sts"}
    return sorted(it for it in found if it.strip("*?") and common(it, asked))


def named_accounts(world: World) -> Set[str]:
    """The accounts in the resources that policies name."""
    every = (statement for it in places(world) for statement in statements_of(it.policy.document))
    found = (ACCOUNT.match(text) for it in every for text in texts_of(it, "Resource", "NotResource"))
    return {it[1] for it in found if it}


def said(scope: Scope, world: World, account: str, others: List[str]) -> Iterator[Tuple[str, Dict[str, Any]]]:
    """Patterns of what a world does not name, each with a resource that has what holds there: objects are as their buckets,
    what names another account is of it, all else of the principal's own, for some of whose services control policies are.
    """
    for owner, it in owners(world["resources"]).items():
        if service_of(owner) == "s3" and (set(it) > {"arn", "account"} or it["account"] != account):
            yield of_given(owner), it
            yield f"{of_given(owner)}/*", it
    yield from ((f"arn:*:*:*:{it}:*", {"account": it}) for it in others)
    estate = scope.source.estate
    services = estate.organization.given.get("controlled", []) if estate and estate.organization.is_there else []
    for service, pattern in [*((it, f"arn:*:{it}:*") for it in services), ("", "*")]:
        one = {"arn": f"arn:aws:{service}::{account}:{UNNAMED}", "account": account}
        yield pattern, bound(estate, one) if estate else one


def lines_of(scope: Scope, world: World, account: str, is_assumed: bool) -> Lines:
    """What is said of the texts that a world does not name. Roles that nothing names are not there to be assumed."""
    ids = {it["id"] for it in world["accounts"]}
    others = sorted((ids | named_accounts(world)) - {account})
    accounts = world["accounts"] + [{"id": it} for it in [account, *others] if it not in ids]
    resources = list(world["resources"])
    number_of = {it["arn"]: n for n, it in enumerate(resources)}
    texts: List[Dict[str, Any]] = [{"pattern": of_given(it), "like": n} for it, n in number_of.items() if is_assumed]
    for pattern, it in [("\\*", {"account": account})] if is_assumed else said(scope, world, account, others):
        if set(it) <= {"arn", "account"}:
            texts.append({"pattern": pattern, "account": it["account"]})
            continue
        if it["arn"] not in number_of:
            number_of[it["arn"]] = len(resources)
            resources.append(it)
        texts.append({"pattern": pattern, "like": number_of[it["arn"]]})
        number_of.setdefault(owner_of(it["arn"]), number_of[it["arn"]])
    return Lines({**world, "accounts": accounts, "resources": resources}, texts, number_of, others)


class Run(NamedTuple):
    """What is asked at once: a service, or '*' for those that no other run is of, and the pattern of its actions."""

    lines: Lines
    service: str
    pattern: str


class Found(NamedTuple):
    """Who is asked for, what they may do, and (principal, action, pattern of resources) of which there are too many kinds;
    and what was asked, with the rows of each run."""

    people: List[str]
    kinds: List[Kinds]
    hidden: List[Tuple[str, str, str]]
    asked: List[Tuple[Run, List[Dict[str, Any]]]]


def runs(scope: Scope, question: Question) -> Iterator[Run]:
    """What is asked, for each account of the principals by itself."""
    services, name = services_of(scope, question), question.action.rpartition(":")[2]
    patterns = {it: f"{it}:{name}" for it in services}
    if is_pattern(question.action.rpartition(":")[0] or "*"):
        patterns[REST] = question.action
    for kind, action in WORLDS.items():
        own = [it for it in patterns if (it if it in WORLDS else "") == kind]
        try:
            world = whole(with_sessions(scope.source.worlds([action]))[0]) if own else {"principals": []}
        except Fault as why:
            tell(f"{patterns[kind]} is not asked: {why}")
            continue
        meant = principals(world["principals"], question)
        for account in dict.fromkeys(account_of(principal_arn(it)) for it in meant):
            people = [it for it in meant if account_of(principal_arn(it)) == account]
            lines = lines_of(scope, {**world, "principals": people}, account, kind == "sts")
            yield from (Run(lines, it, patterns[it]) for it in own)


def answered(some: List[Run], services: List[str]) -> Iterator[List[Dict[str, Any]]]:
    """The rows of each run, where runs are of these services."""
    for it in some:
        tell_points(it.lines.world)
    jobs = (Job(it.lines.world, it.lines.texts, ["--action", it.pattern]) for it in some)
    for it, rows in zip(some, ask_every(jobs, len(some))):
        own = [row for row in rows if it.lines.is_asked(row["resource"])]
        yield [row for row in own if it.service != REST or not is_of_another(row, services)]


def statements_for(lines: Lines, principal: Dict[str, Any], action: str, allowed: List[Dict[str, Any]]) -> List[Cause]:
    """The statements that allow an action: of the principal's policies all that speak of it, of resources' those that decide."""
    found = [
        Cause("", "identity", policy.name, n, it)
        for policy in principal.get("identity") or []
        for n, it in enumerate(statements_of(policy.document))
        if it.get("Effect") == "Allow" and speaks_of(it, (action,))
    ]
    for row in allowed:
        number = lines.number_of.get(row["resource"], lines.number_of.get(owner_of(row["resource"])))
        of = [it for it in row["statements"] if it.startswith("resource/")] if number is not None else []
        found += [cause_of(lines.world, 0, number or 0, it) for it in of]
    return list({(it.layer, it.policy, it.number): it for it in found}.values())


def kinds_of(run: Run, given: List[Dict[str, Any]]) -> Iterator[Kinds]:
    """What the rows of a run allow, kinds of actions that are allowed alike together."""
    of, lines = {principal_text(it): it for it in run.lines.world["principals"]}, run.lines
    by_action: Dict[Tuple[str, str], List[Dict[str, Any]]] = {}
    for row in given:
        by_action.setdefault((row["principal"], row["action"]), []).append(row)
    found: Dict[Any, Kinds] = {}
    for (principal, action), every in by_action.items():
        own = [it for it in every if is_told(lines, it)]
        allowed = [it for it in own if it["decision"] == "allowed"]
        if allowed:
            causes = statements_for(lines, of[principal], action, allowed)
            texts = [it["resource"] for it in allowed]
            others = [it["resource"] for it in own if it not in allowed]
            key = principal, tuple(texts), tuple(it.words() for it in causes)
            one = Kinds(principal, run.service, [], texts, others, causes)
            found.setdefault(key, one).actions.append(action)
    yield from found.values()


def is_told(lines: Lines, row: Dict[str, Any]) -> bool:
    """Whether a row is no action of one service on a resource of another; a text that is made up stands for those of other
    services too."""
    return not (row["resource"] in lines.number_of and is_mixed(row["action"], row["resource"]))


def is_of_another(row: Dict[str, Any], services: List[str]) -> bool:
    """Whether another run tells a row of the services that no run is of."""
    service = row["action"].partition(":")[0].lower()
    return any(matcher(it)(service) for it in services)


def everything(scope: Scope, question: Question) -> Found:
    """What the principals of a question may do."""
    kinds: List[Kinds] = []
    hidden: List[Tuple[str, str, str]] = []
    some = list(runs(scope, question))
    asked = list(zip(some, answered(some, [it.service for it in some if it.service != REST])))
    for one, given in asked:
        hidden += [(it["principal"], it["action"], it["resource"]) for it in given if it["decision"] == NOT_SHOWN]
        kinds += kinds_of(one, [it for it in given if it["decision"] != NOT_SHOWN])
    people = dict.fromkeys(principal_text(it) for one in some for it in one.lines.world["principals"])
    if not people:
        raise Fault(missing(scope, question._replace(action=WORLDS[""])))
    return Found(list(people), sorted(kinds, key=lambda it: (it.service == REST, it.service)), hidden, asked)


class Turned(NamedTuple):
    """Kinds of requests of a service that become allowed, or no longer are, by the same keys."""

    principal: str
    service: str
    turn: Turn
    actions: List[str]
    resources: List[str]


def apart(run: Run) -> Run:
    """A run in which names are told apart by what hangs on keys."""
    world = {**run.lines.world, "actions": [run.pattern]}
    return run._replace(lines=run.lines._replace(world={**told_apart(world), "actions": run.lines.world["actions"]}))


def hung_in(found: Found) -> Tuple[List[Tuple[Run, World]], List[str]]:
    """Worlds with all that may be allowed of the runs that hang on keys that nothing gives, and what was not asked, in words."""
    hung = [it for it, _ in found.asked if hangs(it.lines.world, [it.pattern])]
    asked = [it for it in hung if len(probes_of({**it.lines.world, "actions": [it.pattern]})) <= PROBES]
    opens = [f"{it.pattern}: {TOO_MANY}" for it in hung if it not in asked]
    # A text of which a variable is a part that nothing gives may be of another kind with each value.
    opens += [line for it in asked for line in unresolved({**it.lines.world, "actions": [it.pattern]}, "*")]
    worlds: List[Tuple[Run, World]] = []
    services = [it.service for it, _ in found.asked if it.service != REST]
    for run, rows in zip(asked, answered(list(map(apart, asked)), services)):
        hidden = [it for it in rows if it["decision"] == NOT_SHOWN]
        opens += [f"{it['principal']} {it['action']} {it['resource']}: {TOO_MANY}" for it in hidden]
        some = [it for it in rows if it["decision"] == "allowed" and is_told(run.lines, it)]
        for people, actions, texts in asking_alike(some):
            resources = list(map(run.lines.resource, texts))
            worlds.append((run, named_world(run.lines.world, people, actions, resources)))
    return worlds, opens


def turned(found: Found) -> Tuple[List[Turned], List[str], List[str]]:
    """What of everything hangs on keys that nothing gives; what is not shown of what may be allowed, and what is told besides."""
    worlds, opens = hung_in(found)
    notes: List[str] = []
    made: Dict[Any, Turned] = {}
    every = ask_all([world for _, world in worlds])
    for (run, _), answers, of in zip(worlds, every, hanging(every)):
        opens, notes = opens + of.opens, notes + of.notes
        for cell, turn in sorted(of.turns.items()):
            who, action, resource = answers.texts(cell)
            one = made.setdefault((who, run.service, turn), Turned(who, run.service, turn, [], []))
            one.actions.extend([action] if action not in one.actions else [])
            one.resources.extend([resource] if resource not in one.resources else [])
    return list(made.values()), list(dict.fromkeys(opens)), list(dict.fromkeys(notes))


def statement_words(cause: Cause, service: str) -> str:
    """What a statement is of, as far as it speaks of a service."""
    of = "*" if service == REST else f"{service}:*"
    parts = []
    for element in ("Action", "Resource"):
        some, rest = texts_of(cause.statement, element), texts_of(cause.statement, f"Not{element}")
        if element == "Action":
            some, rest = ([it for it in texts if common(it, of, True)] for texts in (some, rest))
        is_open = f"Not{element}" in cause.statement
        parts += [", ".join(some)] if some else [f"all but {', '.join(rest)}"] if rest else ["all"] if is_open else []
    return " on ".join(parts)
