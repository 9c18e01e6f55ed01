"""All names that a question means, in worlds and lines for 'iamsim every': what holds of the texts that nothing names."""

import itertools
from typing import Any, Callable, Dict, FrozenSet, Iterable, Iterator, List, NamedTuple, Optional, Sequence, Set, Tuple

from . import questions
from .arns import account_of, is_access_point, names_of_resource, owner_of, principal_arn, principal_text, service_of
from .asking import whole
from .bounds import spoken
from .documents import FOREIGN, World, cells_of
from .every import NOT_SHOWN, UNNAMED, WORLDS, Job, ask_every
from .exports import ACCOUNT
from .keys import asked as asked_keys
from .keys import context_of
from .making import bound
from .patterns import (
    any_matches, common, is_pattern, matcher, of_given, of_policy, opened, overlap, pattern_of, plain, shortest,
    variables_of,
)
from .questions import Question, Scope, dressed, lacked, with_account
from .references import is_mixed
from .reports import REFUSED, Answer, Answers, axes_of
from .speaking import (
    Origin, Origins, Resource, is_absent_role, may_come, owned, owners, patterns_of_actions, statements, texts_of,
    values_of,
)
from .splitting import Part, parts_of_all
from .strangers import is_stranger
from .telling import Cause, cause_of

# How far texts are that may be of any service; and those that are named.
FAR, NAMED = 1, -1
# The layers of the statements that let somebody in.
LETS = ("identity", "resource")
REQUEST = ("principal", "action", "resource")
Principal = Dict[str, Any]
Row = Dict[str, Any]


class Line(NamedTuple):
    """A pattern of texts, and a resource that has what holds of each; how far they are from what a service is likely to have;
    whether nothing is allowed on them, whoever asks; and of which types they may be by the service reference."""

    pattern: str
    of: Resource
    far: int = 0
    is_shut: bool = False
    types: FrozenSet[str] = frozenset()


class Side(NamedTuple):
    """A world, what it is made of, and of each bucket or other resource the one that speaks for it."""

    scope: Scope
    world: World
    named: Dict[str, Resource]
    owners: Dict[str, Resource]

    def resource(self, arn: str, account: str, shut: str = "") -> Resource:
        """A resource here, where it need not be named; of the account that is shut where it cannot be there."""
        if arn in self.named:
            return self.named[arn]
        is_point = is_access_point(arn) and owner_of(arn) not in self.owners
        if shut and (is_point or is_absent_role(self.world, arn)):
            return {"arn": arn, "account": shut}
        one, estate = dressed(self.scope, owned(self.owners, arn, account)), self.scope.source.estate
        return bound(estate, one) if estate else one


def side_of(scope: Scope, world: World) -> Side:
    resources = world["resources"]
    return Side(scope, world, {it["arn"]: it for it in resources}, owners(resources))


class Names(NamedTuple):
    """Requests of principals of one account for all names that a question means: the sides where they are asked, which are one, or
    what was before and what is after; the lines that say what holds of texts that their worlds do not name, the pattern of the
    actions (nothing where those of the world are asked for), the services that are asked of elsewhere, and what is asked in place
    of the worlds, which bounds them."""

    sides: List[Side]
    lines: List[Line]
    question: Question
    pattern: str
    without: Tuple[str, ...]
    bound: Optional[Callable[[List[World]], List[World]]] = None

    @property
    def world(self) -> World:
        return self.sides[-1].world

    @property
    def people(self) -> List[Principal]:
        return everybody(self.sides)

    def mapped(self, change: Callable[[World], World]) -> "Names":
        return self._replace(sides=[it._replace(world=change(it.world)) for it in self.sides])

    def of(self, people: List[Principal]) -> "Names":
        return self.mapped(lambda it: with_people(it, people))

    @property
    def named(self) -> Set[str]:
        """The ARNs of resources that stand for themselves alone."""
        return {it["arn"] for it in self.world["resources"] if not it["arn"].endswith(UNNAMED)}

    def line_of(self, text: str) -> Line:
        """The line that speaks of a text."""
        return next(it for it in self.lines if matcher(it.pattern)(text))

    def shown(self) -> Callable[[str], List[Resource]]:
        """What each side has as a text that a row shows."""
        every = [{it["arn"]: it for it in side.world["resources"]} for side in self.sides]

        def of(text: str) -> List[Resource]:
            like = {} if text in every[0] else self.line_of(text).of
            return [named[text] if text in named else {**named.get(like["arn"], like), "arn": text} for named in every]

        return of

    def is_meant(self, text: str) -> bool:
        return any_matches([self.question.resource], names_of_resource(text))

    def is_own(self, text: str, line: Line) -> bool:
        """Whether a text is what its line takes it for: one that the question means, of the account that its ARN names."""
        account = account_of(text)
        return self.is_meant(text) and (account == line.of["account"] or not ACCOUNT.fullmatch(account))


def everybody(sides: Sequence[Side]) -> List[Principal]:
    """The principals of all sides, those of the last one first; of one world each, also who stands there twice."""
    found = list(sides[-1].world["principals"])
    known = set(map(principal_text, found))
    return found + [it for one in sides[:-1] for it in one.world["principals"] if principal_text(it) not in known]


def with_people(world: World, people: List[Principal]) -> World:
    """The world with those of its principals that are among these, or have the text of one that is of another world."""
    ids, texts = set(map(id, people)), set(map(principal_text, people))
    some = [it for it in world["principals"] if principal_text(it) in texts]
    own = {principal_text(it) for it in some if id(it) in ids}
    return {**world, "principals": [it for it in some if id(it) in ids or principal_text(it) not in own]}


def patterns_of(asked: str) -> List[str]:
    """The patterns of the ARNs that a pattern of resources means: a name is all behind an ARN's parts, or the last of it."""
    if asked.startswith(("arn:", "*")):
        return [asked]
    return [asked, f"arn:*:*:*:*:{asked}", *([] if "/" in asked else [f"arn:*:*:*:*:*/{asked}"])]


def names_another(pattern: str, account: str) -> bool:
    """Whether a pattern of ARNs names another account at its place: a '*' before it is taken to hold no colons."""
    own = account_of(pattern)
    return bool(ACCOUNT.fullmatch(own)) and own != account


def controlled(estate: Any) -> List[str]:
    """The services for which resource control policies are."""
    return list(estate.organization.given.get("controlled", [])) if estate and estate.organization.is_there else []


def unnamed(sides: Sequence[Side], service: str, account: str) -> Resource:
    """A resource that has what holds of all that nothing names of an account's service."""
    return fullest(sides, f"arn:aws:{service}::{account}:{UNNAMED}", account)


def fullest(sides: Sequence[Side], arn: str, account: str) -> Resource:
    """A resource as the side has it that says more than whose it is, if there is one."""
    some = [it.resource(arn, account) for it in reversed(sides)]
    return next((it for it in some if not is_plain(it)), some[0])


def is_plain(resource: Resource) -> bool:
    return set(resource) <= {"arn", "account"}


def within(asked: List[str], form: str, one: Resource, shut: str, far: int = 0) -> List[Line]:
    """The lines for what is meant within a form of ARNs. A name stands behind its fifth colon, and what else is there is not meant."""
    if asked[0].startswith(("arn:", "*")):
        return [Line(it, one, far) for pattern in asked for it in overlap(pattern, form)]
    head, names = form.split(":", 5)[:5], [asked[0], *(f"*/{asked[0]}" for _ in asked[2:])]
    some = dict.fromkeys(it for name in names for it in overlap(":".join([*head, name]), form))
    return [*(Line(it, one, far) for it in some), Line(form, {"arn": "", "account": shut}, 0, True)]


def owners_lines(sides: Sequence[Side], asked: List[str], account: str, shut: str = "") -> List[Line]:
    """Lines for the objects of buckets and access points that have more than those of an account that nothing names."""
    found = []
    for owner in dict.fromkeys(it for side in reversed(sides) for it in side.owners if service_of(it) == "s3"):
        home = next(side.owners[owner]["account"] for side in reversed(sides) if owner in side.owners)
        one = fullest(sides, f"{owner}/{UNNAMED}", home)
        if is_plain(one) and one["account"] == account:
            continue
        for form in (of_given(owner), f"{of_given(owner)}/*"):
            found += within(asked, form, one, shut)
    return found


def account_lines(
    sides: Sequence[Side], action: str, people: List[Principal], account: str, asked: List[str], shut: str
) -> List[Line]:
    """Lines for all else that may be of an account: first for what the action's service is likely to have, where that is one."""
    service = action.partition(":")[0].lower()
    asked = [it for it in asked if not names_another(it, account)]
    likely = [] if is_pattern(service) else {"sts": ["iam", "sts"]}.get(service, [service])
    found = []
    for partition in sorted({principal_arn(it).split(":")[1] for it in people}):
        for it in likely:
            form = f"arn:{partition}:s3:::?*" if it == "s3" else f"arn:{partition}:{it}:*:{account}:?*"
            found += within(asked, form, unnamed(sides, it, account), shut) if asked else []
    for it in controlled(sides[-1].scope.source.estate):
        form, one = f"arn:?*:{it}:*:*:?*", unnamed(sides, it, account)
        found += [Line(of, one, FAR) for pattern in asked for of in overlap(pattern, form)]
    rest = unnamed(sides, "", account)
    found += [Line("arn:?*:?*:*:*:?*" if it == "*" else it, rest, FAR) for it in asked]
    return found + ([Line("\\*", {"arn": "*", "account": account})] if any_matches(asked, ["*"]) else [])


def elsewhere(world: World, account: str, lines: List[Line]) -> Iterator[str]:
    """Patterns of what is not of an account, though a line for it may match: those of policies that name another one."""
    texts: Set[Tuple[str, bool]] = set()
    for _, statement, is_new in statements(world, world["actions"]):
        texts.update((it, is_new) for it in texts_of(statement, "Resource", "NotResource"))
    for text, is_new in sorted(texts):
        pattern = opened(text) if is_new else of_policy(text)
        if names_another(pattern, account) and any(common(pattern, it.pattern) for it in lines):
            yield pattern


def nobody_of(sides: Sequence[Side]) -> str:
    """An account that occurs nowhere."""
    ids = {it["id"] for side in sides for it in side.world["accounts"]}
    return next(it for it in map("{:012d}".format, itertools.count()) if it not in ids)


def companies(people: List[Principal]) -> Dict[str, List[List[Principal]]]:
    """The principals by their accounts, without one those who are outside; who stands twice under one name is asked by himself."""
    found: Dict[str, List[List[Principal]]] = {}
    seen: Dict[str, int] = {}
    for it in people:
        text, of = principal_text(it), found.setdefault("" if is_stranger(it) else account_of(principal_arn(it)), [])
        seen[text] = seen.get(text, -1) + 1
        of.extend([] for _ in range(seen[text] + 1 - len(of)))
        of[seen[text]].append(it)
    return found


def lines_of(sides: Sequence[Side], question: Question, action: str, account: str, shut: str) -> List[Line]:
    """The lines for the names that a question means, where principals of an account ask; who is outside may do nothing but what
    policies of resources say."""
    asked, people = patterns_of(question.resource), everybody(sides)
    every = {arn: it for side in sides for arn, it in side.named.items() if is_named(question, arn)}
    named = [Line(of_given(arn), it) for arn, it in every.items()]
    if not is_pattern(question.resource):
        return named
    lines = owners_lines(sides, asked, account, shut)
    of = account_lines(sides, action, people, account, asked, shut) if account else []
    closed = list(dict.fromkeys(it for one in sides for it in elsewhere(one.world, account, of))) if of else asked
    # Roles that nothing names are not there to be assumed.
    closed += ["arn:*:iam::*:role/*"] if of and action.lower().startswith("sts:") else []
    return [*lines, *(closed_line(sides, it, shut) for it in closed), *of, *named]


def closed_line(sides: Sequence[Side], pattern: str, shut: str) -> Line:
    """The line for texts that are not of who asks: nothing is allowed there, but what is assumed of an account without an export."""
    of = next((it for side in sides for it in [side.owners.get(abroad(account_of(pattern)))] if it), None)
    return Line(pattern, of) if of else Line(pattern, {"arn": "", "account": shut}, 0, True)


def abroad(account: str) -> str:
    """The resource that stands for what an account without an export has."""
    return f"arn:aws:::{account}:{UNNAMED}"


def groups(action: str) -> Iterator[Tuple[str, str, Tuple[str, ...]]]:
    """An action for each world that a pattern of actions wants, the pattern there, and the services that have worlds of their own."""
    if not is_pattern(action):
        yield action, "", ()
        return
    service = action.partition(":")[0].lower() if ":" in action else "*"
    for kind, one in WORLDS.items():
        if kind:
            yield from ((one, it, ()) for it in overlap(action.lower(), f"{kind}:*"))
        elif is_pattern(service) or service not in WORLDS:
            yield one, action, tuple(filter(None, WORLDS))


def is_named(question: Question, arn: str) -> bool:
    return any_matches([question.resource], names_of_resource(arn))


def names_of(
    sides: Sequence[Side],
    question: Question,
    pattern: str,
    action: str,
    without: Tuple[str, ...],
    arns: Optional[Set[str]] = None,
) -> List[Names]:
    """The requests for all names that a question means, by the accounts of the principals; or those by lines of some resources."""
    found: List[Names] = []
    shut = nobody_of(sides)
    for account, of in companies(everybody(sides)).items():
        for people in of:
            own = [it._replace(world=with_people(it.world, people)) for it in sides]
            lines = lines_of(own, question, action, account, shut)
            kept = [it for it in lines if arns is None or it.is_shut or it.of["arn"] in arns]
            if any(arns is None or not it.is_shut for it in kept):
                found.append(with_lines(Names(own, kept, question, pattern, without), kept))
    return found


def with_lines(names: Names, lines: List[Line]) -> Names:
    """The names with these lines: the worlds have the resources that these match, and those that hold of what they match."""
    shut = nobody_of(names.sides)
    known = {arn: it for side in names.sides for arn, it in side.named.items()}
    meant = {arn: it for arn, it in known.items() if any(matcher(one.pattern)(arn) for one in lines)}
    for it in lines:
        if not is_plain(it.of):
            meant.setdefault(it.of["arn"], it.of)

    def own(side: Side) -> Side:
        # A world that is compared with another one has what it names, and no more.
        is_closed = len(names.sides) > 1 and side.scope.source.estate is None
        rest = {arn: {"arn": arn, "account": shut} for arn in meant if is_closed and arn not in side.named}
        resources = [rest.get(arn) or side.resource(arn, it["account"], shut) for arn, it in meant.items()]
        accounts = with_account(side.scope, side.world, [*resources, *(it.of for it in lines)])
        return side._replace(world={**side.world, "resources": resources, "accounts": accounts})

    return names._replace(lines=lines, sides=list(map(own, names.sides)))


class Here(NamedTuple):
    """What a part of a world names, and speaks of; of what other parts name nothing holds there."""

    number_of: Dict[str, int]
    elsewhere: List[str]
    is_first: bool

    def has(self, line: Line) -> bool:
        """Whether a line is asked in the part."""
        arn = line.of["arn"]
        return arn in self.number_of or (self.is_first and arn not in self.elsewhere)


def here(names: Names, part: Part) -> Here:
    number_of = {it["arn"]: n for n, it in enumerate(part.world["resources"])}
    rest = [it["arn"] for it in names.world["resources"] if it["arn"] not in number_of]
    return Here(number_of, rest, part.resource == 0)


def is_told(names: Names, here_is: Here, row: Row) -> bool:
    """Whether a part tells a row of what it names and speaks of."""
    text = row["resource"]
    if text in here_is.number_of or text in here_is.elsewhere:
        return text in here_is.number_of
    if NOT_SHOWN in (row.get("decision"), row.get("change")):
        return any(here_is.has(it) for it in names.lines if it.pattern == text)
    return here_is.has(names.line_of(text))


def texts_for(names: Names, here_is: Here) -> List[Dict[str, Any]]:
    """What is said of the texts that a part of a world does not name."""
    shut = nobody_of(names.sides)
    found: List[Dict[str, Any]] = [{"pattern": of_given(it), "account": shut} for it in here_is.elsewhere]
    for it in names.lines:
        number = here_is.number_of.get(it.of["arn"])
        account = it.of["account"] if here_is.has(it) else shut
        found.append({"pattern": it.pattern, **({"account": account} if number is None else {"like": number})})
    return found


def jobs_of(names: Names, words: List[str]) -> Iterator[Tuple[Job, Here]]:
    """What is asked of iamsim, in parts where a world is past the limits."""
    worlds = [it.world for it in names.sides]
    worlds = list(map(whole, names.bound(worlds) if names.bound else worlds))
    if names.pattern:
        worlds = [{**it, "actions": [WORLDS[""]]} for it in worlds]
    action = ["--action", names.pattern] if names.pattern else []
    for some in parts_of_all(worlds):
        here_is = here(names, some[-1])
        texts = texts_for(names, here_is)
        further = {it["account"] for it in texts if "account" in it}
        *before, after = (with_ids(part.world, further, world) for part, world in zip(some, worlds))
        yield Job(after, texts, [*words, *action], before[0] if before else None), here_is


def with_ids(part: World, ids: Set[str], of: World) -> World:
    """The part of a world with these of its accounts too."""
    known, accounts = {it["id"] for it in part["accounts"]}, {it["id"]: it for it in of["accounts"]}
    return {**part, "accounts": part["accounts"] + [accounts.get(it, {"id": it}) for it in sorted(ids - known)]}


class Found(NamedTuple):
    """What is found of the requests that are asked for, by rows of iamsim, and what could not be settled, in words; and how many rows are
    left out since no service has such requests."""

    rows: List[Row]
    opens: List[str]
    left: int = 0


def found_in(names: Names, rows: List[Row]) -> Found:
    """What the rows say of the names that are meant. A row stands for all of its kind."""
    named, found = names.named, Found([], [])
    for row in rows:
        principal, action, text = row["principal"], row["action"], row["resource"]
        request = f"{principal} {action} {text}"
        service = action.partition(":")[0].lower()
        if service in names.without:
            found.opens.extend(f"{request} stands for actions of other services too" for _ in wide_of(names, service))
        elif NOT_SHOWN in (row.get("decision"), row.get("change")):
            if not any(it.is_shut for it in names.lines if it.pattern == text):
                found.opens.append(f"{request} has too many kinds to be shown")
        elif text in named:
            found.rows.extend([row] if names.is_meant(text) else [])
        elif not names.line_of(text).is_shut:
            if names.is_own(text, names.line_of(text)):
                found.rows.append(row)
            else:
                found.opens.append(f"{request} is found, and stands for names of which some may be meant")
    return found


def wide_of(names: Names, service: str) -> List[str]:
    """The first action pattern of a policy that means a service and others, but not all."""
    patterns = (text for side in names.sides for text in patterns_of_actions(side.world))
    heads = (it.partition(":")[0].lower() for it in patterns)
    return [it for it in heads if is_pattern(it) and it.strip("*") and matcher(it)(service)][:1]


def nearest(names: Names, rows: List[Row], kind_of: Callable[[Row], object], keeps_named: bool = False) -> List[Row]:
    """Of each principal, action and answer the rows that a service is likely to have, if there are such, and maybe all of what is named;
    of texts that are of one kind by what they stand for the shortest."""
    named = names.named
    by_far: Dict[Any, Dict[int, Dict[object, Row]]] = {}
    for row in sorted(rows, key=lambda it: (it["resource"] not in named, len(it["resource"]))):
        text, action = row["resource"], row["action"]
        far = max(0 if text in named else names.line_of(text).far, int(is_mixed(action, text)))
        far = NAMED if text in named and keeps_named else far
        answer = row.get("change", row.get("decision") == "allowed")
        by_kind = by_far.setdefault((row["principal"], action, answer), {}).setdefault(far, {})
        by_kind.setdefault(text if text in named else kind_of(row), row)
    found: List[Row] = []
    for of in by_far.values():
        found += of.pop(NAMED, {}).values()
        found += of[min(of)].values() if of else ()
    return found


def answers_of(names: Names, rows: List[Row]) -> List[Answers]:
    """The answers that the rows give, in the worlds of the sides that name what they show; of the rest nothing is said."""
    of, actions = names.shown(), list(dict.fromkeys(row["action"] for row in rows))
    shown, found = [of(it) for it in dict.fromkeys(row["resource"] for row in rows)], []
    for n, (side, (word, suffix)) in enumerate(zip(names.sides, words_of(names))):
        world = {**side.world, "actions": actions, "resources": [it[n] for it in shown]}
        answers = Answers(world, cells_of(world))
        answers.number(REFUSED, lambda: REFUSED)
        own = [it for it in rows if it[word]]
        for cell, row in zip(cells_in(answers, own), own):
            it = Answer(row[word], tuple(row[f"statements{suffix}"]), tuple(row[f"lacks{suffix}"]))
            answers.numbers[cell] = answers.number(it, lambda it=it: it)
        found.append(answers)
    return found


def cells_in(answers: Answers, rows: List[Row]) -> List[int]:
    """The cells of the requests of rows."""
    places = [{text: n for n, text in enumerate(axis)} for axis in axes_of(answers.world)]
    return [answers.cell(*(of[row[name]] for of, name in zip(places, REQUEST))) for row in rows]


def words_of(names: Names) -> List[Tuple[str, str]]:
    """The column of a row with the decision of each side, and the end of those with its statements and lacks."""
    return [("decision", "")] if len(names.sides) == 1 else [("before", "_before"), ("after", "_after")]


def causes_in(names: Names) -> Callable[[Row, int], List[Tuple[Cause, Dict[str, str]]]]:
    """The statements that decide a row on a side, each with the values of its variables."""
    shown = names.shown()
    people = [{principal_text(it): it for it in side.world["principals"]} for side in names.sides]

    def of(row: Row, n: int) -> List[Tuple[Cause, Dict[str, str]]]:
        who = people[n].get(row["principal"])
        world = {**names.sides[n].world, "principals": [who], "resources": [shown(row["resource"])[n]]}
        values = values_of(world, "principals/0/identity/0")[0] if who else {}
        places = row[f"statements{words_of(names)[n][1]}"] if who else []
        return [(cause_of(world, 0, 0, it), values) for it in places]

    return of


def patterns_for(causes: List[Tuple[Cause, Dict[str, str]]], element: str, text: str) -> List[Origin]:
    """The patterns of statements that match a text, as they are told."""
    every = [(it, cause.policy, values) for cause, values in causes for it in texts_of(cause.statement, element)]
    fits = ((pattern_of(it, values) or opened(it), it, policy) for it, policy, values in every)
    own = [(it, given, policy) for it, given, policy in fits if matcher(it, element == "Action")(text)]
    # A text that variables alone make is no name that the policy gives.
    return [Origin(plain(it) if is_pattern(it) else given, policy) for it, given, policy in own]


def stands(names: Names) -> Callable[[Row], Origins]:
    """What the texts of a row stand for: patterns of the statements that allow it, or what else is meant."""
    causes, named = causes_in(names), names.named

    def of(row: Row) -> Origins:
        some = [it for it in causes(row, 0 if row.get("change") == "lost" else -1) if it[0].layer in LETS]
        texts = {"Action": (row["action"], names.pattern)}
        if row["resource"] not in named:
            texts["Resource"] = row["resource"], names.question.resource
        found = {}
        for element, (text, asked) in texts.items():
            own = patterns_for(some, element, text)
            if is_pattern(asked):
                found[text] = next((it for it in own if it.pattern == text), own[0] if own else Origin(asked, ""))
        return found

    return of


def alike(names: Names, rows: List[Row]) -> List[Dict[str, str]]:
    """Requests by the other patterns of the policies that speak of what rows show, each of a shortest text."""
    shown, found = names.shown(), {}  # type: Any, Dict[Tuple[str, str, str], None]
    people = [{principal_text(it): it for it in side.world["principals"]} for side in names.sides]
    for row in rows:
        things = shown(row["resource"])
        for n, side in enumerate(names.sides):
            who = [people[n][row["principal"]]] if row["principal"] in people[n] else []
            world = {**side.world, "accounts": [], "principals": who, "resources": [things[n]]}
            for text in shortest_in(world, row["action"], names):
                found[row["principal"], row["action"], text] = None
    return [dict(zip(REQUEST, it)) for it in found]


def shortest_in(world: World, action: str, names: Names) -> Set[str]:
    """A shortest text for each pattern of resources in a world's statements on an action, where names mean it and do not name it."""
    found: Set[Optional[str]] = set()
    for place, statement, is_new in statements(world, [action]):
        values = values_of(world, place.path)[0]
        for it in texts_of(statement, "Resource"):
            pattern = (pattern_of(it, values) or opened(it)) if is_new else of_policy(it)
            found.update(shortest(pattern, asked) for asked in patterns_of(names.question.resource))
    some = ((it, next((of for of in names.lines if matcher(of.pattern)(it)), None)) for it in found - names.named if it)
    return {it for it, of in some if of and not of.is_shut and names.is_own(it, of)}


def met_patterns(names: Names) -> Callable[[Row], Tuple[Origin, ...]]:
    """The patterns of resources in the statements that keep a row on the other side from being allowed."""
    causes = causes_in(names)
    other = {"lost": -1, "gained": 0}
    return lambda row: tuple(patterns_for(causes(row, other[row["change"]]), "Resource", row["resource"]))


def alike_in_keys(names: Names) -> List[Names]:
    """The requests in lists by principals that give the same keys of those that policies ask for, and may have the same."""
    asked = {key.lower() for side in names.sides for key, _, _ in asked_keys(side.world)}
    found: Dict[Any, List[Any]] = {}
    for it in names.people:
        given = frozenset(key.lower() for key in context_of(it))
        found.setdefault((it.get(FOREIGN), given & asked), []).append(it)
    return [names.of(it) for it in found.values()]


def naming(names: Names, rows: List[Row]) -> List[List[World]]:
    """Worlds of each side that name what rows show, those together that ask the same of the same texts."""
    shown, made = names.shown(), []
    for people, actions, some in asking_alike([it for it in rows if not is_access_point(it["resource"])]):
        own = [shown(it) for it in some]
        made.append([named_world(it.world, people, actions, [of[n] for of in own]) for n, it in enumerate(names.sides)])
    return made


def asking_alike(rows: List[Row]) -> Iterator[Tuple[List[str], Tuple[str, ...], Tuple[str, ...]]]:
    """(principals, actions, texts of resources) that have a row each, one with another, of all rows."""
    texts: Dict[Tuple[str, str], Dict[str, None]] = {}
    for it in rows:
        texts.setdefault((it["principal"], it["action"]), {})[it["resource"]] = None
    alike_texts: Dict[Tuple[str, Tuple[str, ...]], List[str]] = {}
    for (who, action), of in texts.items():
        alike_texts.setdefault((who, tuple(of)), []).append(action)
    groups_of: Dict[Tuple[Tuple[str, ...], Tuple[str, ...]], List[str]] = {}
    for (who, some), actions in alike_texts.items():
        groups_of.setdefault((tuple(actions), some), []).append(who)
    yield from ((people, actions, some) for (actions, some), people in groups_of.items())


def named_world(world: World, people: List[str], actions: Sequence[str], resources: List[Resource]) -> World:
    principals = [it for it in world["principals"] if principal_text(it) in people]
    return {**world, "principals": principals, "actions": list(actions), "resources": resources}


def ask_names(some: Iterable[Names], count: int, words: List[str]) -> Iterator[Tuple[Names, Found]]:
    """What is found of each of so many, where iamsim is asked with these words."""
    jobs: List[Tuple[Names, int, Here]] = []

    def made() -> Iterator[Job]:
        for it in some:
            own = list(jobs_of(it, words))
            jobs.extend((it, len(own) - n, here_is) for n, (_, here_is) in enumerate(own))
            yield from (job for job, _ in own)

    found = Found([], [])
    for n, rows in enumerate(ask_every(made(), count)):
        of, left, here_is = jobs[n]
        more = found_in(of, [it for it in rows if is_told(of, here_is, it)])
        found = Found(found.rows + more.rows, found.opens + more.opens)
        if left == 1:
            yield of, found
            found = Found([], [])


def unresolved(world: World, asked: str) -> List[str]:
    """The variables in resources that nothing gives, where with one of them what is asked for may be meant."""
    found: Dict[str, None] = {}
    for of in spoken(world, world["actions"]):
        for text in texts_of(of.statement, "Resource", "NotResource") if of.is_new else ():
            lacking = [it for it in variables_of(text) if of.is_open(it)]
            known = {it.lower(): "" for it in variables_of(text) if it not in lacking}
            if lacking and may_come(of.place, text, known, asked):
                found[f"{', '.join(lacking)}: nothing gives it, and {of.place.policy.name} is for {text}"] = None
    return list(found)


def is_met(scope: Scope, world: World, question: Question, chosen: List[str]) -> bool:
    """Whether a request that some service has is of what is named, or of a pattern of a policy; else a question may have a slip."""
    further, seen = lacked(scope.source, chosen), set()
    for it in meant_texts(world, question, chosen):
        one = {"actions": chosen, "resources": [{"arn": it}]}
        if it not in seen and any(scope.source.references.pairs(one, further)):
            return True
        seen.add(it)
    return False


def meant_texts(world: World, question: Question, chosen: List[str]) -> Iterator[str]:
    """What is named and a question means, and a text for each pattern of policies that meets it; of one for anything `*`."""
    yield from (it["arn"] for it in world["resources"] if is_named(question, it["arn"]))
    # Roles that nothing names are not there to be assumed.
    is_absent = "role/" in question.resource and all(it.lower().startswith("sts:") for it in chosen)
    is_open = is_pattern(question.resource) and not is_absent
    for place, statement, is_new in statements(world, chosen) if is_open else ():
        values = values_of(world, place.path)[0]
        for text in texts_of(statement, "Resource", "NotResource"):
            pattern = (pattern_of(text, values) or opened(text)) if is_new else of_policy(text)
            shared = (common(pattern, it) for it in patterns_of(question.resource))
            yield from (it if it.startswith("arn:") else "*" for it in shared if it)


def typed_lines(scope: Scope, names: Names, service: str) -> List[Line]:
    """The lines for the types of resources that a service has, in place of those for what it is likely to have; behind these the
    lines for what may be of any service."""
    reference, found = scope.source.references.services[service], []
    if not any(is_pattern(it.pattern) for it in names.lines):
        return names.lines
    far = [it for it in names.lines if it.far or it.is_shut or not is_pattern(it.pattern)]
    known = (principal_arn(it) for it in names.people if not is_stranger(it))
    homes = {(it.split(":")[1], account_of(it)) for it in known}
    own = [it for it in names.lines if it not in far and not is_plain(it.of)]
    for partition, account in sorted(homes or {("aws", "")}):
        formats = reference.formats(partition, account)
        of = unnamed(names.sides, service, account)
        rest = [Line(it, of) for it in patterns_of(names.question.resource) if account]
        for line in [*own, *rest]:
            for form, types in formats:
                found += [line._replace(pattern=it, types=frozenset(types)) for it in overlap(line.pattern, form)]
    return [*found, *far]


def parted(scope: Scope, names: Names, found: Found) -> Tuple[Found, List[Names]]:
    """What is found, without what is of a service that has a file in the service reference; and the requests by which that is asked
    again: all actions of the service that are meant, and the texts of each of its types by themselves."""
    references, again = scope.source.references, []
    rest = [it for it in found.rows if references.has_file(it["action"])]
    known = questions.actions(scope, names.pattern) if rest and names.pattern else names.world["actions"]
    opens = list(found.opens)
    for service in dict.fromkeys(it["action"].partition(":")[0].lower() for it in rest):
        own = [it for it in rest if it["action"].lower().startswith(f"{service}:")]
        who, actions = {it["principal"] for it in own}, [it for it in known if it.lower().startswith(f"{service}:")]
        asked = names.of([it for it in names.people if principal_text(it) in who])
        asked = asked._replace(pattern="").mapped(lambda it: {**it, "actions": actions})
        again += [with_lines(asked, typed_lines(scope, names, service))] if actions else []
        if wide_of(names, service):
            opens.append(f"{service}: stands for actions of services too that have no file in the service reference")
    return Found([it for it in found.rows if it not in rest], opens), again


def fitting(scope: Scope, names: Names, found: Found) -> Found:
    """The requests that some service has, by its actions and types; of some kinds it cannot be told."""
    references, kept = scope.source.references, Found([], found.opens)
    further = set(lacked(scope.source, names.world["actions"]))
    named = names.named
    for row in found.rows:
        action, text = row["action"], row["resource"]
        service, _, name = action.lower().partition(":")
        if action in further or references.keeps(action, text):
            kept.rows.append(row)
        elif text not in named and references.services[service].actions[name] & names.line_of(text).types:
            request = f"{row['principal']} {action} {text}"
            kept.opens.append(f"{request} is found, and may stand for a resource that {service} has")
        else:
            kept = kept._replace(left=kept.left + 1)
    return kept


def settled(scope: Scope, some: Iterable[Names], count: int, words: List[str]) -> List[List[Tuple[Names, Found]]]:
    """What is found of each of so many; what some service may not have is asked again, by its actions and types."""
    every: List[List[Tuple[Names, Found]]] = []
    again: List[Tuple[int, Names]] = []
    for n, (names, found) in enumerate(ask_names(some, count, words)):
        first, more = parted(scope, names, found)
        again += [(n, it) for it in more]
        every.append([(names, first)])
    for (n, _), (names, found) in zip(again, ask_names((it for _, it in again), len(again), words)):
        every[n].append((names, fitting(scope, names, found)))
    return every
