"""What changes between two sources: requests that are lost, and those that are gained."""

from typing import Any, Dict, Iterable, Iterator, List, NamedTuple, Optional, Sequence, Set, Tuple

from .arns import account_of, is_access_point, name_of, owner_of, principal_text
from .asking import ask_all, ask_allowed, ask_changes
from .bounds import at_most
from .any_key import BY_POINT as KEYED_BY_POINT
from .any_key import request, texts_in, with_keys
from .checking import NOTHING
from .covering import tell_lacked
from .differences import ANY, Difference, differing
from .documents import THROUGH, Place, Policy, World, places, statements_of
from .every import UNNAMED, WORLDS
from .exports import ACCOUNT
from .names import (
    REQUEST, Found, Line, Names, Row, Side, abroad, alike, answers_of, cells_in, everybody, groups, met_patterns,
    names_of, nearest, nobody_of, settled, side_of, stands, unresolved, with_lines, with_people,
)
from .patterns import is_pattern, matcher, of_given, plain
from .points import tell_points, through
from .questions import ACTION, ARN, Question, Scope, account_for, lacked, with_account
from .references import References
from .reports import Answers, keys_of
from .roles import with_linked, with_sessions
from .sources import ASSUME, Source
from .speaking import Origins, beside, shares, texts_of
from .strangers import ASSUMED, everyone_outside, with_strangers

# Patterns of actions of one service that are asked by themselves.
FEW = 8
BY_POINT = "it changes by the access point, and what its bucket says is not asked of all names"
TO_ALL = {"Effect": "Allow", "Principal": "*", "Action": "*", "Resource": "*"}
ANYBODY_MAY = Policy(ASSUMED, {"Version": "2012-10-17", "Statement": TO_ALL})
Principal = Dict[str, Any]


class Changes(NamedTuple):
    """The answers before and after, the cells of `before` that are allowed no longer, and those of `after` that were not; the key that
    was given besides, in words; and what the texts of a request stand for, by whether it is lost, and its cell."""

    before: Answers
    after: Answers
    lost: List[int]
    gained: List[int]
    given: str = ""
    stand: Dict[Tuple[bool, int], Origins] = {}


class Comparison(NamedTuple):
    """What changes, as it is and with keys that nothing gives; how many principals were asked with all names, or how many requests,
    and how many that change are left out since no service has them; what could not be settled, in words; and the worlds before and
    after whose requests were compared."""

    changes: List[Changes]
    people: int
    requests: int
    left: int
    opens: List[str]
    worlds: List[List[World]] = []

    @property
    def scope(self) -> str:
        """What was compared, in words."""
        return f"{self.people} principals and all names" if self.people else f"{self.requests} requests"


# --- what is in question ----------------------------------------------------------------------------------------------


class Chosen(NamedTuple):
    """The actions, and the patterns of actions, that are asked."""

    actions: List[str]
    patterns: List[str]


def chosen(spoken: Iterable[str], asked: List[str], given: Iterable[str]) -> Chosen:
    """What is asked of the patterns of actions in question, as far as patterns choose it; and those of a list that they mean."""
    named: Dict[str, str] = {}
    wide: Dict[str, None] = {}
    for one in asked:
        if not is_pattern(one):
            if any(shares(it, plain(one)) for it in spoken):
                named.setdefault(plain(one).lower(), plain(one))
            continue
        for it in sorted(spoken):
            if not is_pattern(it) and ACTION.fullmatch(it):
                named.update({it.lower(): it} if matcher(one, True)(it) else {})
            elif shares(it, one):
                wide[it if one == ANY else one] = None
        some = [it for it in given if matcher(one, True)(it)]
        named.update((it.lower(), it) for it in some if any(shares(of, it) for of in spoken))
    return Chosen(list(named.values()), few(list(wide)))


def few(patterns: List[str]) -> List[str]:
    """The patterns without those that another one covers; of a service that has many one for all of it."""
    found: Dict[str, List[str]] = {}
    for it in patterns:
        found.setdefault(it.partition(":")[0].lower(), []).append(it)
    own = [of if len(of) <= FEW or is_pattern(service) else [f"{service}:*"] for service, of in found.items()]
    some = list({it.lower(): it for of in own for it in of}.values())
    return [it for it in some if not any(is_covered(it, one) for one in some if one != it)]


def is_covered(pattern: str, by: str) -> bool:
    """Whether a pattern is one with something behind a beginning that another one leaves open."""
    begin = by[:-1].lower()
    return by.endswith("*") and not is_pattern(begin) and pattern.lower().startswith(begin)


# --- all names --------------------------------------------------------------------------------------------------------


def kinds_of_pairs(scopes: List[Scope], every: List[World], resource: str) -> Iterator[Tuple[str, List[Side]]]:
    """The sides for actions of iam, of sts and of other services."""
    sources = [it.source for it in scopes]
    for kind, action in WORLDS.items():
        worlds = [it.worlds([action])[0] for it in sources]
        sides = [side_of(*it) for it in zip(scopes, prepared(sources, worlds, every))]
        is_one = not is_pattern(resource) and ARN.fullmatch(plain(resource))
        yield kind, with_abroad(with_named(sides, worlds[0], plain(resource)) if is_one else sides)


def with_abroad(sides: List[Side]) -> List[Side]:
    """The sides, where accounts without an export that policies name are taken to let in whoever is named."""
    every = (one for side in sides for it in places(side.world) for one in statements_of(it.policy.document))
    named = {account_of(it) for one in every for it in texts_of(one, "Resource", "NotResource")}
    known = {it for side in sides for it in side.scope.source.accounts()}
    some = sorted(it for it in named - known if ACCOUNT.fullmatch(it))
    owners = {abroad(it): {"arn": abroad(it), "account": it, "policy": ANYBODY_MAY} for it in some}
    return [it._replace(owners={**it.owners, **owners}) for it in sides]


def with_named(sides: List[Side], world: World, arn: str) -> List[Side]:
    """The sides where an ARN that none of them names is named too."""
    if any(arn in it.named for it in sides):
        return sides
    account, shut = account_for(sides[0].scope, world, arn), nobody_of(sides)
    is_there = [owner_of(arn) in it.owners for it in sides]
    # By an access point that comes or goes nothing is allowed where it is not.
    own = [it.resource(arn, account, shut if any(is_there) else "") for it in sides]
    return [it._replace(named={**it.named, arn: one}) for it, one in zip(sides, own)]


def prepared(sources: List[Source], pair: Sequence[World], every: List[World]) -> List[World]:
    """Both worlds with whom their policies name besides, and with who is outside. All policies on resources tell these apart."""
    linked = [with_linked(source, world, [*pair, *every]) for source, world in zip(sources, pair)]
    linked = with_sessions(linked, every)
    some = everyone_outside(sources[1], linked, speaking=every)
    return [with_strangers(source, world, some) for source, world in zip(sources, linked)]


def of_kind(sides: List[Side], kind: str, asked: List[str], resource: str) -> List[Names]:
    """What is asked in the worlds for actions of iam, of sts or of other services."""
    difference, found = Difference(sides), []
    given = [it for side in sides for it in side.scope.source.actions]
    for spoken, people in difference.people():
        some = [it._replace(world=with_people(it.world, people)) for it in sides]
        found += [one for it in jobs(chosen(spoken, asked, given), kind) for one in names_for(some, resource, *it)]
    for spoken, arns in difference.resources():
        for it in jobs(chosen(spoken, asked, given), kind):
            found += names_for(sides, resource, *it, arns)
    return found


def is_chosen(sides: List[Side], asked: List[str]) -> bool:
    """Whether patterns of actions choose any that is given, or that is in question on other resources."""
    given = [it for side in sides for it in side.scope.source.actions]
    given += [plain(it) for it in asked if not is_pattern(it)]
    spoken = {it for of, _ in (*Difference(sides).people(), *Difference(sides).resources()) for it in of}
    return any(matcher(one, True)(it) for one in asked for it in given) or any(chosen(spoken, asked, []))


def jobs(some: Chosen, kind: str) -> Iterator[Tuple[List[str], str, Tuple[str, ...]]]:
    """What is asked at once in the worlds of a kind: actions of one service, or a pattern; and the services that others are for."""
    by_service: Dict[str, List[str]] = {}
    for it in some.actions:
        by_service.setdefault(it.partition(":")[0].lower(), []).append(it)
    yield from ((of, "", ()) for service, of in by_service.items() if (service if service in WORLDS else "") == kind)
    for it in some.patterns:
        yield from (([pattern], pattern, without) for action, pattern, without in groups(it) if action == WORLDS[kind])


def names_for(
    sides: List[Side],
    resource: str,
    some: List[str],
    pattern: str,
    without: Tuple[str, ...],
    arns: Optional[Set[str]] = None,
) -> List[Names]:
    """The requests for some actions, or for a pattern of them, by lines of all resources or of some."""
    own = [it._replace(world={**it.world, "actions": some}) for it in sides]
    return names_of(own, Question("*", pattern or some[0], resource), pattern, some[0], without, arns)


def compare(before: Source, after: Source, asked: List[str], resource: str, account: Optional[str]) -> Comparison:
    """What changes, as it is and with keys that nothing gives: of exports for all names, of worlds for what they name."""
    scopes = [Scope(it, account=account) for it in (before, after)]
    every = [it.world([ASSUME]) for it in (before, after)]
    of_names = before.estate is not None and after.estate is not None
    pairs = list(kinds_of_pairs(scopes, every, resource) if of_names else named_pairs(scopes, every, asked, resource))
    own = (of_kind(sides, kind, asked, resource) if of_names else of_worlds(sides) for kind, sides in pairs)
    names = [one for of in own for one in of]
    is_had = is_had_by_services(after, asked, resource)
    names = names if is_had else []
    known = {it for one in names for it in one.world["actions"] if not is_pattern(it)}
    tell_lacked(sorted(it for it in known if not after.references.knows(it)))
    for it in names:
        tell_points(it.world, True)
    opens = [line for it in names for line in unsettled(it)]
    first = with_buckets(scopes[1], [one for of in settled(scopes[1], names, len(names), []) for one in of])
    made = [changes_of(one, found, "") for one, found in first]
    keyed, more = with_keys(scopes[1], names, {it for one in made for it in one.told})
    more += keyed_in_buckets(scopes[1], names)
    turned = [changes_of(*it) for it in keyed]
    told = [it for it in [*made, *turned] if not it.changes.given or it.changes.lost or it.changes.gained]
    opens = list(dict.fromkeys([*opens, *more, *(line for it in told for line in it.opens)]))
    is_asked = of_names and is_had and (bool(names) or any(is_chosen(sides, asked) for _, sides in pairs))
    people = {principal_text(it) for _, sides in pairs for it in everybody(sides)} if is_asked else set()
    worlds = [[it.world for it in sides] for _, sides in pairs] if not of_names else []
    requests = sum(requests_of(after.references, after_world) for _, after_world in worlds)
    changes = [it.changes for it in told]
    return Comparison(changes, len(people), requests, sum(found.left for _, found in first), opens, worlds)


def is_had_by_services(source: Source, asked: List[str], resource: str) -> bool:
    """Whether some service has a request that is chosen, where no pattern chooses it."""
    world: World = {"actions": list(map(plain, asked)), "resources": [{"arn": plain(resource)}]}
    is_open = any(map(is_pattern, [*asked, resource]))
    return is_open or any(source.references.pairs(world, lacked(source, world["actions"])))


def requests_of(references: References, world: World) -> int:
    return sum(references.pairs(world, world["actions"])) * len(world["principals"])


def named_pairs(
    scopes: List[Scope], every: List[World], asked: List[str], resource: str
) -> Iterator[Tuple[str, List[Side]]]:
    """The sides with what two worlds name of what patterns choose."""
    sources = [it.source for it in scopes]
    listed = [it for source in sources for it in [*(source.given or {}).get("actions", []), *source.actions]]
    named = [plain(it) for it in asked if not is_pattern(it)]
    some = {it.lower(): it for it in [*named, *listed] if any(matcher(one, True)(it) for one in asked)}
    for worlds in zip(*(it.worlds(list(some.values())) for it in sources)):
        pair = [in_question(scope, world, worlds, resource) for scope, world in zip(scopes, worlds)]
        yield "", [side_of(*it) for it in zip(scopes, prepared(sources, pair, every))]


def in_question(scope: Scope, world: World, worlds: Sequence[World], resource: str) -> World:
    """The world with the resources that a pattern chooses; an ARN that no world names is asked for all the same."""
    arn, resources = plain(resource), [it for it in world["resources"] if matcher(resource)(it["arn"])]
    is_one = ARN.fullmatch(arn) and not is_pattern(resource)
    if is_one and not any(it["arn"] == arn for of in worlds for it in of["resources"]):
        resources = [beside(world, arn, account_for(scope, world, arn))]
    return {**world, "resources": resources, "accounts": with_account(scope, world, resources)}


def of_worlds(sides: List[Side]) -> List[Names]:
    """The requests of what two worlds name."""
    every = {arn: it for side in sides for arn, it in side.named.items()}
    lines = [Line(of_given(arn), it) for arn, it in every.items()]
    some = Names(sides, lines, Question("*", "*", "*"), "", ())
    return [with_lines(some, lines)] if lines and some.people and some.world["actions"] else []


class Told(NamedTuple):
    """Changes, with the texts of what is lost and gained, and what could not be settled, in words."""

    changes: Changes
    told: Set[Tuple[str, ...]]
    opens: List[str]


def changes_of(names: Names, found: Found, given: str) -> Told:
    """The changes that rows tell: of all that stand for the same patterns of policies the shortest."""
    rows, opens = by_points(names, found)
    rows = rows + (further(names, rows) if not given else [])
    of, patterns = stands(names), met_patterns(names)
    origins = {id(it): of(it) for it in rows}

    def kind_of(row: Row) -> Tuple[object, ...]:
        text = row["resource"]
        is_bucket = text != ANY and owner_of(names.line_of(text).of["arn"]) == text
        return origins[id(row)].get(text), patterns(row), is_bucket

    told = set(map(id, nearest(names, rows, kind_of, True)))
    some = [it for it in rows if id(it) in told]
    first, second = answers_of(names, some)
    made = Changes(first, second, [], [], given, {})
    for is_lost, answers, cells in ((True, first, made.lost), (False, second, made.gained)):
        own = [it for it in some if (it["change"] == "lost") == is_lost]
        cells += cells_in(answers, own)
        made.stand.update(((is_lost, cell), origins[id(it)]) for cell, it in zip(cells, own))
    return Told(made, {texts_in(it) for it in rows}, [*found.opens, *opens])


def further(names: Names, rows: List[Row]) -> List[Row]:
    """What changes by the other patterns of the statements that allow: names of one kind are shown by one of them alone."""
    asked = alike(names, rows)
    if not asked:
        return []
    shown, wanted = names.shown(), {tuple(it.values()) for it in asked}
    known = {tuple(it[name] for name in REQUEST) for it in rows}
    texts = list(dict.fromkeys(it["resource"] for it in asked))
    pair = []
    for n, side in enumerate(names.sides):
        actions = list(dict.fromkeys(it["action"] for it in asked))
        own: World = {"actions": actions, "resources": [shown(it)[n] for it in texts]}
        people = [it for it in side.world["principals"] if principal_text(it) in {one["principal"] for one in asked}]
        pair.append({**side.world, **own, "principals": people})
    [found] = ask_changes([(pair[0], pair[1])])
    return [it for it in found if tuple(it[name] for name in REQUEST) in wanted - known]


def in_bucket_of(names: Names) -> Iterator[Tuple[Names, Dict[str, str]]]:
    """What the requests by each access point are in its bucket; and the points' own texts of those there that are named."""
    points: Dict[str, Dict[str, List[Any]]] = {}
    for some in zip(*(side.world["resources"] for side in names.sides)):
        if any(THROUGH in it for it in some):
            points.setdefault(owner_of(some[0]["arn"]), {})[some[0]["arn"]] = list(some)
    for of in points.values():
        inside = [next(it[THROUGH]["arn"] for it in some if THROUGH in it) for some in of.values()]
        shut = nobody_of(names.sides)
        sides = []
        for n, side in enumerate(names.sides):
            lacking = ({"arn": arn, "account": shut} for arn in inside)
            own = [through(it[n]) if THROUGH in it[n] else one for it, one in zip(of.values(), lacking)]
            accounts = with_account(side.scope, side.world, own)
            sides.append(side._replace(world={**side.world, "resources": own, "accounts": accounts}))
        forms = [arn if not arn.endswith(UNNAMED) else f"{of_given(owner_of(arn))}*" for arn in inside]
        lines = [Line(it, {"arn": arn, "account": shut}) for it, arn in zip(forms, inside)]
        question = names.question._replace(resource=f"{of_given(owner_of(inside[0]))}*")
        yield names._replace(sides=sides, lines=lines, question=question), dict(zip(inside, of))


def with_buckets(scope: Scope, some: List[Tuple[Names, Found]]) -> List[Tuple[Names, Found]]:
    """What is found, with the requests by access points that change in their buckets."""
    every = [(n, *it) for n, (names, _) in enumerate(some) for it in in_bucket_of(names)]
    made = list(some)
    for (n, _, named), of in zip(every, settled(scope, [it for _, it, _ in every], len(every), [])):
        names, found = made[n]
        for row in (row for _, it in of for row in it.rows):
            text = by_point(row["resource"], named)
            if names.is_meant(text):
                found.rows.append({**row, "resource": text})
            else:
                found.opens.append(f"{' '.join(row[name] for name in REQUEST)}: {BY_POINT}")
        found.opens.extend(line for _, it in of for line in it.opens)
    return made


def by_point(text: str, named: Dict[str, str]) -> str:
    """The text by an access point of one in its bucket, of which some are named."""
    point, rest = owner_of(next(iter(named.values()))), text[len(owner_of(text)) :]
    return named.get(text, f"{point}/object{rest}" if rest else point)


def keyed_in_buckets(scope: Scope, some: List[Names]) -> List[str]:
    """The requests by access points of which keys that nothing gives may change what their buckets say, in words."""
    lines: List[str] = []
    for names, inside, named in ((it, *of) for it in some for of in in_bucket_of(it)):
        found, opens = with_keys(scope, [inside], set())
        rows = [{**it, "resource": by_point(it["resource"], named)} for _, of, _ in found for it in of.rows]
        rows = [it for it in rows if names.is_meant(it["resource"])]
        most = ask_allowed(list(map(at_most, worlds_by_points(names, rows)))) if rows else []
        allowed = {it.texts(cell) for it in most for cell in it.allowed()}
        lines += [*opens, *(f"{' '.join(request(it))}: {KEYED_BY_POINT}" for it in rows if request(it) in allowed)]
    return lines


def worlds_by_points(names: Names, rows: List[Row]) -> List[World]:
    """The worlds of both sides with the resources of rows by access points, each with what it is in its bucket."""
    arns = list(dict.fromkeys(it["resource"] for it in rows))
    own = {"actions": list(dict.fromkeys(it["action"] for it in rows))}
    worlds, shut = [], nobody_of(names.sides)
    for side in names.sides:
        resources = [side.resource(it, account_of(it), shut) for it in arns]
        accounts = with_account(side.scope, side.world, resources)
        worlds.append({**side.world, **own, "resources": resources, "accounts": accounts})
    return worlds


def by_points(names: Names, found: Found) -> Tuple[List[Row], List[str]]:
    """The rows, those on access points as they are with what their buckets say; and those of which that is not known."""
    rest = [it for it in found.rows if not is_access_point(it["resource"])]
    some = [it for it in found.rows if is_access_point(it["resource"])]
    if not some:
        return rest, []
    first, second = ask_all(worlds_by_points(names, some))
    both = compared(first, second)
    sides = (("lost", both.before, both.lost), ("gained", both.after, both.gained))
    told = {(change, *answers.texts(cell)): (answers, cell) for change, answers, cells in sides for cell in cells}
    asked = dict.fromkeys(texts_in(it)[1:] for it in some)
    opens = [f"{' '.join(it)}: {BY_POINT}" for it in asked if not {("lost", *it), ("gained", *it)} & set(told)]
    return rest + [row_of(it, both) for it in told if it[1:] in asked], opens


def row_of(texts: Tuple[str, ...], both: Changes) -> Row:
    """The row of a request that changes, by the answers before and after."""
    row: Row = dict(zip(("change", *REQUEST), texts))
    for word, answers in (("before", both.before), ("after", both.after)):
        is_there = texts[1] in map(principal_text, answers.world["principals"])
        answer = answers.at(cells_in(answers, [row])[0]) if is_there else None
        row.update({word: answer and answer.decision, f"statements_{word}": list(answer.statements if answer else ())})
        row[f"lacks_{word}"] = list(answer.lacks if answer else ())
    return row


def unsettled(names: Names) -> List[str]:
    """The variables in resources that nothing gives, on which it hangs what changes; where a limit or a tag changes, what else allows
    hangs on them too."""
    worlds = [it.world for it in names.sides]
    changed = differing(worlds[0], worlds[1])
    own = [it for one in changed for it in places(one) if is_there(it)]
    is_wide = not own or any(map(is_limit, own))
    asked = names.question.resource
    some = worlds if is_wide else changed
    return [line for it in some for line in unresolved(it, asked)]


def is_there(it: Place) -> bool:
    return it.policy is not NOTHING


def is_limit(it: Place) -> bool:
    """Whether a document may keep from somebody what others allow."""
    is_deny = any(isinstance(one, dict) and one.get("Effect") == "Deny" for one in statements_of(it.policy.document))
    return it.path.split("/")[2] not in ("identity", "policy") or is_deny


# --- the matrix before and after --------------------------------------------------------------------------------------


def compared(first: Answers, second: Answers, given: str = "") -> Changes:
    """The answers before and after, request by request."""

    def only(one: Answers, other: Answers) -> List[int]:
        numbers = [{key: n for n, key in enumerate(axis)} for axis in keys_of(other.world)]
        axes = keys_of(one.world)
        found = []
        for cell in one.allowed():
            there = [numbers[axis].get(axes[axis][n]) for axis, n in enumerate(one.place(cell))]
            place = [n for n in there if n is not None]
            if len(place) < 3 or other.at(other.cell(*place)).decision != "allowed":
                found.append(cell)
        return found

    return Changes(first, second, only(first, second), only(second, first), given, {})


def same_cell(changes: Changes, cell: int, is_before: bool) -> Any:
    """The cell of the other world for the same request; None where it has none."""
    one, other = (changes.before, changes.after) if is_before else (changes.after, changes.before)
    axes, others = keys_of(one.world), keys_of(other.world)
    try:
        p, a, r = (others[axis].index(axes[axis][n]) for axis, n in enumerate(one.place(cell)))
    except ValueError:
        return None
    return other.cell(p, a, r)


def paged(found: Comparison) -> List[Changes]:
    """The answers to all requests of what changes, by worlds of one kind of actions."""
    several: Dict[str, List[Changes]] = {}
    for it in found.changes:
        for action in it.after.world["actions"]:
            service = action.partition(":")[0].lower()
            several.setdefault(service if service in WORLDS else "", []).append(it)
    made = [[widest([it.before.world for it in of]), widest([it.after.world for it in of])] for of in several.values()]
    answers = ask_all([it for pair in found.worlds or made for it in pair])
    return [compared(*of) for of in zip(answers[::2], answers[1::2])]


def widest(worlds: List[World]) -> World:
    """One world with all that several have."""
    made = dict(worlds[0])
    for axis in ("accounts", "principals", "resources"):
        made[axis] = list({name_of(axis, it): it for world in reversed(worlds) for it in world[axis]}.values())
    return {**made, "actions": list(dict.fromkeys(it for world in worlds for it in world["actions"]))}
