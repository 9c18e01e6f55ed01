"""What must never be allowed: requests that are allowed all the same, as they are or with keys that nothing gives."""

import functools
from typing import Any, Callable, Iterator, List, NamedTuple, Optional, Sequence, Set, Tuple

from .arns import is_access_point, principal_text
from .asking import ask_all
from .bounds import MOST as PROBES
from .bounds import TOO_MANY, at_most, hanging_people, hangs, probes_of, told_apart
from .chains import Way
from .covering import is_open, unasked
from .documents import World
from .examples import Example, ask_any_key
from .faults import Fault
from .names import (
    REQUEST, Found, Names, Row, alike_in_keys, answers_of, cells_in, groups, is_met, is_named, names_of, naming,
    nearest, owners_lines, patterns_of, settled, side_of, stands, unresolved,
)
from .outsiders import Outsider
from .patterns import any_matches, common, is_pattern
from .questions import Asked, Question, Scope, actions, asked_in, lacked, principals, worlds
from .references import is_mixed
from .reports import Answers
from .roles import with_named
from .sources import ASSUME
from .speaking import Origins, patterns_of_actions
from .strangers import everyone_outside, with_strangers


ALLOWED = ["--decision", "allowed"]
BY_POINT = "is allowed by the access point: what its bucket says is not asked of all names"


class Break(NamedTuple):
    """A request that breaks a rule: its answer as it is, or with keys that nothing gives; what its texts stand for; its
    answer before a draft, where it was allowed; and by which roles somebody comes to it."""

    answers: Answers
    cell: int
    turn: Optional[Example]
    stand: Callable[[], Origins]
    before: Optional[Tuple[Answers, int]] = None
    way: Optional[Way] = None

    def is_mixed(self) -> bool:
        """Whether hardly any service has such a request: it is told last."""
        row = self.answers.row(self.cell)
        return is_mixed(row.action, row.resource)


class Never(NamedTuple):
    """What a question asks: worlds whose requests it asks for, or, for all names, those of `names`; whether something that is
    named or spoken of is meant; and what was not asked, in words."""

    question: Question
    asked: List[Asked]
    names: List[Names]
    is_met: bool
    opens: List[str]


class Finding(NamedTuple):
    """The requests that are allowed, and why the answer may not be all, in words."""

    broken: List[Break]
    opens: List[str]


def spoken(scope: Scope, asked: str) -> List[str]:
    """The actions that are named and that a pattern means, and one for each pattern of a policy that meets it."""
    patterns = filter(is_pattern, patterns_of_actions(scope.source.world([ASSUME])) if is_pattern(asked) else ())
    shared = (common(one, asked, True) for one in patterns)
    return actions(scope, asked) + [it for it in shared if it and not scope.source.references.has_file(it)]


def never(scope: Scope, question: Question) -> Never:
    """What must never be: nobody may, whoever is outside either."""
    return asked_by(scope._replace(outside=True), question)


def asked_by(scope: Scope, question: Question) -> Never:
    """What is asked: one request of each principal where no pattern is given, else each name that the patterns mean."""
    if not is_pattern(question.action) and not is_pattern(question.resource):
        every = [asked_in(scope, it, question) for it in scope.source.worlds(actions(scope, question.action))]
        asked = [it for it in every if it.world["principals"] and it.world["resources"]]
        people = [line for it in every for line in people_of(scope, it.world, it.world["resources"], question)]
        return Never(question, asked, [], bool(asked or people), people)
    chosen = spoken(scope, question.action)
    found = Never(question, [], [], False, [])
    is_lacked = not chosen and scope.source.references.has_file(question.action)
    for action, pattern, without in groups(question.action) if not is_lacked else ():
        try:
            world = scope.source.worlds([action])[0]
        except Fault as why:
            if not pattern:
                raise
            found.opens.append(f"{pattern} was not asked: {why}")
            continue
        asked_for = asked_of(scope, {**world, "actions": [pattern or action]}, question)
        own = asked_for.world
        if not own["principals"]:
            named = [it for it in own["resources"] if is_named(question, it["arn"])]
            people = people_of(scope, own, named + owned_by(scope, own, question), question)
            found = found._replace(is_met=found.is_met or bool(people), opens=found.opens + people)
            continue
        names = names_of([side_of(scope, own)], question, pattern, pattern or action, without)
        if names:
            met = found.is_met or is_met(scope, {**world, "resources": own["resources"]}, question, chosen)
            meant = {id(it.of): it.of for one in names for it in one.lines if not it.is_shut}
            opens = found.opens + people_of(scope, own, list(meant.values()), question)
            found = Never(question, [*found.asked, asked_for], found.names + names, met, opens)
    return found._replace(opens=list(dict.fromkeys(found.opens)))


def asked_of(scope: Scope, world: World, question: Question) -> Asked:
    """The principals that a question means, and who is outside and let in by a policy of what it means."""
    asked = asked_in(scope._replace(outside=False), world, question)
    meant = asked.world["resources"] + owned_by(scope, world, question)
    spoken_of = with_named(scope.source, {**world, "resources": meant})
    some = everyone_outside(scope.source, [spoken_of], question.principal) if scope.outside else []
    resources = world["resources"] if is_pattern(question.resource) else asked.world["resources"]
    own = {**asked.world, "principals": principals(spoken_of["principals"], question), "resources": resources}
    return asked._replace(world=with_strangers(scope.source, own, principals(some, question)))


def owned_by(scope: Scope, world: World, question: Question) -> List[Any]:
    """What a question means of the objects of buckets and access points, that have their policies."""
    lines = owners_lines([side_of(scope, world)], patterns_of(question.resource), "")
    return [it.of for it in lines if not it.is_shut]


def people_of(scope: Scope, world: World, resources: List[Any], question: Question) -> List[str]:
    """For whom nobody is asked, though policies let them in, where a question means everybody, or who is of no account by name."""
    meant = [{**world, "resources": resources}] if scope.outside else []

    def means(who: Outsider) -> bool:
        return any_matches([question.principal], who.names) and not any_matches(question.exceptions, who.names)

    told = unasked(scope.source, meant, means=means)
    rest = unasked(scope.source, meant, means=lambda _: False) if question.principal.strip("*") else {}
    return [it for it in told if is_open(it) and it not in rest]


def findings(scope: Scope, some: Sequence[Never], as_given: bool) -> List[Finding]:
    """What is found of each, all asked side by side."""
    named = [it for of in some for it in of.names]
    every = settled(scope, named, len(named), ALLOWED)
    given = dict(zip(map(id, named), map(of_names, every)))
    flat = [it for of in some for it in of.asked if not of.names]
    answers = dict(zip(map(id, flat), ask_all([it.world for it in flat])))
    found = []
    for of in some:
        own = Finding([], list(of.opens))
        for it in of.names:
            own = joined(own, given[id(it)])
        for one in of.asked if not of.names else ():
            flags = answers[id(one)].flags()
            cells = [cell for cell in cells_of(scope, answers[id(one)]) if flags[cell]]
            own = joined(own, Finding([Break(answers[id(one)], it, None, dict) for it in cells], []))
        found.append(own)
    return found if as_given else with_keys(scope, some, found)


def joined(one: Finding, other: Finding) -> Finding:
    return Finding(one.broken + other.broken, list(dict.fromkeys(one.opens + other.opens)))


def of_names(some: List[Tuple[Names, Found]]) -> Finding:
    """The requests that are found to be allowed: of each principal and action those that a service is likely to have, if there are
    such; of texts of which the same holds the shortest."""
    made = Finding([], [])
    for names, found in some:
        points = [it for it in found.rows if is_access_point(it["resource"])]
        opens = [f"{it['principal']} {it['action']} {it['resource']} {BY_POINT}" for it in points]
        rest = [it for it in found.rows if not is_access_point(it["resource"])]
        rows = nearest(names, rest, functools.partial(kind_of_row, names))
        [answers], of = answers_of(names, rows), stands(names)
        broken = [
            Break(answers, cell, row.get("example"), functools.partial(of, row))
            for cell, row in zip(cells_in(answers, rows), rows)
        ]
        made = joined(made, Finding(broken, found.opens + opens))
    return made


def kind_of_row(names: Names, row: Row) -> str:
    """What holds of a row's text, by the resource that has it."""
    text = row["resource"]
    return str(text if text == "*" else names.line_of(text).of["arn"])


# --- keys that nothing gives ------------------------------------------------------------------------------------------


def with_keys(scope: Scope, some: Sequence[Never], found: List[Finding]) -> List[Finding]:
    """What is found, with what values of keys that nothing gives allow to those who are not allowed it without them."""
    named: List[Tuple[int, Names]] = []
    flat: List[Tuple[int, World]] = []
    for n, of in enumerate(some):
        done = {principal_text(it.answers.world["principals"][it.answers.place(it.cell)[0]]) for it in found[n].broken}
        rest = [it.of([one for one in it.people if principal_text(one) not in done]) for it in of.names]
        named += [(n, it) for it in rest if it.people]
        for world in (it.world for it in of.asked if not of.names and hangs(it.world, it.world["actions"])):
            people = [it for it in world["principals"] if principal_text(it) not in done]
            flat.append((n, {**world, "principals": people}))
    made = list(found)
    for (n, _), one in zip(named, by_names(scope, [it for _, it in named])):
        made[n] = joined(made[n], of_names(one))
    for (n, _), turned in zip(flat, ask_any_key([it for _, it in flat])):
        kept = set(cells_of(scope, turned.answers))
        broken = [Break(turned.answers, it, turned.examples[it], dict) for it in turned.examples if it in kept]
        opens = [turned.open_words(it) for it in turned.opens if it in kept]
        made[n] = joined(made[n], Finding(broken, opens))
    return made


def by_names(scope: Scope, some: List[Names]) -> List[List[Tuple[Names, Found]]]:
    """What each allows of all names with keys that nothing gives. Of those who are allowed anything with the most that any values may do,
    the names are asked that are told apart by what hangs on keys, and of these which are allowed with some values."""
    parts = [(n, one) for n, it in enumerate(some) for one in alike_in_keys(it)]
    hung = [(n, it.of(hanging_people(it.world))) for n, it in parts]
    asked = [(n, it) for n, it in hung if it.people]
    most = settled(scope, (with_bound(it, at_most) for _, it in asked), len(asked), ALLOWED)
    made: List[List[Tuple[Names, Found]]] = [[] for _ in some]
    further: List[Tuple[int, Names]] = []
    for (n, names), found in zip(asked, most):
        made[n] += [(it, of._replace(rows=[])) for it, of in found]
        who = {row["principal"] for _, it in found for row in it.rows}
        few = names.of([it for it in names.people if principal_text(it) in who])
        is_too_much = bool(who) and len(probes_of(few.world)) > PROBES
        made[n] += [(few, Found([], [TOO_MANY]))] if is_too_much else []
        further += [(n, few)] if who and not is_too_much else []
    apart = settled(scope, (with_bound(it, told_apart) for _, it in further), len(further), ALLOWED)
    for (n, _), one in zip(further, by_examples(list(zip((it for _, it in further), apart)))):
        made[n] += one
    return made


def with_bound(names: Names, bound: Callable[[World], World]) -> Names:
    return names._replace(bound=lambda worlds: list(map(bound, worlds)))


def by_examples(asked: List[Tuple[Names, List[Tuple[Names, Found]]]]) -> Iterator[List[Tuple[Names, Found]]]:
    """What is allowed with some values of keys, of the requests that are allowed at most."""
    worlds = [[naming(names, it.rows) for names, it in of] for _, of in asked]
    answers = iter(ask_any_key([one for [one] in (world for of in worlds for some in of for world in some)]))
    for (every, of), several in zip(asked, worlds):
        made, shown = [], set()  # type: List[Tuple[Names, Found]], Set[str]
        for (names, found), some in zip(of, several):
            opens, wanted = list(found.opens), {tuple(it[name] for name in REQUEST) for it in found.rows}
            rows: List[Row] = [it for it in found.rows if is_access_point(it["resource"])]
            for turned in (next(answers) for _ in some):
                texts = turned.answers.texts
                rows += [turned.row(it) for it in turned.answers.allowed() if texts(it) in wanted]
                opens += [turned.open_words(it) for it in turned.opens if texts(it) in wanted]
            shown.update(it["principal"] for it in rows)
            made.append((names, found._replace(rows=rows, opens=opens)))
        # A text of which a variable is a part that nothing gives may be of another kind with each value.
        rest = [it for it in every.people if principal_text(it) not in shown]
        lines = unresolved(every.of(rest).world, every.question.resource) if rest else []
        yield [*made, (every, Found([], lines))]


def cells_of(scope: Scope, answers: Answers) -> List[int]:
    """The requests that some service has, as far as the service reference is given."""
    kept = scope.source.references.pairs(answers.world, lacked(scope.source, answers.world["actions"]))
    return [cell for cell in range(len(answers.numbers)) if kept[cell % len(kept)]]


def worlds_of_kinds(scope: Scope, question: Question) -> List[Asked]:
    """The worlds of a question's requests, with the names that show all that is allowed of every name that its patterns mean, as it is
    or with keys that nothing gives, and what of each is not."""
    of = asked_by(scope, question)
    if not of.names:
        return worlds(scope, question)
    every = settled(scope, of.names, len(of.names), [])
    keyed = by_names(scope, of.names)
    made: List[Asked] = []
    for one in of.asked:
        found = one._replace(world={**one.world, "actions": [], "resources": []}, opens=list(of.opens))
        for names, as_given, with_values in zip(of.names, every, keyed):
            if names.world["actions"] == one.world["actions"]:
                for it, rows in [*as_given, *with_values]:
                    found = with_rows(found, it, rows)
        is_told = bool(found.world["actions"] or found.opens)
        made += [found] if is_told and found.world["principals"] else []
    return made


def with_rows(asked: Asked, names: Names, found: Found) -> Asked:
    """The world with what rows show."""
    of, shown = stands(names), names.shown()
    rows = nearest(names, found.rows, lambda it: of(it).get(it["resource"]), True)
    world, stand = asked.world, dict(asked.stand)
    resources = {(it["arn"], it["account"]): it for it in world["resources"]}
    for row in rows:
        [it] = shown(row["resource"])
        resources.setdefault((it["arn"], it["account"]), it)
        for text, origin in of(row).items():
            stand[text] = origin if row["decision"] == "allowed" else stand.get(text, origin)
    actions = list(dict.fromkeys([*world["actions"], *(it["action"] for it in rows)]))
    accounts = {it["id"]: it for it in [*names.world["accounts"], *world["accounts"]]}
    made = {**world, "actions": actions, "resources": list(resources.values()), "accounts": list(accounts.values())}
    return asked._replace(world=made, stand=stand, opens=list(dict.fromkeys([*asked.opens, *found.opens])))
