"""What changes with values of keys that nothing gives: 'iamsim changes --any-key' (docs/LOGIC.md, 13.12) of the requests that may change
at all. For all names these are those of each kind that the policies, and what hangs on keys, tell apart."""

from typing import Dict, Iterator, List, Set, Tuple

from .arns import is_access_point, principal_text
from .asking import ask_changes
from .bounds import MOST as PROBES
from .bounds import TOO_MANY, Probe, at_least, at_most, hanging_keys, hangs, probes_of, with_probes
from .differences import changers
from .documents import World, statements_of
from .examples import Example, ask_pairs
from .names import REQUEST, Found, Names, Row, alike_in_keys, named_world, naming, settled
from .questions import Scope
from .telling import document_at

BY_POINT = "whether it changes by the access point with keys that nothing gives is not asked"
# Requests that are asked again by themselves at most.
MOST = 400
Texts = Tuple[str, ...]
Pair = Tuple[Names, List[World]]


def texts_in(row: Row) -> Texts:
    """A change and its request."""
    return (row["change"], *(row[name] for name in REQUEST))


def with_keys(scope: Scope, some: List[Names], told: Set[Texts]) -> Tuple[List[Tuple[Names, Found, str]], List[str]]:
    """What changes with some values alone of keys that nothing gives, by examples in words; and what is not shown."""
    hung = [it for it in some if any(hangs(of.world, of.world["actions"]) for of in it.sides)]
    asked = [one for it in hung for one in alike_in_keys(it)]
    both, opens = [], []  # type: List[Names], List[str]
    for it in asked:
        probes = list({str(one): one for side in it.sides for one in probes_of(side.world)}.values())
        both += bounded(it, probes) if len(probes) <= PROBES else []
        opens += [TOO_MANY] if len(probes) > PROBES else []
    found = settled(scope, both, len(both), [])
    rows = list(candidates(list(zip(both, found))))
    opens += [line for of in found for _, it in of for line in it.opens]
    points = dict.fromkeys(request(it) for _, of in rows for it in of if is_access_point(it["resource"]))
    opens += [f"{' '.join(it)}: {BY_POINT}" for it in points]
    pairs = [(names, pair) for names, of in rows for pair in naming(names, of)]
    pairs, answers = one_by_one(pairs, ask_pairs([pair for _, pair in pairs]))
    known = told | as_it_is([pair for (_, pair), of in zip(pairs, answers) if any(it["example"] for it in of)])
    made: List[Tuple[Names, Found, str]] = []
    for (names, pair), of in zip(pairs, answers):
        new = [with_own_places(pair, it) for it in of if texts_in(it) not in known]
        opens += [open_words(pair, it) for it in new if it["change"] == "open"]
        examples: Dict[Example, List[Row]] = {}
        for row in (it for it in new if it["example"]):
            examples.setdefault(row["example"], []).append(row)
        made += [(names, Found(own, []), example.words()) for example, own in examples.items()]
    return made, opens


def one_by_one(pairs: List[Pair], answers: List[List[Row]]) -> Tuple[List[Pair], List[List[Row]]]:
    """What is asked and answered, where requests that are open in worlds with others are asked again by themselves: what statements say of
    the others plays no part there."""
    again: List[Pair] = []
    kept: List[List[Row]] = []
    for (names, pair), of in zip(pairs, answers):
        some: Dict[Tuple[str, str], List[str]] = {}
        for it in of if len(pair[0]["actions"]) * len(pair[0]["resources"]) > 1 else ():
            if it["change"] == "open":
                some.setdefault((it["action"], it["resource"]), []).append(it["principal"])
        asked = dict(list(some.items())[: MOST - len(again)])
        kept.append([it for it in of if it["principal"] not in asked.get((it["action"], it["resource"]), [])])
        for (action, text), people in asked.items():
            things = [[one for one in it["resources"] if one["arn"] == text] for it in pair]
            again.append((names, [named_world(it, people, [action], of) for it, of in zip(pair, things)]))
    return pairs + again, kept + ask_pairs([pair for _, pair in again])


def with_own_places(pair: List[World], row: Row) -> Row:
    """The row with the statements that its worlds have, of those that were asked for."""
    made = dict(row)
    for world, word in zip(pair, ("statements_before", "statements_after")):
        if row[word]:
            p = [principal_text(it) for it in world["principals"]].index(row["principal"])
            r = [it["arn"] for it in world["resources"]].index(row["resource"])
            found = [(it, *document_at(world, p, r, it)) for it in row[word]]
            made[word] = [it for it, policy, n in found if n < len(statements_of(policy.document))]
    return made


def bounded(names: Names, probes: List[Probe]) -> List[Names]:
    """The requests in worlds between which all is gained, and all is lost, that may be with any values of keys, and which tell apart what
    hangs on keys."""

    def of(ends: Tuple[int, int]) -> Names:
        makers = (at_least, at_most)
        return names._replace(
            bound=lambda worlds: [with_probes(makers[end](it), probes) for end, it in zip(ends, worlds)]
        )

    return [of((0, 1)), of((1, 0))]


def request(row: Row) -> Texts:
    return tuple(row[name] for name in REQUEST)


def candidates(asked: List[Tuple[Names, List[Tuple[Names, Found]]]]) -> Iterator[Tuple[Names, List[Row]]]:
    """The requests that may change, each once."""
    done: Set[Texts] = set()
    for _, found in asked:
        for names, of in found:
            may_change, plain = changers(names), names._replace(bound=None)
            rows = [it for it in of.rows if request(it) not in done and may_change(it)]
            done.update(map(request, rows))
            yield plain, list({request(it): it for it in rows}.values())


def as_it_is(pairs: List[List[World]]) -> Set[Texts]:
    """The texts of what changes without keys too."""
    return {texts_in(it) for of in ask_changes([(before, after) for before, after in pairs]) for it in of}


def open_words(pair: List[World], row: Row) -> str:
    """Why it is not known whether a request changes."""
    keys: Dict[str, None] = {}
    for world in pair:
        resources = [it for it in world["resources"] if it["arn"] == row["resource"]]
        keys.update(dict.fromkeys(hanging_keys({**world, "resources": resources}, [row["action"]])))
    return f"{' '.join(request(row))}: with which values of {', '.join(keys)} it changes is not shown"
