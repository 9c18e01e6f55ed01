"""The decisions of 'iamsim ask' on requests of a log, each by itself, in as few worlds as the limits allow."""

import bisect
from typing import Any, Dict, FrozenSet, Iterator, List, Tuple

from ..arns import principal_text
from ..documents import World
from ..files import compact
from ..keys import DERIVED, context_of
from ..points import tell_points
from ..reports import Answer, Answers
from ..requests import Job, answered, without_decimals
from ..splitting import parts
from .sides import Request, Side, grouped

# The bytes of the keys of one file of requests, each text with 64 more; half of what iamsim reads.
KEYS = 1 << 25
NOTHING: FrozenSet[str] = frozenset()
TAKEN_KEYS = frozenset(it.lower() for it in DERIVED)


def jobs_of(side: Side, some: List[Request]) -> Iterator[Job]:
    """The worlds of some requests, each within the limits, with the requests of each."""
    for numbers in grouped(some):
        given = [some[n] for n in numbers]
        keys = list(dict.fromkeys(it.keys for it in given))
        world, made = without_decimals(side.world(given), [dict(it) for it in keys])
        contexts = dict(zip(keys, made))
        people = {(it.who, it.session): None for it in given}
        principals = {key: n for n, key in enumerate(people)}
        resources = {it["arn"]: n for n, it in enumerate(world["resources"])}
        every = parts(world)
        firsts = [sorted({getattr(it, axis) for it in every}) for axis in ("principal", "resource")]
        found: Dict[Tuple[int, int], List[Tuple[int, Request]]] = {}
        for n, it in zip(numbers, given):
            places = principals[it.who, it.session], resources[it.resource]
            key = tuple(of[bisect.bisect_right(of, at) - 1] for of, at in zip(firsts, places))
            found.setdefault((key[0], key[1]), []).append((n, it))
        for part in every:
            yield from of_part(part.world, found.pop((part.principal, part.resource), []), contexts)


def of_part(world: World, some: List[Tuple[int, Request]], contexts: Dict[Any, Dict[str, Any]]) -> Iterator[Job]:
    """The jobs of one world: several where the keys of its requests are too large for one."""
    people = {principal_text(it): names_given(world, it) for it in world["principals"]}
    things = {it["arn"]: names_given({}, it) for it in world["resources"] if "context" in it}
    heads: Dict[Tuple[str, str, str], Tuple[str, FrozenSet[str]]] = {}
    tails: Dict[Any, Tuple[str, int]] = {}
    job, size = Job(world, [], []), 0
    for n, it in some:
        key = it.who, it.session, it.action
        if key not in heads:
            who = it.principal
            head = compact({"principal": who, "action": it.action, "resource": ""})[:-3]
            heads[key] = head, people[who]
        head, taken = heads[key]
        if it.keys:
            given = it.keys, taken, things.get(it.resource, NOTHING)
            if given not in tails:
                tails[given] = tail_of(contexts[it.keys], taken | given[2])
            tail, more = tails[given]
            size += more
            if size > KEYS and job.numbers:
                yield job
                job, size = Job(world, [], []), more
        else:
            tail = "}"
        job.numbers.append(n)
        job.lines.append(f"{head}{compact(it.resource)}{tail}")
    if job.numbers:
        yield job


def tail_of(context: Dict[str, Any], taken: FrozenSet[str]) -> Tuple[str, int]:
    """The end of a line that has the keys of a request, but for those that its world gives; and what bytes are counted for it."""
    own = {key: value for key, value in context.items() if key.lower() not in taken}
    size = sum(len(key) + 4 * len(value) + 128 for key, value in own.items())
    return (f',"context":{compact(own)}}}' if own else "}"), size


def names_given(world: World, holder: Dict[str, Any]) -> FrozenSet[str]:
    """The keys, in lower case, that no request with this holder may give."""
    given = frozenset(it.lower() for it in [*context_of(world), *context_of(holder)])
    return given | TAKEN_KEYS if world else given


def decide(side: Side, some: List[Request], is_full: bool) -> Tuple[List[Answer], int]:
    """The answer to each request, without statements unless they are wanted, and how many worlds were asked."""
    jobs = list(jobs_of(side, some))
    for it in jobs:
        tell_points(it.world)
    return answered(jobs, len(some), is_full), len(jobs)


def answers_of(side: Side, request: Request, answer: Answer) -> Answers:
    """The answer to a request as other reports have it: of a world that has this request alone."""
    found = Answers(side.world([request]), 1)
    found.number(0, lambda: answer)
    return found
