"""One matrix of the answers of several worlds, which have other actions, as those of sts: and of iam:."""

import array
from typing import Any, Dict, List, Tuple

from .arns import principal_text
from .documents import cells_of
from .reports import Answer, Answers, keys_of
from .turning import Turn

# The answer where a world does not have the principal or the resource.
ABSENT = Answer("absent", (), ())
Turns = Dict[int, Turn]


def joined(several: List[Answers], actions: List[str]) -> Answers:
    """The answers to all actions, in that order; of resources that are in several worlds the one with a policy stands."""
    resources: Dict[Any, Dict[str, Any]] = {}
    for it in (one for answers in several for one in answers.world["resources"]):
        key = it["arn"], it["account"]
        if key not in resources or "policy" not in resources[key]:
            resources[key] = it
    accounts = {it["id"]: it for answers in several for it in answers.world["accounts"]}
    people = {principal_text(it): it for answers in reversed(several) for it in answers.world["principals"]}
    first = map(principal_text, several[0].world["principals"])
    principals = [people[it] for it in dict.fromkeys([*first, *people])]
    axes = {"accounts": list(accounts.values()), "principals": principals, "actions": actions}
    world = {**several[0].world, **axes, "resources": list(resources.values())}
    made = Answers(world, cells_of(world))
    made.numbers = array.array("I", [made.number(ABSENT, lambda: ABSENT)]) * len(made.numbers)
    for answers in several:
        new = [made.number(it, lambda it=it: it) for it in answers.table]
        for cell, own in places(made, answers):
            made.numbers[own] = new[answers.numbers[cell]]
    return made


def places(wide: Answers, answers: Answers) -> List[Tuple[int, int]]:
    """Each cell of some answers with that of the same request in wider ones."""
    numbers = [{key: n for n, key in enumerate(axis)} for axis in keys_of(wide.world)]
    own = [[of[key] for key in axis] for of, axis in zip(numbers, keys_of(answers.world))]
    every = (wide.cell(p, a, r) for p in own[0] for a in own[1] for r in own[2])
    return list(enumerate(every))


def joined_turns(wide: Answers, several: List[Tuple[Answers, Turns]]) -> Turns:
    """What the answers hang on, by the cells of wider ones."""
    return {own: turns[cell] for answers, turns in several for cell, own in places(wide, answers) if cell in turns}
