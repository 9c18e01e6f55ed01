"""Access points of S3: a request by one falls under its own policy and under that of its bucket, and both have to allow it.

A resource of a world that is an access point, or an object by one, has what it is in its bucket as `THROUGH`: a resource with the
bucket's policy. Both are asked, and their answers are joined.
"""

from typing import Any, Dict, List, Optional, Tuple

from .arns import is_access_point, owner_of
from .documents import THROUGH, World
from .faults import TOLD, tell
from .reports import Answer, Answers

Resource = Dict[str, Any]


def is_half_known(resource: Resource) -> bool:
    """Whether nobody knows under which bucket's policy the requests on a resource fall besides."""
    return is_access_point(resource["arn"]) and THROUGH not in resource


def tell_points(world: World, is_joined: bool = False) -> None:
    """Tells once of each access point that is asked without its bucket."""
    more = ": name it by `bucket` of the access point, and the bucket itself, in --resources" if is_joined else ""
    for it in world["resources"]:
        if is_half_known(it) or (THROUGH in it and not is_joined):
            line = f"{owner_of(it['arn'])}: its requests fall under the policy of its bucket too, which is not asked here{more}"
            if line not in TOLD:
                tell(line)


def alone(world: World) -> World:
    """The world of the access points by themselves."""
    some = [{name: one for name, one in it.items() if name != THROUGH} for it in world["resources"]]
    return {**world, "resources": some}


def buckets(world: World) -> List[Tuple[List[int], World]]:
    """A world of what the requests by each access point are in its bucket, and the numbers of their resources."""
    points: Dict[str, List[int]] = {}
    for n, it in enumerate(world["resources"]):
        if THROUGH in it:
            points.setdefault(owner_of(it["arn"]), []).append(n)
    return [(of, {**world, "resources": [through(world["resources"][n]) for n in of]}) for of in points.values()]


def through(resource: Resource) -> Resource:
    """What a request is in the bucket; keys that nothing but the access point gives are its own too."""
    own = resource[THROUGH]
    context = {**resource.get("context", {}), **own.get("context", {})}
    return {**own, **({"context": context} if context else {})}


def moved(answer: Answer) -> Answer:
    """The answer in the bucket, by names of its own for the bucket's policies and for what lacks there."""
    layers = {"resource": "bucket", "control": "bucket-control"}
    split = (it.partition("/") for it in answer.statements)
    statements = tuple(f"{layers.get(layer, layer)}/{rest}" for layer, _, rest in split)
    return Answer(answer.decision, statements, tuple(f"bucket-{it}" for it in answer.lacks))


def joined(own: Answer, other: Answer) -> Answer:
    """Denied where one denies, and allowed where both allow."""
    both = [own, moved(other)]
    some: Optional[List[Answer]] = None
    for decision in ("explicitDeny", "implicitDeny"):
        some = some or [it for it in both if it.decision == decision]
    some = some or both
    statements = dict.fromkeys(text for it in some for text in it.statements)
    return Answer(some[0].decision, tuple(statements), tuple(text for it in some for text in it.lacks))


def join(answers: Answers, numbers: List[int], part: Answers) -> None:
    """Joins the answers in a bucket, whose resources have these numbers in the whole."""
    people, actions, _ = answers.shape
    for p in range(people):
        for a in range(actions):
            for n, r in enumerate(numbers):
                cell = answers.cell(p, a, r)
                it = joined(answers.at(cell), part.at(part.cell(p, a, n)))
                answers.numbers[cell] = answers.number(it, lambda it=it: it)
