"""Requests one by one, each with keys of its own: the decisions of 'iamsim ask'."""

import itertools
import os
import tempfile
from typing import Any, Dict, Iterator, List, NamedTuple, Tuple

from .asking import explained, whole
from .documents import World
from .faults import Fault
from .files import encoded
from .program import Refused, each_of, world_bytes
from .reports import HEAD, TAIL, Answer, words

Context = Dict[str, Any]


class Job(NamedTuple):
    """A world, and the lines of the requests that are asked there, with their numbers."""

    world: World
    numbers: List[int]
    lines: List[str]


def without_decimals(world: World, given: List[Context]) -> Tuple[World, List[Context]]:
    """The world without decimals, and the keys of requests as they are then."""
    count = len(world["principals"])
    holders = [{"context": it} for it in given]
    made = whole({**world, "principals": [*world["principals"], *holders]})
    contexts = [it["context"] for it in made["principals"][count:]]
    return {**made, "principals": made["principals"][:count]}, contexts


def answered(jobs: List[Job], count: int, is_full: bool) -> List[Answer]:
    """The answer to each of so many requests, without statements unless they are wanted."""
    found: List[Answer] = [Answer("", (), ())] * count
    with tempfile.TemporaryDirectory() as room:

        def given() -> Iterator[Tuple[List[str], bytes]]:
            for n, it in enumerate(jobs):
                path = os.path.join(room, str(n))
                with open(path, "wb") as file:
                    file.writelines(encoded(f"{line}\n") for line in it.lines)
                it.lines.clear()
                brief = [] if is_full else ["--brief"]
                yield ["ask", "--format", "json", *brief, "--requests", path], world_bytes(it.world)

        texts = each_of(given(), len(jobs))
        for n, it in enumerate(jobs):
            try:
                text = next(texts).decode()
            except Refused as refused:
                raise refused if "fault 10 Request" in str(refused) else explained(it.world, refused) from None
            os.remove(os.path.join(room, str(n)))
            fill(found, it, text, is_full)
    return found


def fill(found: List[Answer], job: Job, text: str, is_full: bool) -> None:
    """Puts the answers of a report in their places."""
    heads = HEAD.finditer(text)
    none = itertools.repeat("", len(job.numbers))
    tails: Iterator[str] = (str(it[1]) for it in TAIL.finditer(text)) if is_full else none
    known: Dict[Any, Answer] = {}
    count = 0
    for count, (n, head, tail) in enumerate(zip(job.numbers, heads, tails), 1):
        key = head[1], head[2], tail
        if key not in known:
            known[key] = Answer(head[1], words(tail), words(head[2] or ""))
        found[n] = known[key]
    if count != len(job.numbers) or any(True for _ in heads) or any(True for _ in tails):
        raise Fault("iamsim has not answered each request")
