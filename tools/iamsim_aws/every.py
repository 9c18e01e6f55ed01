"""Asking 'iamsim every' and 'iamsim changes --every' for all names that patterns match (docs/LOGIC.md, 11.6 and 13.9)."""

import collections
import json
import os
import tempfile
from typing import Any, Deque, Dict, Iterable, Iterator, List, NamedTuple, Optional, Tuple

from .asking import explained
from .documents import World
from .program import Refused, each_of, world_bytes
from .reports import rows_of

NOT_SHOWN = "notShown"
# An action for each world: for iam roles are resources without policies, for sts with their trust policies.
WORLDS = {"": "s3:GetObject", "iam": "iam:PassRole", "sts": "sts:AssumeRole"}
UNNAMED = "what-nothing-names"


class Job(NamedTuple):
    """What is asked at once: a world, what holds of which texts that it does not name, and further words of the command; and a world
    before it, where what changes is asked."""

    world: World
    texts: List[Dict[str, Any]]
    words: List[str]
    before: Optional[World] = None


def ask_every(some: Iterable[Job], count: int) -> Iterator[List[Dict[str, Any]]]:
    """The rows of each of so many jobs, in their order."""
    waiting: Deque[Job] = collections.deque()
    with tempfile.TemporaryDirectory() as room:

        def made() -> Iterator[Tuple[List[str], bytes]]:
            last, world = None, b""
            for n, it in enumerate(some):
                path = os.path.join(room, str(n))
                with open(path, "w", encoding="utf-8") as to:
                    to.write("".join(f"{json.dumps(one)}\n" for one in it.texts))
                if it.world is not last:
                    last, world = it.world, world_bytes(it.world)
                waiting.append(it)
                command = ["every"]
                if it.before is not None:
                    command = ["changes", f"{path}.before", "--every"]
                    with open(command[1], "wb") as old:
                        old.write(world_bytes(it.before))
                yield [*command, "--format", "json", "--texts", path, "--allow-empty", *it.words], world

        texts = each_of(made(), count)
        try:
            for text in texts:
                waiting.popleft()
                yield list(rows_of(text.decode()))
        except Refused as refused:
            it = waiting[0]
            raise explained(it.before if it.before and "9 Before" in str(refused) else it.world, refused) from None
