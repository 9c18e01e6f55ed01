"""Dates in policies, and what they say from a moment on."""

import datetime
import re
from typing import Any, Dict, List, Optional

from .documents import World, conditions_of, each, statements_of
from .keys import plain_operator
from .speaking import statements

DATE = re.compile(r"(\d{4}-\d\d-\d\d)(?:T(\d\d:\d\d)(:\d\d)?(?:\.\d+)?(?:Z|([+-]\d\d:\d\d)))?")
# The keys that follow from the moment.
OF_MOMENT = ("aws:currenttime", "aws:epochtime")


def seconds_of(date: str) -> Optional[int]:
    """The moment that a text of docs/LOGIC.md, 8.3, stands for, in whole seconds since 1970."""
    found = DATE.fullmatch(date)
    try:
        if found is None:
            return int(date)
        day, minute, second, zone = found.groups()
        text = f"{day}T{minute or '00:00'}{second or ':00'}{zone or '+00:00'}"
        return int(datetime.datetime.fromisoformat(text).timestamp())
    except ValueError:
        return None


def later(world: World) -> List[str]:
    """The statements on the world's actions that ask for a moment after the world's, each with its date."""
    found: Dict[str, None] = {}
    for place, statement, _ in statements(world, world["actions"]):
        for _, key, asked in conditions_of(statement):
            for it in each(asked) if key.lower() in OF_MOMENT else ():
                seconds = seconds_of(str(it))
                if seconds is not None and seconds > world["moment"]:
                    number = statements_of(place.policy.document).index(statement)
                    found[f"{it} ({place.policy.name}, statement {number})"] = None
    return list(found)


def is_past(operator: str, value: Any, moment: int) -> bool:
    """Whether a condition on the moment says of each later one what it says of this one."""
    plain = plain_operator(operator)
    at_once = plain.endswith(("LessThan", "GreaterThanEquals"))
    texts = [str(it) for it in each(value)]
    seconds = [seconds_of(it) if "." not in it else None for it in texts]
    return plain.startswith(("Date", "Numeric")) and all(
        it is not None and (it < moment or (it == moment and at_once)) for it in seconds
    )
