"""Documents of which only the apply tells a part."""

from typing import Any, List, Optional, Tuple

from .documents import each
from .unknowns import Unknowns
from .yamls import Unclear


def unclear_in(value: Any) -> Optional[Unclear]:
    """The first part of a value that nobody knows."""
    if isinstance(value, Unclear):
        return value
    some = value.values() if isinstance(value, dict) else value if isinstance(value, list) else ()
    return next((found for found in map(unclear_in, some) if found), None)


def unclear_places(value: Any, place: str) -> List[Tuple[str, str]]:
    if isinstance(value, Unclear):
        return [(place, value.why)]
    items = value.items() if isinstance(value, dict) else enumerate(value) if isinstance(value, list) else ()
    return [it for key, one in items for it in unclear_places(one, f"{place}.{key}")]


def known(unknowns: Unknowns, place: str, value: Any) -> Any:
    """A value without anything unknown; else None."""
    for path, why in unclear_places(value, place):
        unknowns.lacks(f"{path} ({why})")
        return None
    return value


def known_document(unknowns: Unknowns, place: str, value: Any) -> Any:
    """A document as far as it is known; None where it is not."""
    if not isinstance(value, dict) or "Statement" not in value:
        return known(unknowns, place, value)
    rest = {key: it for key, it in value.items() if key != "Statement"}
    made = [known_statement(unknowns, f"{place}.Statement.{n}", it) for n, it in enumerate(each(value["Statement"]))]
    if known(unknowns, place, rest) is None or any(it is None for it in made):
        return None
    left = [it for it in made if it]
    is_list = isinstance(value["Statement"], list) or not left
    return {**rest, "Statement": left if is_list else left[0]}


def known_statement(unknowns: Unknowns, place: str, it: Any) -> Any:
    """A statement: empty where it is left out, None where nothing stands for it."""
    why = unclear_in(it["Resource"]) if isinstance(it, dict) and "Resource" in it else None
    if why is None:
        return known(unknowns, place, it)
    rest = {key: of for key, of in it.items() if key != "Resource"}
    if known(unknowns, place, rest) is None:
        return None
    texts = [of for of in each(it["Resource"]) if isinstance(of, str)]
    where = f"{place}.Resource ({why.why})"
    found = unknowns.resources(where, str(it.get("Effect")), texts, None)
    if it.get("Effect") != "Allow":
        unknowns.denies.append(where)
    return {**it, "Resource": found} if found else {}
