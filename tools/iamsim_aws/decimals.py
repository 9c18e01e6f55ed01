"""A world without decimals of one whose policies compare them.

For each key that stands under a numeric operator, and that some policy or context gives a decimal, all numeric values of
that key are multiplied by the same power of ten, in policies and in contexts. So each comparison keeps its answer. It is
an error, which names the key, where that cannot be: the key also stands under an operator of another kind (`Null` asks
only whether it is there) or as a variable, its value follows from the request, a value has over nine places or,
multiplied, over eighteen digits.
"""

import re
from typing import Any, Dict, Iterator, List, Sequence, Tuple

from .documents import Policy, World, conditions_of, contexts, each, mapped, places, statements_of, with_contexts
from .faults import Fault
from .keys import DERIVED, plain_operator
from .patterns import variables_of

NUMERIC = re.compile(r"Numeric(Equals|NotEquals|(LessThan|GreaterThan)(Equals)?)")
NUMBER = re.compile(r"(-?)([0-9]+)(?:\.([0-9]+))?")


def is_numeric(operator: str) -> bool:
    return NUMERIC.fullmatch(plain_operator(operator)) is not None


def number_of(value: Any) -> Any:
    """Sign, digits before the point, digits behind it; None where it is no number."""
    if isinstance(value, bool) or not isinstance(value, (int, float, str)):
        return None
    return NUMBER.fullmatch(str(value))


def is_decimal(value: Any) -> bool:
    found = number_of(value)
    return found is not None and found.group(3) is not None


def places_of(value: Any) -> int:
    return len((number_of(value).group(3) or "").rstrip("0"))


def moved(value: Any, count: int, key: str) -> Any:
    """A number, its point moved to the right."""
    found = number_of(value)
    if found is None:
        return value
    sign, whole, fraction = found.group(1), found.group(2), (found.group(3) or "").rstrip("0")
    digits = (whole + fraction.ljust(count, "0")).lstrip("0") or "0"
    if len(digits) > 18:
        raise Fault(f"{key}: {sign}{digits} has over eighteen digits")
    return sign + digits


def conditions(world: World) -> Iterator[Tuple[str, str, Any]]:
    for it in places(world):
        for statement in statements_of(it.policy.document):
            for operator, key, value in conditions_of(statement):
                yield operator, key.lower(), value


def texts_in(value: Any) -> Iterator[str]:
    if isinstance(value, str):
        yield value
    elif isinstance(value, (dict, list)):
        for it in value.values() if isinstance(value, dict) else value:
            yield from texts_in(it)


def variables(world: World) -> List[str]:
    texts = (text for it in places(world) for text in texts_in(it.policy.document))
    return [key.lower() for text in texts if "${" in text for key in variables_of(text)]


def scales(worlds: Sequence[World]) -> Dict[str, int]:
    """The number of places of each key that has to change."""
    values: Dict[str, List[Any]] = {}
    others: Dict[str, str] = {}
    for operator, key, value in (it for world in worlds for it in conditions(world)):
        if is_numeric(operator):
            values.setdefault(key, []).extend(each(value))
        elif operator != "Null":
            others.setdefault(key, operator)
    for context in (it for world in worlds for it in contexts(world)):
        for key, value in context.items():
            if key.lower() in values:
                values[key.lower()] += each(value)
    wanted = {key: of for key, of in sorted(values.items()) if any(map(is_decimal, of))}
    named = {it for world in worlds for it in variables(world)} if wanted else set()
    return {key: scale_of(key, of, others.get(key), named) for key, of in wanted.items()}


def scale_of(key: str, values: List[Any], other: Any, named: Any) -> int:
    count = max(places_of(it) for it in values if number_of(it) is not None)
    if other is not None:
        raise Fault(f"{key}: it has decimals, and stands under {other} too")
    if key in named:
        raise Fault(f"{key}: it has decimals, and is a variable of a policy too")
    if key in map(str.lower, DERIVED):
        raise Fault(f"{key}: it is compared with a decimal, and its value follows from the request")
    if count > 9:
        raise Fault(f"{key}: it has over nine places")
    return count


def keys_changed(keys: Any, of: Dict[str, int]) -> Any:
    if not isinstance(keys, dict):
        return keys

    def change(key: str, value: Any) -> Any:
        count = of[key.lower()]
        return [moved(it, count, key) for it in value] if isinstance(value, list) else moved(value, count, key)

    return {key: change(key, value) if key.lower() in of else value for key, value in keys.items()}


def statement_changed(statement: Any, of: Dict[str, int]) -> Any:
    if not isinstance(statement, dict) or not isinstance(statement.get("Condition"), dict):
        return statement
    changed = {
        operator: keys_changed(keys, of) if is_numeric(operator) else keys
        for operator, keys in statement["Condition"].items()
    }
    return {**statement, "Condition": changed}


def document_changed(document: Any, of: Dict[str, int]) -> Any:
    if not isinstance(document, dict) or "Statement" not in document:
        return document
    given = document["Statement"]
    changed = [statement_changed(it, of) for it in given] if isinstance(given, list) else statement_changed(given, of)
    return {**document, "Statement": changed}


def whole(world: World) -> World:
    """The world without decimals, which has the same answers."""
    return scaled(world, scales([world]))


def scaled(world: World, of: Dict[str, int]) -> World:
    """The world in which the values of each key are multiplied by so many tens."""
    if not of:
        return world
    made = mapped(world, lambda _kind, _path, it: Policy(it.name, document_changed(it.document, of)))
    return with_contexts(made, lambda context: keys_changed(context, of))


def as_written(value: str, count: int) -> str:
    """A value as it is without so many tens."""
    found = NUMBER.fullmatch(value)
    if not count or found is None:
        return value
    digits = found.group(2).rjust(count + 1, "0")
    rest = digits[-count:].rstrip("0")
    return found.group(1) + digits[:-count] + (f".{rest}" if rest else "")
