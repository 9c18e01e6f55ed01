"""A change of a resource, as a plan or a template has it."""

from typing import Any, Dict, NamedTuple, Optional

Values = Dict[str, Any]


class Where(NamedTuple):
    """The account, partition and region that ARNs are of; an empty account or region is not known."""

    account: str
    partition: str
    region: str = ""


class Change(NamedTuple):
    """A resource: what it is before and after, each None where it is not; the account where nothing else tells it."""

    address: str
    kind: str
    before: Optional[Values]
    after: Optional[Values]
    unknown: Values
    is_replaced: bool = False
    account: str = ""

    @property
    def values(self) -> Values:
        return self.after or self.before or {}

    def is_changed(self) -> bool:
        return self.before != self.after or any_true(self.unknown)


def any_true(value: Any) -> bool:
    if isinstance(value, (dict, list)):
        return any(map(any_true, value.values() if isinstance(value, dict) else value))
    return value is True


def iam_arn(kind: str, values: Values, where: Where) -> str:
    made = f"arn:{where.partition}:iam::{where.account}:{kind}{values.get('path') or '/'}{values.get('name')}"
    return str(values.get("arn") or made)
