"""Whom `*` means besides users and roles: requests that nobody signs, root users and federated users, for whom nobody is asked.

A stand-in for any account is answered for them too, but where a statement tells them apart: by a key that an unsigned request lacks, or by a
type that no user and no role has.
"""

from typing import Any, Dict, Iterable, List

from .bounds import wants_value
from .documents import conditions_of, each
from .keys import plain_operator
from .parties import EVERYBODY, TYPE, texts_in
from .patterns import matcher, of_policy, variables_of

OF_NOBODY = ("Anonymous", "Account", "FederatedUser")
# Keys of the requester, each with a value that some user has who is not named; an unsigned request has none of these, or 'anonymous'.
ANYBODY = {
    "aws:principalarn": "arn:aws:iam::000000000000:user/x",
    "aws:principalaccount": "000000000000",
    "aws:username": "x",
}
LACKING = ("aws:principalarn", "aws:username", "aws:principalorg", "aws:principaltag/")
# Services that take unsigned requests by no policy.
SIGNED = ("iam", "kms", "secretsmanager")


def is_of_everybody(statement: Any) -> bool:
    return EVERYBODY in texts_in(statement, "Principal")


def may_be_unsigned(statement: Any) -> bool:
    """Whether a statement that grants to everybody wants nothing that unsigned requests lack, and that federated users have not."""
    some = [it for it in conditions_of(statement) if it[1].lower().startswith(LACKING) and not is_federated(it[2])]
    return not any(operator != "Null" and wants_value(operator) for operator, _, _ in some)


def telling_apart(statement: Dict[str, Any]) -> List[str]:
    """The keys by which a statement of everybody may be met by them and not by any user or role, or where it denies the other way round."""
    is_grant = statement.get("Effect") == "Allow"
    return [it[1] for it in conditions_of(statement) if tells_apart(is_grant, it[0], it[1].lower(), it[2])]


def tells_apart(is_grant: bool, operator: str, key: str, value: Any) -> bool:
    if key == TYPE:
        return operator == "Null" or has_match(value, OF_NOBODY)
    if key not in ANYBODY:
        return False
    if operator == "Null" or has_match(value, ["anonymous"]) or is_federated(value):
        return True
    is_negated, is_any = "Not" in plain_operator(operator), operator.startswith("ForAnyValue:")
    if is_grant:
        return not wants_value(operator) and not is_negated
    return is_any if is_negated else wants_value(operator) and has_match(value, [ANYBODY[key]])


def is_federated(value: Any) -> bool:
    """Whether some value is an ARN of federated users."""
    return any(":federated-user/" in str(it) for it in each(value))


def has_match(value: Any, texts: Iterable[str]) -> bool:
    """Whether some value without variables, read as a pattern, means one of these texts."""
    some = [matcher(of_policy(it), True) for it in map(str, each(value)) if not variables_of(it)]
    return any(one(text) for one in some for text in texts)
