"""Whom policies on resources tell apart: kinds of accounts, and of the ARNs of users and roles.

Whatever names those who ask, or sets some of them apart, is read as a pattern of ARNs, whether it lets in, denies or excepts.
Users and roles that the same patterns match are of one kind.
"""

import functools
import re
import string
from typing import Any, Dict, FrozenSet, Iterable, Iterator, List, NamedTuple, Set, Tuple

from .arns import account_of
from .documents import World, conditions_of, each, places, statements_of
from .exports import ACCOUNT
from .keys import CALLER
from .patterns import is_pattern, matcher, of_given, opened, overlap, plain, signs_of

EVERYBODY = "*"
ANYONE = "(anyone)"
SEGMENT = r"[!-)+-.0->@-~]+"
PARTY = re.compile(rf"arn:([A-Za-z0-9-]+):(?:iam|sts)::([0-9]{{12}}):(root|user|role|assumed-role)((?:/{SEGMENT})*)")
NUMBER = re.compile(r"(?<![0-9])[0-9]{12}(?![0-9])")
# The patterns of ARNs that values of the requester's keys stand for.
OF_ACCOUNT = "arn:{partition}:iam::{value}:*"
OF_KEYS = {
    "aws:principalarn": "{value}",
    "aws:principalaccount": OF_ACCOUNT,
    CALLER.lower(): OF_ACCOUNT,
    "aws:username": "arn:{partition}:iam::*:user/{value}",
}
# Those that the values of another one stand for.
TYPE = "aws:principaltype"
OF_TYPES = {"User": "arn:{partition}:iam::*:user/*", "AssumedRole": "arn:{partition}:iam::*:role/*"}
# Kinds of names in an account behind which no more patterns are held against each other.
MOST = 200
SIGNS = f"x{string.ascii_letters}{string.digits}+=,.@_-"


class Said(NamedTuple):
    """What policies on resources say of who asks: the texts that grants name, the condition keys, patterns of ARNs, each with the
    lists in which it stands, and the partitions."""

    grants: Set[str]
    keys: Set[str]
    patterns: Dict[str, Set[int]]
    partitions: Dict[str, None]

    def sessions(self) -> List[str]:
        return [plain(it) for it in self.patterns if ":assumed-role/" in it and PARTY.fullmatch(plain(it))]


def texts_in(statement: Any, element: str) -> List[str]:
    """The texts by which an element of a statement names accounts and their principals."""
    given = statement.get(element) if isinstance(statement, dict) else None
    return [it for it in each(given.get("AWS") if isinstance(given, dict) else given) if isinstance(it, str)]


def named_by(statement: Any) -> List[str]:
    """The texts by which a statement of a resource's policy grants."""
    is_grant = isinstance(statement, dict) and statement.get("Effect") == "Allow"
    return texts_in(statement, "Principal") if is_grant else []


@functools.lru_cache(maxsize=None)
def pattern_of(text: str, partition: str) -> str:
    """The pattern of whom an element names, or nothing."""
    found = PARTY.fullmatch(text)
    if found and found[3] != "root":
        return of_given(text)
    partition, account = (found[1], found[2]) if found else (partition, text)
    return OF_ACCOUNT.format(partition=partition, value=account) if ACCOUNT.fullmatch(account) else ""


@functools.lru_cache(maxsize=None)
def pattern_for(key: str, text: str, partition: str) -> str:
    """The pattern of whom a value of a condition means."""
    return OF_KEYS[key].format(partition=partition, value=opened(text))


def lists_in(statement: Any, partition: str) -> Iterator[Tuple[str, ...]]:
    """The patterns of ARNs of each element and condition of a statement that names who asks, or sets some of them apart."""
    for element in ("Principal", "NotPrincipal"):
        yield tuple(pattern_of(it, partition) for it in texts_in(statement, element))
    for _, key, value in conditions_of(statement):
        if key.lower() in OF_KEYS:
            yield tuple(pattern_for(key.lower(), str(it), partition) for it in each(value))
        elif key.lower() == TYPE:
            some = [matcher(opened(str(it)), True) for it in each(value)]
            yield tuple(of.format(partition=partition) for name, of in OF_TYPES.items() if any(it(name) for it in some))


def said_in(worlds: Iterable[World]) -> Said:
    """What the policies on the worlds' resources say of who asks."""
    said = Said(set(), set(), {}, {})
    numbers: Dict[Tuple[str, ...], int] = {}
    for world in worlds:
        for it in places({"resources": world["resources"]}):
            arn = world["resources"][int(it.path.split("/")[1])]["arn"]
            partition = arn.split(":")[1] if arn.startswith("arn:") else "aws"
            said.partitions[partition] = None
            for statement in statements_of(it.policy.document):
                said.grants.update(named_by(statement) if it.kind == "resource" else ())
                said.keys.update(key.lower() for _, key, _ in conditions_of(statement))
                for of in lists_in(statement, partition):
                    number = numbers.setdefault(of, len(numbers))
                    for pattern in filter(None, of):
                        said.patterns.setdefault(pattern, set()).add(number)
    for found in filter(None, map(PARTY.fullmatch, map(plain, said.patterns))):
        said.partitions[found[1]] = None
    return said


def by_field(patterns: Iterable[str]) -> Dict[str, List[str]]:
    """Patterns of ARNs by the accounts, or patterns of such, that they name; by nothing those that leave it open."""
    found: Dict[str, List[str]] = {"": []}
    for it in patterns:
        for field in [*fields_of([it]), *([] if account_of(it).strip("*?") else [""])]:
            found.setdefault(field, []).append(it)
    return found


def fields_of(patterns: Iterable[str]) -> List[str]:
    """The accounts, and the patterns of such, that patterns of ARNs name."""
    found = (field for it in patterns for field in (account_of(it), *NUMBER.findall(it)))
    return list(dict.fromkeys(it for it in found if it.strip("*?")))


def accounts_in(patterns: Iterable[str]) -> List[str]:
    """The accounts that patterns of ARNs name; of a pattern of accounts one."""
    found = (plain(one.replace("?", "0")) for it in fields_of(patterns) for one in overlap(it, "?" * 12))
    return [it for it in dict.fromkeys(found) if ACCOUNT.fullmatch(it)]


def nobody_of(patterns: Iterable[str], used: Set[str]) -> str:
    """An account that occurs nowhere."""
    named = [matcher(it) for it in fields_of(patterns)]
    free = [it for it in map("{:012d}".format, range(0, 10**12, 10**9 + 7)) if it not in used]
    return next((it for it in free if not any(one(it) for one in named)), free[0])


def kinds_of(account: str, partition: str, patterns: List[str], name: str = ANYONE) -> Tuple[List[str], bool]:
    """The ARN of a user or role of each kind that patterns of ARNs tell apart in an account, and whether these are all; a user
    of a name that nobody can have stands for all there whom they do not."""
    own = f"arn:{partition}:iam::{account}:"
    apart = [it for it in patterns if f"{own}*" not in overlap(it, f"{own}*")]
    sign, anyone = unused(patterns), f"{own}user/{name}"
    users, roles = (dict.fromkeys(within(apart, f"{own}{kind}/*")) for kind in ("user", "role"))
    # Where users are told apart from roles, somebody is a role.
    roles.update({f"{own}role/*": None} if f"{own}user/*" in users else {})
    kinds = [met(list(filter(is_pattern, of)), sign) for of in (users, roles)]
    found = {anyone: None} if len(apart) < len(patterns) else {}
    for it in (*users, *roles, *kinds[0], *kinds[1]):
        found[anyone if it == f"{own}user/*" else filled(it, sign)] = None
    return [it for it in found if PARTY.fullmatch(it)], max(map(len, kinds)) <= MOST


def met(patterns: List[str], sign: str) -> List[str]:
    """A pattern for each kind of texts that patterns tell apart, until they are too many."""
    found: Dict[FrozenSet[str], str] = {}
    for it in patterns:
        for one in [it, *(within(found.values(), it) if len(found) <= MOST else ())]:
            text = filled(one, sign)
            found.setdefault(frozenset(of for of in patterns if matcher(of)(text)), one)
    return list(found.values())


def filled(pattern: str, sign: str) -> str:
    """The text of a pattern with a sign for all that it leaves open."""
    return "".join(sign if it in "*?" else it[1] for it in signs_of(pattern))


def within(patterns: Iterable[str], form: str) -> Iterator[str]:
    """What patterns have in common with that of the names of an account; no name has a colon."""
    return (one for it in patterns for one in overlap(it, form) if one.count(":") == 5)


def unused(patterns: Iterable[str]) -> str:
    """A sign that no name of the patterns has, so that what it stands for matches no pattern by chance."""
    used = {sign for it in patterns for sign in it.split(":", 5)[-1].lower()}
    return next((it for it in SIGNS if it.lower() not in used), SIGNS[0])
