"""Stand-ins for whom policies of resources let in and of whose accounts there is no export.

A stand-in may do by its own policy all that the resource's account lets it, so the resource's policy alone decides. For an
account, and for everybody ('*'), it is a user whose name no user can have; who is named by an ARN stands for itself.
"""

from typing import Any, Dict, Iterator, List, Optional, Sequence, Set

from .arns import account_of, names_of_principal, principal_arn, principal_text, session_arn
from .documents import FOREIGN, Policy, World, statements_of
from .exports import ACCOUNT
from .faults import tell
from .keys import OF_ORGANIZATION, with_own_keys
from .making import in_organization, keep_context
from .organizations import Organization
from .parties import (ANYONE, EVERYBODY, PARTY, Said, accounts_in, by_field, kinds_of, lists_in, nobody_of, said_in)
from .outsiders import outsider_of, outsiders
from .patterns import any_matches, is_pattern, matcher, plain
from .sources import Source

ANYBODY = "(anybody)"
ASSUMED = "what its own account may allow (assumed)"
# What a line says of whom nobody stands for.
NOT_ASKED = "nobody is asked"

Principal = Dict[str, Any]


def is_stranger(principal: Principal) -> bool:
    is_assumed = any(isinstance(it, Policy) and it.name == ASSUMED for it in principal.get("identity") or [])
    return is_assumed or outsider_of(principal) is not None


def shown(principal: Principal) -> str:
    """The principal as answers name it."""
    text, outsider = principal_text(principal), outsider_of(principal)
    if outsider or not is_stranger(principal):
        return outsider.words() if outsider else text
    if text.endswith(f"/{ANYBODY}"):
        return "anyone outside: any account"
    return f"anyone outside: account {account_of(text)}" if text.endswith(f"/{ANYONE}") else f"outside: {text}"


def forms(principal: Principal) -> List[List[str]]:
    """The texts that patterns are compared with; who stands for a whole account is a user and a role of it."""
    outsider = outsider_of(principal)
    if outsider:
        return [outsider.names]
    names, arn = names_of_principal(principal), principal_arn(principal)
    if not is_stranger(principal) or not arn.endswith((f"/{ANYONE}", f"/{ANYBODY}")):
        return [names]
    return [names, names_of_principal({"role": arn.replace(":user/", ":role/"), "session": "session"})]


def is_meant(principal: Principal, pattern: str) -> bool:
    """Whether a pattern means a principal, or some of those for whom it stands."""
    return any(any_matches([pattern], names) for names in forms(principal))


def is_excepted(principal: Principal, patterns: List[str]) -> bool:
    """Whether patterns mean a principal, and all for whom it stands."""
    return all(any_matches(patterns, names) for names in forms(principal))


def stand_in(text: str, partition: str, session: str) -> Optional[Principal]:
    """The stand-in for whom a policy names: an account, or the ARN of one, of a user, role or session."""
    found = PARTY.fullmatch(text)
    if ACCOUNT.fullmatch(text):
        return {"user": f"arn:{partition}:iam::{text}:user/{ANYONE}"}
    if not found:
        return None
    partition, account, kind, rest = found.groups()
    parts = rest.split("/")[1:]
    if kind == "root" and not parts:
        return stand_in(account, partition, session)
    if kind == "assumed-role":
        role = f"arn:{partition}:iam::{account}:role/{parts[0]}" if len(parts) == 2 else ""
        return {"role": role, "session": parts[1]} if role else None
    own = {"user": {"user": text}, "role": {"role": text, "session": session}}
    return own.get(kind) if parts else None


def everyone_outside(
    source: Source, worlds: List[World], asked: str = "", speaking: Sequence[World] = ()
) -> List[Principal]:
    """The stand-ins for whom policies of the worlds' resources let in, of each kind that policies on these tell apart, and on
    those of further worlds; and for whom a question names, or `--outside`."""
    said = said_in([*worlds, *speaking])
    return [*of_accounts(source, worlds, asked, said), *outsiders(worlds, nobody_in(source, worlds, said))]


def strangers(source: Source, worlds: List[World]) -> List[Principal]:
    """Those stand-ins alone that are users and roles of accounts."""
    return of_accounts(source, worlds, "", said_in(worlds))


def of_accounts(source: Source, worlds: List[World], asked: str, said: Said) -> List[Principal]:
    known, name = source.accounts(), plain(asked)
    grants = said_in(worlds).grants
    session = source.estate.session if source.estate else "session"
    of_question = name if PARTY.fullmatch(name) else account_of(name)
    some = [stand_in(it, "aws", session) for it in (*source.outside, of_question)]
    more = [session_of(it, said) for it in said.sessions()]
    more += [stand_in(it, "aws", session) for it in told_apart(source, worlds, said)]
    found: Dict[str, Principal] = {}
    for one in [it for it in some if it] + [it for it in more if it and is_let_in(it, grants)]:
        account = account_of(principal_arn(one))
        if account not in known:
            found.setdefault(principal_text(one), assumed(one, account, source))
    return list(found.values())


def session_of(text: str, said: Said) -> Optional[Principal]:
    """The stand-in for a session that policies name, of the role with its path where they name that too."""
    one = stand_in(text, "aws", "")
    roles = (plain(it) for it in said.patterns if ":role/" in it and not is_pattern(it))
    own = next((it for it in roles if one and session_arn(it, one["session"]) == text), None)
    return {**one, "role": own} if one and own else one


def told_apart(source: Source, worlds: List[World], said: Said) -> Iterator[str]:
    """The ARNs of users and roles of each kind, of the accounts that are spoken of and of one that nothing names; of accounts
    that the same lists name one alone has the kinds of which no list says the account."""
    known, organization, named = source.accounts(), organization_of(source), by_field(said.patterns)
    free, seen = named.pop(""), set()  # type: List[str], Set[object]
    owners = owners_in(worlds)
    accounts = [it for it in dict.fromkeys([*accounts_in(said.patterns), *owners]) if it not in known]
    nobody = nobody_in(source, worlds, said)
    members = organization.members(known) if not said.keys.isdisjoint(OF_ORGANIZATION) else []
    for account in dict.fromkeys([nobody, *accounts, *members]):
        own = [it for field, of in named.items() if matcher(field)(account) for it in of]
        is_alone = account in owners or organization.is_member(account)
        kind: object = account if is_alone else frozenset(one for it in own for one in said.patterns[it])
        is_wide = kind not in seen or any(is_pattern(it) and not it.endswith(f":{account}:*") for it in own)
        seen.add(kind)
        name = ANYBODY if account == nobody else ANYONE
        some = [*dict.fromkeys([*own, *(free if is_wide else []), *limits_of(organization, account)])]
        for partition in said.partitions:
            found, is_all = kinds_of(account, partition, some, name)
            if not is_all:
                left_out(source)
            yield from found
            anyone = f"arn:{partition}:iam::{account}:user/{name}"
            yield from [anyone] if account == nobody or account in members else []


def owners_in(worlds: List[World]) -> Dict[str, None]:
    """The accounts of the worlds' resources."""
    return dict.fromkeys(it["account"] for world in worlds for it in world["resources"])


def nobody_in(source: Source, worlds: List[World], said: Said) -> str:
    """An account that nothing names."""
    ids = {it["id"] for world in worlds for it in world["accounts"]}
    named = {*accounts_in(said.patterns), *owners_in(worlds), *ids}
    return nobody_of(said.patterns, {*named, *source.accounts(), *source.outside, *organization_of(source).parents})


def organization_of(source: Source) -> Organization:
    return source.estate.organization if source.estate else Organization()


def limits_of(organization: Organization, account: str) -> List[str]:
    """The patterns of ARNs that the policies of its organisation have which bind an account."""
    levels = organization.account(account).get("org", [])
    statements = (one for level in levels for it in level for one in statements_of(it.document))
    return [pattern for it in statements for of in lists_in(it, "*") for pattern in of if pattern]


def left_out(source: Source) -> None:
    """Says that not all kinds are asked for, which leaves each rule open."""
    line = f"policies tell too many kinds of principals outside apart: for some of them {NOT_ASKED}"
    if line not in source.left:
        source.left.append(line)
        tell(line)


def is_let_in(principal: Principal, grants: Set[str]) -> bool:
    """Whether some policy of a resource grants to a principal, or to more than it."""
    arn = principal_arn(principal)
    account, partition = account_of(arn), arn.split(":")[1]
    names = {EVERYBODY, account, f"arn:{partition}:iam::{account}:root", arn, principal_text(principal)}
    return not names.isdisjoint(grants)


def assumed(principal: Principal, account: str, source: Source) -> Principal:
    """The principal with the policy that is assumed; in its own account, of which nothing is known, that allows nothing."""
    elsewhere = {"StringNotEquals": {"aws:ResourceAccount": account}}
    statement = {"Effect": "Allow", "Action": "*", "Resource": "*", "Condition": elsewhere}
    made = {**principal, "identity": [Policy(ASSUMED, {"Version": "2012-10-17", "Statement": statement})]}
    return in_organization(source.estate, account, made) if source.estate else made


def lacking_member(source: Source, worlds: List[World]) -> List[Principal]:
    """Who stands for a member of the organisation that its file lacks, of an account that nothing names, where there is a file."""
    organization = organization_of(source)
    if source.estate is None or not organization.is_there:
        return []
    account = nobody_in(source, worlds, said_in(worlds))
    made = assumed({"user": f"arn:aws:iam::{account}:user/{ANYBODY}"}, account, source)
    # Of its place nothing is known.
    context = {**made.get("context", {}), "aws:PrincipalOrgID": organization.given.get("id", "")}
    one = {name: it for name, it in made.items() if name != FOREIGN}
    return [keep_context({**one, "context": context}, source.estate.context)]


def with_strangers(source: Source, world: World, some: List[Principal]) -> World:
    """The world with these stand-ins, and with their accounts."""
    ids = {it["id"] for it in world["accounts"]}
    new = sorted({account_of(principal_arn(it)) for it in some} - ids)
    accounts = [source.estate.organization.account(it) if source.estate else {"id": it} for it in new]
    made = {**world, "accounts": world["accounts"] + accounts, "principals": world["principals"] + some}
    return with_own_keys(made) if source.estate else made
