"""Whether a plan or a template fits the exports: what it takes to be there before it."""

import re
from typing import Any, Dict, Iterator, List, Tuple

from . import files
from .exports import Account, policy
from .faults import Fault
from .planned import Change, Values, Where, iam_arn

ROOT = re.compile(r"arn:[a-z-]+:iam::([0-9]{12}):root")
INLINE = {"user": "UserPolicyList", "group": "GroupPolicyList", "role": "RolePolicyList"}
ATTACHED = ("AttachedManagedPolicies", "PolicyArn")


def where_of(account: Account) -> Where:
    return Where(account.account, account.partition)


def holders(account: Account, kind: str, name: Any) -> List[Values]:
    """The user, group or role of that name."""
    of = {"user": account.user, "role": account.role, "group": account.groups.get}[kind]
    found = of(name)  # type: ignore[operator]
    return [found] if found is not None else []


def refuse_lacking(change: Change, account: Account, word: str) -> None:
    """What a plan or template (`word`) updates or deletes has to be in the export, else nothing would be compared."""
    for what, is_there in taken_as_there(change, account):
        if not is_there:
            raise Fault(
                f"{change.address}: the {word} changes the {what}, which the export of {account.account} lacks: they do not match"
            )


def plain(value: Any) -> Any:
    """A document of which the ways to write the same are alike: a list of one, lists in any order, an account or its root."""
    if isinstance(value, dict):
        return {key: plain(value[key]) for key in sorted(value)}
    if isinstance(value, list):
        made = sorted(map(plain, value), key=files.compact)
        return made[0] if len(made) == 1 else made
    root = ROOT.fullmatch(value) if isinstance(value, str) else None
    return root[1] if root else str(value).lower() if isinstance(value, bool) else str(value)


def drifted(change: Change, there: Dict[str, Any], word: str) -> List[str]:
    """A line for each attribute that a plan takes to be there before it otherwise than it is there."""
    before = change.before or {}
    told = f"is not what the {word} takes to be there before it: the export and --resources count"

    def read(value: Any) -> Any:
        is_document = isinstance(value, str) and value.lstrip().startswith("{")
        return plain(policy(change.address, value).document if is_document else value or "")

    differing = [it for it in there if it in before and read(before[it]) != read(there[it])]
    return [f"{change.address}: its {it} {told}" for it in differing]


def in_export(change: Change, account: Account) -> Dict[str, Any]:
    """Those of a resource of IAM that the account has."""
    before = change.before or {}
    kind, part, _ = change.kind[len("aws_iam_") :].partition("_policy")
    if change.kind == "aws_iam_policy":
        versions = account.policies.get(iam_arn("policy", before, where_of(account)), {}).get("PolicyVersionList") or []
        return {"policy": it.get("Document") for it in versions if it.get("IsDefaultVersion")}
    if change.kind in (f"aws_iam_{it}_policy" for it in INLINE):
        items = [it for of in holders(account, kind, before.get(kind)) for it in of.get(INLINE[kind]) or []]
        return {"policy": it.get("PolicyDocument") for it in items if it.get("PolicyName") == before.get("name")}
    found = holders(account, kind, before.get("name")) if kind in ("user", "role") and not part else []
    trust = {"assume_role_policy": it["AssumeRolePolicyDocument"] for it in found if "AssumeRolePolicyDocument" in it}
    boundaries = [it.get("PermissionsBoundary") or {} for it in found]
    return {**trust, **{"permissions_boundary": it.get("PermissionsBoundaryArn") for it in boundaries}}


def taken_as_there(change: Change, account: Account) -> Iterator[Tuple[str, bool]]:
    """What a plan takes to be there, in words, and whether the account has it."""
    before = change.before or {}
    name, arn = before.get("name"), before.get("policy_arn")
    kind, part, attachment = change.kind[len("aws_iam_") :].partition("_policy")
    if change.kind == "aws_iam_policy":
        own = iam_arn("policy", before, where_of(account))
        yield f"policy {own}", own in account.policies
    elif change.kind == "aws_iam_policy_attachment":
        for each in INLINE:
            for who in before.get(f"{each}s") or []:
                yield f"attachment of {arn} to the {each} {who}", has(account, each, who, ATTACHED, arn)
    elif attachment == "_attachment" and kind in INLINE:
        who = before.get(kind)
        yield f"attachment of {arn} to the {kind} {who}", has(account, kind, who, ATTACHED, arn)
    elif part and not attachment and kind in INLINE:
        who = before.get(kind)
        yield f"inline policy {name} of the {kind} {who}", has(account, kind, who, (INLINE[kind], "PolicyName"), name)
    elif not part and kind in INLINE:
        yield f"{kind} {name}", bool(holders(account, kind, name))


def has(account: Account, kind: str, name: Any, place: Tuple[str, str], policy_name: Any) -> bool:
    """Whether a user, group or role has a policy of that name in one of its lists."""
    items, key = place
    return any(it.get(key) == policy_name for of in holders(account, kind, name) for it in of.get(items) or [])
