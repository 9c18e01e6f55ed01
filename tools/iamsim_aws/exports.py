"""Reading the outputs of 'aws iam get-account-authorization-details': the walker of an export."""

import copy
import re
import urllib.parse
from typing import Any, Dict, Iterator, List, Optional, Tuple

from . import files
from .arns import account_of
from .documents import TAGS, Policy, statements_of
from .faults import Fault
from .naming import inline_policy
from .speaking import speaks_of

ACCOUNT = re.compile(r"[0-9]{12}")
LISTS = {"UserDetailList": "users", "GroupDetailList": "groups", "RoleDetailList": "roles", "Policies": "policies"}


def document(value: Any, name: str) -> Any:
    """A document is an object, or its JSON as a text, alone, as `Policy` of an object or in its `PolicyVersion`, as calls of
    AWS give it."""
    if isinstance(value, dict) and isinstance(value.get("Policy"), str):
        value = value["Policy"]
    if (
        isinstance(value, dict)
        and isinstance(value.get("PolicyVersion"), dict)
        and "Document" in value["PolicyVersion"]
    ):
        value = value["PolicyVersion"]["Document"]
    return files.parsed(decoded(value), f"{name}: its document") if isinstance(value, str) else value


def decoded(text: str) -> str:
    """The API of IAM gives JSON with %-escapes; no JSON begins with one."""
    return urllib.parse.unquote(text) if text.startswith("%") else text


def policy(name: str, value: Any) -> Policy:
    return Policy(name, document(value, name))


def objects(holder: Dict[str, Any], member: str, what: str) -> List[Dict[str, Any]]:
    """The objects of a list that may be absent."""
    given = holder.get(member)
    if given is None:
        return []
    if not isinstance(given, list) or not all(isinstance(it, dict) for it in given):
        raise Fault(f"{what}: {member} is no list of objects")
    return given


def text(holder: Dict[str, Any], member: str, what: str) -> str:
    given = holder.get(member)
    if not isinstance(given, str):
        raise Fault(f"{what}: {member} is no text")
    return given


class Account:
    """What the exports of one account have: objects as AWS writes them, in their order."""

    def __init__(self, account: str):
        self.account = account
        self.users: List[Dict[str, Any]] = []
        self.groups: Dict[str, Dict[str, Any]] = {}
        self.roles: List[Dict[str, Any]] = []
        self.policies: Dict[str, Dict[str, Any]] = {}

    @property
    def partition(self) -> str:
        """The partition of the account's own ARNs."""
        every = [*self.users, *self.roles, *self.groups.values(), *self.policies.values()]
        own = (str(it.get("Arn")) for it in every if account_of(str(it.get("Arn"))) == self.account)
        return next((it.split(":")[1] for it in own), "aws")

    def copied(self) -> "Account":
        return copy.deepcopy(self)

    def user(self, name: str) -> Optional[Dict[str, Any]]:
        return next((it for it in self.users if it.get("UserName") == name), None)

    def role(self, name: str) -> Optional[Dict[str, Any]]:
        return next((it for it in self.roles if it.get("RoleName") == name), None)

    def add(self, export: Dict[str, Any], file: str) -> None:
        self.users += objects(export, "UserDetailList", file)
        self.roles += objects(export, "RoleDetailList", file)
        self.groups.update((text(it, "GroupName", file), it) for it in objects(export, "GroupDetailList", file))
        self.policies.update((text(it, "Arn", file), it) for it in objects(export, "Policies", file))

    def managed(self, arn: str, holder: str) -> Policy:
        """The default version of the managed policy of that ARN."""
        if arn not in self.policies:
            raise Fault(f"{holder}: the export does not hold the policy {arn}")
        for it in objects(self.policies[arn], "PolicyVersionList", arn):
            if it.get("IsDefaultVersion") is True and "Document" in it:
                return policy(arn, it["Document"])
        raise Fault(f"{holder}: the export does not hold the default version of the policy {arn}")

    def lacking(self) -> Iterator[Tuple[str, str]]:
        """(holder, ARN) of each managed policy that is attached, or a boundary, and that the account does not hold."""
        for it in [*self.users, *self.groups.values(), *self.roles]:
            arns = [of.get("PolicyArn") for of in it.get("AttachedManagedPolicies") or []]
            arns.append((it.get("PermissionsBoundary") or {}).get("PermissionsBoundaryArn"))
            yield from ((str(it["Arn"]), arn) for arn in arns if arn and arn not in self.policies)

    def own(self, holder: Dict[str, Any], inline: str) -> List[Policy]:
        """The inline and the attached policies of a user, group or role."""
        arn = text(holder, "Arn", f"account {self.account}")
        found = [
            policy(inline_policy(arn, text(it, "PolicyName", arn)), it.get("PolicyDocument"))
            for it in objects(holder, inline, arn)
        ]
        attached = objects(holder, "AttachedManagedPolicies", arn)
        return found + [self.managed(text(it, "PolicyArn", arn), arn) for it in attached]

    def refuse_lacking(self, role: Dict[str, Any]) -> None:
        """A fault where the account does not hold a policy of a role."""
        self.own(role, "RolePolicyList")
        self.boundary(role)

    def of_groups(self, user: Dict[str, Any]) -> List[Policy]:
        found, names = [], user.get("GroupList") or []
        if not isinstance(names, list):
            raise Fault(f"{user['Arn']}: GroupList is no list")
        for name in names:
            if not isinstance(name, str) or name not in self.groups:
                raise Fault(f"{user['Arn']}: the export does not hold the group {name}")
            found += self.own(self.groups[name], "GroupPolicyList")
        return found

    def boundary(self, holder: Dict[str, Any]) -> Dict[str, Policy]:
        given = holder.get("PermissionsBoundary")
        if not given:
            return {}
        if not isinstance(given, dict):
            raise Fault(f"{holder['Arn']}: PermissionsBoundary is no object")
        return {"boundary": self.managed(text(given, "PermissionsBoundaryArn", holder["Arn"]), holder["Arn"])}


def once(policies: List[Policy]) -> List[Policy]:
    """A managed policy that comes by several ways is one policy."""
    return list({it.name: it for it in policies}.values())


def tags(holder: Dict[str, Any], before: str) -> Dict[str, str]:
    found = objects(holder, "Tags", holder["Arn"])
    return {before + text(it, "Key", holder["Arn"]): text(it, "Value", holder["Arn"]) for it in found}


def user_of(account: Account, it: Dict[str, Any]) -> Dict[str, Any]:
    policies = once(account.own(it, "UserPolicyList") + account.of_groups(it))
    context = {"aws:userid": it.get("UserId"), **tags(it, "aws:PrincipalTag/")}
    return {"user": it["Arn"], "identity": policies, "context": known(context), TAGS: True, **account.boundary(it)}


def role_of(account: Account, it: Dict[str, Any], session: str) -> Dict[str, Any]:
    policies = once(account.own(it, "RolePolicyList"))
    userid = f"{it['RoleId']}:{session}" if it.get("RoleId") else None
    context = {"aws:userid": userid, **tags(it, "aws:PrincipalTag/")}
    return {
        "role": it["Arn"],
        "session": session,
        "identity": policies,
        "context": known(context),
        TAGS: not may_set_tags(it),
        **account.boundary(it),
    }


def may_set_tags(role: Dict[str, Any]) -> bool:
    """Whether a role's trust policy may let sessions set tags, or is not known."""
    trust = document(role.get("AssumeRolePolicyDocument"), f"{role['Arn']} trust policy")
    some = [it for it in statements_of(trust) if not isinstance(it, dict) or it.get("Effect") != "Deny"]
    return not isinstance(trust, dict) or any(speaks_of(it, ("sts:TagSession",)) for it in some)


def known(context: Dict[str, Any]) -> Dict[str, Any]:
    return {key: value for key, value in context.items() if value is not None}


def is_service_linked(role: Dict[str, Any]) -> bool:
    return str(role.get("Path") or "/").startswith("/aws-service-role/")


def goes_on(export: Dict[str, Any]) -> bool:
    """AWS says that more follows behind this part of an export."""
    return export.get("NextToken") is not None or export.get("IsTruncated") is True


def account_in(export: Any, file: str) -> str:
    """The account that an export is of."""
    if not isinstance(export, dict) or not any(it in export for it in LISTS):
        raise Fault(f"{file}: it is no output of 'aws iam get-account-authorization-details'")
    arns = [text(it, "Arn", f"{file}: {name}") for name in LISTS for it in objects(export, name, file)]
    strange = [it for it in arns if not ACCOUNT.fullmatch(account_of(it)) and account_of(it) != "aws"]
    if strange:
        raise Fault(f"{file}: {strange[0]} is no ARN of an account")
    found = {account_of(it) for it in arns} - {"aws"}
    if len(found) != 1:
        raise Fault(f"{file}: an export is of one account, and this one names {len(found)}")
    return found.pop()


def read_exports(paths: List[str]) -> List[Account]:
    """The accounts of the exports; one may come in several files, one of which is its end."""
    found: Dict[str, Account] = {}
    ended: Dict[str, str] = {}
    for path in paths:
        export, file = files.read_json(path), files.name_of(path)
        account = account_in(export, file)
        found.setdefault(account, Account(account)).add(export, file)
        ended[account] = "" if not goes_on(export) or ended.get(account) == "" else ended.get(account) or file
    for file in ended.values():
        if file:
            raise Fault(f"{file}: the end of the export is missing (NextToken or IsTruncated stands there)")
    return [found[it] for it in sorted(found)]
