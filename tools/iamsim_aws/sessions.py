"""What no export has of roles: session policies of named sessions, and permission sets of the Identity Center."""

from typing import Any, Dict, List, NamedTuple, Tuple

from . import files
from .arns import account_of, session_arn
from .documents import Policy
from .exports import ACCOUNT, Account, document, objects, policy, text
from .faults import Fault
from .naming import session_policy

PATH = "/aws-reserved/sso.amazonaws.com/"
INLINE = "AwsSSOInlinePolicy"
MEMBERS = {
    "sessions": ("role", "session", "sessionPolicies"),
    "permissionSets": ("name", "account", "managed", "inline", "boundary", "sessionDuration"),
}


class Session(NamedTuple):
    """A session of a role that has a name, and its session policies."""

    role: str
    name: str
    policies: List[Policy]


def read_sessions(paths: List[str]) -> Tuple[List[Session], List[Tuple[str, Dict[str, Any]]]]:
    """The sessions of files, and their permission sets, each with what a fault calls it."""
    sessions, sets = [], []
    for path in paths:
        what, given = files.name_of(path), files.read_json(path)
        if not isinstance(given, dict) or not set(given) <= set(MEMBERS) or not given:
            raise Fault(f"{what}: it is no object of sessions and permissionSets")
        for member, known in MEMBERS.items():
            for n, it in enumerate(objects(given, member, what)):
                of = f"{what}: {member} {n}"
                strange = sorted(set(it) - set(known))
                if strange:
                    raise Fault(f"{of}: nothing is known of its {strange[0]}")
                if member == "sessions":
                    sessions.append(session_of(it, of))
                else:
                    sets.append((of, it))
    return sessions, sets


def session_of(it: Dict[str, Any], what: str) -> Session:
    role, name, given = text(it, "role", what), text(it, "session", what), it.get("sessionPolicies")
    if not isinstance(given, list) or not given:
        raise Fault(f"{what}: sessionPolicies is no list of policies")
    own = session_policy(session_arn(role, name))
    return Session(role, name, [policy(f"{own} {n}", one) for n, one in enumerate(given)])


def managed(account: Account, given: Any, name: str) -> str:
    """The ARN of a managed policy; one that is given as a document has a name that is made up."""
    if isinstance(given, str) and given.startswith("arn:"):
        return given
    arn = f"arn:{account.partition}:iam::{account.account}:policy{PATH}{name}"
    version = {"IsDefaultVersion": True, "Document": document(given, arn)}
    account.policies[arn] = {"Arn": arn, "PolicyName": name, "PolicyVersionList": [version]}
    return arn


def role_of_set(account: Account, it: Dict[str, Any], what: str) -> Dict[str, Any]:
    """The role that a permission set becomes, as an export has it; its trust is that of the Identity Center's provider."""
    name = f"AWSReservedSSO_{text(it, 'name', what)}_x"
    given = it.get("managed", [])
    if not isinstance(given, list):
        raise Fault(f"{what}: managed is no list of policies")
    start = f"arn:{account.partition}:iam::{account.account}:"
    trust = {
        "Effect": "Allow",
        "Principal": {"Federated": f"{start}saml-provider/AWSSSO_x_DO_NOT_DELETE"},
        "Action": ["sts:AssumeRoleWithSAML", "sts:TagSession"],
        "Condition": {"StringEquals": {"SAML:aud": "https://signin.aws.amazon.com/saml"}},
    }
    arns = [managed(account, one, f"{name}-{n}") for n, one in enumerate(given)]
    role = {
        "RoleName": name,
        "Path": PATH,
        "Arn": f"{start}role{PATH}{name}",
        "AttachedManagedPolicies": [{"PolicyArn": arn} for arn in arns],
        "AssumeRolePolicyDocument": {"Version": "2012-10-17", "Statement": [trust]},
    }
    if it.get("inline") is not None:
        role["RolePolicyList"] = [{"PolicyName": INLINE, "PolicyDocument": it["inline"]}]
    if it.get("boundary") is not None:
        role["PermissionsBoundary"] = {"PermissionsBoundaryArn": managed(account, it["boundary"], f"{name}-boundary")}
    return role


def put_sets(accounts: List[Account], sets: List[Tuple[str, Dict[str, Any]]]) -> List[str]:
    """Puts the roles of permission sets into their accounts; a line for each, since name and trust are made up."""
    of, lines = {it.account: it for it in accounts}, []
    for what, it in sets:
        number = text(it, "account", what)
        if not ACCOUNT.fullmatch(number):
            raise Fault(f"{what}: account is no account of twelve digits: {number}")
        if number not in of:
            raise Fault(f"{what}: there is no export of account {number}")
        role = role_of_set(of[number], it, what)
        if of[number].role(role["RoleName"]):
            raise Fault(f"{what}: the role {role['Arn']} comes twice")
        of[number].refuse_lacking(role)
        of[number].roles.append(role)
        lines.append(f"{what} is the role {role['Arn']}, whose name and trust policy are made up")
    return lines


def refuse_unknown_roles(accounts: List[Account], sessions: List[Session]) -> None:
    known = {it.get("Arn") for account in accounts for it in account.roles}
    for it in sessions:
        if it.role not in known:
            raise Fault(
                f"the export of account {account_of(it.role)} has no role {it.role}, of which a session is given"
            )
