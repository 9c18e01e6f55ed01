"""Worlds of exports, the organisation and further resources; docs/AWS.md says what becomes what."""

from typing import Any, Dict, List, NamedTuple, Optional

from . import files
from .arns import (
    account_of, in_bucket, is_access_point, keys_of_point, names_of_principal, names_of_resource, owner_of,
    principal_arn, principal_text, resource_part, service_of,
)
from .documents import THROUGH, World
from .exports import ACCOUNT, Account, is_service_linked, policy, role_of, tags, text, user_of
from .faults import Fault
from .keys import with_own_keys
from .speaking import owned, owners
from .naming import control_policy, resource_policy, trust_policy
from .organizations import Organization
from .patterns import any_matches, matcher
from .sessions import Session


# What a role has whose trust policy nobody knows yet: it is asked for as a principal alone.
UNTOLD = "AssumeRolePolicyUntold"
# The role under which a further resource runs, and the bucket of an access point: no world has them.
RUNS_AS, BUCKET = "runsAs", "bucket"


class Estate(NamedTuple):
    """What worlds are made of."""

    accounts: List[Account]
    further: List[Dict[str, Any]]
    organization: Organization
    context: Optional[Dict[str, Any]]
    session: str
    moment: int
    sessions: List[Session] = []

    def copied(self) -> "Estate":
        return self._replace(accounts=[it.copied() for it in self.accounts], further=[dict(it) for it in self.further])


def read_resources(paths: List[str]) -> List[Dict[str, Any]]:
    """The further resources of files, each with its policy's document."""
    found = []
    for path in paths:
        what, given = files.name_of(path), files.read_json(path)
        if not isinstance(given, list):
            raise Fault(f"{what}: it is no list of resources")
        found += [further(it, f"{what}: resource {n}") for n, it in enumerate(given)]
    refuse_doubles([it["arn"] for it in found])
    return with_buckets(found)


def with_buckets(given: List[Dict[str, Any]]) -> List[Dict[str, Any]]:
    """An object without a policy has that of its bucket or access point, where this is given."""
    policies = {it["arn"]: it["policy"] for it in given if "policy" in it}

    def own(it: Dict[str, Any]) -> Dict[str, Any]:
        owner = owner_of(it["arn"])
        return {**it, "policy": policies[owner]} if "policy" not in it and owner in policies else it

    return [own(it) for it in given]


def further(it: Any, what: str) -> Dict[str, Any]:
    if not isinstance(it, dict):
        raise Fault(f"{what} is no object")
    arn, account = text(it, "arn", what), text(it, "account", what)
    if not ACCOUNT.fullmatch(account):
        raise Fault(f"{what} ({arn}): account is no account of twelve digits: {account}")
    made = dict(it)
    if not isinstance(made.get(RUNS_AS, ""), str):
        raise Fault(f"{what} ({arn}): {RUNS_AS} is no ARN of a role")
    if BUCKET in made and not (isinstance(made[BUCKET], str) and is_access_point(arn)):
        raise Fault(f"{what} ({arn}): {BUCKET} is no name of a bucket, or it is no access point")
    if made.get("policy") is None:
        made.pop("policy", None)
    else:
        made["policy"] = policy(resource_policy(arn), made["policy"])
    if "control" in made:
        made["control"] = control_levels(made["control"], arn, what)
    return made


def control_levels(given: Any, arn: str, what: str) -> List[List[Any]]:
    if not isinstance(given, list) or not all(isinstance(it, list) for it in given):
        raise Fault(f"{what} ({arn}): control is no list of levels, each a list of policies")
    return [[policy(control_policy(arn), it) for it in level] for level in given]


def warnings(resources: List[Dict[str, Any]]) -> List[str]:
    """What is likely a slip in further resources."""
    found = []
    for it in resources:
        arn, of = it["arn"], account_of(it["arn"])
        if ("*" in arn or "?" in arn) and arn != "*":
            found.append(f"{arn}: a resource is one text and no pattern: this one is named {arn}, wildcards and all")
        if of and of != it["account"]:
            found.append(f"{arn}: its ARN names the account {of}, and its account is {it['account']}")
        is_key = service_of(arn) == "kms" and resource_part(arn).startswith("key/")
        is_role = service_of(arn) == "iam" and resource_part(arn).startswith("role/")
        if (is_key or is_role) and "policy" in it and it.get("sealed") is not True:
            kind = "a KMS key's policy" if is_key else "a role's trust policy"
            found.append(f'{arn}: "sealed" is missing, and {kind} must grant in the same account too')
    return found


def has_service(actions: List[str], service: str) -> bool:
    return any(it.lower().startswith(f"{service}:") for it in actions)


def roles_as_resources(estate: Estate, account: Account, actions: List[str]) -> List[Dict[str, Any]]:
    """A role is a resource with its trust policy for sts, and without one for iam: never for both at once."""
    is_assumed = has_service(actions, "sts")
    if is_assumed and has_service(actions, "iam"):
        raise Fault("a trust policy decides on sts: actions and on no iam: action: make a world of each")
    if not is_assumed and not has_service(actions, "iam"):
        return []
    made = []
    for it in (one for one in account.roles if not one.get(UNTOLD)):
        arn = text(it, "Arn", f"account {account.account}")
        context = {**tags(it, "aws:ResourceTag/"), **tags(it, "iam:ResourceTag/")}
        one: Dict[str, Any] = {"arn": arn, "account": account.account, "context": context}
        if is_assumed:
            one.update(sealed=True, policy=policy(trust_policy(arn), it.get("AssumeRolePolicyDocument")))
            one.update(estate.organization.control(account.account, "sts"))
        made.append(one)
    return made


def keep_context(holder: Dict[str, Any], given: Optional[Dict[str, Any]]) -> Dict[str, Any]:
    """Keys that are given for all requests stand for those that follow from the exports."""
    taken = {it.lower() for it in given or {}}
    context = {key: value for key, value in holder.get("context", {}).items() if key.lower() not in taken}
    made = {key: value for key, value in holder.items() if key != "context"}
    return {**made, "context": context} if context else made


def is_chosen(patterns: List[str], names: List[str]) -> bool:
    return not patterns or any_matches(patterns, names)


def principals_of(estate: Estate, patterns: List[str]) -> List[Dict[str, Any]]:
    made = []
    for account in estate.accounts:
        what = f"account {account.account}"
        users = [it for it in account.users if is_chosen(patterns, names_of_principal({"user": text(it, "Arn", what)}))]
        roles = [
            it
            for it in account.roles
            if is_chosen(patterns, names_of_principal({"role": text(it, "Arn", what), "session": estate.session}))
            and not is_service_linked(it)
        ]
        found = [user_of(account, it) for it in users] + [role_of(account, it, estate.session) for it in roles]
        found += named_sessions(estate, account, patterns)
        made += [in_organization(estate, account.account, it) for it in found]
    refuse_doubles([principal_arn(it) for it in made if not it.get("sessionPolicies")])
    refuse_doubles([principal_text(it) for it in made if "role" in it])
    return made


def in_organization(estate: Estate, account: str, principal: Dict[str, Any]) -> Dict[str, Any]:
    """A principal of an account with what follows from the organisation's file, or from all requests."""
    keys, foreign = estate.organization.keys(account, "Principal"), estate.organization.foreign(account)
    made: Dict[str, Any] = {**principal, **foreign, "context": {**principal.get("context", {}), **keys}}
    return keep_context(made, estate.context)


def named_sessions(estate: Estate, account: Account, patterns: List[str]) -> List[Dict[str, Any]]:
    """The sessions of an account's roles that have session policies."""
    roles, found = {it.get("Arn"): it for it in account.roles}, []
    for it in estate.sessions:
        if it.role in roles and is_chosen(patterns, names_of_principal({"role": it.role, "session": it.name})):
            found.append({**role_of(account, roles[it.role], it.name), "sessionPolicies": it.policies})
    return found


def refuse_doubles(names: List[str], fold: bool = False) -> None:
    seen = set()
    for it in names:
        own = it.lower() if fold else it
        if own in seen:
            raise Fault(f"{it} comes twice")
        seen.add(own)


def resources_of(estate: Estate, actions: List[str], patterns: List[str]) -> List[Dict[str, Any]]:
    roles = [it for account in estate.accounts for it in roles_as_resources(estate, account, actions)]
    others = [{name: one for name, one in it.items() if name not in (RUNS_AS, BUCKET)} for it in estate.further]
    found = [with_keys(estate, it) for it in roles] + [bound(estate, it) for it in others]
    return [it for it in found if is_chosen(patterns, names_of_resource(it["arn"]))]


def with_keys(estate: Estate, resource: Dict[str, Any]) -> Dict[str, Any]:
    keys, own = estate.organization.keys(resource["account"], "Resource"), resource.get("context", {})
    made = {**resource, "context": {**keys, **own}} if isinstance(own, dict) else resource
    return keep_context(made, estate.context)


def bound(estate: Estate, resource: Dict[str, Any]) -> Dict[str, Any]:
    """A resource with the resource control policies and the keys of its account."""
    control = estate.organization.control(resource["account"], service_of(resource["arn"]))
    made = with_keys(estate, resource if "control" in resource else {**resource, **control})
    return by_point(estate, made) if is_access_point(resource["arn"]) else made


def by_point(estate: Estate, resource: Dict[str, Any]) -> Dict[str, Any]:
    """An access point, or an object by it, with the keys of such requests and what it is in its bucket, where that is given; a
    draft may have changed the policy of what has it already."""
    arn = resource["arn"]
    made = with_keys(estate, {**resource, "context": {**keys_of_point(arn), **resource.get("context", {})}})
    if THROUGH in made:
        return made
    own = [it[BUCKET] for it in estate.further if owner_of(it["arn"]) == owner_of(arn) and it.get(BUCKET)]
    inside = in_bucket(arn, own[0]) if own else ""
    of = owners(estate.further).get(owner_of(inside))
    return {**made, THROUGH: bound(estate, owned({owner_of(inside): of}, inside, ""))} if of else made


def world_of(
    estate: Estate, actions: List[str], principals: Optional[List[str]] = None, resources: Optional[List[str]] = None
) -> World:
    """The world of the principals and resources that patterns choose; without patterns of all."""
    some, of = principals_of(estate, principals or []), resources_of(estate, actions, resources or [])
    ids = {account_of(principal_arn(it)) for it in some} | {it["account"] for it in of}
    accounts = [estate.organization.account(it) for it in sorted(ids)]
    context = {} if estate.context is None else {"context": estate.context}
    axes = {"accounts": accounts, "principals": some, "actions": actions, "resources": of}
    return with_own_keys({"moment": estate.moment, **context, **axes})


def outside(estate: Estate) -> List[str]:
    """A line for each account that the organisation does not have."""
    if not estate.organization.is_there:
        return []
    accounts = {it.account for it in estate.accounts} | {it["account"] for it in estate.further}
    return [
        f"account {it} is not in the organization: none of its policies bind it"
        for it in sorted(accounts)
        if not estate.organization.is_member(it)
    ]


def unmatched(world: World, principals: List[str], resources: List[str]) -> List[str]:
    """A line for each pattern of a choice that matches nothing."""
    some = [names_of_principal(it) for it in world["principals"]]
    of = [names_of_resource(it["arn"]) for it in world["resources"]]
    return [
        f"the pattern {pattern} matches no {what}"
        for what, patterns, every in (("principal", principals, some), ("resource", resources, of))
        for pattern in patterns
        if not any(matcher(pattern)(name) for names in every for name in names)
    ]


def refuse_empty(world: World) -> None:
    """A world without requests answers nothing."""
    hints = {"principals": "see --principal", "actions": "see --actions", "resources": "see --resources and --resource"}
    for axis, hint in hints.items():
        if not world[axis]:
            raise Fault(f"the world has no {axis}, so its matrix has no cells: {hint}")
