"""Drafts of policies in place of those of a world."""

from typing import Any, Dict, List, NamedTuple, Optional, Set, Tuple

from . import files
from .arns import account_of, bucket_of, owner_of, resource_part, service_of
from .documents import TAGS, Policy, World, mapped, places
from .exports import Account, document, may_set_tags
from .faults import Fault
from .keys import TAG, context_of
from .making import Estate
from .naming import called, organization_policy, resource_policy, trust_policy
from .patterns import near


class Draft(NamedTuple):
    """A policy's document, for the policy that is so called."""

    name: str
    document: Any


def read_draft(text: str) -> Draft:
    """A draft of an argument NAME=FILE."""
    name, equals, path = text.rpartition("=")
    if not equals or not name or not path:
        raise Fault(f"--put {text}: it takes POLICY-NAME=FILE")
    return Draft(name, document(files.read_json(path), files.name_of(path)))


def is_resource(it: Dict[str, Any], name: str) -> bool:
    """Whether the resource's policy is called so: by its ARN, its bucket or its last part. A role's policy is a trust
    policy, where it has one."""
    arn, owner = it["arn"], owner_of(it["arn"])
    if service_of(arn) == "iam" and "policy" not in it:
        return False
    part = resource_part(owner)
    return name in {arn, resource_policy(arn), owner, part, part.split("/")[-1]}


def name_of(resource: Dict[str, Any]) -> str:
    return resource["policy"].name if "policy" in resource else resource_policy(resource["arn"])


def meant_by(world: World, draft: Draft, aliases: Dict[str, str], estate: Optional[Estate]) -> str:
    """The name of the one policy that a draft is of; nothing where nobody has it."""
    others = estate.organization.policies.values() if estate else ()
    found = {name_of(it) for it in world["resources"] if is_resource(it, draft.name)}
    found |= {it.policy.name for it in places(world) if draft.name in called(it.policy.name)}
    found |= {name for name, alias in aliases.items() if alias == draft.name}
    found |= {organization_policy(it["PolicySummary"]) for it in others if draft.name in names_of_organization(it)}
    if len(found) > 1 and draft.name not in found:
        raise Fault(f"--put {draft.name}: several policies are called so, name one of them: {', '.join(sorted(found))}")
    return draft.name if draft.name in found else "".join(found)


def resolved(world: World, drafts: List[Draft], aliases: Dict[str, str], estate: Optional[Estate]) -> List[Draft]:
    """The drafts by the whole names of their policies, which are the same in each world."""
    names = [meant_by(world, it, aliases, estate) for it in drafts]
    refuse_strangers(world, drafts, names, estate)
    seen: Dict[str, str] = {}
    for name, draft in zip(names, drafts):
        if (name or draft.name) in seen:
            raise Fault(f"--put {seen[name or draft.name]} and --put {draft.name}: both are drafts of one policy")
        seen[name or draft.name] = draft.name
    return [Draft(name, it.document) for name, it in zip(names, drafts) if name]


def put(world: World, drafts: List[Draft]) -> World:
    """The world with the drafts of policies that it has, by their whole names."""
    documents = {it.name: it.document for it in drafts}

    def own(it: Dict[str, Any]) -> Dict[str, Any]:
        name = name_of(it)
        is_new = "policy" not in it and name in documents and is_resource(it, name)
        return {**it, "policy": Policy(name, documents[name])} if is_new else it

    people = [with_tags(it, documents) for it in world["principals"]]
    made = {**world, "principals": people, "resources": [own(it) for it in world["resources"]]}
    return mapped(made, lambda _kind, _path, it: Policy(it.name, documents.get(it.name, it.document)))


def with_tags(principal: Dict[str, Any], documents: Dict[str, Any]) -> Dict[str, Any]:
    """A principal whose sessions may set tags, or no longer may, by the draft of its role's trust policy."""
    name = trust_policy(principal["role"]) if TAGS in principal and "role" in principal else ""
    if name not in documents:
        return principal
    is_free = may_set_tags({"Arn": principal["role"], "AssumeRolePolicyDocument": documents[name]})
    absent = {key for key, it in context_of(principal).items() if is_free and it == [] and key.lower().startswith(TAG)}
    known = {key: it for key, it in context_of(principal).items() if key not in absent}
    return {**principal, "context": known, TAGS: not is_free}


def is_managed(name: str) -> bool:
    return service_of(name) == "iam" and resource_part(name).startswith("policy/")


class Attachment(NamedTuple):
    """A policy that somebody is given who does not have it: an inline one, or a managed one by its ARN."""

    name: str
    document: Any
    principal: str


def read_attachment(text: str) -> Attachment:
    """Of an argument NAME=FILE@PRINCIPAL."""
    name, equals, rest = text.partition("=")
    path, at, principal = rest.partition("@")
    if not (equals and at and name and path and principal):
        raise Fault(f"--attach {text}: it takes POLICY-NAME=FILE@PRINCIPAL")
    return Attachment(name, document(files.read_json(path), files.name_of(path)), principal)


def with_attachments(estate: Estate, some: List[Attachment]) -> Estate:
    """The estate in which users, groups and roles have those policies besides."""
    made = estate.copied() if some else estate
    for it in some:
        account, holder, inline = holder_of(made, it)
        arn = str(holder["Arn"])
        if any(it.name == one.get("PolicyName") for one in holder.get(inline) or []):
            raise Fault(f"--attach {it.name}: {arn} has a policy of that name: --put gives a draft of it")
        if is_managed(it.name):
            version = {"Document": it.document, "IsDefaultVersion": True}
            account.policies[it.name] = {"Arn": it.name, "PolicyVersionList": [version]}
            holder.setdefault("AttachedManagedPolicies", []).append({"PolicyArn": it.name})
        else:
            holder.setdefault(inline, []).append({"PolicyName": it.name, "PolicyDocument": it.document})
    return made


def holder_of(estate: Estate, it: Attachment) -> Tuple[Account, Dict[str, Any], str]:
    """The one user, group or role of that name, with its account and the list of its inline policies."""
    found = []
    for account in estate.accounts:
        every = [(one, "UserPolicyList") for one in account.users] + [(one, "RolePolicyList") for one in account.roles]
        for holder, inline in [*every, *((one, "GroupPolicyList") for one in account.groups.values())]:
            part = resource_part(str(holder.get("Arn")))
            if it.principal in (holder.get("Arn"), part, part.split("/")[-1]):
                found.append((account, holder, inline))
    if len(found) != 1:
        names = ", ".join(str(one["Arn"]) for _, one, _ in found)
        several = f"several are called {it.principal}, name one of them: {names}"
        raise Fault(f"--attach {it.name}: {several if found else f'no user, group or role is called {it.principal}'}")
    return found[0]


def with_drafts(estate: Estate, drafts: List[Draft]) -> Estate:
    """The estate with the drafts of the organisation's policies, and with the managed policies that drafts name by their ARN
    and the exports do not hold, as one of AWS's that a plan attaches."""
    made = estate._replace(organization=estate.organization.copied())
    new = [it for it in drafts if is_managed(it.name) and not any(it.name in of.policies for of in estate.accounts)]
    made = made.copied() if new else made
    for draft in new:
        version = {"Document": draft.document, "IsDefaultVersion": True}
        for it in made.accounts:
            if account_of(draft.name) in ("aws", it.account):
                it.policies[draft.name] = {"Arn": draft.name, "PolicyVersionList": [version]}
    for draft in drafts:
        for own in made.organization.policies.values():
            if draft.name in names_of_organization(own):
                own["Content"] = draft.document
    return made


def names_of_organization(it: Dict[str, Any]) -> Set[str]:
    """What a policy of the organisation may be called."""
    summary = it["PolicySummary"]
    return called(organization_policy(summary)) | {str(summary["Id"]), str(summary.get("Name"))}


def refuse_strangers(world: World, drafts: List[Draft], names: List[str], estate: Optional[Estate]) -> None:
    """Each draft has to be of a policy that somebody has; one of the organisation may bind what the world does not name."""
    bound: Set[str] = {it.policy.name for it in places(world)} | {name_of(it) for it in world["resources"]}
    managed: Set[str] = set()
    unbound: Set[str] = set()
    if estate:
        managed = {name for it in estate.accounts for arn in it.policies for name in called(arn)}
        attached = {it.get("Id") for of in estate.organization.targets.values() for it in of}
        for key, it in estate.organization.policies.items():
            (bound if key in attached else unbound).add(organization_policy(it["PolicySummary"]))
    for draft, name in zip(drafts, names):
        if name not in bound:
            if draft.name in managed or name in unbound:
                hint = "" if name in unbound else ": --attach NAME=FILE@PRINCIPAL gives it to somebody"
                raise Fault(f"--put {draft.name}: nobody has this policy, so the draft changes nothing{hint}")
            hint = near(draft.name, short_names(world))
            raise Fault(f"--put {draft.name}: no policy and no resource is called so{hint}")


def short_names(world: World) -> Set[str]:
    """What policies and resources may be called in short."""
    resources = {bucket_of(it["arn"]) or it["arn"] for it in world["resources"]}
    return resources | {min(called(it.policy.name), key=len) for it in places(world) if it.kind != "resource"}
