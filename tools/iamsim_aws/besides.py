"""What the state before has besides what a template gives: only the template that is deployed tells whether it goes."""

from typing import Dict, Iterator, List, Set, Tuple

from .exports import Account
from .fitting import ATTACHED, INLINE
from .making import Estate
from .pieces import MEMBERSHIP, Key
from .planned import Values

Holder = Tuple[str, Values]


def everybody(account: Account) -> Iterator[Holder]:
    yield from (("user", it) for it in account.users)
    yield from (("group", it) for it in account.groups.values())
    yield from (("role", it) for it in account.roles)


def name_of(kind: str, it: Values) -> str:
    return str(it.get(f"{kind.capitalize()}Name"))


def objects_in(it: Values, member: str) -> List[Values]:
    found = it.get(member)
    return [one for one in found if isinstance(one, dict)] if isinstance(found, list) else []


def groups_of(it: Values) -> List[str]:
    found = it.get("GroupList")
    return [str(one) for one in found] if isinstance(found, list) else []


def links_of(kind: str, it: Values) -> Iterator[Tuple[Key, str]]:
    """The policies and groups that a user, group or role of the export has, each as a piece and in words."""
    own, (attached, arn) = name_of(kind, it), ATTACHED
    for one in objects_in(it, INLINE[kind]):
        name = str(one.get("PolicyName"))
        yield (f"aws_iam_{kind}_policy", own, name), f"the inline policy {name}"
    for one in objects_in(it, attached):
        yield (f"aws_iam_{kind}_policy_attachment", own, str(one.get(arn))), str(one.get(arn))
    for name in groups_of(it):
        yield (MEMBERSHIP, own, name), f"the group {name}"


def of_entity(kind: str, it: Values, made: Values, given: Set[Key]) -> Iterator[Tuple[str, str]]:
    """(property, words) of what a user, group or role has besides."""
    arn = str(it.get("Arn"))
    places = {"policy": "Policies", "attachment": "ManagedPolicyArns", "membership": "Groups"}
    for key, words in links_of(kind, it):
        if key not in given:
            yield places[key[0].split("_")[-1]], f"whether {arn} keeps {words}, which the template does not give"
    boundary = it.get("PermissionsBoundary")
    if isinstance(boundary, dict) and made.get("permissions_boundary", "?") is None:
        own = boundary.get("PermissionsBoundaryArn")
        yield "PermissionsBoundary", f"whether {arn} keeps the boundary {own}, which the template does not give"
    for one in objects_in(it, "Tags"):
        tag = str(one.get("Key"))
        if "tags" in made and tag not in made["tags"] and not tag.startswith("aws:"):
            yield "Tags", f"whether {arn} keeps the tag {tag}, which the template does not give"


def of_policy(account: Account, arn: str, given: Set[Key]) -> Iterator[Tuple[str, str]]:
    """(property, words) of who has a managed policy besides."""
    for kind, it in everybody(account):
        key = (f"aws_iam_{kind}_policy_attachment", name_of(kind, it), arn)
        if key not in given and any(key == one for one, _ in links_of(kind, it)):
            yield f"{kind.capitalize()}s", f"whether {it.get('Arn')} keeps it, which the template does not give"


def of_links(account: Account, keys: List[Key], given: Set[Key]) -> Iterator[str]:
    """Why nobody knows what a resource of policies or memberships gave before: what it gives is not there, or is there of
    others too."""
    there = {key: str(it.get("Arn")) for kind, it in everybody(account) for key, _ in links_of(kind, it)}
    for key in keys:
        if key not in there:
            yield f"what it gave before, since {key[1]} does not have {key[2]}"
        for other, arn in there.items():
            same_name = other[2] == key[2] and other[0].split("_")[-1] == key[0].split("_")[-1]
            if same_name and other not in given:
                yield f"whether {arn} keeps {other[2]}, which the template does not give"


def of_organization(estate: Estate, own: str, given: Set[Key]) -> Iterator[str]:
    for target, items in estate.organization.targets.items():
        if (
            any(it.get("Id") == own for it in items)
            and ("aws_organizations_policy_attachment", own, target) not in given
        ):
            yield f"whether {target} keeps it, which the template does not give"


def of_set(account: Account, name: str, given: Set[str]) -> Iterator[str]:
    """Of the roles that IAM Identity Center has made of a permission set."""
    for it in account.roles:
        if str(it.get("RoleName")).startswith(f"AWSReservedSSO_{name}_"):
            for key, words in links_of("role", it):
                if key[2] not in given:
                    yield f"whether {it.get('Arn')} keeps {words}, which the template does not give"


def leaving(account: Account, kind: str, before: Values) -> Iterator[Tuple[str, Values]]:
    """(kind, values) of what goes with a group or a managed policy: memberships and attachments."""
    for holder, it in everybody(account):
        own = name_of(holder, it)
        if kind == "aws_iam_group" and before["name"] in groups_of(it):
            yield MEMBERSHIP, {"user": own, "groups": [before["name"]]}
        arns = [one.get("PolicyArn") for one in objects_in(it, "AttachedManagedPolicies")]
        if kind == "aws_iam_policy" and before.get("arn") in arns:
            yield f"aws_iam_{holder}_policy_attachment", {holder: own, "policy_arn": before["arn"]}


def merged(it: Values, before: Dict[str, str], after: Dict[str, str]) -> Dict[str, str]:
    """The tags of the export with what a template changes of them."""
    there = {str(one.get("Key")): one.get("Value") for one in objects_in(it, "Tags")}
    kept = {key: str(value) for key, value in there.items() if key not in before or key in after}
    return {**kept, **after}
