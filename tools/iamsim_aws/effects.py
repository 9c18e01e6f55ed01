"""Changes of resources put into effect on what exports have: those of a plan of Terraform, or of templates of CloudFormation."""

import re
from typing import Any, Callable, Dict, List, NamedTuple, Optional, Tuple

from .arns import account_of, bucket_of, is_access_point, owner_of, resource_part, service_of
from .documents import Policy, statements_of
from .exports import Account, policy
from .faults import Fault
from .fitting import INLINE, drifted, holders, in_export, refuse_lacking, where_of
from .making import BUCKET, UNTOLD, Estate
from .naming import resource_policy
from .organizations import CONTROL, SERVICE
from .planned import Change, Values, Where, iam_arn
from .unknowns import Unknowns

QUEUE = re.compile(r"https://sqs\.((?!us-gov-)[a-z0-9-]+)\.amazonaws\.com/([0-9]{12})/([^/]+)")
# Resources of these providers have nothing of AWS.
OTHERS = ("random_", "null_", "time_", "tls_", "local_", "archive_", "http_", "terraform_")
# An access point of S3, whose policy may be a resource of its own.
POINT, POINT_POLICY = "aws_s3_access_point", "aws_s3control_access_point_policy"
# What trust policies name, of which only the ARN matters here.
PROVIDERS = ("aws_iam_openid_connect_provider", "aws_iam_saml_provider")
ROLE_LISTS = ("inline_policy", "managed_policy_arns")
Handle = Callable[["Apply", Change], None]


class Kind(NamedTuple):
    """How a kind of resources is put into effect: the attributes that are texts, the one that is a document, and lists; and
    whether it hangs on others, so that it goes before them and is left out where a part of it is not told."""

    handle: Handle
    texts: Tuple[str, ...] = ()
    document: str = ""
    lists: Tuple[str, ...] = ()
    is_link: bool = False


class Apply:
    """Puts changes into effect on an estate of its own; `first` is the estate before them."""

    def __init__(self, changes: List[Change], estate: Estate, account: Optional[str], unknowns: Unknowns):
        self.changes, self.first, self.estate = changes, estate, estate.copied()
        self.organization = estate.organization.copied()
        self.given, self.unknowns, self.word = account, unknowns, unknowns.word
        self.region = ""
        self.ignored: Dict[str, int] = {}
        self.notes: List[str] = []

    def wanted(self, change: Change) -> Optional[str]:
        """The account that a resource is of, as far as the plan or an option says it."""
        return account_of(str(change.values.get("arn") or "")) or change.account or self.given

    def found(self, change: Change, estate: Estate) -> Optional[Account]:
        wanted, accounts = self.wanted(change), estate.accounts
        return next((it for it in accounts if it.account == wanted or (wanted is None and len(accounts) == 1)), None)

    def account(self, change: Change, is_before: bool = False) -> Account:
        """The account that a resource is of, after the changes so far or as the export has it."""
        found = self.found(change, self.first if is_before else self.estate)
        if found is None:
            wanted = self.wanted(change)
            whose = f"its account {wanted}" if wanted else f"the account that the {self.word} does not name"
            raise Fault(f"{change.address}: no export is of {whose}: name the {self.word}'s account by --account")
        return found

    def where(self, change: Change) -> Where:
        """Where new ARNs are."""
        found = self.found(change, self.first)
        where = where_of(found) if found else Where(self.wanted(change) or "", self.first.accounts[0].partition)
        return where._replace(region=self.region)

    def run(self) -> Estate:
        """What goes goes first, before what it hangs on: so nothing of it is left, and nothing new gets it."""
        changes = [it for it in self.changes if it.is_changed()]
        give_points(self, changes)
        for change in changes:
            if change.kind in TARGETS:
                give_before(self, change)
        self.first = self.estate.copied()
        for change in (it for it in self.changes if it.before):
            self.notes += drifted(change, before_plan(self, change), self.word)
            if change.is_changed() and change.kind.startswith("aws_iam_") and change.kind in KINDS:
                refuse_lacking(change, self.account(change, True), self.word)
        read = {kind: [self.told(it) for it in changes if it.kind == kind] for kind in KINDS}
        told = {kind: [it for it in of if it is not None] for kind, of in read.items()}
        for kind in reversed(list(KINDS)):
            for change in told[kind]:
                if change.before and (change.after is None or change.is_replaced or KINDS[kind].is_link):
                    KINDS[kind].handle(self, change._replace(after=None))
        for kind, of in KINDS.items():
            for change in told[kind]:
                if change.after:
                    is_new = change.is_replaced or of.is_link
                    of.handle(self, change._replace(before=None) if is_new else change)
        for change in self.changes:
            is_read = change.kind in KINDS or change.kind in PROVIDERS
            if not is_read and change.before != change.after and not change.kind.startswith(OTHERS):
                self.ignored[change.kind] = self.ignored.get(change.kind, 0) + 1
        return self.estate._replace(organization=self.organization)

    def told(self, given: Change) -> Optional[Change]:
        """The change with what follows from others; None where it is left out, since only the apply tells what it is of."""
        return given


def put_into(items: List[Values], key: str, name: Any, made: Optional[Values]) -> None:
    """Puts an object of that name in a list in place of the one that is there, or takes it off."""
    for n, it in enumerate(items):
        if it.get(key) == name:
            items[n : n + 1] = [] if made is None else [made]
            return
    if made is not None:
        items.append(made)


def boundary_of(change: Change, made: Values) -> None:
    if "permissions_boundary" not in (change.after or {}):
        return
    arn = (change.after or {})["permissions_boundary"]
    made.pop("PermissionsBoundary", None)
    if arn:
        made["PermissionsBoundary"] = {"PermissionsBoundaryType": "Policy", "PermissionsBoundaryArn": arn}


def entity(apply: Apply, change: Change, kind: str, old: Optional[Values]) -> Values:
    """A user, group or role as an export has it, after the change."""
    after, made = change.after or {}, dict(old or {})
    made.update(Arn=iam_arn(kind, after, where_of(apply.account(change))), Path=after.get("path") or "/")
    made[f"{kind.capitalize()}Name"] = after.get("name")
    if after.get("unique_id"):
        made[f"{kind.capitalize()}Id"] = after["unique_id"]
    if "tags_all" in after or "tags" in after:
        tags = after.get("tags_all") or after.get("tags") or {}
        made["Tags"] = [{"Key": key, "Value": value} for key, value in tags.items()]
    return made


def old_name(change: Change) -> Any:
    return (change.before or change.after or {}).get("name")


def on_policy(apply: Apply, change: Change) -> None:
    account = apply.account(change)
    if change.after and change.after.get("policy") is None:
        return
    if change.before:
        account.policies.pop(iam_arn("policy", change.before, where_of(account)), None)
    if change.after:
        arn = iam_arn("policy", change.after, where_of(account))
        version = {"Document": change.after["policy"], "IsDefaultVersion": True, "VersionId": "v1"}
        account.policies[arn] = {"Arn": arn, "PolicyName": change.after.get("name"), "PolicyVersionList": [version]}


def on_group(apply: Apply, change: Change) -> None:
    account, name = apply.account(change), old_name(change)
    old = account.groups.pop(name, None)
    if change.after:
        new = change.after["name"]
        account.groups[new] = entity(apply, change, "group", old)
        for it in account.users if new != name else ():
            it["GroupList"] = [new if group == name else group for group in it.get("GroupList") or []]


def on_user(apply: Apply, change: Change) -> None:
    account = apply.account(change)
    made = None
    if change.after:
        made = entity(apply, change, "user", account.user(old_name(change)))
        boundary_of(change, made)
    put_into(account.users, "UserName", old_name(change), made)


def own_policies(change: Change, made: Values) -> None:
    """The policies that a role's own blocks give; where they do not change, others may have given it some besides."""
    before, after = change.before or {}, change.after or {}
    blocks, arns = after.get("inline_policy"), after.get("managed_policy_arns")
    if blocks is not None and blocks != before.get("inline_policy"):
        made["RolePolicyList"] = [
            {"PolicyName": it["name"], "PolicyDocument": policy(change.address, it.get("policy")).document}
            for it in blocks
            if it.get("name") and it.get("policy")
        ]
    if arns is not None and arns != before.get("managed_policy_arns"):
        made["AttachedManagedPolicies"] = [{"PolicyArn": it} for it in arns if it]


def on_role(apply: Apply, change: Change) -> None:
    account = apply.account(change)
    made = None
    if change.after:
        made = entity(apply, change, "role", account.role(old_name(change)))
        boundary_of(change, made)
        trust = change.after.get("assume_role_policy") or made.get("AssumeRolePolicyDocument")
        made.update({UNTOLD: True} if trust is None else {"AssumeRolePolicyDocument": trust})
        own_policies(change, made)
    put_into(account.roles, "RoleName", old_name(change), made)


def holder(apply: Apply, change: Change, kind: str, name: Any) -> Values:
    found = holders(apply.account(change), kind, name)
    if not found:
        raise Fault(f"{change.address}: neither the export nor the {apply.word} has the {kind} {name}")
    return found[0]


def on_inline(kind: str) -> Handle:
    def handle(apply: Apply, change: Change) -> None:
        before, after = change.before or {}, change.after or {}
        for it in holders(apply.account(change), kind, before.get(kind)):
            put_into(it.setdefault(INLINE[kind], []), "PolicyName", before.get("name"), None)
        if after.get(kind) and after.get("policy") is not None:
            made = {"PolicyName": after.get("name") or change.address, "PolicyDocument": after["policy"]}
            items = holder(apply, change, kind, after[kind]).setdefault(INLINE[kind], [])
            put_into(items, "PolicyName", made["PolicyName"], made)

    return handle


def attach(it: Values, arn: str, is_there: bool) -> None:
    items = it.setdefault("AttachedManagedPolicies", [])
    put_into(items, "PolicyArn", arn, {"PolicyArn": arn} if is_there else None)


def on_attachment(kind: str) -> Handle:
    def handle(apply: Apply, change: Change) -> None:
        before, after = change.before or {}, change.after or {}
        for it in holders(apply.account(change), kind, before.get(kind)):
            attach(it, str(before.get("policy_arn")), False)
        if after.get(kind) and after.get("policy_arn"):
            attach(holder(apply, change, kind, after[kind]), after["policy_arn"], True)

    return handle


def on_every_attachment(apply: Apply, change: Change) -> None:
    """aws_iam_policy_attachment: a policy and all that have it."""
    before, after = change.before or {}, change.after or {}
    for kind in INLINE:
        for name in before.get(f"{kind}s") or []:
            for it in holders(apply.account(change), kind, name):
                attach(it, str(before.get("policy_arn")), False)
        for name in after.get(f"{kind}s") or []:
            attach(holder(apply, change, kind, name), str(after.get("policy_arn")), True)


def only_inline(kind: str) -> Handle:
    """aws_iam_KIND_policies_exclusive: whatever else stands inline goes."""

    def handle(apply: Apply, change: Change) -> None:
        if change.after:
            it = holder(apply, change, kind, change.after.get(f"{kind}_name"))
            kept = change.after.get("policy_names") or []
            it[INLINE[kind]] = [one for one in it.get(INLINE[kind]) or [] if one.get("PolicyName") in kept]

    return handle


def only_attached(kind: str) -> Handle:
    """aws_iam_KIND_policy_attachments_exclusive: these are attached, and nothing else."""

    def handle(apply: Apply, change: Change) -> None:
        if change.after:
            it = holder(apply, change, kind, change.after.get(f"{kind}_name"))
            it["AttachedManagedPolicies"] = [{"PolicyArn": one} for one in change.after.get("policy_arns") or [] if one]

    return handle


def exclusive(kind: str, handle: Handle, name: str) -> Kind:
    return Kind(handle, (f"{kind}_name",), lists=(name,), is_link=True)


def join(it: Values, group: Any, is_there: bool) -> None:
    rest = [name for name in it.get("GroupList") or [] if name != group]
    it["GroupList"] = [*rest, group] if is_there else rest


def memberships(values: Optional[Values], kind: str) -> List[Tuple[Any, Any]]:
    """(user, group) of each membership of a resource."""
    given = values or {}
    if kind == "aws_iam_group_membership":
        return [(user, given.get("group")) for user in given.get("users") or []]
    return [(given.get("user"), group) for group in given.get("groups") or []]


def on_membership(apply: Apply, change: Change) -> None:
    for user, group in memberships(change.before, change.kind):
        for it in holders(apply.account(change), "user", user):
            join(it, group, False)
    for user, group in memberships(change.after, change.kind):
        join(holder(apply, change, "user", user), group, True)


def is_meant(arn: str, target: str, kind: str) -> bool:
    """Whether a resource is the one of an ARN, of its bucket, or of the id, name or URL by which a plan names it."""
    bucket, part = bucket_of(arn), resource_part(arn)
    if bucket:
        return target in (arn, bucket) or bucket_of(target) == bucket and "/" not in target
    if is_access_point(arn):
        return target in (arn, owner_of(arn))
    queue = target.split("://")[-1].split("/")
    is_queue = "://" in target and len(queue) == 3 and arn.endswith(f":{queue[1]}:{queue[2]}")
    service, before = REGIONAL.get(kind, (service_of(arn), ""))
    return arn == target or is_queue or service_of(arn) == service and part in (f"{before}{target}", f"key/{target}")


def on_resource(apply: Apply, change: Change) -> None:
    """A resource's policy, for the resource that an attribute names. Where the resource itself has none, another may give it."""
    target = TARGETS[change.kind]
    before, after = change.before or {}, change.after or {}
    old, name = before.get(target), after.get(target)
    for it in apply.estate.further if old and not change.after and before.get("policy", True) else ():
        if is_meant(it["arn"], str(old), change.kind):
            it.pop("policy", None)
    for it in meant(apply, change, name) if name and (after.get("policy") or change.kind == POINT) else ():
        if after.get("policy"):
            it["policy"] = policy(resource_policy(it["arn"]), after["policy"])
        if change.kind == POINT and isinstance(after.get(BUCKET), str):
            it[BUCKET] = after[BUCKET]


def statement_of(values: Values, arn: str) -> Values:
    """What aws_lambda_permission allows."""
    who = str(values.get("principal"))
    equal = {"aws:SourceAccount": values.get("source_account"), "aws:PrincipalOrgID": values.get("principal_org_id")}
    equal["lambda:FunctionUrlAuthType"] = values.get("function_url_auth_type")
    equal["lambda:EventSourceToken"] = values.get("event_source_token")
    like = {"aws:SourceArn": values.get("source_arn")}
    some = (("StringEquals", equal), ("ArnLike", like))
    given = ((name, {key: it for key, it in of.items() if it}) for name, of in some)
    made = {"Sid": values.get("statement_id"), "Effect": "Allow", "Action": values.get("action"), "Resource": arn}
    made["Principal"] = who if who == "*" else {"Service" if who.endswith(SERVICES) else "AWS": who}
    made["Condition"] = {name: of for name, of in given if of}
    return {key: value for key, value in made.items() if value}


def on_permission(apply: Apply, change: Change) -> None:
    """aws_lambda_permission: a statement of a function's policy."""
    values = change.values
    for it in meant(apply, change, str(values.get("function_name"))):
        old = it["policy"].document if "policy" in it else None
        kept = [one for one in statements_of(old) if one.get("Sid") != values.get("statement_id")]
        if change.after is None and len(kept) == len(statements_of(old)) and "policy" in it:
            why = f"the policy of {it['arn']} has no statement {values.get('statement_id')}"
            apply.notes.append(f"{change.address}: {why}: taking it off is taken to change nothing")
        kept += [statement_of(values, it["arn"])] if change.after else []
        it.pop("policy", None)
        if kept:
            it["policy"] = Policy(resource_policy(it["arn"]), {"Version": "2012-10-17", "Statement": kept})


def permission_set_roles(apply: Apply, change: Change) -> List[Values]:
    """The roles that IAM Identity Center makes of a permission set, whose name another resource of the plan tells."""
    arn = change.values.get("permission_set_arn")
    sets = [it.values for it in apply.changes if it.kind == "aws_ssoadmin_permission_set"]
    begins = tuple(f"AWSReservedSSO_{it.get('name')}_" for it in sets if arn and arn == it.get("arn"))
    if not begins:
        apply.unknowns.lacks(f"{change.address}.permission_set_arn")
    every = [it for account in apply.estate.accounts for it in account.roles]
    return [it for it in every if str(it.get("RoleName")).startswith(begins)]


def on_set_policy(apply: Apply, change: Change) -> None:
    """aws_ssoadmin_permission_set_inline_policy."""
    made = {"PolicyName": SSO_INLINE, "PolicyDocument": change.values.get("inline_policy")} if change.after else None
    for it in permission_set_roles(apply, change):
        put_into(it.setdefault("RolePolicyList", []), "PolicyName", SSO_INLINE, made)


def on_set_attachment(apply: Apply, change: Change) -> None:
    """aws_ssoadmin_managed_policy_attachment."""
    for it in permission_set_roles(apply, change):
        attach(it, str(change.values.get("managed_policy_arn")), change.after is not None)


def arn_of(apply: Apply, change: Change, name: str) -> Optional[str]:
    """The ARN of a resource that a plan names; None where the name does not tell it, as a key's id."""
    if name.startswith("arn:"):
        return name
    where, region = apply.where(change), change.values.get("region") or apply.region
    if change.kind in ("aws_s3_bucket", "aws_s3_bucket_policy"):
        return f"arn:{where.partition}:s3:::{name}"
    if change.kind in REGIONAL and where.account and region:
        service, before = REGIONAL[change.kind]
        return f"arn:{where.partition}:{service}:{region}:{where.account}:{before}{name}"
    queue = QUEUE.fullmatch(name)
    return f"arn:{where.partition}:sqs:{queue[1]}:{queue[2]}:{queue[3]}" if queue else None


def meant(apply: Apply, change: Change, name: str) -> List[Values]:
    """The resources of that name; where none is known, a new one."""
    found = [it for it in apply.estate.further if is_meant(it["arn"], name, change.kind)]
    if found:
        return found
    arn = arn_of(apply, change, name)
    if arn is None and change.kind in REGIONAL:
        is_open = apply.word == "template" and not (change.values.get("region") or apply.region)
        apply.unknowns.lacks(f"{change.address} (its ARN: AWS::Region)" if is_open else f"{change.address}.arn")
        return []
    if arn is None:
        raise Fault(f"{change.address}: no resource of --resources is {name}")
    made: Values = {"arn": arn, "account": account_of(arn) or apply.account(change).account}
    apply.estate.further.append({**made, **({"sealed": True} if change.kind.startswith("aws_kms") else {})})
    return apply.estate.further[-1:]


def give_points(apply: Apply, changes: List[Change]) -> None:
    """Gives the access points that are there before the plan their buckets; those that change have to be there."""
    changed = {it.values.get(TARGETS[it.kind]) for it in changes if it.kind in (POINT, POINT_POLICY)}
    for change in (it for it in apply.changes if it.kind == POINT and it.before):
        arn, bucket = ((change.before or {}).get(name) for name in (TARGETS[POINT], BUCKET))
        if arn in changed:
            meant(apply, change._replace(after=None), str(arn))
        for it in apply.estate.further if isinstance(bucket, str) else ():
            if is_meant(it["arn"], str(arn), POINT):
                it.setdefault(BUCKET, bucket)


def give_before(apply: Apply, change: Change) -> None:
    """Gives resources whose policy is not known the one that the plan has from before it."""
    before, after = change.before or {}, change.after or {}
    name, given = before.get(TARGETS[change.kind]), before.get("policy")
    if not name or any("policy" in it for it in apply.estate.further if is_meant(it["arn"], name, change.kind)):
        return
    if given:
        for it in meant(apply, change._replace(after=None), name):
            it["policy"] = policy(resource_policy(it["arn"]), policy(f"{change.address}.policy", given).document)
    elif given is None and after.get("policy"):
        apply.notes.append(
            f"{change.address}: neither the {apply.word} nor --resources has its policy before the {apply.word}: it is taken to have none"
        )


def before_plan(apply: Apply, change: Change) -> Dict[str, Any]:
    """The attributes of a resource that are there before the plan, by the names that it gives them."""
    before = change.before or {}
    name = before.get(TARGETS[change.kind]) if change.kind in TARGETS else None
    if name:
        some = apply.first.further if before.get("policy") is not None else []
        own = [it for it in some if is_meant(it["arn"], name, change.kind) and "policy" in it]
        return {"policy": it["policy"].document for it in own}
    account = apply.found(change, apply.first)
    return in_export(change, account) if account else {}


def of_access(apply: Apply, change: Change, kind: Optional[str]) -> bool:
    """Whether a policy of the organisation decides on access, and not on tags or backups: then --organization has to be there."""
    if (kind or SERVICE) not in (SERVICE, CONTROL):
        return False
    if not apply.organization.is_there:
        raise Fault(
            f"{change.address}: the {apply.word} changes policies of the organisation: give it by --organization"
        )
    return True


def on_organization_policy(apply: Apply, change: Change) -> None:
    policies, values = apply.organization.policies, change.after or change.before or {}
    own = (change.before or {}).get("id")
    if of_access(apply, change, values.get("type")) and change.before and own not in policies:
        apply.notes.append(
            f"{change.address}: the organization has no policy {own}: it is taken to bind nobody who is asked"
        )
    if change.after is None:
        policies.pop(str(own), None)
        return
    name, content = values.get("id") or change.address, change.after.get("content")
    summary = {
        "Id": name,
        "Arn": values.get("arn") or name,
        "Name": values.get("name"),
        "Type": values.get("type") or SERVICE,
    }
    if content is not None:
        policies[name] = {"PolicySummary": summary, "Content": content}


def detach(apply: Apply, change: Change, name: Any, target: Any) -> None:
    """Takes a policy off a target; where the organization does not have it there, that is a fault or is told."""
    items = apply.organization.targets.get(target)
    if items is not None and any(it.get("Id") == name for it in items):
        items[:] = [it for it in items if it.get("Id") != name]
    elif items is not None and name in apply.organization.policies:
        raise Fault(
            f"{change.address}: the {apply.word} takes the policy {name} off {target}, to which the organization does not attach it: they do not match"
        )
    else:
        apply.notes.append(
            f"{change.address}: the organization does not have the policy {name} at {target}: taking it off is taken to change nothing"
        )


def on_organization_attachment(apply: Apply, change: Change) -> None:
    policies, values = apply.organization.policies, change.values
    name, target = values.get("policy_id"), values.get("target_id")
    summary = policies.get(str(name), {}).get("PolicySummary", {})
    if not of_access(apply, change, summary.get("Type")):
        return
    if change.after is None:
        detach(apply, change, name, target)
    elif name not in policies:
        raise Fault(f"{change.address}: neither the organization nor the {apply.word} has the policy {name}")
    else:
        kind = summary.get("Type") or SERVICE
        apply.organization.targets.setdefault(str(target), []).append({"Id": name, "Type": kind})


# The attribute that names whose policy it is, of each kind of resource with a policy.
TARGETS = {
    "aws_s3_bucket": "bucket",
    "aws_s3_bucket_policy": "bucket",
    POINT: "arn",
    POINT_POLICY: "access_point_arn",
    "aws_kms_key": "arn",
    "aws_kms_key_policy": "key_id",
    "aws_sqs_queue": "arn",
    "aws_sqs_queue_policy": "queue_url",
    "aws_sns_topic": "arn",
    "aws_sns_topic_policy": "arn",
    "aws_secretsmanager_secret": "arn",
    "aws_secretsmanager_secret_policy": "secret_arn",
    "aws_ecr_repository_policy": "repository",
    "aws_efs_file_system_policy": "file_system_id",
}
# Whose ARN follows from a name or id, the region and the account: the service, and what stands before the name.
REGIONAL = {
    "aws_ecr_repository_policy": ("ecr", "repository/"),
    "aws_efs_file_system_policy": ("elasticfilesystem", "file-system/"),
    "aws_lambda_permission": ("lambda", "function:"),
    POINT: ("s3", "accesspoint/"),
    "aws_sqs_queue": ("sqs", ""),
    "aws_sns_topic": ("sns", ""),
}
# The name of the inline policy of a permission set.
SSO_INLINE = "AwsSSOInlinePolicy"
# What services are named by in a policy.
SERVICES = (".amazonaws.com", ".amazonaws.com.cn")
MEMBERS = tuple(f"{it}s" for it in INLINE)

# What is done of each kind of resource, in an order in which each finds what it stands on.
KINDS: Dict[str, Kind] = {
    "aws_iam_policy": Kind(on_policy, document="policy"),
    "aws_iam_group": Kind(on_group),
    "aws_iam_user": Kind(on_user, ("permissions_boundary",)),
    "aws_iam_role": Kind(on_role, ("permissions_boundary",), "assume_role_policy", ROLE_LISTS),
    **{f"aws_iam_{it}_policy": Kind(on_inline(it), (it,), "policy", is_link=True) for it in INLINE},
    **{f"aws_iam_{it}_policy_attachment": Kind(on_attachment(it), (it, "policy_arn"), is_link=True) for it in INLINE},
    "aws_iam_policy_attachment": Kind(on_every_attachment, ("policy_arn",), lists=MEMBERS, is_link=True),
    "aws_iam_group_membership": Kind(on_membership, ("group",), lists=("users",), is_link=True),
    "aws_iam_user_group_membership": Kind(on_membership, ("user",), lists=("groups",), is_link=True),
    **{f"aws_iam_{it}_policies_exclusive": exclusive(it, only_inline(it), "policy_names") for it in INLINE},
    **{f"aws_iam_{it}_policy_attachments_exclusive": exclusive(it, only_attached(it), "policy_arns") for it in INLINE},
    **{kind: Kind(on_resource, (target,), "policy", is_link=True) for kind, target in TARGETS.items()},
    "aws_lambda_permission": Kind(
        on_permission, ("function_name", "action", "principal", "source_arn", "source_account"), is_link=True
    ),
    "aws_ssoadmin_permission_set_inline_policy": Kind(
        on_set_policy, ("permission_set_arn",), "inline_policy", is_link=True
    ),
    "aws_ssoadmin_managed_policy_attachment": Kind(
        on_set_attachment, ("permission_set_arn", "managed_policy_arn"), is_link=True
    ),
    "aws_organizations_policy": Kind(on_organization_policy, document="content"),
    "aws_organizations_policy_attachment": Kind(on_organization_attachment, ("policy_id", "target_id"), is_link=True),
}
