"""What each resource of a template gives: users, groups, roles, policies, and who has them."""

from typing import Any, Callable, Dict, List, Optional, Tuple

from .exports import Account, document
from .functions import Functions, kind_of, text_of
from .partial import known_document, unclear_in
from .planned import Values
from .sam import ByName
from .standins import Names
from .unknowns import Unknowns
from .yamls import Unclear

Key = Tuple[str, ...]
# What may change resources that the template does not show.
NESTED = {
    "AWS::CloudFormation::Stack": "a nested stack",
    "AWS::Serverless::Application": "a nested stack",
    "AWS::CloudFormation::StackSet": "stacks of its own",
    "AWS::ServiceCatalog::CloudFormationProvisionedProduct": "a nested stack",
    "AWS::Serverless::Connector": "a connector of SAM",
}


class Pieces:
    """What the resources of a template give, each by its resource, its kind and what it is of; None where it is left out,
    since only the apply tells it. Of `unsure` kinds a resource may give more."""

    def __init__(self, names: Names, unknowns: Unknowns, account: Account):
        self.names, self.unknowns, self.account = names, unknowns, account
        self.found: Dict[str, Dict[Key, Optional[Values]]] = {}
        self.unsure: Dict[str, List[str]] = {}
        # Resources of which not even this is known, whether they are.
        self.doubted: List[str] = []
        self.unread: Dict[str, str] = {}
        # Resources that a condition leaves out.
        self.without: List[str] = []
        self.logical = ""

    @property
    def functions(self) -> Functions:
        return self.names.functions

    def run(self) -> None:
        for logical, it in self.functions.template.resources.items():
            self.logical = self.functions.place = logical
            if self.is_there(it):
                self.read(str(it.get("Type")))
        self.functions.place = ""

    def is_there(self, it: Values) -> bool:
        """Whether a resource is made, as far as its condition tells."""
        if self.logical.startswith("Fn::"):
            self.doubt(self.logical)
            return False
        if not isinstance(it.get("Type"), str):
            raise self.functions.fault("Type is no text")
        met = self.functions.condition(it["Condition"]) if "Condition" in it else True
        if isinstance(met, Unclear):
            self.doubt(f"its Condition {it['Condition']}: {met.why}")
        elif not met:
            self.without.append(self.logical)
        return met is True

    def doubt(self, why: str) -> None:
        self.doubted.append(self.logical)
        self.unknowns.lacks(f"{self.logical} ({why})")

    def read(self, kind: str) -> None:
        why = NESTED.get(kind) or ("a module" if kind.endswith("::MODULE") else None)
        if why:
            self.doubt(why)
        elif any(it.startswith("Fn::") for it in self.names.properties(self.logical)):
            self.doubt("Properties by a function")
        elif kind in READ:
            self.found.setdefault(self.logical, {})
            READ[kind](self, self.names.properties(self.logical))
        else:
            self.unread[self.logical] = kind

    def give(self, kind: str, key: Key, values: Optional[Values]) -> None:
        self.found[self.logical][(kind, *key)] = values

    def give_document(self, kind: str, key: Key, values: Values, name: str, made: Any) -> None:
        """A piece with a document: without one it is left out, and of what is deployed known all the same."""
        whole = {**values, name: made} if made is not None else None
        self.give(kind, key, values if whole is None and self.names.is_before else whole)

    def lacks(self, kind: str, place: str, why: Unclear) -> None:
        """Nobody knows of what a piece is: there may be more of its kind."""
        self.unsure.setdefault(self.logical, []).append(kind)
        self.unknowns.lacks(f"{self.logical}.{place} ({why.why})")

    def place(self, place: str) -> str:
        return f"{self.logical}.{place}"

    # --- properties ---------------------------------------------------------------------------------------------------

    def text(self, kind: str, name: str, is_wanted: bool = True) -> Optional[str]:
        """A property that is a text; None where it is not given or not known."""
        return self.one_text(kind, name, self.names.text(self.logical, name), is_wanted)

    def one_text(self, kind: str, name: str, found: Any, is_wanted: bool = True) -> Optional[str]:
        if isinstance(found, Unclear):
            self.lacks(kind, name, found)
            return None
        text = text_of(found)
        if text is None and (found is not None or is_wanted):
            raise self.functions.fault(f"{name} is {'missing' if found is None else kind_of(found) + ', and no text'}")
        return text

    def texts(self, kind: str, given: Values, name: str) -> List[str]:
        """A property that is a list of texts; without those that nobody knows."""
        found = self.functions.value(given[name]) if name in given else []
        if isinstance(found, Unclear):
            self.lacks(kind, name, found)
            return []
        if not isinstance(found, list):
            found = [found]
        texts = [self.one_text(kind, f"{name}.{n}", it) for n, it in enumerate(found)]
        return [it for it in texts if it is not None]

    def objects(self, kind: str, given: Values, name: str) -> List[Values]:
        """A property that is a list of objects, each as it is written; a function that gives one is followed."""
        found = given.get(name, [])
        if isinstance(found, dict):
            found = self.functions.value(found)
        if isinstance(found, Unclear):
            self.lacks(kind, name, found)
            return []
        made = []
        for n, it in enumerate(found if isinstance(found, list) else [None]):
            one = self.functions.value(it) if isinstance(it, dict) else it
            if isinstance(one, Unclear):
                self.lacks(kind, f"{name}.{n}", one)
            elif isinstance(one, dict):
                made.append(one)
            elif it is None or text_of(one) is not None or isinstance(one, list):
                raise self.functions.fault(f"{name} is no list of objects")
        return made

    def document(self, place: str, given: Any) -> Any:
        """A document as far as it is known; None where it is not."""
        value = self.functions.value(given)
        if isinstance(value, str):
            value = document(value, f"{self.unknowns.path}: {self.place(place)}")
        if isinstance(value, Unclear):
            self.unknowns.lacks(f"{self.place(place)} ({value.why})")
            return None
        if not isinstance(value, dict):
            raise self.functions.fault(f"{place} is {kind_of(value)}, and no object")
        return known_document(self.unknowns, self.place(place), value)

    def one(self, attribute: str, found: Any) -> Optional[str]:
        """A name or an ARN that follows from the resource."""
        if isinstance(found, Unclear):
            self.doubt(found.why if attribute in found.why else f"its {attribute}: {found.why}")
            return None
        return str(found)

    # --- kinds of resources --------------------------------------------------------------------------------------------

    def entity(self, kind: str, given: Values) -> Optional[str]:
        """A user, group, role or managed policy: its name, None where nobody knows it."""
        name, arn = self.names.name(self.logical), self.names.arn(self.logical)
        if self.one("name", name) is None or self.one("ARN", arn) is None:
            return None
        made: Values = {"name": name, "path": self.names.path(self.logical), "arn": arn}
        if kind in ("user", "role"):
            boundary = self.names.text(self.logical, "PermissionsBoundary")
            if isinstance(boundary, Unclear):
                self.unknowns.lacks(f"{self.place('PermissionsBoundary')} ({boundary.why})")
            else:
                made["permissions_boundary"] = boundary
            tags = self.tags(given)
            if tags is not None:
                made["tags"] = tags
        self.give(f"aws_iam_{kind}", (), made)
        return str(name)

    def tags(self, given: Values) -> Optional[Dict[str, str]]:
        """The tags; None where not all are known."""
        made: Dict[str, str] = {}
        found = self.functions.value(given.get("Tags", []))
        why = unclear_in(found)
        if why:
            self.unknowns.lacks(f"{self.place('Tags')} ({why.why})")
            return None
        if not isinstance(found, list) or not all(isinstance(it, dict) for it in found):
            raise self.functions.fault("Tags is no list of objects")
        for it in found:
            key, value = text_of(it.get("Key")), text_of(it.get("Value"))
            if key is None or value is None:
                raise self.functions.fault("a tag has no text as its Key and Value")
            made[key] = value
        return made

    def inline(self, kind: str, holder: str, place: str, name: Any, given: Any) -> None:
        """An inline policy of a user, group or role."""
        own = self.one_text(f"aws_iam_{kind}_policy", f"{place}PolicyName", name)
        if own is None:
            return
        made = self.document(f"{place}PolicyDocument", given)
        self.give_document(f"aws_iam_{kind}_policy", (holder, own), {kind: holder, "name": own}, "policy", made)

    def attached(self, kind: str, holder: str, arn: str) -> None:
        self.give(f"aws_iam_{kind}_policy_attachment", (holder, arn), {kind: holder, "policy_arn": arn})

    def own_policies(self, kind: str, holder: str, given: Values) -> None:
        """The properties Policies and ManagedPolicyArns."""
        for n, it in enumerate(self.objects(f"aws_iam_{kind}_policy", given, "Policies")):
            if "PolicyDocument" not in it:
                raise self.functions.fault(f"Policies.{n} has no PolicyDocument")
            self.inline(kind, holder, f"Policies.{n}.", it.get("PolicyName"), it["PolicyDocument"])
        arns = given.get("ManagedPolicyArns", [])
        if isinstance(arns, list):
            arns = [by_name(self.account, it) if isinstance(it, ByName) else it for it in arns]
        for arn in self.texts(f"aws_iam_{kind}_policy_attachment", {"ManagedPolicyArns": arns}, "ManagedPolicyArns"):
            self.attached(kind, holder, arn)

    def resource(self, kind: str, target: str, name: Optional[str], place: str, given: Values, **more: Any) -> None:
        """A resource's policy."""
        if name is None:
            return
        made = self.document(place, given[place]) if place in given else None
        if place not in given:
            raise self.functions.fault(f"{place} is missing")
        self.give_document(kind, (name,), {target: name, **more}, "policy", made)


def by_name(account: Account, name: str) -> Any:
    """The ARN of AWS's managed policy of that name that the export has."""
    own = [it for it in account.policies if ":aws:policy/" in it and it.split("/")[-1] == name]
    return own[0] if len(own) == 1 else Unclear(f"the policy {name}, which the export does not hold")


# --- what is read of each type ---------------------------------------------------------------------------------------


def with_document(it: Pieces, kind: str, given: Values, member: str, named: str) -> Optional[str]:
    """A role or managed policy with the document that it has to have: its name, None where nobody knows it."""
    name = it.entity(kind, given)
    if member not in given:
        raise it.functions.fault(f"{member} is missing")
    if name is not None:
        made, values = it.document(member, given[member]), it.found[it.logical][(f"aws_iam_{kind}",)]
        if made is not None and values is not None:
            values[named] = made
    return name


def role(it: Pieces, given: Values) -> None:
    name = with_document(it, "role", given, "AssumeRolePolicyDocument", "assume_role_policy")
    if name is not None:
        it.own_policies("role", name, given)


def user(it: Pieces, given: Values) -> None:
    name = it.entity("user", given)
    if name is not None:
        it.own_policies("user", name, given)
        for group in it.texts(MEMBERSHIP, given, "Groups"):
            member(it, name, group)


MEMBERSHIP = "aws_iam_user_group_membership"


def member(it: Pieces, name: str, group: str) -> None:
    it.give(MEMBERSHIP, (name, group), {"user": name, "groups": [group]})


def group(it: Pieces, given: Values) -> None:
    name = it.entity("group", given)
    if name is not None:
        it.own_policies("group", name, given)


HOLDERS = (("user", "Users"), ("group", "Groups"), ("role", "Roles"))


def managed(it: Pieces, given: Values) -> None:
    if with_document(it, "policy", given, "PolicyDocument", "policy") is None:
        return
    for kind, of in HOLDERS:
        for holder in it.texts(f"aws_iam_{kind}_policy_attachment", given, of):
            it.attached(kind, holder, str(it.names.arn(it.logical)))


def inline(it: Pieces, given: Values) -> None:
    """AWS::IAM::Policy: one inline policy of several."""
    if "PolicyDocument" not in given:
        raise it.functions.fault("PolicyDocument is missing")
    name = it.names.text(it.logical, "PolicyName")
    for kind, of in HOLDERS:
        for holder in it.texts(f"aws_iam_{kind}_policy", given, of):
            it.inline(kind, holder, "", name, given["PolicyDocument"])


def inline_of(kind: str, property_name: str) -> Callable[[Pieces, Values], None]:
    def read(it: Pieces, given: Values) -> None:
        holder = it.text(f"aws_iam_{kind}_policy", property_name)
        if holder is not None and "PolicyDocument" in given:
            it.inline(kind, holder, "", it.names.text(it.logical, "PolicyName"), given["PolicyDocument"])

    return read


def addition(it: Pieces, given: Values) -> None:
    own = it.text(MEMBERSHIP, "GroupName")
    for name in it.texts(MEMBERSHIP, given, "Users") if own is not None else ():
        member(it, name, str(own))


def own_policy(kind: str, target: str, place: str, by: str = "arn") -> Callable[[Pieces, Values], None]:
    """A resource's policy that is a property of it; without it AWS gives one, or it has none."""

    def read(it: Pieces, given: Values) -> None:
        if place in given:
            found = it.names.arn(it.logical) if by == "arn" else it.names.name(it.logical)
            own = it.one("ARN" if by == "arn" else "name", found)
            # An access point of S3 has its bucket's name.
            bucket = it.names.text(it.logical, "Bucket")
            more = {"bucket": bucket} if isinstance(bucket, str) else {}
            it.resource(kind, target, own, place, given, region=it.names.scope.region, **more)

    return read


def policy_of(kind: str, target: str, place: str, property_name: str) -> Callable[[Pieces, Values], None]:
    """A resource that is the policy of another, or of several."""

    def read(it: Pieces, given: Values) -> None:
        if property_name not in given:
            raise it.functions.fault(f"{property_name} is missing")
        for name in it.texts(kind, given, property_name):
            it.resource(kind, target, name, place, given)

    return read


PERMISSION = {"Action": "action", "Principal": "principal"}
MAYBE = {"SourceArn": "source_arn", "SourceAccount": "source_account", "PrincipalOrgID": "principal_org_id"}
MAYBE.update(FunctionUrlAuthType="function_url_auth_type", EventSourceToken="event_source_token")


def permission(it: Pieces, given: Values) -> None:
    kind, scope = "aws_lambda_permission", it.names.scope
    function = it.text(kind, "FunctionName")
    made = {own: it.text(kind, name) for name, own in PERMISSION.items()}
    made.update({own: it.text(kind, name, False) for name, own in MAYBE.items()})
    if function is None or kind in it.unsure.get(it.logical, ()):
        return
    if not function.startswith("arn:") and ":" in function:
        function = f"arn:{scope.partition}:lambda:{scope.region}:{function}"
    sid = (it.names.old(it.logical) or it.logical).split("|")[-1]
    made.update(function_name=function, statement_id=sid, region=scope.region)
    it.give(kind, (function,), {name: one for name, one in made.items() if one})


def permission_set(it: Pieces, given: Values) -> None:
    old, name = it.names.old(it.logical), it.text("aws_ssoadmin_permission_set", "Name")
    arn = old.split("|")[-1] if old else f"arn:{it.names.scope.partition}:sso:::permissionSet/{it.logical}"
    for of in ("CustomerManagedPolicyReferences", "PermissionsBoundary"):
        if of in given:
            it.unknowns.lacks(f"{it.place(of)} (it is not read)")
    if name is None:
        return
    it.give("aws_ssoadmin_permission_set", (), {"name": name, "arn": arn})
    if "InlinePolicy" in given:
        made = it.document("InlinePolicy", given["InlinePolicy"])
        kind = "aws_ssoadmin_permission_set_inline_policy"
        it.give_document(kind, (arn,), {"permission_set_arn": arn}, "inline_policy", made)
    kind = "aws_ssoadmin_managed_policy_attachment"
    for one in it.texts(kind, given, "ManagedPolicies"):
        it.give(kind, (arn, one), {"permission_set_arn": arn, "managed_policy_arn": one})


def organization_policy(it: Pieces, given: Values) -> None:
    kind = "aws_organizations_policy"
    own = it.names.old(it.logical) or it.logical
    name, of = it.text(kind, "Name"), it.text(kind, "Type")
    if "Content" not in given:
        raise it.functions.fault("Content is missing")
    made = it.document("Content", given["Content"])
    it.give_document(kind, (), {"id": own, "name": name, "type": of}, "content", made)
    for target in it.texts(f"{kind}_attachment", given, "TargetIds"):
        it.give(f"{kind}_attachment", (own, target), {"policy_id": own, "target_id": target})


READ: Dict[str, Callable[[Pieces, Values], None]] = {
    "AWS::IAM::ManagedPolicy": managed,
    "AWS::IAM::Group": group,
    "AWS::IAM::User": user,
    "AWS::IAM::Role": role,
    "AWS::IAM::Policy": inline,
    "AWS::IAM::UserPolicy": inline_of("user", "UserName"),
    "AWS::IAM::GroupPolicy": inline_of("group", "GroupName"),
    "AWS::IAM::RolePolicy": inline_of("role", "RoleName"),
    "AWS::IAM::UserToGroupAddition": addition,
    "AWS::S3::BucketPolicy": policy_of("aws_s3_bucket_policy", "bucket", "PolicyDocument", "Bucket"),
    "AWS::S3::AccessPoint": own_policy("aws_s3_access_point", "arn", "Policy"),
    "AWS::KMS::Key": own_policy("aws_kms_key", "arn", "KeyPolicy"),
    "AWS::KMS::ReplicaKey": own_policy("aws_kms_key", "arn", "KeyPolicy"),
    "AWS::SQS::QueuePolicy": policy_of("aws_sqs_queue_policy", "queue_url", "PolicyDocument", "Queues"),
    "AWS::SQS::QueueInlinePolicy": policy_of("aws_sqs_queue_policy", "queue_url", "PolicyDocument", "Queue"),
    "AWS::SNS::TopicPolicy": policy_of("aws_sns_topic_policy", "arn", "PolicyDocument", "Topics"),
    "AWS::SNS::TopicInlinePolicy": policy_of("aws_sns_topic_policy", "arn", "PolicyDocument", "TopicArn"),
    "AWS::SecretsManager::ResourcePolicy": policy_of(
        "aws_secretsmanager_secret_policy", "secret_arn", "ResourcePolicy", "SecretId"
    ),
    "AWS::ECR::Repository": own_policy("aws_ecr_repository_policy", "repository", "RepositoryPolicyText", "name"),
    "AWS::EFS::FileSystem": own_policy("aws_efs_file_system_policy", "file_system_id", "FileSystemPolicy", "name"),
    "AWS::Lambda::Permission": permission,
    "AWS::SSO::PermissionSet": permission_set,
    "AWS::Organizations::Policy": organization_policy,
}
