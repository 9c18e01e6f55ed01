"""How resources of a template are called: by their own name, by the stack's, or by one that is made up."""

from typing import Any, Dict, List, NamedTuple, Optional, Tuple

from .arns import resource_part
from .exports import Account
from .functions import NOTHING, Functions, Scope
from .planned import Values
from .templates import Stack
from .unknowns import Unknowns
from .yamls import Unclear

MADE_UP = "madeup"


class Naming(NamedTuple):
    """The property with the name of a resource of some type, its ARN, what its Ref and physical id is (name, arn or url), and
    the attributes that are its ARN and its name."""

    own: str
    arn: str
    refers: str = "name"
    arns: Tuple[str, ...] = ("Arn",)
    names: Tuple[str, ...] = ()


def regional(own: str, service: str, before: str = "", **more: Any) -> Naming:
    return Naming(own, f"arn:{{partition}}:{service}:{{region}}:{{account}}:{before}{{name}}", **more)


def of_iam(own: str, kind: str, **more: Any) -> Naming:
    return Naming(own, f"arn:{{partition}}:iam::{{account}}:{kind}{{path}}{{name}}", **more)


ENTITIES = {
    "AWS::IAM::Role": ("role", of_iam("RoleName", "role")),
    "AWS::IAM::User": ("user", of_iam("UserName", "user")),
    "AWS::IAM::Group": ("group", of_iam("GroupName", "group")),
    "AWS::IAM::ManagedPolicy": ("policy", of_iam("ManagedPolicyName", "policy", refers="arn", arns=("PolicyArn",))),
}
FUNCTION = regional("FunctionName", "lambda", "function:")
MACHINE = {"service": "states", "before": "stateMachine:", "refers": "arn"}
NAMINGS: Dict[str, Naming] = {
    **{kind: naming for kind, (_, naming) in ENTITIES.items()},
    "AWS::IAM::InstanceProfile": of_iam("InstanceProfileName", "instance-profile"),
    "AWS::S3::Bucket": Naming("BucketName", "arn:{partition}:s3:::{name}"),
    "AWS::S3::AccessPoint": regional("Name", "s3", "accesspoint/", names=("Name",)),
    "AWS::SQS::Queue": regional("QueueName", "sqs", refers="url", names=("QueueName",)),
    "AWS::SNS::Topic": regional("TopicName", "sns", refers="arn", arns=("TopicArn",), names=("TopicName",)),
    "AWS::KMS::Key": regional("", "kms", "key/", names=("KeyId",)),
    "AWS::KMS::ReplicaKey": regional("", "kms", "key/", names=("KeyId",)),
    "AWS::SecretsManager::Secret": regional("Name", "secretsmanager", "secret:", refers="arn", arns=("Id",)),
    "AWS::Lambda::Function": FUNCTION,
    "AWS::Serverless::Function": FUNCTION,
    "AWS::DynamoDB::Table": regional("TableName", "dynamodb", "table/"),
    "AWS::DynamoDB::GlobalTable": regional("TableName", "dynamodb", "table/"),
    "AWS::Serverless::SimpleTable": regional("TableName", "dynamodb", "table/"),
    "AWS::ECR::Repository": regional("RepositoryName", "ecr", "repository/"),
    "AWS::EFS::FileSystem": regional("", "elasticfilesystem", "file-system/", names=("FileSystemId",)),
    "AWS::Logs::LogGroup": Naming("LogGroupName", "arn:{partition}:logs:{region}:{account}:log-group:{name}:*"),
    "AWS::StepFunctions::StateMachine": regional("StateMachineName", names=("Name",), **MACHINE),
    "AWS::Serverless::StateMachine": regional("Name", names=("Name",), **MACHINE),
    "AWS::Kinesis::Stream": regional("Name", "kinesis", "stream/"),
    "AWS::KinesisFirehose::DeliveryStream": regional("DeliveryStreamName", "firehose", "deliverystream/"),
    "AWS::Events::EventBus": regional("Name", "events", "event-bus/", names=("Name",)),
    "AWS::SSM::Parameter": regional("Name", "ssm", "parameter/", arns=()),
    "AWS::Organizations::Policy": Naming("", "", arns=(), names=("Id",)),
}
# What SAM makes of its own types, which a stack has.
OF_SAM = {
    "AWS::Serverless::Function": "AWS::Lambda::Function",
    "AWS::Serverless::StateMachine": "AWS::StepFunctions::StateMachine",
    "AWS::Serverless::SimpleTable": "AWS::DynamoDB::Table",
}
# What is made anew where its path changes.
PATHS = ("AWS::IAM::Role", "AWS::IAM::ManagedPolicy")
LOWER = ("AWS::S3::Bucket", "AWS::ECR::Repository")


class Names:
    """The names of a template's resources; of the one that is deployed (`is_before`) those that the stack has."""

    def __init__(self, functions: Functions, stack: Stack, account: Account, secrets: List[str], is_before: bool):
        self.functions, self.stack, self.account, self.secrets = functions, stack, account, secrets
        self.is_before = is_before
        self.found: Dict[str, Any] = {}
        self.made_up: Dict[str, str] = {}
        # Those that are asked for while a name is found: one that hangs on itself has none.
        self.open: List[str] = []
        functions.resource = self.resource

    @property
    def scope(self) -> Scope:
        return self.functions.scope

    def kind(self, logical: str) -> str:
        return str(self.functions.template.resources[logical].get("Type"))

    def properties(self, logical: str) -> Values:
        """The properties of a resource as they are written, in the branches that conditions choose."""
        given = self.functions.template.resources[logical].get("Properties", {})
        if not isinstance(given, dict):
            raise self.functions.fault(f"the Properties of {logical} are no object")
        made = {name: self.functions.bare(it) for name, it in given.items()}
        return {name: it for name, it in made.items() if it is not NOTHING}

    def text(self, logical: str, name: str) -> Any:
        """A property as a text, Unclear, or None where it is not given."""
        given = self.properties(logical)
        return self.functions.text(f"{logical}.{name}", self.functions.value(given[name])) if name in given else None

    def old(self, logical: str) -> Optional[str]:
        """The physical id of a resource that the stack has, of the same type."""
        kind, own = (self.stack.physical or {}).get(logical, ("", ""))
        mine = self.kind(logical)
        return own if own and kind in (mine, OF_SAM.get(mine)) else None

    def name(self, logical: str) -> Any:
        """The name of a resource, or Unclear."""
        if logical not in self.found:
            if logical in self.open:
                raise self.functions.fault(f"the name of {logical} hangs on itself")
            self.open.append(logical)
            self.found[logical] = self.named(logical)
            self.open.pop()
        return self.found[logical]

    def named(self, logical: str) -> Any:
        naming, kind, old = NAMINGS[self.kind(logical)], self.kind(logical), self.old(logical)
        given = self.text(logical, naming.own) if naming.own else None
        if given is not None and (old is None or not self.is_before):
            return given
        if old is not None and (self.is_before or not self.is_moved(logical)):
            return plain_name(kind, old)
        if old is None and self.stack.physical is None and self.stack.template is not None:
            if logical in self.stack.template.resources:
                return Unclear(f"the name of {logical}, which describe-stack-resources tells")
        whose = self.scope.stack or self.functions.template.names()[2]
        made = f"{whose}-{logical}-{MADE_UP}" if naming.own else f"{MADE_UP}-{logical}"
        self.made_up[logical] = made.lower() if kind in LOWER else made
        return self.made_up[logical]

    def is_moved(self, logical: str) -> bool:
        """Whether a resource of the export gets another path, and so is made anew."""
        own = self.of_export(logical)
        return self.kind(logical) in PATHS and own is not None and own.get("Path", "/") != self.path(logical)

    def of_export(self, logical: str) -> Optional[Values]:
        """What the export has by the physical id of a resource."""
        old, kind = self.old(logical), self.kind(logical)
        if old is None or kind not in ENTITIES:
            return None
        return entity_of(self.account, ENTITIES[kind][0], plain_name(kind, old), old)

    def path(self, logical: str) -> Any:
        found = self.text(logical, "Path")
        return "/" if found is None else found

    def arn(self, logical: str) -> Any:
        """The ARN of a resource, or Unclear."""
        kind, name = self.kind(logical), self.name(logical)
        naming = NAMINGS[kind]
        path = self.path(logical) if kind.startswith("AWS::IAM::") else ""
        if isinstance(name, Unclear) or isinstance(path, Unclear):
            return name if isinstance(name, Unclear) else path
        old = self.old(logical)
        is_old = self.is_before or plain_name(kind, old or "") == name and not self.is_moved(logical)
        if old is not None and naming.refers == "arn" and is_old:
            return old
        for it in ("account", "region"):
            if f"{{{it}}}" in naming.arn and not getattr(self.scope, it):
                return Unclear(self.scope.pseudo("AWS::Region" if it == "region" else "AWS::AccountId").why)
        of = {**self.scope._asdict(), "path": path, "name": name}
        made = naming.arn.format_map(of)
        return self.secret(logical, made) if kind == "AWS::SecretsManager::Secret" else made

    def secret(self, logical: str, begin: str) -> str:
        """The ARN of a secret ends with a hyphen and six characters that AWS makes up."""
        known = [it for it in self.secrets if it.startswith(f"{begin}-") and len(it) == len(begin) + 7]
        if len(known) == 1:
            return known[0]
        self.made_up.setdefault(logical, f"{begin}-{MADE_UP}")
        return f"{begin}-{MADE_UP}"

    def reference(self, logical: str) -> Any:
        """What Ref gives of a resource."""
        kind = self.kind(logical)
        if kind not in NAMINGS:
            return self.old(logical) or Unclear(f"Ref {logical}")
        refers = NAMINGS[kind].refers
        if refers == "arn":
            return self.arn(logical)
        name = self.name(logical)
        if refers == "name" or isinstance(name, Unclear):
            return name
        if not self.scope.region or not self.scope.account:
            return Unclear("AWS::Region" if not self.scope.region else "AWS::AccountId")
        suffix = self.scope.pseudo("AWS::URLSuffix")
        return f"https://sqs.{self.scope.region}.{suffix}/{self.scope.account}/{name}"

    def resource(self, logical: str, attribute: Optional[str]) -> Any:
        """What Ref (no attribute) or Fn::GetAtt gives."""
        it, naming = self.functions.template.resources[logical], NAMINGS.get(self.kind(logical))
        if "Condition" in it and self.functions.condition(it["Condition"]) is False:
            raise self.functions.fault(f"it refers to {logical}, whose condition is not met")
        if attribute is None:
            return self.reference(logical)
        if naming and attribute in naming.arns:
            return self.arn(logical)
        if naming and attribute in naming.names:
            return self.name(logical)
        if self.kind(logical) == "AWS::SQS::Queue" and attribute == "QueueUrl":
            return self.reference(logical)
        own = self.of_export(logical) or {}
        if attribute == "RoleId" and own.get("RoleName") == self.name(logical) and own.get("RoleId"):
            return own["RoleId"]
        return Unclear(f"Fn::GetAtt {logical}.{attribute}")

    def tell(self, unknowns: Unknowns) -> None:
        for logical, name in self.made_up.items():
            unknowns.notes.append(
                f"{unknowns.path}: {logical} has no name of its own: it is called {name} here, which is made up"
            )


def plain_name(kind: str, physical: str) -> str:
    """The name of a resource by its physical id."""
    refers = NAMINGS[kind].refers
    if refers == "url":
        return physical.split("/")[-1]
    if refers != "arn":
        return physical
    part = resource_part(physical)
    if kind == "AWS::SecretsManager::Secret":
        return part.split(":", 1)[-1][:-7]
    return part.split("/")[-1] if kind.startswith("AWS::IAM::") else part.split(":")[-1]


def entity_of(account: Account, kind: str, name: Any, arn: str = "") -> Optional[Values]:
    """The user, group, role or managed policy of that name, or ARN, that the export has."""
    if kind == "policy":
        own = [it for key, it in account.policies.items() if key == arn]
        return own[0] if own else None
    return {"user": account.user, "role": account.role, "group": account.groups.get}[kind](name)  # type: ignore[operator]
