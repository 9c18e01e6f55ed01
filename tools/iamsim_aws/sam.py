"""What SAM makes of functions and state machines: the roles that it gives them, as resources of CloudFormation."""

from typing import Any, Dict, List, Optional, Tuple

from .faults import Fault
from .templates import SAM, Objects, Template
from .yamls import Unclear

LAMBDA, STATES = "AWS::Serverless::Function", "AWS::Serverless::StateMachine"
SERVICES = {LAMBDA: "lambda.amazonaws.com", STATES: "states.amazonaws.com"}
# Managed policies that SAM gives a function's role for what the function has: by a property, or by the type of an event.
EXECUTION = "service-role/AWSLambda{}ExecutionRole"
BY_PROPERTY = {"VpcConfig": "VPCAccess"}
BY_EVENT = {"SQS": "SQSQueue", "Kinesis": "Kinesis", "DynamoDB": "DynamoDB"}
# Events that give the role nothing.
PLAIN_EVENTS = [
    "Api",
    "HttpApi",
    "S3",
    "SNS",
    "Schedule",
    "CloudWatchEvent",
    "EventBridgeRule",
    "CloudWatchLogs",
    "IoTRule",
]
PLAIN_EVENTS += ["AlexaSkill", "Cognito"]
# What a role has of its function.
ATTRIBUTES = ("Condition", "DeletionPolicy", "UpdateReplacePolicy")
# What a function's URL lets in everybody by, and the events by which SAM makes a role of its own.
PUBLIC, OWN_ROLE = "{}UrlPublicPermissions", ("ScheduleV2",)
# What may give the role more, in a way that is not followed here.
FURTHER = ("Tracing", "DeadLetterQueue", "EventInvokeConfig")


def expanded(template: Template) -> Template:
    """The template with the roles that SAM makes."""
    if SAM not in template.transforms():
        return template
    made: Objects = dict(template.resources)
    for logical, it in template.resources.items():
        kind = it.get("Type")
        if not isinstance(kind, str) or kind not in SERVICES:
            continue
        properties = {**shared(template, kind), **object_in(it.get("Properties", {}), template, logical)}
        if kind == LAMBDA and is_public(properties):
            made[PUBLIC.format(logical)] = {
                "Type": "AWS::Lambda::Permission",
                "Properties": public(logical),
                **own_of(it),
            }
        if "Role" in properties:
            continue
        if f"{logical}Role" in made:
            raise Fault(f"{template.path}: SAM makes {logical}Role, which the template has already")
        role = {"Type": "AWS::IAM::Role", "Properties": role_of(template, logical, kind, properties)}
        made[f"{logical}Role"] = {**role, **own_of(it)}
    return template._replace(resources=made)


def own_of(it: Dict[str, Any]) -> Dict[str, Any]:
    return {key: it[key] for key in ATTRIBUTES if key in it}


def url_of(given: Dict[str, Any]) -> Any:
    """Who may call a function's URL, or nothing where it has none."""
    of = given.get("FunctionUrlConfig")
    return of.get("AuthType", of) if isinstance(of, dict) else of


def is_public(given: Dict[str, Any]) -> bool:
    return url_of(given) == "NONE" and "AutoPublishAlias" not in given


def public(logical: str) -> Dict[str, Any]:
    made = {"Action": "lambda:InvokeFunctionUrl", "Principal": "*", "FunctionUrlAuthType": "NONE"}
    return {"FunctionName": {"Ref": logical}, **made}


def events_of(given: Dict[str, Any]) -> Dict[str, str]:
    """The types of events, by their names."""
    events = given.get("Events", {})
    some = events.items() if isinstance(events, dict) else [("", None)]
    return {str(name): str(it.get("Type")) if isinstance(it, dict) else "?" for name, it in some}


def unfollowed(template: Template) -> Tuple[List[str], List[str]]:
    """What SAM makes that gives somebody something and is not followed, and the events of which services alone get it."""
    lacking: List[str] = []
    plain: List[str] = []
    for logical, it in template.resources.items() if SAM in template.transforms() else ():
        kind = it.get("Type")
        if not isinstance(kind, str) or kind not in SERVICES:
            continue
        given = {**shared(template, kind), **object_in(it.get("Properties", {}), template, logical)}
        if kind == LAMBDA and url_of(given) not in (None, "AWS_IAM") and not is_public(given):
            lacking.append(f"{logical}.FunctionUrlConfig (whom SAM lets call its URL)")
        for name, event in events_of(given).items():
            if kind == STATES or event in OWN_ROLE:
                lacking.append(f"{logical}.Events.{name} (the role that SAM makes for an event of type {event})")
            elif event in PLAIN_EVENTS:
                plain.append(f"{logical}.Events.{name}")
    return lacking, plain


def object_in(given: Any, template: Template, name: str) -> Dict[str, Any]:
    if not isinstance(given, dict):
        raise Fault(f"{template.path}: {name} is no object")
    return given


def shared(template: Template, kind: str) -> Dict[str, Any]:
    """What the section Globals gives each resource of a type."""
    of = object_in(template.further.get("Globals", {}), template, "Globals")
    name = kind.split("::")[-1]
    return object_in(of.get(name, {}), template, f"Globals.{name}")


def role_of(template: Template, logical: str, kind: str, given: Dict[str, Any]) -> Dict[str, Any]:
    """The properties of the role that SAM makes."""
    statement = {"Effect": "Allow", "Principal": {"Service": [SERVICES[kind]]}, "Action": ["sts:AssumeRole"]}
    made: Dict[str, Any] = {"AssumeRolePolicyDocument": {"Version": "2012-10-17", "Statement": [statement]}}
    if "AssumeRolePolicyDocument" in given:
        made["AssumeRolePolicyDocument"] = given["AssumeRolePolicyDocument"]
    for name, own in (("PermissionsBoundary", "PermissionsBoundary"), ("RolePath", "Path")):
        if name in given:
            made[own] = given[name]
    tags = {
        **object_in(shared(template, kind).get("Tags", {}), template, "Globals"),
        **tags_of(given, template, logical),
    }
    by = {"lambda:createdBy" if kind == LAMBDA else "stateMachine:createdBy": "SAM"}
    made["Tags"] = [{"Key": key, "Value": value} for key, value in {**by, **tags}.items()]
    attached = by_sam(given, kind)
    inline: List[Any] = []
    some = given.get("Policies", [])
    for n, it in enumerate(some if isinstance(some, list) else [some]):
        if isinstance(it, dict) and "Statement" in it:
            inline.append({"PolicyName": f"{logical}RolePolicy{n}", "PolicyDocument": it})
        else:
            attached.append(named(it))
    return {**made, "Policies": inline, "ManagedPolicyArns": attached}


def tags_of(given: Dict[str, Any], template: Template, logical: str) -> Dict[str, Any]:
    return object_in(given.get("Tags", {}), template, f"{logical}.Tags")


def named(it: Any) -> Any:
    """A policy that stands by its ARN or its name, by a function, or as a policy template."""
    if isinstance(it, dict) and len(it) == 1:
        name = next(iter(it))
        return it if name == "Ref" or name.startswith("Fn::") else Unclear(f"the policy template {name}")
    if isinstance(it, str):
        return it if it.startswith("arn:") or "{{" in it else ByName(it)
    return Unclear("a policy of another form")


def is_made(template: Template, logical: str) -> bool:
    """Whether a resource of a stack may be one that SAM has made of a resource of the template."""
    kinds = ((name, str(it.get("Type"))) for name, it in template.resources.items())
    own = tuple(name for name, kind in kinds if kind.startswith("AWS::Serverless::"))
    return SAM in template.transforms() and logical.startswith((*own, "CodeDeployServiceRole", "Serverless"))


class ByName(str):
    """The name of a managed policy of AWS, in place of its ARN."""


def by_sam(given: Dict[str, Any], kind: str) -> List[Any]:
    """What SAM attaches to a role of itself."""
    if kind != LAMBDA:
        return [Unclear("what SAM adds for Tracing")] if "Tracing" in given else []
    names = ["service-role/AWSLambdaBasicExecutionRole"]
    names += [EXECUTION.format(name) for key, name in BY_PROPERTY.items() if key in given]
    more: List[Any] = [Unclear(f"what SAM adds for {it}") for it in FURTHER if it in given]
    events = given.get("Events", {})
    for it in events.values() if isinstance(events, dict) else [None]:
        event: Optional[str] = it.get("Type") if isinstance(it, dict) and isinstance(it.get("Type"), str) else None
        if event in BY_EVENT:
            names.append(EXECUTION.format(BY_EVENT[event]))
        elif event not in PLAIN_EVENTS:
            more.append(Unclear(f"what SAM adds for an event of type {event}"))
    return [{"Fn::Sub": f"arn:${{AWS::Partition}}:iam::aws:policy/{it}"} for it in dict.fromkeys(names)] + more
