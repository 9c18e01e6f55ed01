"""Templates of CloudFormation, written by hand, put into effect on the exports in data/. What comes of each is worked out by hand."""

import contextlib
import io
import json
import sys

from harness import TOOLS, data, document, file, load, same, statement

sys.path.insert(0, TOOLS)
from iamsim_aws import command  # noqa: E402

ACCOUNT = "arn:aws:iam::111122223333:"
EXPORT = data("account.json")
ALICE, BOB, AUDIT = f"{ACCOUNT}user/alice", f"{ACCOUNT}user/ops/bob", f"{ACCOUNT}role/app/audit"
READ_OBJECTS = "arn:aws:iam::aws:policy/ReadObjects"
STACK_ARN = "arn:aws:cloudformation:eu-west-1:111122223333:stack/shop/0a1b"
REGION = file({"AWS::Region": "eu-west-1"})
NEW = "no --stack tells what its stack has: it is taken to be new, so that nothing goes"
GET = "--stack with the answers of get-template and describe-stacks tells it"
READ = document(statement(action="s3:GetObject"))
WRITE = document(statement(action="s3:PutObject"))
TRUST = document({"Effect": "Allow", "Principal": {"AWS": ALICE}, "Action": "sts:AssumeRole"})
ROLE, POLICY = "AWS::IAM::Role", "AWS::IAM::Policy"
IN_SHOP = file({"AWS::Region": "eu-west-1", "AWS::StackName": "shop"})
FURTHER = {
    "Parameters": {
        "Env": {"Type": "String", "Default": "prod"},
        "Count": {"Type": "Number", "Default": 3},
        "List": {"Type": "CommaDelimitedList", "Default": "one, two,three"},
        "Open": {"Type": "String"},
        "Secret": {"Type": "AWS::SSM::Parameter::Value<String>", "Default": "/path"},
    },
    "Mappings": {"Map": {"prod": {"b": "big", "l": ["x", "y"]}, "test": {"b": "small"}}},
    "Conditions": {
        "IsProd": {"Fn::Equals": [{"Ref": "Env"}, "prod"]},
        "IsTest": {"Fn::Not": [{"Condition": "IsProd"}]},
        "Both": {"Fn::And": [{"Condition": "IsProd"}, {"Fn::Equals": ["3", {"Ref": "Count"}]}]},
        "Any": {"Fn::Or": [{"Condition": "IsTest"}, {"Condition": "Both"}]},
        "IsOpen": {"Fn::Equals": [{"Ref": "Open"}, "x"]},
        "Settled": {"Fn::Or": [{"Condition": "IsOpen"}, {"Condition": "IsProd"}]},
        "Failed": {"Fn::And": [{"Condition": "IsOpen"}, {"Condition": "IsTest"}]},
    },
}


def resource(kind, **more):
    """A resource with these properties; what begins with a capital and is an attribute of a resource stands beside them."""
    beside = {name: more.pop(name) for name in ("Condition", "DeletionPolicy", "UpdateReplacePolicy") if name in more}
    return {"Type": kind, **beside, "Properties": more}


def template(further=None, **resources):
    return {"AWSTemplateFormatVersion": "2010-09-09", **(further or {}), "Resources": resources}


def inline(name, what):
    return {"PolicyName": name, "PolicyDocument": what}


def role(name="new", **more):
    named = {"RoleName": name} if name else {}
    return resource("AWS::IAM::Role", **{**named, "AssumeRolePolicyDocument": TRUST, **more})


def stack(name="shop", arn=STACK_ARN, **of):
    """The answer of describe-stack-resources, of (type, physical id) by logical id."""
    more = {"StackName": name, "StackId": arn, "ResourceStatus": "CREATE_COMPLETE"}
    three = (
        {"LogicalResourceId": key, "ResourceType": kind, "PhysicalResourceId": own} for key, (kind, own) in of.items()
    )
    return file({"StackResources": [{**more, **it} for it in three]})


def deployed(given):
    return file({"TemplateBody": given, "StagesAvailable": ["Original", "Processed"]})


def written(given, suffix=".json"):
    return given if isinstance(given, str) and given.startswith("/") else file(given, suffix)


def called(*words):
    """Status and both streams of a command that is run in this process."""
    said, out = io.StringIO(), io.TextIOWrapper(io.BytesIO(), encoding="utf-8")
    with contextlib.redirect_stderr(said), contextlib.redirect_stdout(out):
        status = command.main(list(words))
    out.seek(0)
    return status, out.read(), said.getvalue()


class After:
    """The world after a template: the policies of each principal by their names, boundaries, tags, and those of resources."""

    def __init__(self, given, *words, export=EXPORT, action="sts:AssumeRole"):
        names, path = file(""), written(given)
        exports = [export] if isinstance(export, str) else export
        words = [*exports, "--actions", file(f"{action}\n"), "--names", names, *words, "--cloudformation", path]
        status, out, said = called("world", *words)
        same(status, 0, said)
        world, of = json.loads(out), load(names)
        self.path, self.said, self.world = path, said.replace(f"{path}: ", ""), world
        self.who, self.limits, self.tags = {}, {}, {}
        for n, it in enumerate(world["principals"]):
            arn = it.get("user") or it["role"]
            self.who[arn] = {of[f"principals/{n}/identity/{m}"]: one for m, one in enumerate(it["identity"])}
            if "boundary" in it:
                self.limits[arn] = of[f"principals/{n}/boundary"]
            tag, context = "aws:PrincipalTag/", it.get("context", {})
            # Of those for which a policy asks it is known too which are absent.
            self.tags[arn] = {key[len(tag) :]: one for key, one in context.items() if key.startswith(tag) and one != []}
        self.resources = {it["arn"]: it.get("policy") for it in world["resources"]}

    def lines(self):
        """What is said of the template alone."""
        return {it[len("iamsim-aws: ") :] for it in self.said.splitlines() if "no context gives" not in it}


def refused(given, *words, export=EXPORT):
    """The one line by which a template is refused, without its path."""
    path = written(given)
    status, _, said = called("changes", export, *words, "--cloudformation", path)
    same((status, said.count("\n")), (1, 1), said)
    return said[len("iamsim-aws: ") : -1].replace(f"{path}: ", "")


def unknown(given, *words, export=EXPORT):
    """What only the apply tells of a template."""
    said = refused(given, *words, export=export)
    begin, end = "only the apply tells ", ": --allow-unknown leaves these changes out"
    assert said.startswith(begin) and said.endswith(end), said
    return said[len(begin) : -len(end)]


# --- kinds of resources ----------------------------------------------------------------------------------------------


def test_a_role_in_yaml():
    given = After(
        file(
            """
AWSTemplateFormatVersion: 2010-09-09
Resources:
  New:
    Type: AWS::IAM::Role
    Properties:
      RoleName: new
      Path: /app/
      PermissionsBoundary: arn:aws:iam::111122223333:policy/limits/AtMost
      AssumeRolePolicyDocument:
        Version: 2012-10-17
        Statement:
          - {Effect: Allow, Principal: {AWS: !Sub "arn:aws:iam::${AWS::AccountId}:user/alice"}, Action: sts:AssumeRole}
      ManagedPolicyArns: [arn:aws:iam::aws:policy/ReadObjects]
      Policies:
        - PolicyName: Write
          PolicyDocument:
            Version: 2012-10-17
            Statement: {Effect: Allow, Action: s3:PutObject, Resource: "*"}
      Tags: [{Key: team, Value: blue}]
""",
            ".yaml",
        )
    )
    own = f"{ACCOUNT}role/app/new"
    same(set(given.who[own]), {READ_OBJECTS, f"{own} inline Write"})
    wanted = {"Version": "2012-10-17", "Statement": statement(action="s3:PutObject")}
    same(given.who[own][f"{own} inline Write"], wanted)
    same(given.limits[own], f"{ACCOUNT}policy/limits/AtMost")
    same(given.tags[own], {"team": "blue"})
    same(given.resources[own], TRUST)
    same(given.lines(), {NEW})
    # All else is as it was.
    same(set(given.who), set(After(template()).who) | {own})


def test_users_and_groups():
    given = After(
        template(
            Makers=resource("AWS::IAM::Group", GroupName="Makers", Policies=[inline("Write", WRITE)]),
            Zoe=resource("AWS::IAM::User", UserName="zoe", Path="/new/", Groups=[{"Ref": "Makers"}, "Readers"]),
            Alice=resource("AWS::IAM::UserToGroupAddition", GroupName={"Ref": "Makers"}, Users=["alice"]),
            Own=resource("AWS::IAM::UserPolicy", UserName={"Ref": "Zoe"}, **inline("Own", READ)),
            Group=resource("AWS::IAM::GroupPolicy", GroupName="Readers", **inline("More", WRITE)),
        )
    )
    zoe, makers, readers = f"{ACCOUNT}user/new/zoe", f"{ACCOUNT}group/Makers", f"{ACCOUNT}group/Readers"
    same(
        given.who[zoe],
        {
            f"{zoe} inline Own": READ,
            f"{makers} inline Write": WRITE,
            f"{readers} inline More": WRITE,
            READ_OBJECTS: After(template()).who[ALICE][READ_OBJECTS],
        },
    )
    same({f"{makers} inline Write", f"{readers} inline More"} <= set(given.who[ALICE]), True)
    same(given.lines(), {NEW})


def test_policies_and_who_has_them():
    given = After(
        template(
            Rights=resource(
                "AWS::IAM::ManagedPolicy",
                ManagedPolicyName="rights",
                Path="/x/",
                PolicyDocument=READ,
                Users=["bob"],
                Roles=["audit"],
            ),
            Several=resource(
                "AWS::IAM::Policy", Users=["alice"], Groups=["Readers"], Roles=[{"Ref": "New"}], **inline("S", WRITE)
            ),
            One=resource("AWS::IAM::RolePolicy", RoleName="worker", **inline("One", WRITE)),
            New=role(ManagedPolicyArns=[{"Ref": "Rights"}]),
        )
    )
    rights, new, worker = f"{ACCOUNT}policy/x/rights", f"{ACCOUNT}role/new", f"{ACCOUNT}role/worker"
    for arn in (BOB, AUDIT, new):
        same(given.who[arn].get(rights), READ, arn)
    same(given.who[new][f"{new} inline S"], WRITE)
    same(given.who[ALICE][f"{ALICE} inline S"], WRITE)
    same(given.who[ALICE][f"{ACCOUNT}group/Readers inline S"], WRITE)
    same(set(given.who[worker]), {f"{worker} inline Inside", f"{worker} inline One"})
    same(given.who[worker][f"{worker} inline One"], WRITE)


def granting(action="*"):
    return document({"Effect": "Allow", "Principal": {"AWS": ALICE}, "Action": action, "Resource": "*"})


# (the resources, the ARN whose policy it is, sealed)
OWN = "eu-west-1:111122223333"
POLICIES = [
    ({"B": resource("AWS::S3::BucketPolicy", Bucket="releases", PolicyDocument=granting())}, "arn:aws:s3:::releases"),
    (
        {
            "B": resource("AWS::S3::Bucket", BucketName="mine"),
            "P": resource("AWS::S3::BucketPolicy", Bucket={"Ref": "B"}, PolicyDocument=granting()),
        },
        "arn:aws:s3:::mine",
    ),
    (
        {"A": resource("AWS::S3::AccessPoint", Name="p", Bucket="b", Policy=granting())},
        f"arn:aws:s3:{OWN}:accesspoint/p",
    ),
    ({"K": resource("AWS::KMS::Key", KeyPolicy=granting())}, f"arn:aws:kms:{OWN}:key/madeup-K"),
    ({"R": resource("AWS::KMS::ReplicaKey", KeyPolicy=granting())}, f"arn:aws:kms:{OWN}:key/madeup-R"),
    (
        {
            "Q": resource("AWS::SQS::Queue", QueueName="jobs"),
            "P": resource("AWS::SQS::QueuePolicy", Queues=[{"Ref": "Q"}], PolicyDocument=granting()),
        },
        f"arn:aws:sqs:{OWN}:jobs",
    ),
    (
        {
            "Q": resource("AWS::SQS::Queue", QueueName="jobs"),
            "P": resource("AWS::SQS::QueueInlinePolicy", Queue={"Ref": "Q"}, PolicyDocument=granting()),
        },
        f"arn:aws:sqs:{OWN}:jobs",
    ),
    (
        {
            "T": resource("AWS::SNS::Topic", TopicName="news"),
            "P": resource("AWS::SNS::TopicPolicy", Topics=[{"Ref": "T"}], PolicyDocument=granting()),
        },
        f"arn:aws:sns:{OWN}:news",
    ),
    (
        {"P": resource("AWS::SNS::TopicInlinePolicy", TopicArn=f"arn:aws:sns:{OWN}:news", PolicyDocument=granting())},
        f"arn:aws:sns:{OWN}:news",
    ),
    (
        {
            "S": resource("AWS::SecretsManager::Secret", Name="db"),
            "P": resource("AWS::SecretsManager::ResourcePolicy", SecretId={"Ref": "S"}, ResourcePolicy=granting()),
        },
        f"arn:aws:secretsmanager:{OWN}:secret:db-madeup",
    ),
    (
        {"E": resource("AWS::ECR::Repository", RepositoryName="images", RepositoryPolicyText=granting())},
        f"arn:aws:ecr:{OWN}:repository/images",
    ),
    (
        {"F": resource("AWS::EFS::FileSystem", FileSystemPolicy=granting())},
        f"arn:aws:elasticfilesystem:{OWN}:file-system/madeup-F",
    ),
]


def test_policies_of_resources():
    for resources, arn in POLICIES:
        given = After(template(**resources), "--parameters", REGION)
        same(given.resources.get(arn), granting(), arn)
        sealed = [it.get("sealed", False) for it in given.world["resources"] if it["arn"] == arn]
        same(sealed, [":kms:" in arn], arn)


def test_a_policy_of_a_function():
    permission = resource(
        "AWS::Lambda::Permission",
        FunctionName={"Ref": "F"},
        Action="lambda:InvokeFunction",
        Principal="444455556666",
        SourceArn="arn:x",
    )
    function = resource("AWS::Lambda::Function", FunctionName="f")
    given = After(template(F=function, P=permission), "--parameters", REGION)
    made = {
        "Sid": "P",
        "Effect": "Allow",
        "Action": "lambda:InvokeFunction",
        "Resource": f"arn:aws:lambda:{OWN}:function:f",
    }
    made.update(Principal={"AWS": "444455556666"}, Condition={"ArnLike": {"aws:SourceArn": "arn:x"}})
    same(given.resources[f"arn:aws:lambda:{OWN}:function:f"], document(made))
    permission["Properties"]["FunctionName"] = "f"
    same(unknown(template(P=permission)), "P (its ARN: AWS::Region)")


def test_a_permission_that_moves_to_another_function():
    """What the old function granted goes; without the deployed template only the apply tells that."""
    names = [f"arn:aws:lambda:{OWN}:function:{it}" for it in ("old", "new")]
    more = {"Action": "lambda:InvokeFunction", "Principal": "444455556666"}
    before, after = (template(P=resource("AWS::Lambda::Permission", FunctionName=it, **more)) for it in ("old", "new"))
    statements = [
        {
            "Sid": sid,
            "Effect": "Allow",
            "Principal": {"AWS": "444455556666"},
            "Action": "lambda:*",
            "Resource": names[0],
        }
        for sid in ("shop-P-1x", "kept")
    ]
    there = file([{"arn": names[0], "account": "111122223333", "policy": document(*statements)}])
    words = ["--resources", there, "--stack", stack(P=("AWS::Lambda::Permission", "shop-P-1x"))]
    found = After(after, *words, "--stack", deployed(before))
    same(found.resources[names[0]], document(statements[1]))
    same([it["Sid"] for it in found.resources[names[1]]["Statement"]], ["shop-P-1x"])
    same(unknown(after, *words), f"P (whether {names[0]} keeps its policy: {GET})")
    # Without the physical ids nothing tells which statement it was.
    found = After(after, "--resources", there, "--stack", deployed(before), "--parameters", REGION)
    said = f"P: the policy of {names[0]} has no statement P: taking it off is taken to change nothing"
    assert said in found.lines(), found.lines()


def test_a_permission_set():
    """Its policies are those of the roles that IAM Identity Center has made of it, whose names begin with its name."""
    export, path = load(EXPORT), "/aws-reserved/sso.amazonaws.com/"
    own = f"{ACCOUNT}role{path}AWSReservedSSO_Read_0123456789abcdef"
    trust = document({"Effect": "Allow", "Principal": {"Federated": "x"}, "Action": "sts:AssumeRoleWithSAML"})
    made = {"Path": path, "RoleName": own.split("/")[-1], "Arn": own, "AssumeRolePolicyDocument": trust}
    export["RoleDetailList"].append(made)
    set_of = resource(
        "AWS::SSO::PermissionSet", Name="Read", InlinePolicy=json.dumps(WRITE), ManagedPolicies=[READ_OBJECTS]
    )
    given = After(template(S=set_of), export=file(export))
    same(set(given.who[own]), {READ_OBJECTS, f"{own} inline AwsSSOInlinePolicy"})
    same(given.who[own][f"{own} inline AwsSSOInlinePolicy"], WRITE)


def test_policies_of_the_organisation():
    deny = document(statement("Deny", "s3:*"))
    made = {"Name": "NoStorage", "Type": "SERVICE_CONTROL_POLICY", "Content": deny, "TargetIds": ["111122223333"]}
    given = template(P=resource("AWS::Organizations::Policy", **made))
    words = ["--organization", data("organization.json")]
    same(deny in [it for level in After(given, *words).world["accounts"][0]["org"] for it in level], True)
    same(refused(given), "P: the template changes policies of the organisation: give it by --organization")


def test_conditions_of_resources():
    given = {**FURTHER, "Parameters": {**FURTHER["Parameters"], "Open": {"Type": "String", "Default": "x"}}}
    found = After(template(given, Yes=role("yes", Condition="IsOpen"), No=role("no", Condition="IsTest")))
    same([f"{ACCOUNT}role/{it}" in found.who for it in ("yes", "no")], [True, False])
    same(
        unknown(template(FURTHER, R=role(Condition="IsOpen"))),
        "R (its Condition IsOpen: no value of the parameter Open)",
    )
    assert "no condition is called X" in refused(template(R=role(Condition="X")))


def test_names_that_are_made_up():
    given = After(template(New=role(None), B=resource("AWS::S3::Bucket")), "--parameters", IN_SHOP)
    same(f"{ACCOUNT}role/shop-New-madeup" in given.who, True)
    told = "New has no name of its own: it is called shop-New-madeup here, which is made up"
    same(given.lines(), {NEW, told, "1 changes of AWS::S3::Bucket are not read: they are taken to change no policy"})


# --- SAM -------------------------------------------------------------------------------------------------------------

SAM = {"Transform": "AWS::Serverless-2016-10-31"}
FUNCTION = "AWS::Serverless::Function"


def with_basic():
    """The export with the policy that SAM gives each function."""
    export = load(EXPORT)
    arn = "arn:aws:iam::aws:policy/service-role/AWSLambdaBasicExecutionRole"
    logs = document(statement(action="logs:PutLogEvents"))
    export["Policies"].append({"Arn": arn, "PolicyVersionList": [{"Document": logs, "IsDefaultVersion": True}]})
    return file(export), arn, logs


def test_sam():
    export, basic, logs = with_basic()
    policies = [WRITE, "ReadObjects", READ_OBJECTS, document(statement(resource={"Fn::GetAtt": ["T", "Arn"]}))]
    function = resource(FUNCTION, FunctionName="f", Policies=policies, Tags={"team": "red"})
    further = {**SAM, "Globals": {"Function": {"PermissionsBoundary": f"{ACCOUNT}policy/limits/AtMost"}}}
    table = resource("AWS::Serverless::SimpleTable", TableName="t")
    user = resource(POLICY, Roles=[{"Ref": "FRole"}], **inline("More", READ))
    found = After(template(further, F=function, T=table, P=user), "--parameters", IN_SHOP, export=export)
    own = f"{ACCOUNT}role/shop-FRole-madeup"
    table_arn = f"arn:aws:dynamodb:{OWN}:table/t"
    same(
        found.who[own],
        {
            basic: logs,
            READ_OBJECTS: found.who[ALICE][READ_OBJECTS],
            f"{own} inline FRolePolicy0": WRITE,
            f"{own} inline FRolePolicy3": document(statement(resource=table_arn)),
            f"{own} inline More": READ,
        },
    )
    same(
        (found.limits[own], found.tags[own]),
        (f"{ACCOUNT}policy/limits/AtMost", {"lambda:createdBy": "SAM", "team": "red"}),
    )
    trust = {"Effect": "Allow", "Principal": {"Service": ["lambda.amazonaws.com"]}, "Action": ["sts:AssumeRole"]}
    same(found.resources[own], document(trust))
    # A function with a role of its own gets none, and without the transform it is no function of SAM.
    same(own in After(template(SAM, F=resource(FUNCTION, Role=AUDIT, Policies=[WRITE])), export=export).who, False)
    machine = resource("AWS::Serverless::StateMachine", Policies=[READ])
    found = After(template(SAM, M=machine), "--parameters", IN_SHOP)
    own = f"{ACCOUNT}role/shop-MRole-madeup"
    same(found.who[own], {f"{own} inline MRolePolicy0": READ})


def test_what_sam_has_made_of_a_stack():
    """A stack has what SAM makes: other types, the function's role, and permissions of its events."""
    export, basic, logs = with_basic()
    given = template(SAM, F=resource(FUNCTION, Policies=[WRITE, READ_OBJECTS], Events={"E": {"Type": "Api"}}))
    there = stack(
        F=("AWS::Lambda::Function", "shop-F-1x"),
        FRole=(ROLE, "deploy"),
        FEPermission=("AWS::Lambda::Permission", "shop-FE-1x"),
    )
    old = deployed(template(F=resource("AWS::Lambda::Function"), FRole=role(None, ManagedPolicyArns=[basic])))
    attached = load(export)
    deploy_role = next(it for it in attached["RoleDetailList"] if it["RoleName"] == "deploy")
    deploy_role.update(Path="/", Arn=f"{ACCOUNT}role/deploy", AttachedManagedPolicies=[{"PolicyArn": basic}], Tags=[])
    found = After(given, "--stack", there, "--stack", old, export=file(attached))
    own = f"{ACCOUNT}role/deploy"
    same(set(found.who[own]), {basic, READ_OBJECTS, f"{own} inline FRolePolicy0"})
    same("FEPermission is what SAM makes: it is taken to stay as it is" in found.lines(), True)
    role_of_sam = stack(F=("AWS::Lambda::Function", "f"), FEventRole=(ROLE, "audit"))
    assert "FEventRole (what SAM makes of it)" in unknown(given, "--stack", role_of_sam, export=file(attached))
    # Names of what SAM makes besides are not known.
    rest = inline("p", document(statement(resource={"Fn::Sub": "${ServerlessRestApi}/*"})))
    said = unknown(template(SAM, R=role(Policies=[rest])))
    same(said, "R.Policies.0.PolicyDocument.Statement.0.Resource (ServerlessRestApi, which SAM may make)")


def test_whom_sam_lets_call_functions():
    """A URL without a check is everybody's; events are of services; roles of events are told, also beside a role of one's own."""
    export, _, _ = with_basic()
    own = f"arn:aws:lambda:{OWN}:function:f"

    def function(**more):
        return template(SAM, F=resource(FUNCTION, FunctionName="f", Role=AUDIT, **more))

    found = After(function(FunctionUrlConfig={"AuthType": "NONE"}), "--parameters", IN_SHOP, export=export)
    [made] = found.resources[own]["Statement"]
    same((made["Principal"], made["Action"]), ("*", "lambda:InvokeFunctionUrl"))
    same(made["Condition"], {"StringEquals": {"lambda:FunctionUrlAuthType": "NONE"}})
    found = After(function(FunctionUrlConfig={"AuthType": "AWS_IAM"}), "--parameters", IN_SHOP, export=export)
    same(own in found.resources, False)
    why = "F.FunctionUrlConfig (whom SAM lets call its URL)"
    for more in ({"AuthType": {"Ref": "AWS::Region"}}, {"Fn::ImportValue": "x"}):
        same(unknown(function(FunctionUrlConfig=more), "--parameters", IN_SHOP), why)
    for event in ("Api", "HttpApi", "S3", "SNS", "Schedule", "EventBridgeRule"):
        found = After(function(Events={"E": {"Type": event}}), "--parameters", IN_SHOP, export=export)
        why = "SAM lets services call functions by their events, for whom nobody is asked: F.Events.E"
        same(why in found.lines(), True)
    made = "the role that SAM makes for an event of type"
    same(unknown(function(Events={"E": {"Type": "ScheduleV2"}})), f"F.Events.E ({made} ScheduleV2)")
    machine = template(SAM, M=resource("AWS::Serverless::StateMachine", Role=AUDIT, Events={"E": {"Type": "Schedule"}}))
    same(unknown(machine), f"M.Events.E ({made} Schedule)")


def test_what_is_unknown_of_sam():
    export, basic, _ = with_basic()
    for more, why in (
        (
            {"Policies": [{"S3ReadPolicy": {"BucketName": "b"}}]},
            "FRole.ManagedPolicyArns.1 (the policy template S3ReadPolicy)",
        ),
        ({"Policies": "Strange"}, "FRole.ManagedPolicyArns.1 (the policy Strange, which the export does not hold)"),
        ({"Tracing": "Active"}, "FRole.ManagedPolicyArns.1 (what SAM adds for Tracing)"),
        ({"Events": {"E": {"Type": "MSK"}}}, "FRole.ManagedPolicyArns.1 (what SAM adds for an event of type MSK)"),
        ({"Policies": [{"Fn::ImportValue": "x"}]}, "FRole.ManagedPolicyArns.1 (Fn::ImportValue)"),
    ):
        same(unknown(template(SAM, F=resource(FUNCTION, **more)), export=export), why)
    # A policy of AWS that the export does not hold has to be given.
    said = refused(template(SAM, F=resource(FUNCTION)), "--parameters", IN_SHOP)
    assert said.endswith(
        f"the template attaches {basic}, which the export does not hold: give its document by --put {basic}=FILE"
    ), said
