"""Templates of CloudFormation: functions and parameters."""

import json

from harness import document, file, same, statement
from test_cloudformation import (
    ACCOUNT, After, FURTHER, IN_SHOP, READ, STACK_ARN, inline, refused, resource, role, stack, template, unknown,
)

OTHERS = {
    "Bucket": resource("AWS::S3::Bucket", BucketName={"Fn::Sub": "${Env}-data"}),
    "Nameless": resource("AWS::S3::Bucket"),
    "Queue": resource("AWS::SQS::Queue", QueueName="jobs"),
    "Topic": resource("AWS::SNS::Topic", TopicName="news"),
    "Table": resource("AWS::DynamoDB::Table", TableName="items"),
    "Owner": resource("AWS::IAM::User", UserName="owner", Path="/team/"),
    "Rights": resource("AWS::IAM::ManagedPolicy", ManagedPolicyName="rights", PolicyDocument=READ),
    "Key": resource("AWS::KMS::Key"),
}
NOVALUE = {"Ref": "AWS::NoValue"}
# (function, its short form in YAML, what it gives)
VALUES = [
    ({"Ref": "Env"}, "!Ref Env", "prod"),
    ({"Ref": "Count"}, "!Ref Count", "3"),
    ({"Ref": "List"}, "!Ref List", ["one", "two", "three"]),
    ({"Ref": "AWS::AccountId"}, "!Ref AWS::AccountId", "111122223333"),
    ({"Ref": "AWS::Partition"}, '!Ref "AWS::Partition"', "aws"),
    ({"Ref": "AWS::Region"}, "!Ref AWS::Region", "eu-west-1"),
    ({"Ref": "AWS::StackName"}, "!Ref AWS::StackName", "shop"),
    ({"Ref": "AWS::URLSuffix"}, "!Ref AWS::URLSuffix", "amazonaws.com"),
    ({"Ref": "Bucket"}, "!Ref Bucket", "prod-data"),
    ({"Ref": "Queue"}, "!Ref Queue", "https://sqs.eu-west-1.amazonaws.com/111122223333/jobs"),
    ({"Ref": "Topic"}, "!Ref Topic", "arn:aws:sns:eu-west-1:111122223333:news"),
    ({"Ref": "Owner"}, "!Ref Owner", "owner"),
    ({"Ref": "Rights"}, "!Ref Rights", f"{ACCOUNT}policy/rights"),
    ({"Fn::GetAtt": ["Bucket", "Arn"]}, "!GetAtt Bucket.Arn", "arn:aws:s3:::prod-data"),
    ({"Fn::GetAtt": ["Queue", "Arn"]}, "!GetAtt [Queue, Arn]", "arn:aws:sqs:eu-west-1:111122223333:jobs"),
    ({"Fn::GetAtt": ["Queue", "QueueName"]}, "!GetAtt Queue.QueueName", "jobs"),
    ({"Fn::GetAtt": "Topic.TopicArn"}, "!GetAtt Topic.TopicArn", "arn:aws:sns:eu-west-1:111122223333:news"),
    ({"Fn::GetAtt": ["Table", "Arn"]}, "!GetAtt Table.Arn", "arn:aws:dynamodb:eu-west-1:111122223333:table/items"),
    ({"Fn::GetAtt": ["Owner", "Arn"]}, "!GetAtt Owner.Arn", f"{ACCOUNT}user/team/owner"),
    ({"Fn::GetAtt": ["Nameless", "Arn"]}, "!GetAtt Nameless.Arn", "arn:aws:s3:::shop-nameless-madeup"),
    ({"Fn::GetAtt": ["Key", "Arn"]}, "!GetAtt Key.Arn", "arn:aws:kms:eu-west-1:111122223333:key/madeup-Key"),
    ({"Fn::Sub": "${Bucket.Arn}/${Env}/*"}, '!Sub "${Bucket.Arn}/${Env}/*"', "arn:aws:s3:::prod-data/prod/*"),
    ({"Fn::Sub": "homes/${!aws:username}/*"}, '!Sub "homes/${!aws:username}/*"', "homes/${aws:username}/*"),
    ({"Fn::Sub": ["${a}-${Env}", {"a": {"Ref": "Count"}}]}, '!Sub ["${a}-${Env}", {a: !Ref Count}]', "3-prod"),
    ({"Fn::Join": ["/", ["a", {"Ref": "Env"}]]}, '!Join ["/", [a, !Ref Env]]', "a/prod"),
    ({"Fn::Join": ["-", {"Ref": "List"}]}, '!Join ["-", !Ref List]', "one-two-three"),
    ({"Fn::Join": ["-", ["a", NOVALUE, "b"]]}, '!Join ["-", [a, !Ref AWS::NoValue, b]]', "a-b"),
    ({"Fn::Select": [1, {"Ref": "List"}]}, "!Select [1, !Ref List]", "two"),
    ({"Fn::Select": ["0", {"Fn::Split": ["/", "x/y"]}]}, '!Select ["0", !Split ["/", x/y]]', "x"),
    ({"Fn::Split": [":", "a:b"]}, '!Split [":", "a:b"]', ["a", "b"]),
    ({"Fn::FindInMap": ["Map", {"Ref": "Env"}, "b"]}, "!FindInMap [Map, !Ref Env, b]", "big"),
    ({"Fn::FindInMap": ["Map", "prod", "l"]}, "!FindInMap [Map, prod, l]", ["x", "y"]),
    ({"Fn::If": ["IsProd", "yes", "no"]}, '!If [IsProd, "yes", "no"]', "yes"),
    ({"Fn::If": ["IsTest", "yes", "no"]}, '!If [IsTest, "yes", "no"]', "no"),
    ({"Fn::If": ["Both", "yes", "no"]}, '!If [Both, "yes", "no"]', "yes"),
    ({"Fn::If": ["Any", "yes", {"Ref": "Open"}]}, '!If [Any, "yes", !Ref Open]', "yes"),
    # Whatever Open is, one side of an Or is met, and one of an And is not.
    ({"Fn::If": ["Settled", "yes", "no"]}, '!If [Settled, "yes", "no"]', "yes"),
    ({"Fn::If": ["Failed", "yes", "no"]}, '!If [Failed, "yes", "no"]', "no"),
    ({"Fn::If": ["IsOpen", "one", "one"]}, "!If [IsOpen, one, one]", "one"),
    (["a", {"Fn::If": ["IsTest", "b", NOVALUE]}], '[a, !If [IsTest, b, !Ref "AWS::NoValue"]]', ["a"]),
]
# (function, its short form in YAML, why nobody knows what it gives)
UNKNOWN = [
    ({"Ref": "Open"}, "!Ref Open", "no value of the parameter Open"),
    ({"Ref": "Secret"}, "!Ref Secret", "the parameter Secret, whose value SSM has"),
    ({"Fn::ImportValue": "net-Bucket"}, "!ImportValue net-Bucket", "Fn::ImportValue"),
    ({"Fn::Sub": "${Open}/x"}, '!Sub "${Open}/x"', "no value of the parameter Open"),
    ({"Fn::Join": ["", ["a", {"Fn::ImportValue": "x"}]]}, '!Join ["", [a, !ImportValue x]]', "Fn::ImportValue"),
    ({"Fn::If": ["IsOpen", "a", "b"]}, "!If [IsOpen, a, b]", "no value of the parameter Open"),
    ({"Fn::Select": [0, {"Fn::GetAZs": ""}]}, '!Select [0, !GetAZs ""]', "Fn::GetAZs"),
    ({"Fn::Split": [",", {"Ref": "Open"}]}, '!Split [",", !Ref Open]', "no value of the parameter Open"),
    (
        {"Fn::FindInMap": ["Map", {"Ref": "Open"}, "b"]},
        "!FindInMap [Map, !Ref Open, b]",
        "no value of the parameter Open",
    ),
    ({"Fn::GetAtt": ["Table", "StreamArn"]}, "!GetAtt Table.StreamArn", "Fn::GetAtt Table.StreamArn"),
    ({"Fn::Base64": "x"}, "!Base64 x", "Fn::Base64"),
    ({"Fn::Transform": {"Name": "X"}}, "!Transform {Name: X}", "Fn::Transform"),
    ("{{resolve:ssm:/bucket}}", '"{{resolve:ssm:/bucket}}"', "a dynamic reference"),
    ({"Fn::Sub": "x/{{resolve:ssm:/bucket}}"}, '!Sub "x/{{resolve:ssm:/bucket}}"', "a dynamic reference"),
]


def reading(*values):
    """A template whose new role may read what functions give, each by a policy."""
    policies = [
        inline(f"Read{n}", document(statement(action="s3:GetObject", resource=it))) for n, it in enumerate(values)
    ]
    return template(FURTHER, **OTHERS, New=role(Policies=policies))


def in_yaml(*texts):
    """The same in YAML, with those texts for the functions."""
    made = json.dumps(reading(*(f"HERE{n}." for n, _ in enumerate(texts))))
    for n, it in enumerate(texts):
        made = made.replace(f'"HERE{n}."', it)
    return file(made, ".yaml")


def read(given, *words):
    """What the new role may read by each policy."""
    own = After(given, *words).who[f"{ACCOUNT}role/new"]
    return [own[f"{ACCOUNT}role/new inline Read{n}"]["Statement"][0]["Resource"] for n in range(len(own))]


def test_functions():
    """Each in JSON, and in YAML by its short form."""
    functions, texts, wanted = zip(*VALUES)
    for given in (reading(*functions), in_yaml(*texts)):
        for found, it, text in zip(read(given, "--parameters", IN_SHOP), wanted, texts):
            same(found, it, text)


def test_what_does_not_follow():
    functions, texts, whys = zip(*UNKNOWN)
    place = "New.Policies.{}.PolicyDocument.Statement.0.Resource ({})"
    wanted = ", ".join(place.format(n, why) for n, why in enumerate(whys))
    for given in (reading(*functions), in_yaml(*texts)):
        same(unknown(given, "--parameters", IN_SHOP), wanted)


def test_pseudo_parameters_that_nothing_gives():
    place = "New.Policies.0.PolicyDocument.Statement.0.Resource"
    same(unknown(reading({"Ref": "AWS::Region"})), f"{place} (AWS::Region)")
    same(unknown(reading({"Ref": "AWS::StackName"})), f"{place} (AWS::StackName)")
    same(unknown(reading({"Fn::GetAtt": ["Queue", "Arn"]})), f"{place} (AWS::Region)")
    # The answer of describe-stack-resources gives all three.
    three = reading({"Ref": "AWS::StackId"}, {"Ref": "AWS::Region"}, {"Ref": "AWS::StackName"})
    found = read(three, "--stack", stack(Topic=("AWS::SNS::Topic", "arn:x")))
    same(found, [STACK_ARN, "eu-west-1", "shop"])


def test_parameters():
    """Of each form that calls of CloudFormation have."""
    given = reading({"Fn::Sub": "${Env}-${Open}"})
    for value in (
        {"Env": "test", "Open": "x"},
        {"Parameters": {"Env": "test", "Open": "x"}},
        [{"ParameterKey": "Env", "ParameterValue": "test"}, {"ParameterKey": "Open", "ParameterValue": "x"}],
        ["Env=test", "Open=x"],
    ):
        same(read(given, "--parameters", file(value)), ["test-x"], value)
    place = "New.Policies.0.PolicyDocument.Statement.0.Resource"
    before = [{"ParameterKey": "Open", "UsePreviousValue": True}]
    same(unknown(given, "--parameters", file(before)), f"{place} (the previous value of the parameter Open)")
    path = file({"None": "x"})
    same(refused(given, "--parameters", path), f"--parameters {path}: no template has the parameter None")
    for value in (3, [3], {"Env": {}}, [{"ParameterKey": 1}]):
        assert "parameter" in refused(given, "--parameters", file(value)), value
    limited = {"Parameters": {"Env": {"Type": "String", "AllowedValues": ["a", "b"]}}}
    path = file({"Env": "c"})
    said = refused(template(limited, New=role({"Ref": "Env"})), "--parameters", path)
    same(said, "New: the parameter Env may not be c (AllowedValues)")
