"""Templates that are no templates, and texts that were made to do harm: each ends with one line and status 1, and soon. What YAML
may hold, and what python3-yaml is wanted for."""

import copy
import json
import os
import tempfile
import time

from harness import AWS, aws, document, file, run, same, statement
from test_cloudformation import (
    ACCOUNT, EXPORT, FUNCTION, FURTHER, IN_SHOP, READ, ROLE, SAM, After, called, deployed, granting, inline, refused,
    resource, role, stack, template, unknown,
)
from test_cloudformation_functions import OTHERS

SECONDS = 20


def told(text, suffix=".yaml", *words):
    """The one line, without the path, by which a text is refused, in good time."""
    began = time.process_time()
    said = refused(file(text, suffix), *words)
    assert time.process_time() - began < SECONDS, said
    return said


# --- YAML ------------------------------------------------------------------------------------------------------------

HEAD = "Resources:\n  R:\n    Type: AWS::IAM::Role\n    Properties:\n      RoleName: r\n"
TRUST = "      AssumeRolePolicyDocument: {Version: 2012-10-17, Statement: []}\n"


def tags_of(text):
    """The tags that a role of YAML gets."""
    return After(file(f"{HEAD}{TRUST}      Tags:\n{text}", ".yaml")).tags[f"{ACCOUNT}role/r"]


def test_scalars():
    """Dates are texts, as numbers and Booleans are where a text is wanted; quotes and blocks are as YAML has them."""
    text = """
        - {Key: date, Value: 2012-10-17}
        - {Key: time, Value: 2012-10-17T10:00:00Z}
        - {Key: number, Value: 12}
        - {Key: fraction, Value: 1.5}
        - {Key: yes, Value: true}
        - {Key: 012, Value: "012"}
        - {Key: block, Value: >-
            a
            b}
        - {Key: !!str 3, Value: !!str 010}
        - {Key: account, Value: 111122223333}
"""
    wanted = {
        "date": "2012-10-17",
        "time": "2012-10-17T10:00:00Z",
        "number": "12",
        "fraction": "1.5",
        "account": "111122223333",
    }
    given = text.replace("{Key: yes, Value: true}", '{Key: "yes", Value: true}').replace("{Key: 012,", '{Key: "012",')
    given = given.replace(
        "{Key: block, Value: >-\n            a\n            b}",
        "Key: block\n          Value: >-\n            a\n            b",
    )
    same(tags_of(given), {**wanted, "yes": "true", "012": "012", "block": "a b", "3": "010"})
    # A number that may be read in two ways is not known.
    for number in ("012", "0x1F", "1_000", "1:30", "1.50"):
        said = unknown(file(f"{HEAD}{TRUST}      Tags: [{{Key: a, Value: {number}}}]\n", ".yaml"))
        same(said, f"R.Tags (the number {number} without quotes)")


def test_anchors():
    text = """
        - &team {Key: team, Value: &red red}
        - {Key: colour, Value: *red}
"""
    same(tags_of(text), {"team": "red", "colour": "red"})
    policy = '{PolicyName: !Sub "p-${AWS::Region}", PolicyDocument: &read {Version: 2012-10-17, Statement: []}}'
    given = f"{HEAD}{TRUST}      Policies: [{policy}, {{PolicyName: q, PolicyDocument: *read}}]\n"
    own = f"{ACCOUNT}role/r inline"
    found = After(file(given, ".yaml"), "--parameters", IN_SHOP).who[f"{ACCOUNT}role/r"]
    same(found, {f"{own} p-eu-west-1": document(), f"{own} q": document()})


def test_what_is_no_yaml_of_a_template():
    bomb = "\n".join(
        f"a{n}: &a{n} [{', '.join(f'*a{n - 1}' for _ in range(9))}]" if n else "a0: &a0 [x, x]" for n in range(30)
    )
    cases = [
        (f"{HEAD}      RoleName: s\n", "line 6: the key RoleName comes twice in one object"),
        (f"{HEAD}      <<: {{Path: /x/}}\n", "line 6: a template holds no merges (<<)"),
        (f"{HEAD}      Path: !Foo x\n", "line 6: !Foo is no short form of a function"),
        (f"{HEAD}      Path: !!python/object/apply:os.system [id]\n", "is no short form of a function"),
        (f"{HEAD}      Path: !!binary aGk=\n", "is no short form of a function"),
        (f"{HEAD}      Path: *none\n", "line 6: the alias *none stands before the end of its anchor"),
        ("Resources: &a {x: *a}\n", "line 1: the alias *a stands before the end of its anchor"),
        (f"{HEAD}---\n{HEAD}", "it has 2 documents of YAML, and a template is one"),
        ("", "it has 0 documents of YAML, and a template is one"),
        ("Resources: {[a]: b}\n", "line 1: a key is a list or an object"),
        ("Resources: {!Ref a: b}\n", "line 1: a key is no text"),
        ("Resources: [\n", "it is no YAML: "),
        ("Resources: \x00\n", "it is no YAML: "),
        ("Resources: \x07\n", "it is no YAML: "),
        ("- a\n", "it is no template of CloudFormation: it has no object Resources"),
        ("just a text\n", "it is no template of CloudFormation"),
        (f"x: {'[' * 5000}{']' * 5000}\n", "line 1: it is nested deeper than 100"),
        ("".join(f"{' ' * n}a:\n" for n in range(900)), "it is nested deeper than 100"),
        ("- " * 5000 + "a\n", "it is nested deeper than 100"),
        (f"{bomb}\n", "with its aliases written out it has over 200,000 values"),
        (f"Resources: {'9' * 900000}\n", "it has no object Resources"),
        ("[" * (1 << 20), "line 1: it is nested deeper than 100"),
        ("a: b\n" * 300000, "it has over 1 MiB, which no template may have"),
        ("a: &a b\nb: " + "*a " * 9000, "it is no YAML: "),
    ]
    for text, wanted in cases:
        said = told(text)
        assert wanted in said, (text[:80], said)


def test_python3_yaml_is_missing():
    room = tempfile.mkdtemp(dir=os.environ["TOOLS_TEST_ROOM"])
    with open(os.path.join(room, "yaml.py"), "w") as it:
        it.write("raise ImportError('none')\n")
    path = file(f"{HEAD}{TRUST}", ".yaml")
    _, said = run(["env", f"PYTHONPATH={room}", AWS, "world", EXPORT, "--cloudformation", path], status=1)
    how = (
        "it is YAML, which python3-yaml reads (apt-get install python3-yaml): install it, or give the template as JSON"
    )
    same(said, f"iamsim-aws: {path}: {how}\n")
    # JSON is read without it.
    run(["env", f"PYTHONPATH={room}", AWS, "world", EXPORT, "--cloudformation", file(template(R=role()), ".json")])


# --- JSON ------------------------------------------------------------------------------------------------------------


def test_what_is_no_json_of_a_template():
    deep = json.dumps(template(R=role(Path="HERE")))
    cases = [
        ('{"Resources": {}, "Resources": {}}', "the key Resources comes twice in one object"),
        ("{", "it is no JSON: "),
        ("{}", "it is no template of CloudFormation: it has no object Resources"),
        ('{"Resources": []}', "it is no template of CloudFormation: it has no object Resources"),
        ('{"Resources": {"R": 1}}', "Resources.R is no object"),
        ('{"Resources": {}, "Conditions": 1}', "Conditions is no object"),
        ('{"Resources": {}, "Mappings": {"M": 1}}', "Mappings.M is no object"),
        (deep.replace('"HERE"', "[" * 200 + "]" * 200), "it is nested deeper than 100"),
        (deep.replace('"HERE"', '{"a":' * 200000 + "1" + "}" * 200000), "it has over 1 MiB"),
        (deep.replace('"HERE"', "[" * 90000 + "]" * 90000), "nested"),
        (json.dumps(template(R={"Properties": {}})), "R: Type is no text"),
        (json.dumps(template(R={"Type": ROLE, "Properties": []})), "R: the Properties of R are no object"),
        (json.dumps(template(R=role(Path=None))), "R: a value is null, which no template may have"),
    ]
    for text, wanted in cases:
        said = told(text, ".json")
        assert wanted in said, (text[:80], said)


def chain(count, make):
    """Roles whose names hang on one another."""
    last = {f"R{count}": role("a" * 40)}
    return template(**{f"R{n}": role(make(n)) for n in range(count)}, **last)


def test_names_that_hang_on_one_another():
    said = told(chain(40, lambda n: {"Fn::Sub": f"${{R{n + 1}}}${{R{n + 1}}}"}), ".json")
    assert "gives a text of over 65,536 characters" in said, said
    said = told(chain(40, lambda n: {"Fn::Join": ["", [{"Ref": f"R{n + 1}"}] * 3]}), ".json")
    assert "gives a text of over 65,536 characters" in said, said
    said = told(chain(2500, lambda n: {"Fn::Sub": f"${{R{n + 1}}}"}), ".json")
    assert "hang on one another too deep" in said, said
    circle = template(A=role({"Ref": "B"}), B=role({"Fn::Sub": "${A}x"}))
    assert "hangs on itself" in told(circle, ".json")
    for of in (
        {"Condition": "C"},
        {"Fn::Not": [{"Condition": "C"}]},
        {"Fn::Or": [{"Condition": "D"}, {"Condition": "D"}]},
    ):
        given = template({"Conditions": {"C": of, "D": {"Condition": "C"}}}, R=role(Condition="C"))
        assert "hangs on itself" in told(given, ".json"), of
    # Each condition of a long row asks for the next one twice.
    row = {f"C{n}": {"Fn::And": [{"Condition": f"C{n + 1}"}] * 2} for n in range(60)}
    row["C60"] = {"Fn::Equals": ["a", "a"]}
    same(f"{ACCOUNT}role/new" in After(template({"Conditions": row}, R=role(Condition="C0"))).who, True)


def test_functions_of_another_form():
    """Each takes what CloudFormation gives it, and no more."""
    cases = [
        ({"Ref": 1}, "Ref takes a name, and has a number"),
        ({"Ref": "None"}, "Ref names None, which the template does not have"),
        ({"Ref": "AWS::None"}, "Ref names AWS::None, which the template does not have"),
        ({"Fn::GetAtt": ["R"]}, "Fn::GetAtt takes a list of 2"),
        ({"Fn::GetAtt": "None.Arn"}, "Fn::GetAtt names None, which the template does not have"),
        ({"Fn::Sub": 1}, "Fn::Sub takes a list of 2"),
        ({"Fn::Sub": "${None}"}, "Ref names None, which the template does not have"),
        ({"Fn::Sub": "${aws:username}"}, "Ref names aws:username, which the template does not have"),
        ({"Fn::Sub": "${List}"}, "Fn::Sub takes a text, and has a list"),
        ({"Fn::Join": ["", "a"]}, "Fn::Join takes a text and a list"),
        ({"Fn::Join": ["", [["a"]]]}, "Fn::Join takes a text, and has a list"),
        ({"Fn::Select": [9, ["a"]]}, "Fn::Select takes the member 9 of a list of 1"),
        ({"Fn::Select": [-1, ["a"]]}, "Fn::Select takes a number and a list"),
        ({"Fn::Select": [0, "a"]}, "Fn::Select takes a number and a list"),
        ({"Fn::Split": ["", "a"]}, "Fn::Split takes a text that separates, and a text"),
        ({"Fn::FindInMap": ["Map", "none", "b"]}, "Fn::FindInMap names none, which the mappings do not have"),
        ({"Fn::If": ["None", "a", "b"]}, "no condition is called None"),
        ({"Fn::If": ["IsProd", "a"]}, "Fn::If takes a list of 3"),
        ({"Fn::Sub": "a", "b": "c"}, "Fn::Sub stands beside other keys"),
    ]
    for function, why in cases:
        policy = document(statement(action="s3:GetObject", resource=function))
        same(refused(template(FURTHER, R=role(Policies=[inline("p", policy)]))), f"R: {why}")
    for condition, why in (
        ("x", "a condition is a text, and no function of conditions"),
        ({"Fn::Equals": ["a"]}, "Fn::Equals takes a list of 2"),
        ({"Fn::Not": []}, "Fn::Not takes a list of 1"),
        ({"Condition": "None"}, "no condition is called None"),
    ):
        same(refused(template({"Conditions": {"C": condition}}, R=role(Condition="C"))), f"R: {why}")


WHOLE = template(
    {**FURTHER, **SAM, "Globals": {"Function": {"Tags": {"a": "b"}}}},
    **{name: OTHERS[name] for name in ("Bucket", "Queue", "Owner")},
    R=role(
        Path="/x/",
        Policies=[inline("p", READ)],
        ManagedPolicyArns=["a:b"],
        Tags=[{"Key": "a", "Value": "b"}],
        PermissionsBoundary="b",
    ),
    M=resource("AWS::IAM::ManagedPolicy", ManagedPolicyName="m", PolicyDocument=READ, Roles=[{"Ref": "R"}]),
    A=resource("AWS::IAM::UserToGroupAddition", GroupName="Readers", Users=["alice"]),
    B=resource("AWS::S3::BucketPolicy", Bucket={"Ref": "Bucket"}, PolicyDocument=granting()),
    Q=resource("AWS::SQS::QueuePolicy", Queues=[{"Ref": "Queue"}], PolicyDocument=granting()),
    L=resource(
        "AWS::Lambda::Permission", FunctionName={"Ref": "F"}, Action="lambda:InvokeFunction", Principal="444455556666"
    ),
    F=resource(FUNCTION, Policies=[READ, "ReadObjects"], Events={"E": {"Type": "Api"}}),
    S=resource("AWS::SSO::PermissionSet", Name="Read", InlinePolicy=READ, ManagedPolicies=["a:b"]),
)
STRANGE = [
    None,
    1,
    True,
    "",
    "x",
    [],
    {},
    [[]],
    [None],
    {"x": 1},
    {"Ref": "x"},
    {"Fn::If": []},
    {"Fn::ImportValue": "x"},
]


def places_of(value, path=()):
    yield path
    items = value.items() if isinstance(value, dict) else enumerate(value) if isinstance(value, list) else ()
    for key, it in items:
        yield from places_of(it, (*path, key))


def with_other(value, path, other):
    made = copy.deepcopy(value)
    holder = made
    for key in path[:-1]:
        holder = holder[key]
    if path:
        holder[path[-1]] = other
    return made if path else other


def test_wrong_types_at_each_place():
    """Of a template, of what a stack has, and of parameters: an answer, or status 1 and one line that names the template."""
    there = stack(R=(ROLE, "deploy"), F=("AWS::Serverless::Function", "f"), Gone=(ROLE, "audit"))
    with open(there) as it:
        answer = json.load(it)
    whole, path = file(WHOLE), file("")
    words = ["world", EXPORT, "--allow-unknown", "--parameters", IN_SHOP, "--cloudformation"]
    inputs = [
        (WHOLE, [*words, path]),
        (answer, [*words, whole, "--stack", path]),
        ({"TemplateBody": WHOLE}, [*words, whole, "--stack", there, "--stack", path]),
        (
            [{"ParameterKey": "Env", "ParameterValue": "x"}],
            ["world", EXPORT, "--allow-unknown", "--parameters", path, "--cloudformation", whole],
        ),
    ]
    began, count = time.process_time(), 0
    for value, line in inputs:
        for n, place in enumerate(places_of(value)):
            # Two of the strange values at each place, so that each stands at many.
            for other in (STRANGE[n % len(STRANGE)], STRANGE[(n * 5 + 3) % len(STRANGE)]):
                with open(path, "w") as it:
                    json.dump(with_other(value, place, other), it)
                status, said = called(*line)[::2]
                assert status in (0, 1) and "could not go on" not in said, (place, other, said)
                assert status == 0 or said.count("\n") == 1, (place, other, said)
                count += 1
    assert count > 500 and time.process_time() - began < 300, count


def test_large_templates():
    """As large as CloudFormation takes them."""
    many = {f"R{n}": role(f"r{n}", Policies=[inline("p", READ)]) for n in range(500)}
    began = time.process_time()
    found = After(template(**many))
    same(sum(":role/r" in it for it in found.who), 500)
    big = document(*(statement(action=f"s3:Get{n}", resource=f"arn:aws:s3:::b{n}/*") for n in range(8000)))
    given = file(json.dumps(template(R=role(Policies=[inline("p", big)]))), ".yaml")
    same(len(After(given).who[f"{ACCOUNT}role/new"][f"{ACCOUNT}role/new inline p"]["Statement"]), 8000)
    assert time.process_time() - began < 2 * SECONDS


# --- answers about a stack -------------------------------------------------------------------------------------------


def test_answers_that_are_none():
    given = template(R=role())
    for value, why in (
        ({}, "it is no output of 'aws cloudformation describe-stack-resources', describe-stacks or get-template"),
        ({"StackResources": [{}]}, "resource 0 has no LogicalResourceId, ResourceType and PhysicalResourceId"),
        ({"Stacks": []}, "it describes 0 stacks, and a template is of one"),
        ({"TemplateBody": "- a"}, "its TemplateBody: it is no template of CloudFormation: it has no object Resources"),
        ({"TemplateBody": {}}, "its TemplateBody: it is no template of CloudFormation: it has no object Resources"),
    ):
        path = file(value)
        same(refused(given, "--stack", path), f"{path}: {why}")
    path = file({"TemplateBody": template({"Transform": "Own"})})
    why = "it has macros: give it as they leave it (--template-stage Processed)"
    same(refused(given, "--stack", path), f"{path}: its TemplateBody: {why}")
    one, other = stack(R=(ROLE, "deploy")), stack(name="other", R=(ROLE, "deploy"))
    said = refused(given, "--stack", one, "--stack", other)
    same(said, f"{other}: two answers tell different things of one stack (name)")
    same(refused(given, "--stack", f"other={one}"), f"--stack other={one}: the answer is of the stack shop")
    words = ["--stack", deployed(given), "--terraform", file({"resource_changes": [], "format_version": "1.2"})]
    same(refused(given, *words), "give a plan by --terraform, or templates by --cloudformation, and not both")
    _, said = aws("changes", EXPORT, "--stack", one, status=1)
    same(said, "iamsim-aws: --parameters and --stack belong to --cloudformation\n")


def test_a_deployed_template_in_yaml():
    """The CLI gives it as a text; describe-stacks has the values that its parameters had."""
    head = HEAD.replace("RoleName: r", "RoleName: deploy\n      Path: /app/")
    body = f"Parameters: {{P: {{Type: String}}}}\n{head}{TRUST}      ManagedPolicyArns: [!Ref P]\n"
    read_objects, roles = "arn:aws:iam::aws:policy/ReadObjects", f"{ACCOUNT}policy/AssumeRoles"
    before = {"StackName": "shop", "StackId": "", "Parameters": [{"ParameterKey": "P", "ParameterValue": read_objects}]}
    given = [stack(arn="", R=(ROLE, "deploy")), file({"Stacks": [before]}), file({"TemplateBody": body})]
    words = [word for it in given for word in ("--stack", it)]
    found = After(file(body, ".yaml"), *words, "--parameters", file({"P": roles}))
    same(set(found.who[f"{ACCOUNT}role/app/deploy"]), {roles})
