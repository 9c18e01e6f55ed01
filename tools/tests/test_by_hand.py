"""An estate that was made by hand, apart from the code: three accounts of an organisation with an SCP and an RCP, roles across accounts,
a bucket with a policy, a boundary; and a plan over it. The answers were written down first, each with its reason by AWS's rules.

The management account 100000000001 has max. Prod (200000000002, in a unit with the SCP NoDelete) has pia with a boundary, the roles app
and breakglass, and the bucket ledger. Tools (300000000003) has the role ci and the users tom and eve.
"""

import json

from harness import aws, document, file, same, statement

MAIN, PROD, TOOLS, OUTSIDE = "100000000001", "200000000002", "300000000003", "999999999999"
ORG = "o-abcdefgh12"
LEDGER = "arn:aws:s3:::ledger"
READ, PUT, DELETE, ASSUME = "s3:GetObject", "s3:PutObject", "s3:DeleteObject", "sts:AssumeRole"


def arn(account, rest):
    return f"arn:aws:iam::{account}:{rest}"


APP, BREAK = arn(PROD, "role/app"), arn(PROD, "role/breakglass")


def user(account, name, *statements, **more):
    own = [{"PolicyName": "own", "PolicyDocument": document(*statements)}]
    made = {"Path": "/", "UserName": name, "UserId": f"AIDA{name.upper()}", "Arn": arn(account, f"user/{name}")}
    return {**made, "UserPolicyList": own, "AttachedManagedPolicies": [], "GroupList": [], **more}


def trusting(**more):
    return document({"Effect": "Allow", "Action": ASSUME, **more})


def role(account, name, trust, *statements):
    own = [{"PolicyName": "own", "PolicyDocument": document(*statements)}]
    made = {"Path": "/", "RoleName": name, "RoleId": f"AROA{name.upper()}", "Arn": arn(account, f"role/{name}")}
    return {**made, "AssumeRolePolicyDocument": trust, "RolePolicyList": own, "AttachedManagedPolicies": []}


def export(users, roles=(), policies=()):
    return file(
        {"UserDetailList": users, "GroupDetailList": [], "RoleDetailList": list(roles), "Policies": list(policies)}
    )


LIMIT = arn(PROD, "policy/limit")
IN_LEDGER = document(statement(action=[READ, DELETE], resource=f"{LEDGER}/*"))
BOUNDARY = {"PermissionsBoundary": {"PermissionsBoundaryType": "Policy", "PermissionsBoundaryArn": LIMIT}}
LIMITS = {"PolicyName": "limit", "Arn": LIMIT, "Path": "/", "DefaultVersionId": "v1"}
LIMITS["PolicyVersionList"] = [{"Document": IN_LEDGER, "VersionId": "v1", "IsDefaultVersion": True}]
MFA = {"Bool": {"aws:MultiFactorAuthPresent": "true"}}
EXPORTS = [
    export([user(MAIN, "max", statement())]),
    export(
        [user(PROD, "pia", statement(action="s3:*"), **BOUNDARY)],
        [
            role(
                PROD,
                "app",
                trusting(Principal={"AWS": arn(TOOLS, "role/ci")}),
                statement(action=[READ, PUT], resource=f"{LEDGER}/*"),
            ),
            role(PROD, "breakglass", trusting(Principal={"AWS": arn(TOOLS, "root")}, Condition=MFA), statement()),
        ],
        [LIMITS],
    ),
    export(
        [
            user(TOOLS, "tom", statement(action=ASSUME, resource=[APP, BREAK])),
            user(TOOLS, "eve", statement(action="s3:*"), statement("Deny", READ, f"{LEDGER}/secret/*")),
        ],
        [
            role(
                TOOLS,
                "ci",
                trusting(Principal={"Service": "ec2.amazonaws.com"}),
                statement(action=ASSUME, resource=APP),
                statement(action=READ, resource=f"{LEDGER}/*"),
            )
        ],
    ),
]


def of_bucket(who, action, *resources, effect="Allow", **more):
    return {"Effect": effect, "Principal": who, "Action": action, "Resource": list(resources), **more}


POLICY = document(
    of_bucket({"AWS": arn(TOOLS, "role/ci")}, READ, f"{LEDGER}/public/*"),
    of_bucket("*", READ, f"{LEDGER}/reports/*", Condition={"StringEquals": {"aws:PrincipalOrgID": ORG}}),
    of_bucket(
        "*", "s3:*", LEDGER, f"{LEDGER}/*", effect="Deny", Condition={"Bool": {"aws:SecureTransport": "false"}}
    ),
    of_bucket({"AWS": MAIN}, DELETE, f"{LEDGER}/*"),
    of_bucket({"AWS": arn(OUTSIDE, "root")}, READ, f"{LEDGER}/reports/*"),
)
RESOURCES = file([{"arn": LEDGER, "account": PROD, "policy": POLICY}])

FULL = document(statement())
BUT_BREAK = {"ArnNotLike": {"aws:PrincipalArn": "arn:aws:iam::*:role/breakglass"}}
NO_DELETE = document(statement("Deny", DELETE, Condition=BUT_BREAK))
OWN_ORG = document(
    {
        "Effect": "Deny",
        "Principal": "*",
        "Action": "s3:*",
        "Resource": "*",
        "Condition": {
            "StringNotEqualsIfExists": {"aws:PrincipalOrgID": ORG},
            "BoolIfExists": {"aws:PrincipalIsAWSService": "false"},
        },
    }
)
FULL_OF_RESOURCES = document({"Effect": "Allow", "Principal": "*", "Action": "*", "Resource": "*"})


def targets(*extra):
    every = [("p-full", "SERVICE_CONTROL_POLICY"), ("p-rcpfull", "RESOURCE_CONTROL_POLICY"), *extra]
    return [{"Id": name, "Type": kind} for name, kind in every]


def policy(name, content):
    summary = {"Id": name, "Arn": f"arn:aws:organizations::{MAIN}:policy/{name}"}
    return {"PolicySummary": summary, "Content": json.dumps(content)}


UNIT, ROOT = "ou-ab12-22222222", "r-ab12"
ORGANIZATION = file(
    {
        "id": ORG,
        "management": MAIN,
        "parents": {
            MAIN: [{"Id": ROOT, "Type": "ROOT"}],
            TOOLS: [{"Id": ROOT, "Type": "ROOT"}],
            PROD: [{"Id": UNIT, "Type": "ORGANIZATIONAL_UNIT"}],
            UNIT: [{"Id": ROOT, "Type": "ROOT"}],
        },
        "targets": {
            ROOT: targets(("p-ownorg", "RESOURCE_CONTROL_POLICY")),
            UNIT: targets(("p-nodelete", "SERVICE_CONTROL_POLICY")),
            **{it: targets() for it in (MAIN, PROD, TOOLS)},
        },
        "policies": [
            policy("p-full", FULL),
            policy("p-nodelete", NO_DELETE),
            policy("p-ownorg", OWN_ORG),
            policy("p-rcpfull", FULL_OF_RESOURCES),
        ],
        "controlled": ["s3", "sts"],
    }
)
GIVEN = [*EXPORTS, "--resources", RESOURCES, "--organization", ORGANIZATION, "--session", "s"]

ALLOWED, DENIED = ("allowed", []), ("explicitDeny", [])


def lacks(*layers):
    return ("implicitDeny", sorted(layers))


def answers(action, resource, *words):
    """{name: (decision, what lacks)} of who is in the exports, and of who is outside. The ledger lets members of the organisation read
    reports: of those that its file lacks nobody is asked, so that reading it is open."""
    is_open = action == READ and resource.startswith(LEDGER)
    out, told = aws("who-can", action, resource, *GIVEN, *words, "--format", "json", status=5 if is_open else 0)
    same("of those that its file lacks nobody is asked" in told, is_open)
    rows = json.loads(out)
    inside = {it["principal"].replace("/s", "").split("/")[-1]: it for it in rows if not it["outside"]}
    outside = {it["principal"]: it["decision"] for it in rows if it["outside"]}
    return {name: (it["decision"], sorted(it["lacks"])) for name, it in inside.items()}, outside


def test_reading_reports():
    """Whom the account has, its own policy suffices; whom the organisation has, the bucket lets in, and his own policy has to allow
    it: tom's has nothing of S3. The bucket lets the outside in, and the RCP denies it."""
    found, outside = answers(READ, f"{LEDGER}/reports/q1")
    wanted = {it: ALLOWED for it in ("pia", "app", "breakglass", "ci", "eve", "max")}
    same(found, {**wanted, "tom": lacks("identity")})
    assert outside and set(outside.values()) == {"explicitDeny"}, outside


def test_reading_elsewhere():
    """public: the bucket lets ci in, and nobody else of another account. secret: nobody of another account, and eve denies it herself."""
    own = {it: ALLOWED for it in ("pia", "app", "breakglass")}
    tom = lacks("identity", "resource")
    found, _ = answers(READ, f"{LEDGER}/public/x")
    same(found, {**own, "ci": ALLOWED, "eve": lacks("resource"), "max": lacks("resource"), "tom": tom})
    found, _ = answers(READ, f"{LEDGER}/secret/x")
    same(found, {**own, "ci": lacks("resource"), "eve": DENIED, "max": lacks("resource"), "tom": tom})


def test_deleting():
    """The SCP denies it to all of prod but breakglass; max is of the management account, which no SCP binds, and the bucket lets his
    account in. ci's own policy has nothing of it."""
    found, _ = answers(DELETE, f"{LEDGER}/reports/q1")
    wanted = {"pia": DENIED, "app": DENIED, "breakglass": ALLOWED, "max": ALLOWED, "eve": lacks("resource")}
    same(found, {**wanted, "ci": lacks("identity", "resource"), "tom": lacks("identity", "resource")})


def test_writing():
    """pia's boundary has no PutObject. Where the way is not encrypted, all is denied, breakglass too."""
    found, _ = answers(PUT, f"{LEDGER}/reports/q1")
    wanted = {"pia": lacks("boundary"), "app": ALLOWED, "breakglass": ALLOWED, "eve": lacks("resource")}
    both = lacks("identity", "resource")
    same(found, {**wanted, "max": lacks("resource"), "ci": both, "tom": both})
    found, _ = answers(PUT, f"{LEDGER}/reports/q1", "--context", file({"aws:SecureTransport": False}))
    same({it[0] for it in found.values()}, {"explicitDeny"})


def test_assuming_roles():
    """app trusts ci alone. breakglass trusts the account of tom and ci with MFA: tom's policy names it, ci's does not."""
    found, _ = answers(ASSUME, APP)
    same({who for who, it in found.items() if it == ALLOWED}, {"ci"})
    same((found["tom"], found["max"]), (lacks("resource"), lacks("resource")))
    found, _ = answers(ASSUME, BREAK)
    same({who for who, it in found.items() if it == ALLOWED}, set())
    out, _ = aws("who-can", ASSUME, BREAK, *GIVEN)
    assert "1 more would be, with a key that nothing gives:" in out, out
    assert "allowed if `aws:MultiFactorAuthPresent` is `true`" in out, out
    found, _ = answers(ASSUME, BREAK, "--context", file({"aws:MultiFactorAuthPresent": True}))
    same({who for who, it in found.items() if it == ALLOWED}, {"tom"})


def test_rules():
    """What stands above, as rules; and each of them broken by one word."""
    max_and_break = f"{arn(MAIN, 'user/max')} *:role/breakglass"
    kept = f"""never * s3:DeleteObject {LEDGER}/* except {max_and_break}
never * s3:GetObject {LEDGER}/secret/* except pia *:role/app *:role/breakglass
never * s3:GetObject {LEDGER}/public/x except pia *:role/app *:role/breakglass *:role/ci
always *:role/app s3:PutObject {LEDGER}/reports/q1
never * sts:AssumeRole {BREAK} except tom
"""
    # The ledger lets members of the organisation read, of whom those that its file lacks are not asked.
    out, _ = aws("rules", file(kept), *GIVEN, status=5)
    assert out.endswith("5 rules: 3 kept, 0 broken, 0 empty, 2 open\n"), out
    same([line.split(":")[2] for line in out.splitlines() if line.startswith("open: ")], ["2", "3"])
    aws("rules", file(kept), *GIVEN, "--allow-open")
    broken = kept.replace(max_and_break, "max").replace("pia *:role/app ", "*:role/app ").replace(" *:role/ci", "")
    broken = broken.replace("always *:role/app", "always pia").replace(" except tom", "")
    out, _ = aws("rules", file(broken), *GIVEN, status=3)
    assert out.endswith("5 rules: 0 kept, 5 broken, 0 empty, 0 open\n"), out
    for who, what in (("assumed-role/breakglass/s", DELETE), ("user/pia", READ), ("assumed-role/ci/s", READ)):
        assert f"{who} may {what} {LEDGER}/" in out, (who, out)
    assert f"user/pia may not {PUT}" in out and f"user/tom may {ASSUME} {BREAK} if `aws:Multi" in out, out


def planned(address, before, after, **unknown):
    actions = {(False, True): ["create"], (True, True): ["update"]}[before is not None, after is not None]
    made = {"address": address, "mode": "managed", "type": address.split(".")[0], "name": address.split(".")[1]}
    return {**made, "change": {"actions": actions, "before": before, "after": after, "after_unknown": unknown}}


def test_a_plan():
    """pia's boundary goes: she gains what her own policy allows and nothing else denies. A role auditor comes to tools: it may read
    what the bucket lets the organisation read. tom comes into app's trust policy."""
    pia = {"name": "pia", "path": "/", "arn": arn(PROD, "user/pia"), "permissions_boundary": LIMIT}
    app = {"name": "app", "path": "/", "arn": APP}
    ci, tom = arn(TOOLS, "role/ci"), arn(TOOLS, "user/tom")
    old, new = ({**app, "assume_role_policy": json.dumps(trusting(Principal={"AWS": it}))} for it in ([ci], [ci, tom]))
    trust = json.dumps(trusting(Principal={"Service": "ec2.amazonaws.com"}))
    auditor = {"name": "auditor", "path": "/", "assume_role_policy": trust}
    reads = json.dumps(document(statement(action=READ, resource=f"{LEDGER}/*")))
    refers = {"role": {"references": ["aws_iam_role.auditor.name", "aws_iam_role.auditor"]}}
    of = {"address": "aws_iam_role_policy.auditor", "expressions": refers}
    plan = {
        "format_version": "1.2",
        "resource_changes": [
            planned("aws_iam_role_policy.auditor", None, {"name": "read", "role": "auditor", "policy": reads}, id=True),
            planned("aws_iam_role.auditor", None, auditor, arn=True, id=True),
            planned("aws_iam_user.pia", pia, {**pia, "permissions_boundary": None}),
            planned("aws_iam_role.app", old, new),
        ],
        "configuration": {"root_module": {"resources": [of]}},
    }
    words = ["changes", *GIVEN, "--terraform", file(plan), "--account", TOOLS, "--format", "csv"]
    for action, resource, wanted in (
        (PUT, f"{LEDGER}/reports/q1", {f"gained {arn(PROD, 'user/pia')}"}),
        # The SCP denies it to her still.
        (DELETE, f"{LEDGER}/reports/q1", set()),
        (READ, f"{LEDGER}/reports/q1", {f"gained arn:aws:sts::{TOOLS}:assumed-role/auditor/s"}),
        (READ, f"{LEDGER}/public/x", set()),
        (ASSUME, APP, {f"gained {arn(TOOLS, 'user/tom')}"}),
        (ASSUME, BREAK, set()),
    ):
        out, _ = aws(*words, "--action", action, "--resource", resource)
        found = {" ".join(line.split(",")[:2]) for line in out.splitlines()[1:]}
        same(found, wanted, f"{action} {resource}")
