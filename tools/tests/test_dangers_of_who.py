"""Checks that a pipeline trusts, over dangers of who asks. Each case has a harmless twin, which is green."""

import base64
import json
import re

from harness import aws, document, file, load, same, statement
from test_dangers import ACCOUNT, GET, OWN, S3, bucket, changed, export, of_github, on, rule, to, trust, trusting

NOTHING = statement(action="sqs:*")
TEXTS = f"never * {GET} {S3}homes/*", f"never * {GET} {S3}homes/k"


def when(operator, key, value):
    return {"Condition": {operator: {key: value}}}


def asked(some, status, shown, *words, given=None):
    """How rules on a bucket with these statements end, and a draft of them; what is shown stands there where it is not green."""
    given, resources = given or export(NOTHING), ["--resources", bucket(*some)]
    for text in TEXTS:
        out = rule(text, given, status, *resources)
        same(shown in out, bool(status), out)
    found, said = changed(given, "--resources", bucket(), "--put", f"homes={file(document(*some))}", status=status)
    same(shown in f"{found}{said}", bool(status), f"{found}{said}")


def test_types_of_principals():
    """Of a type that the stand-in of an account has not; the twin names a type that nobody has."""
    for operator in ("StringEquals", "StringEqualsIgnoreCase", "StringLike"):
        asked([to("*", "homes/*", **when(operator, "aws:PrincipalType", "AssumedRole"))], 3, "outside: arn:aws:")
    asked([to("*", "homes/*", **when("StringEquals", "aws:PrincipalType", "User"))], 3, "anyone outside")
    but_users = to("*", "homes/*", effect="Deny", **when("StringNotEquals", "aws:PrincipalType", "AssumedRole"))
    asked([to("*", "homes/*"), but_users], 3, "outside: arn:aws:")
    asked([to("*", "homes/*", **when("StringEquals", "aws:PrincipalType", "None"))], 0, "outside: arn")


def test_requests_that_nobody_signs():
    """They lack the requester's ARN and account, and root users have a type of their own: open, where a statement of everybody tells that
    apart. The twins ask for what unsigned requests lack, or deny them too."""
    allow, shown = to("*", "homes/*"), "everybody, also who signs nothing or is no user and no role, for whom nobody is asked"
    granting = lambda *of: [to("*", "homes/*", **when(*of))]
    denying = lambda *of: [allow, to("*", "homes/*", effect="Deny", **when(*of))]
    own = to("*", "homes/*", effect="Deny", **when("StringNotEquals", "aws:PrincipalAccount", OWN))
    for some in (
        granting("Null", "aws:PrincipalArn", "true"),
        granting("StringEqualsIfExists", "aws:PrincipalArn", f"{ACCOUNT}user/gone"),
        granting("ForAllValues:ArnEquals", "aws:PrincipalArn", f"{ACCOUNT}user/gone"),
        granting("StringEquals", "aws:PrincipalType", "Anonymous"),
        granting("StringEquals", "aws:PrincipalAccount", "anonymous"),
        granting("StringEquals", "aws:PrincipalType", "Account"),
        granting("ArnLike", "aws:PrincipalArn", f"arn:aws:sts::{OWN}:federated-user/*"),
    ):
        asked(some, 5, shown)
    for of in (("Null", "aws:PrincipalArn", "false"), ("StringLike", "aws:PrincipalArn", "*"), ("ForAnyValue:StringNotLike", "aws:PrincipalArn", "x")):
        for text in TEXTS:
            assert shown in rule(text, export(NOTHING), 5, "--resources", bucket(*denying(*of))), of
    for some in (
        granting("ArnLike", "aws:PrincipalArn", f"{ACCOUNT}*"),
        [allow, own],
        [allow, to("*", "homes/*", effect="Deny", **when("ArnNotLikeIfExists", "aws:PrincipalArn", f"{ACCOUNT}*"))],
    ):
        for text in TEXTS:
            assert shown not in rule(f"{text} except alice", export(NOTHING), 0, "--resources", bucket(*some)), some
    asked(granting("StringEquals", "aws:PrincipalArn", f"{ACCOUNT}user/gone"), 0, shown)


def test_federated_users_of_the_own_account():
    """They are neither users nor roles: open; the twin names a user who is gone."""
    shown = f"names arn:aws:sts::{OWN}:federated-user/bob, for whom nobody is asked"
    asked([to({"AWS": f"arn:aws:sts::{OWN}:federated-user/bob"}, "homes/*")], 5, shown)
    asked([to({"AWS": f"{ACCOUNT}user/bob"}, "homes/*")], 0, shown)


def test_ids_of_sessions_without_regard_to_case():
    role = {"RoleName": "app", "RoleId": "AROAAPP", "Arn": f"{ACCOUNT}role/app", "AssumeRolePolicyDocument": document(trust({"AWS": OWN}))}
    of = lambda own: {**role, "RolePolicyList": [{"PolicyName": "Own", "PolicyDocument": document(own)}]}
    for asked_id, status in (("aroaapp:bob", 3), ("aroagone:bob", 0)):
        own = on("homes/*", **when("StringEqualsIgnoreCase", "aws:userid", asked_id))
        for text in TEXTS:
            out = rule(text, file({"RoleDetailList": [of(own)]}), status)
            same(f":assumed-role/app/bob may {GET}" in out, status == 3, out)


def test_ids_of_sessions_in_names():
    """What is of `${aws:userid}` is of the session that its name has; the twins name another role, and another place."""
    role = {"RoleName": "app", "RoleId": "AROAAPP", "Arn": f"{ACCOUNT}role/app", "AssumeRolePolicyDocument": document(trust({"AWS": OWN}))}
    own = {"PolicyName": "Own", "PolicyDocument": document(on("homes/${aws:userid}/*"))}
    but = {"PolicyName": "Own", "PolicyDocument": document(on("*"), {"Effect": "Deny", "Action": GET, "NotResource": f"{S3}homes/${{aws:userid}}/*"})}
    for of in (own, but):
        given = file({"RoleDetailList": [{**role, "RolePolicyList": [of]}]})
        for name, status in (("homes/AROAAPP:bob/k", 3), ("homes/AROAGONE:bob/k", 0), ("public/AROAAPP:bob/k", 0)):
            out = rule(f"never * {GET} {S3}{name}", given, status)
            same(f":assumed-role/app/bob may {GET} {S3}{name}" in out, status == 3, out)


def test_who_comes_by_a_token():
    """Web identities and SAML identities that a role trusts come to what it may do; the twins are denied, or are services."""
    text = f"never * {GET} {S3}secrets/* except *:role/app"
    provider = {"Federated": f"{ACCOUNT}saml-provider/idp"}
    saml = trust(provider, "sts:AssumeRoleWithSAML")
    web = of_github("repo:ours/app:*")
    service = trust({"Service": "lambda.amazonaws.com"})
    for some, status, who in (
        ([web], 3, "web identity: token.actions.githubusercontent.com"),
        ([saml], 3, "SAML identity: idp"),
        ([web, trust(web["Principal"], "sts:*", Effect="Deny")], 0, ""),
        ([saml, trust(provider, "sts:*", Effect="Deny")], 0, ""),
        ([service], 0, ""),
    ):
        made = load(trusting(*some))
        made["RoleDetailList"][0]["RolePolicyList"] = [{"PolicyName": "Own", "PolicyDocument": document(on("secrets/*"))}]
        out = rule(text, file(made), status, "--chains")
        same(f"  {who} may come to {GET} {S3}secrets/ by assuming roles, {who}" in out, status == 3, out)
        assert "every value of each key, who comes by at most 3 roles and is no service)" in out, out
        out, said = aws("who-can", GET, f"{S3}secrets/k", file(made), "--chains")
        same(f"  {who}" in out and " -> " in out, status == 3, out)
        assert "services that roles trust are not asked\n" in said, said


def test_who_is_meant_by_names_that_nobody_has():
    """A service for whom nobody is asked is what a rule means: open; the twin names another one, and is empty."""
    granted = to({"Service": "lambda.amazonaws.com"}, "homes/*")
    resources = ["--resources", bucket(granted, to("*", "homes/*", effect="Deny", **when("StringNotEquals", "aws:PrincipalAccount", OWN)))]
    for resource in ("homes/*", "homes/k", "homes/k*"):
        for who, status in (("*.amazonaws.com", 5), ("service:\\ lambda*", 5), ("*.example.com", 4)):
            out = rule(f"never {who} {GET} {S3}{resource}", export(NOTHING), status, *resources)
            same("  open: " in out and "names Service lambda.amazonaws.com, for whom nobody is asked" in out, status == 5, out)


def test_patterns_of_what_is_named():
    """Without `--kinds` they are told to be so; a question without a pattern, and one for every name, are not."""
    objects = file([{"arn": f"{S3}homes/{it}", "account": OWN} for it in "ab"])
    given = [export(on("homes/c*", action=["s3:Get*", GET])), "--resources", objects]
    told = "with --kinds it means every name"
    out, _ = aws("who-can", GET, f"{S3}homes/*", *given)
    assert f"{S3}homes/* is taken for 2 named resources: {told}\n" in out, out
    out, said = aws("can", "alice", "s3:*", f"{S3}homes/c", *given, "--format", "json")
    assert f"s3:* is taken for 1 named action: {told}\n" in said, said
    for words in ([f"{S3}homes/*", "--kinds"], [f"{S3}homes/a"]):
        assert told not in "".join(aws("who-can", GET, *words, *given)), words


def test_a_page_with_stand_ins_of_several_worlds():
    """A canonical user of a bucket and a web identity of a role, of which the world of the bucket has none."""
    words = ["--resources", bucket(), "--put", f"role/app={file(document(of_github('repo:x:*')))}"]
    words += ["--put", f"homes={file(document(to({'CanonicalUser': '79a5'}, 'homes/*')))}", "--format", "page"]
    text, _ = aws("changes", trusting(trust({"AWS": OWN})), *words)
    found = json.loads(re.search('<script id="data" type="application/json">(.*?)</script>', text, re.DOTALL).group(1))
    web, token = "web identity: token.actions.githubusercontent.com", "sts:AssumeRoleWithWebIdentity"
    same(found["axes"], [["canonical user: 79a5", web], [GET, token], [f"{S3}homes/", f"{ACCOUNT}role/app"]])
    cells, allowed, absent = base64.b64decode(found["cells"]), 0, 3
    same(found["answers"][cells[0]][0], allowed)
    same([found["answers"][it][0] for it in cells[4:7]], [absent] * 3)
