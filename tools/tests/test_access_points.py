"""Requests by access points of S3, made by hand: the access point and its bucket both have to allow them. The answers are worked
out from what AWS says of access points ("both the access point and the underlying bucket must permit the request")."""

import json

from harness import aws, document, file, same, statement

OWN, OTHER = "111122223333", "444455556666"
POINT = f"arn:aws:s3:eu-west-1:{OWN}:accesspoint/p"
BUCKET, KEY = "arn:aws:s3:::data", f"{POINT}/object/in/k"
USERS = f"arn:aws:iam::{OWN}:user/"


def user(name, *policies):
    some = [{"PolicyName": "own", "PolicyDocument": it} for it in policies]
    return {"UserName": name, "UserId": f"AIDA{name}", "Arn": f"{USERS}{name}", "Path": "/", "UserPolicyList": some}


# jane has no policy, wide may do all of S3, narrow may read by the access point alone.
PEOPLE = [
    user("jane"),
    user("wide", document(statement(action="s3:*"))),
    user("narrow", document(statement(action="s3:GetObject", resource=f"{POINT}/object/*"))),
]
EXPORT = file({"UserDetailList": PEOPLE, "GroupDetailList": [], "RoleDetailList": [], "Policies": []})


def grant(who, *resources, action="s3:GetObject", effect="Allow", **equal):
    keys = {f"s3:{key}": it for key, it in equal.items()}
    made = {"Effect": effect, "Principal": who, "Action": action, "Resource": list(resources)}
    return {**made, **({"Condition": {"StringEquals": keys}} if keys else {})}


TO_JANE = document(grant({"AWS": f"{USERS}jane"}, f"{POINT}/object/*"))
BOTH = (BUCKET, f"{BUCKET}/*")


def delegated(**equal):
    """The bucket lets access points decide, as AWS proposes it."""
    return document(grant("*", *BOTH, action="*", **equal))


TO_POINTS = delegated(DataAccessPointAccount=OWN)


def resources(bucket=None, point=TO_JANE, account=OWN, name="data"):
    made = {"arn": POINT, "account": OWN, "policy": point, **({"bucket": name} if name else {})}
    return file([made, {"arn": BUCKET, "account": account, **({"policy": bucket} if bucket else {})}])


def decisions(given, arn=KEY, action="s3:GetObject"):
    """{user: (decision, what lacks)} of one request."""
    out, _ = aws("who-can", action, arn, EXPORT, "--resources", given, "--format", "json")
    own = [it for it in json.loads(out) if not it["outside"]]
    return {it["principal"][len(USERS) :]: (it["decision"], it["lacks"]) for it in own}


YES, NO = ("allowed", []), "implicitDeny"


def test_both_have_to_allow():
    # Without a policy of the bucket his own policy has to allow it there, and narrow's does not; jane has none.
    found = decisions(resources())
    same(found, {"jane": (NO, ["bucket-identity"]), "wide": YES, "narrow": (NO, ["bucket-identity"])})
    # It delegates to all access points of the account: then the access point decides.
    same(decisions(resources(TO_POINTS)), {"jane": YES, "wide": YES, "narrow": YES})
    same(decisions(resources(delegated(DataAccessPointArn=POINT))), {"jane": YES, "wide": YES, "narrow": YES})
    # To another access point, or another account's.
    for other in ({"DataAccessPointArn": f"{POINT}q"}, {"DataAccessPointAccount": OTHER}):
        same(decisions(resources(delegated(**other)))["jane"], (NO, ["bucket-identity"]), str(other))
    # Where the access point grants nothing, the bucket's grant does not suffice.
    nothing = document(grant({"AWS": f"{USERS}wide"}, f"{POINT}/object/*"))
    same(decisions(resources(TO_POINTS, nothing))["jane"], (NO, ["identity"]))
    # On the bucket itself nobody has the keys of an access point.
    found = decisions(resources(TO_POINTS), f"{BUCKET}/in/k")
    same(found, {"jane": (NO, ["identity"]), "wide": YES, "narrow": (NO, ["identity"])})


def test_either_may_deny():
    given = {"effect": "Deny", "action": "s3:*"}
    of_bucket = document(*TO_POINTS["Statement"], grant("*", f"{BUCKET}/in/*", **given))
    same({it[0] for it in decisions(resources(of_bucket)).values()}, {"explicitDeny"})
    # What lies elsewhere in the bucket is not denied.
    same(decisions(resources(of_bucket), f"{POINT}/object/out/k"), {"jane": YES, "wide": YES, "narrow": YES})
    of_point = document(*TO_JANE["Statement"], grant("*", f"{POINT}/object/in/*", **given))
    same({it[0] for it in decisions(resources(TO_POINTS, of_point)).values()}, {"explicitDeny"})
    # A bucket that refuses what does not come by its access points.
    only = document(
        {
            **grant("*", *BOTH, action="s3:*", effect="Deny"),
            "Condition": {"StringNotEquals": {"s3:DataAccessPointAccount": OWN}},
        }
    )
    same(decisions(resources(only))["wide"], YES)
    same(decisions(resources(only), f"{BUCKET}/in/k")["wide"][0], "explicitDeny")
    out, _ = aws("can", "wide", "s3:GetObject", KEY, EXPORT, "--resources", resources(of_bucket), status=3)
    assert f"denied by {BUCKET} policy, statement 1 (the bucket's policy)" in out, out


def test_what_it_hangs_on_in_the_bucket():
    """A key that the bucket's policy alone asks for."""
    deny = {**grant("*", f"{BUCKET}/*", effect="Deny"), "Condition": {"StringEquals": {"aws:SourceVpc": "vpc-1"}}}
    given = resources(document(*TO_POINTS["Statement"], deny))
    out, _ = aws("can", "wide", "s3:GetObject", KEY, EXPORT, "--resources", given)
    assert "  denied if `aws:SourceVpc` is `vpc-1`\n" in out, out


def test_a_bucket_of_another_account():
    """The bucket's account has to grant, and all that the access point's account says counts too."""
    found = decisions(resources(account=OTHER))
    same(found["wide"], (NO, ["bucket-resource"]))
    same(found["jane"][0], NO)
    # jane is of another account than the bucket, so that her own policies have to allow it there; wide's do.
    found = decisions(resources(TO_POINTS, account=OTHER))
    same(found, {"jane": (NO, ["bucket-identity"]), "wide": YES, "narrow": (NO, ["bucket-identity"])})


def test_the_access_point_itself():
    """Listing is of the access point, and of the bucket."""
    to_jane = document(grant({"AWS": f"{USERS}jane"}, POINT, action="s3:ListBucket"))
    found = decisions(resources(TO_POINTS, to_jane), POINT, "s3:ListBucket")
    same(found, {"jane": YES, "wide": YES, "narrow": (NO, ["identity"])})
    only_objects = document(grant("*", f"{BUCKET}/*", action="*", DataAccessPointAccount=OWN))
    same(decisions(resources(only_objects, to_jane), POINT, "s3:ListBucket")["jane"], (NO, ["bucket-identity"]))


def test_rules_and_drafts():
    rule = file(f"never * s3:GetObject {POINT}/object/k except wide\n")
    words = ["rules", rule, EXPORT, "--resources"]
    out, _ = aws(*words, resources(TO_POINTS), status=3)
    for it in ("jane", "narrow"):
        assert f"{USERS}{it} may s3:GetObject {POINT}/object/k" in out, out
    aws(*words, resources())
    # Of all names the access point is asked by itself: what it allows is open.
    words[1] = file(f"never * s3:GetObject {POINT}/object/* except wide\n")
    out, _ = aws(*words, resources(), status=5)
    for it in ("jane", "narrow"):
        assert f"  open: {USERS}{it} s3:GetObject {POINT}/object/" in out, out
    words[1] = file(f"never nobody s3:GetObject {POINT}/object/*\n")
    aws(*words, resources(), status=4)
    # A draft of the bucket's policy changes what goes by the access point, and not what goes by the bucket.
    ask = ["--action", "s3:GetObject", "--resource", f"{POINT}/object/k", "--format", "csv"]
    draft = f"{BUCKET}={file(TO_POINTS)}"
    before = resources(document(grant("*", *BOTH, action="s3:Do")))
    out, _ = aws("changes", EXPORT, "--resources", before, "--put", draft, *ask)
    rows = [line.split(",")[:2] for line in out.splitlines()[1:]]
    same(sorted(rows), [["gained", f"{USERS}jane"], ["gained", f"{USERS}narrow"]])
    # Nobody has to name the object: all by the access point are asked for.
    out, _ = aws("changes", EXPORT, "--resources", before, "--put", draft, *ask[:2], *ask[4:])
    rows = [line.split(",")[:2] for line in out.splitlines() if f",{POINT}/object/" in line]
    same(sorted(rows), [["gained", f"{USERS}jane"], ["gained", f"{USERS}narrow"]])
    ask[3] = f"{BUCKET}/k"
    same(aws("changes", EXPORT, "--resources", resources(TO_POINTS), "--put", draft, *ask)[0].count("\n"), 1)


def test_an_access_point_of_a_plan():
    """A plan names the bucket of an access point: jane gains what the bucket delegates, and nothing where it does not."""
    after = {"name": "p", "bucket": "data", "policy": json.dumps(TO_JANE)}
    made = {"address": "aws_s3_access_point.p", "mode": "managed", "type": "aws_s3_access_point"}
    made["change"] = {"actions": ["create"], "before": None, "after": after, "after_unknown": {"arn": True}}
    region = {"aws": {"expressions": {"region": {"constant_value": "eu-west-1"}}}}
    plan = file({"format_version": "1.2", "resource_changes": [made], "configuration": {"provider_config": region}})
    words = ["changes", EXPORT, "--terraform", plan, "--action", "s3:GetObject", "--resource", KEY, "--format", "csv"]
    for policy, wanted in ((TO_POINTS, 1), (None, 0)):
        bucket = {"arn": BUCKET, "account": OWN, **({"policy": policy} if policy else {})}
        out, _ = aws(*words, "--resources", file([bucket]))
        same(out.count(f"gained,{USERS}jane,"), wanted, out)
    # So it is of a template.
    own = {"Name": "p", "Bucket": {"Fn::Join": ["", ["da", "ta"]]}, "Policy": TO_JANE}
    template = file({"Resources": {"P": {"Type": "AWS::S3::AccessPoint", "Properties": own}}})
    words[2:4] = ["--cloudformation", template, "--parameters", file({"AWS::Region": "eu-west-1"})]
    for policy, wanted in ((TO_POINTS, 1), (None, 0)):
        bucket = {"arn": BUCKET, "account": OWN, **({"policy": policy} if policy else {})}
        out, _ = aws(*words, "--resources", file([bucket]))
        same(out.count(f"gained,{USERS}jane,"), wanted, out)


def of_plan(before, after, policy=None):
    """{(change, user)} of a plan that has the access point so, with the bucket's policy."""
    made = {"address": "aws_s3_access_point.p", "mode": "managed", "type": "aws_s3_access_point"}
    actions = ["update"] if before and after else ["create"] if after else ["delete"]
    unknown = {} if before else {"arn": True}
    made["change"] = {"actions": actions, "before": before, "after": after, "after_unknown": unknown}
    region = {"aws": {"expressions": {"region": {"constant_value": "eu-west-1"}}}}
    plan = file({"format_version": "1.2", "resource_changes": [made], "configuration": {"provider_config": region}})
    bucket = {"arn": BUCKET, "account": OWN, **({"policy": policy} if policy else {})}
    words = ["--action", "s3:GetObject", "--resource", KEY, "--format", "csv", "--resources", file([bucket])]
    out, _ = aws("changes", EXPORT, "--terraform", plan, *words)
    rows = [line.split(",") for line in out.splitlines()[1:]]
    return {(row[0], row[1][len(USERS) :]) for row in rows}


def test_what_is_not_there_before_a_plan_allows_nothing():
    """By an access point that comes nobody was allowed before, and by one that goes nobody is after."""
    new = {"name": "p", "bucket": "data", "policy": json.dumps(TO_JANE)}
    old = {**new, "arn": POINT}
    same(of_plan(None, new), {("gained", "wide")})
    same(of_plan(None, new, TO_POINTS), {("gained", it) for it in ("jane", "wide", "narrow")})
    deny = json.dumps(document(grant("*", f"{POINT}/object/*", effect="Deny")))
    same(of_plan(None, {**new, "policy": deny}), set())
    same(of_plan(old, None, TO_POINTS), {("lost", it) for it in ("jane", "wide", "narrow")})
    same(of_plan({**old, "policy": deny}, None), set())
    # The bucket counts before a plan as it does after: without its grant jane and narrow were not allowed either.
    put = json.dumps(document(grant({"AWS": f"{USERS}jane"}, f"{POINT}/object/*", action="s3:PutObject")))
    same(of_plan(old, {**old, "policy": put}), set())
    same(of_plan(old, {**old, "policy": put}, TO_POINTS), {("lost", "jane")})


def test_a_bucket_that_nobody_knows():
    """What the access point denies is denied; what it allows is not known, and no check is green by it."""
    words = "its requests fall under the policy of its bucket too, which is not asked here"
    for given in (resources(name=None), resources(name="elsewhere")):
        out, said = aws("can", "jane", "s3:GetObject", KEY, EXPORT, "--resources", given, status=6)
        assert f"{POINT}: {words}: name it by `bucket`" in said, said
        aws("can", "jane", "s3:PutObject", KEY, EXPORT, "--resources", given, status=3)
        out, _ = aws("rules", file(f"always jane s3:GetObject {KEY}\n"), EXPORT, "--resources", given, status=5)
        assert "fall under the policy of its bucket too, which is not asked here" in out, out
        # All who may are among those whom the access point lets in: what is never allowed by it is never.
        put = file("s3:PutObject\n")
        aws("rules", file(f"never jane s3:PutObject {KEY}\n"), EXPORT, "--resources", given, "--actions", put)
        aws("rules", file(f"never jane s3:GetObject {KEY}\n"), EXPORT, "--resources", given, status=3)
    aws("rules", file(f"always jane s3:GetObject {KEY}\n"), EXPORT, "--resources", resources(TO_POINTS))
    for more in ({"bucket": 1}, {"arn": BUCKET, "bucket": "data"}):
        bad = file([{"arn": POINT, "account": OWN, **more}])
        _, said = aws("can", "jane", "s3:GetObject", KEY, EXPORT, "--resources", bad, status=1)
        assert "bucket is no name of a bucket, or it is no access point" in said, said


def test_where_the_bucket_is_not_asked():
    """A world has one policy of a resource: who makes one is told."""
    words = f"{POINT}: its requests fall under the policy of its bucket too, which is not asked here\n"
    actions = file("s3:GetObject\n")
    out, said = aws("world", EXPORT, "--resources", resources(TO_POINTS), "--actions", actions)
    assert words in said and "through" not in out and '"bucket"' not in out, said
    _, said = aws("can", "jane", "s3:*", "*", EXPORT, "--resources", resources(TO_POINTS), status=0)
    assert words in said, said
    page, said = aws("page", EXPORT, "--resources", resources(TO_POINTS), "--actions", actions)
    assert words not in said and "bucket/0/0" in page, said


def test_a_service_by_an_access_point():
    """It may where the bucket lets access points decide; where the bucket lets nobody in, it may not."""
    point = document({**grant({}, f"{POINT}/object/*"), "Principal": {"Service": "lambda.amazonaws.com"}})
    for bucket, status in ((TO_POINTS, 3), (None, 0)):
        given = resources(bucket, point)
        out, _ = aws("who-can", "s3:GetObject", KEY, EXPORT, "--resources", given)
        same("allowed: service: lambda.amazonaws.com s3:GetObject" in out, status == 3, out)
        out, _ = aws("rules", file(f"never * s3:GetObject {KEY} except wide\n"), EXPORT, "--resources", given, status=status)
        same(f"  service: lambda.amazonaws.com may s3:GetObject {KEY}: allowed by" in out, status == 3, out)


def test_a_bucket_that_allows_with_keys():
    """What a draft of the bucket lets an access point do with keys is told as open, where the point is asked alone; the twin lets in whom
    the point denies, or for another action."""
    given = lambda denied, *some: resources(document(*some), document(grant("*", f"{POINT}/object/*"), *denied))
    lets = grant({"AWS": f"{USERS}jane"}, f"{BUCKET}/*")
    keyed = lambda *of: {**lets, "Condition": {"StringEquals": {"aws:SourceVpc": list(of)}}}
    deny = grant({"AWS": f"{USERS}jane"}, f"{POINT}/object/*", effect="Deny")
    for before, after, denied, status in (
        ([], [keyed("v")], [], 5),
        ([keyed("v")], [keyed("v", "w")], [], 5),
        ([], [keyed("v")], [deny], 0),
        ([keyed("v")], [keyed("v"), {**keyed("w"), "Action": "s3:PutObject"}], [], 0),
    ):
        draft = ["--resources", given(denied, *before), "--put", f"{BUCKET}={file(document(*after))}", "--fail-on", "gained"]
        for asked in (KEY, f"{POINT}/object/*"):
            _, said = aws("changes", EXPORT, *draft, "--action", "s3:GetObject", "--resource", asked, status=status)
            told = "whether it changes by the access point with keys that nothing gives is not asked"
            same(f"{POINT}/object/" in said and told in said, status == 5, said)
