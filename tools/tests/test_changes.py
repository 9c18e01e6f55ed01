"""changes. What is lost and gained is worked out by hand from the exports in data/."""

import csv
import io
import os
import shlex

from harness import AWS, IAMSIM, aws, data, document, file, load, run, same, small_world, statement

ACCOUNT = "arn:aws:iam::111122223333:"
SESSION = "arn:aws:sts::111122223333:assumed-role/"
EXPORT = data("account.json")
ALICE, BOB = f"{ACCOUNT}user/alice", f"{ACCOUNT}user/ops/bob"


def by_another(script, *words):
    """What iamsim-aws writes where a script stands before the program."""
    path = file(f'#!/bin/sh\n{script}\nexec {shlex.quote(IAMSIM)} "$@"\n')
    os.chmod(path, 0o755)
    kept, os.environ["IAMSIM"] = os.environ["IAMSIM"], path
    try:
        return aws(*words)
    finally:
        os.environ["IAMSIM"] = kept


def changes(*words):
    """{(change, principal, action, resource): (before, after)} of an answer in CSV."""
    words = ["changes", *words, "--format", "csv", "--session", "s1", "--moment", "0"]
    out, _ = aws(*words)
    return {tuple(row[:4]): tuple(row[4:6]) for row in list(csv.reader(io.StringIO(out)))[1:]}


def test_a_draft_of_a_managed_policy():
    draft = file(document(statement(action="s3:GetObject", resource="arn:aws:s3:::homes/*")))
    further = file([{"arn": f"arn:aws:s3:::{it}/x", "account": "111122223333"} for it in ("homes", "teams")])
    for name in ("ReadObjects", "arn:aws:iam::aws:policy/ReadObjects", "policy/ReadObjects"):
        found = changes(
            EXPORT,
            "--resources",
            further,
            "--put",
            f"{name}={draft}",
            "--action",
            "s3:GetObject",
            "--resource",
            "arn:aws:s3:::*/x",
        )
        # alice and deploy read everything today; with the draft the homes alone: teams/x is lost, and whatever /x stands for.
        # bob and worker read by policies of their own.
        same(
            found,
            {
                ("lost", it, "s3:GetObject", f"arn:aws:s3:::{of}/x"): ("allowed", "implicitDeny")
                for it in (ALICE, f"{SESSION}deploy/s1")
                for of in ("teams", "")
            },
            name,
        )


def test_the_program_is_asked_what_has_changed():
    log = file("")
    draft = file(document(statement(action="s3:GetObject", resource="arn:aws:s3:::homes/*")))
    words = ["changes", EXPORT, "--put", f"ReadObjects={draft}", "--action", "s3:GetObject"]
    by_another(f'echo "$1" >> {log}', *words)
    with open(log) as it:
        same(set(it.read().split()), {"changes"})


def test_actions_follow_from_what_changes():
    """Without --action: the actions of which the changed policies speak, and all that their patterns mean."""
    draft = file(document(statement(action=["s3:Get*", "s3:List*"]), statement("Allow", "dynamodb:Query")))
    found = changes(EXPORT, "--put", f"ReadObjects={draft}")
    # Both speak of s3:Get* and s3:List*, which changes nothing; the draft adds dynamodb:Query.
    same(set(found), {("gained", it, "dynamodb:Query", "*") for it in (ALICE, f"{SESSION}deploy/s1")})
    draft = file(document(statement(action="s3:Get*")))
    same({it[2] for it in changes(EXPORT, "--put", f"ReadObjects={draft}")}, {"s3:List"})


def test_drafts_of_each_kind():
    nothing = file(document())
    role = f"{ACCOUNT}role/app/audit"
    trust = file(document({"Effect": "Allow", "Principal": {"AWS": "111122223333"}, "Action": "sts:AssumeRole"}))
    # The role trusts the account now: alice may still (a policy of hers allows), bob's boundary has deploy alone.
    for name in (role, "audit", "role/app/audit", f"{role} trust policy", "audit trust policy"):
        same(changes(EXPORT, "--put", f"{name}={trust}"), {}, name)
    same(
        changes(EXPORT, "--put", f"audit={nothing}"),
        {("lost", ALICE, "sts:AssumeRole", role): ("allowed", "implicitDeny")},
    )
    # An inline policy of a group, and a boundary that knows all roles under app/: those that are there do not trust bob, and one
    # that is not there nobody may assume.
    same(
        set(changes(EXPORT, "--put", f"Homes={nothing}")),
        {
            ("lost", ALICE, "s3:PutObject", "arn:aws:s3:::homes/alice/"),
            ("lost", ALICE, "s3:PutObject", "arn:aws:s3:::teams/red/"),
        },
    )
    boundary = file(document(statement(action="sts:AssumeRole", resource=f"{ACCOUNT}role/app/*")))
    found = changes(EXPORT, "--put", f"AtMost={boundary}", "--action", "sts:AssumeRole")
    same(found, {})
    same(
        set(changes(EXPORT, "--put", f"AtMost={nothing}", "--action", "sts:AssumeRole")),
        {("lost", BOB, "sts:AssumeRole", f"{ACCOUNT}role/app/deploy")},
    )


def test_drafts_of_buckets_and_organisations():
    objects = [{"arn": f"arn:aws:s3:::homes/{it}", "account": "111122223333"} for it in ("a", "b")]
    denying = file(document({"Effect": "Deny", "Principal": {"AWS": ALICE}, "Action": "s3:GetObject", "Resource": "*"}))
    for name in ("homes", "arn:aws:s3:::homes"):
        found = changes(EXPORT, "--resources", file(objects), "--put", f"{name}={denying}")
        # The bucket's policy binds itself, and all objects that nothing names.
        bound = [*(it["arn"] for it in objects), "arn:aws:s3:::homes", "arn:aws:s3:::homes/"]
        same(set(found), {("lost", ALICE, "s3:GetObject", it) for it in bound}, name)
    # A service control policy, by its name, its id and its ARN: without NoAudit alice may assume audit.
    content = file(document(statement("Deny", "s3:DeleteBucket")))
    arn = "arn:aws:organizations::999900001111:policy/o-example0001/service_control_policy/p-00000001"
    for name in ("NoAudit", "p-00000001", arn):
        found = changes(
            EXPORT, "--organization", data("organization.json"), "--put", f"{name}={content}", "--action", "sts:*"
        )
        same(
            found, {("gained", ALICE, "sts:AssumeRole", f"{ACCOUNT}role/app/audit"): ("explicitDeny", "allowed")}, name
        )


def test_drafts_that_bind_what_is_not_named():
    """A resource control policy binds objects that no resource of the world is, before and after its draft."""
    organization, allow = load(data("organization.json")), {
        "Effect": "Allow",
        "Principal": "*",
        "Action": "*",
        "Resource": "*",
    }
    summary = {
        "Id": "p-10",
        "Name": "Edge",
        "Type": "RESOURCE_CONTROL_POLICY",
        "Arn": "arn:aws:organizations::999900001111:policy/o-example0001/resource_control_policy/p-10",
    }
    organization["policies"] += [
        {"PolicySummary": summary, "Content": document(allow)},
        {
            "PolicySummary": {**summary, "Id": "p-11", "Name": "Loose", "Arn": f"{summary['Arn'][:-2]}11"},
            "Content": document(allow),
        },
    ]
    for items in organization["targets"].values():
        items.append(summary)
    draft = file(
        document(
            allow, {"Effect": "Deny", "Principal": "*", "Action": "s3:GetObject", "Resource": "arn:aws:s3:::new/*"}
        )
    )
    given = [EXPORT, "--organization", file({**organization, "controlled": ["s3"]})]
    rule = file("never * s3:GetObject arn:aws:s3:::new/x\n")
    aws("rules", rule, *given, status=3)
    for name in ("Edge", "p-10", summary["Arn"]):
        aws("rules", rule, *given, "--put", f"{name}={draft}")
    # alice, bob and deploy read any object.
    found = changes(*given, "--put", f"Edge={draft}", "--action", "s3:GetObject", "--resource", "arn:aws:s3:::new/*")
    same(
        found,
        {
            ("lost", it, "s3:GetObject", "arn:aws:s3:::new/"): ("allowed", "explicitDeny")
            for it in (ALICE, BOB, f"{SESSION}deploy/s1")
        },
    )
    _, said = aws("rules", rule, *given, "--put", f"Loose={draft}", status=1)
    same(said, "iamsim-aws: --put Loose: nobody has this policy, so the draft changes nothing\n")


def test_what_a_limit_leaves():
    """Where a deny or a boundary changes, what the other policies of whom it binds allow is asked too."""
    guarded = load(EXPORT)
    (alice,) = (it for it in guarded["UserDetailList"] if it["UserName"] == "alice")
    guard = document(statement("Deny", "s3:PutObject"))
    alice["UserPolicyList"] = [{"PolicyName": "Guard", "PolicyDocument": guard}]
    draft = file({"PolicyVersion": {"Document": document(statement(action="s3:ListBucket"))}})
    # Homes, of her group, lets her put objects into her home and her team's folder, and the guard alone keeps her from it.
    places = [f"arn:aws:s3:::{it}/" for it in ("homes/alice", "teams/red")]
    words = [file(guarded), "--put", f"Guard={draft}", "--action", "s3:PutObject"]
    same(changes(*words), {("gained", ALICE, "s3:PutObject", it): ("explicitDeny", "allowed") for it in places})
    for asked, status in (("gained", 3), ("lost", 0), ("any", 3)):
        aws("changes", *words, "--fail-on", asked, status=status)
    found = changes("--before", EXPORT, "--after", file(guarded), "--action", "s3:PutObject")
    same(found, {("lost", ALICE, "s3:PutObject", it): ("allowed", "explicitDeny") for it in places})

    walled = load(EXPORT)
    (worker,) = (it for it in walled["RoleDetailList"] if it["RoleName"] == "worker")
    wall = f"{ACCOUNT}policy/Wall"
    worker["PermissionsBoundary"] = {"PermissionsBoundaryType": "Policy", "PermissionsBoundaryArn": wall}
    version = {"VersionId": "v1", "IsDefaultVersion": True, "Document": document(statement(action="sqs:*"))}
    walled["Policies"].append(
        {"PolicyName": "Wall", "Arn": wall, "DefaultVersionId": "v1", "PolicyVersionList": [version]}
    )
    draft = file(document(statement(action=["sqs:*", "s3:*"])))
    # Its own policy lets it read the objects of one home.
    same(
        changes(file(walled), "--put", f"Wall={draft}", "--action", "s3:GetObject"),
        {
            ("gained", f"{SESSION}worker/s1", "s3:GetObject", "arn:aws:s3:::homes/alice/"): (
                "implicitDeny",
                "allowed",
            )
        },
    )


def test_a_limit_that_is_there_no_more():
    """A boundary that goes frees what no changed policy speaks of; so does one that allows anything."""
    owner = {"Effect": "Allow", "Principal": {"AWS": f"{ACCOUNT}root"}, "Action": "kms:*", "Resource": "*"}
    key = {"arn": "arn:aws:kms:eu-west-1:111122223333:key/7c1d", "account": "111122223333", "sealed": True}
    words = ["--resources", file([{**key, "policy": document(owner)}]), "--resource", key["arn"]]
    freed = load(EXPORT)
    (bob,) = (it for it in freed["UserDetailList"] if it["UserName"] == "bob")
    del bob["PermissionsBoundary"]
    # bob may do anything by a policy of his own, and the key trusts its account; his boundary knows s3 and a role.
    gained = {("gained", BOB, "kms:x", key["arn"]): ("implicitDeny", "allowed")}
    found = changes("--before", EXPORT, "--after", file(freed), *words, "--action", "kms:*")
    same(found, gained)
    draft = file(document(statement()))
    same(changes(EXPORT, "--put", f"AtMost={draft}", *words, "--action", "kms:*"), gained)


def test_drafts_that_are_of_nothing():
    draft = file(document())
    _, said = aws("changes", EXPORT, "--put", f"NoSuch={draft}", status=1)
    assert "--put NoSuch: no policy and no resource is called so" in said, said
    for name, meant in (("Home", "Homes"), ("role/deploi", f"{ACCOUNT}role/app/deploy")):
        _, said = aws("changes", EXPORT, "--put", f"{name}={draft}", status=1)
        assert said.endswith(f": no policy and no resource is called so (near is {meant})\n"), said
    _, said = aws("changes", EXPORT, "--put", "NoSuch", status=1)
    assert "it takes POLICY-NAME=FILE" in said, said
    export = load(EXPORT)
    export["RoleDetailList"][0]["RolePolicyList"] = [{"PolicyName": "Inside", "PolicyDocument": document()}]
    _, said = aws("changes", file(export), "--put", f"Inside={draft}", status=1)
    assert "several policies are called so" in said, said
    same(
        changes(
            file(export), "--put", f"worker inline Inside={draft}", "--action", "s3:GetObject", "--resource", "*homes*"
        ),
        {("lost", f"{SESSION}worker/s1", "s3:GetObject", "arn:aws:s3:::homes/alice/"): ("allowed", "implicitDeny")},
    )


def test_a_named_action_does_not_hide_the_rest_of_a_pattern():
    """The draft allows s3:Get*, of which another policy denies s3:GetObject: what else s3:Get* is, is gained."""
    inline = [
        {"PolicyName": "Own", "PolicyDocument": document(statement(action="s3:ListBucket"))},
        {"PolicyName": "Deny", "PolicyDocument": document(statement("Deny", "s3:GetObject"))},
    ]
    export = file(
        {
            "UserDetailList": [
                {"UserName": "ann", "UserId": "AIDA0", "Arn": f"{ACCOUNT}user/ann", "UserPolicyList": inline}
            ]
        }
    )
    draft = file(document(statement(action=["s3:Get*", "s3:ListBucket"])))
    gained = lambda *words: {(it[0], it[2]) for it in changes(export, "--put", *words)}
    same(gained(f"Own={draft}"), {("gained", "s3:Get")})
    # A statement on all actions but some speaks of all others.
    rest = file(document(statement(action="s3:ListBucket"), {"Effect": "Allow", "NotAction": "iam:*", "Resource": "*"}))
    assert {it for it, _ in gained(f"Own={rest}")} == {"gained"} and "iam:" not in str(gained(f"Own={rest}"))
    same({it[0] for it in gained(f"Own={rest}", "--action", "kms:*")}, {"gained"})
    # With the service reference of one service the actions of others are asked for too.
    both = file(document(statement(action=["s3:P*", "s3:ListBucket", "kms:Decrypt", "sqs:*"])))
    same(
        gained(f"Own={both}", "--services", data("s3.json")),
        {("gained", it) for it in ("s3:PutObject", "kms:Decrypt", "sqs:x")},
    )


def test_an_action_that_the_service_reference_lacks():
    """It is asked for all the same where a draft names it, and told."""
    draft = file(document(statement(action=["s3:NewAction", "s3:PutObject"])))
    words = ["changes", EXPORT, "--put", f"ReadObjects={draft}", "--services", data("s3.json"), "--format", "csv"]
    out, said = aws(*words, "--resource", "arn:aws:s3:::new/k", "--fail-on", "gained", status=3)
    assert f"gained,{ALICE},s3:NewAction,arn:aws:s3:::new/k," in out, out
    assert "the service reference lacks these actions, which are asked for all the same: s3:NewAction\n" in said, said


def test_given_actions_join_those_of_the_draft():
    draft = file(document(statement(action=["s3:Get*", "s3:List*"]), statement("Allow", "dynamodb:Query")))
    both = [ALICE, f"{SESSION}deploy/s1"]
    found = changes(EXPORT, "--put", f"ReadObjects={draft}", "--actions", file("kms:Decrypt\n"))
    same(set(found), {("gained", it, "dynamodb:Query", "*") for it in both})
    # Of the given ones, too, those alone that are chosen.
    out, _ = aws(
        "changes",
        EXPORT,
        "--put",
        f"ReadObjects={draft}",
        "--actions",
        file("kms:Decrypt\n"),
        "--action",
        "kms:*",
        "--resource",
        "arn:aws:s3:::b/k",
    )
    same(out, "0 lost and 0 gained, of 12 principals and all names\n")
    # The page then shows who may assume what.
    page, _ = aws("changes", EXPORT, "--put", f"ReadObjects={draft}", "--action", "kms:Decrypt", "--format", "page")
    assert '"sts:AssumeRole"' in page, page[:200]


def test_an_object_that_nothing_names():
    """It is asked for as who-can does: with the policy of its bucket."""
    resources = file([{"arn": "arn:aws:s3:::homes", "account": "111122223333", "policy": document()}])
    denying = file(document({"Effect": "Deny", "Principal": {"AWS": ALICE}, "Action": "s3:GetObject", "Resource": "*"}))
    for what in ("arn:aws:s3:::homes/alice/x", "arn:aws:s3:::homes"):
        found = changes(EXPORT, "--resources", resources, "--put", f"homes={denying}", "--resource", what)
        same(found, {("lost", ALICE, "s3:GetObject", what): ("allowed", "explicitDeny")})
    nothing = file(document())
    found = changes(
        EXPORT, "--put", f"ReadObjects={nothing}", "--action", "s3:GetObject", "--resource", "arn:aws:s3:::new/k"
    )
    same(set(found), {("lost", it, "s3:GetObject", "arn:aws:s3:::new/k") for it in (ALICE, f"{SESSION}deploy/s1")})
    partner = [EXPORT, data("partner.json")]
    _, said = aws("changes", *partner, "--put", f"ReadObjects={nothing}", "--resource", "arn:aws:s3:::new/k", status=1)
    assert "which account is it of?" in said, said
    same(
        len(
            changes(
                *partner,
                "--put",
                f"ReadObjects={nothing}",
                "--action",
                "s3:GetObject",
                "--resource",
                "arn:aws:s3:::new/k",
                "--account",
                "111122223333",
            )
        ),
        2,
    )


def test_a_choice_that_meets_nothing():
    """It is told, and is status 4 with --exit-status; that nothing differs at all is status 0."""
    draft = file(document({"Effect": "Deny", "Principal": {"AWS": ALICE}, "Action": "s3:GetObject", "Resource": "*"}))
    resources = file([{"arn": "arn:aws:s3:::homes", "account": "111122223333", "policy": document()}])
    words = ["changes", EXPORT, "--resources", resources, "--put", f"homes={draft}", "--exit-status"]
    _, said = aws(*words, "--resource", "arn:aws:s3:::hoems/*")
    assert (
        "nothing names a resource that arn:aws:s3:::hoems/* means, but policies for all: is it a slip?\n" in said
    ), said
    _, said = aws(*words, "--action", "s3:PutObjekt")
    hint = (
        "names an action that s3:PutObjekt means, but by a pattern (near is s3:PutObject): is it a slip? If not, give"
    )
    assert hint in said, said
    out, said = aws(*words, "--action", "kms:*", status=4)
    same(out, "0 lost and 0 gained, of 0 requests\n")
    assert "no request was compared" in said, said
    aws(*words, "--resource", "arn:aws:s3:::homes", status=3)
    aws(*words[:4], "--put", f"homes={file(document())}", "--exit-status", "--action", "kms:*")


def test_two_drafts_of_one_policy():
    draft, organization = file(document()), ["--organization", data("organization.json")]
    arn = "arn:aws:iam::aws:policy/ReadObjects"
    for first, second, more in [
        ("ReadObjects", "ReadObjects", []),
        ("ReadObjects", arn, []),
        ("audit", "role/app/audit", []),
        ("NoAudit", "p-00000001", organization),
    ]:
        for words in (["changes", EXPORT], ["rules", file("never chain s3:PutObject *"), EXPORT]):
            _, said = aws(*words, *more, "--put", f"{first}={draft}", "--put", f"{second}={draft}", status=1)
            same(said.splitlines()[-1], f"iamsim-aws: --put {first} and --put {second}: both are drafts of one policy")
    aws("changes", EXPORT, "--put", f"ReadObjects={draft}", "--put", f"Homes={draft}")


def test_exports_before_and_after():
    after = load(EXPORT)
    # bob goes, and zoe comes, who may read; alice leaves the developers, by whom she writes and assumes.
    del after["UserDetailList"][1]
    after["UserDetailList"][0]["GroupList"] = ["Readers"]
    after["UserDetailList"].append(
        {"UserName": "zoe", "UserId": "AIDA0", "Arn": f"{ACCOUNT}user/zoe", "GroupList": ["Readers"]}
    )
    found = changes(
        "--before", EXPORT, "--after", file(after), "--action", "s3:GetObject", "--action", "sts:AssumeRole"
    )
    kept = {(it[0], it[1], it[2]) for it in found}
    same(
        kept,
        {
            ("lost", BOB, "s3:GetObject"),
            ("lost", BOB, "sts:AssumeRole"),
            ("lost", ALICE, "sts:AssumeRole"),
            ("gained", f"{ACCOUNT}user/zoe", "s3:GetObject"),
        },
    )
    same(found["lost", ALICE, "sts:AssumeRole", f"{ACCOUNT}role/app/deploy"], ("allowed", "implicitDeny"))
    same({found[it] for it in found if it[1] == BOB}, {("allowed", "absent")})
    # audit trusts alice herself, so her own policies do not matter there.
    assert ("lost", ALICE, "sts:AssumeRole", f"{ACCOUNT}role/app/audit") not in found


def test_a_tag_changes_access_too():
    after = load(EXPORT)
    after["UserDetailList"][0]["Tags"] = [{"Key": "team", "Value": "blue"}]
    found = changes(
        "--before",
        EXPORT,
        "--after",
        file(after),
        "--resource",
        "arn:aws:s3:::teams/*",
        "--action",
        "s3:PutObject",
        "--resources",
        file([{"arn": f"arn:aws:s3:::teams/{it}/x", "account": "111122223333"} for it in ("red", "blue")]),
    )
    same(
        found,
        {
            (change, ALICE, "s3:PutObject", f"arn:aws:s3:::teams/{of}"): decisions
            for change, it, decisions in (
                ("lost", "red", ("allowed", "implicitDeny")),
                ("gained", "blue", ("implicitDeny", "allowed")),
            )
            for of in (f"{it}/x", f"{it}/")
        },
    )


def test_worlds_before_and_after():
    before = small_world(document(statement(action="s3:GetObject")), actions=("s3:GetObject", "s3:PutObject"))
    after = small_world(document(statement(action="s3:PutObject")), actions=("s3:GetObject", "s3:PutObject"))
    ann, key = "arn:aws:iam::111122223333:user/ann", "arn:aws:s3:::b/k"
    same(
        changes("--before", file(before), "--after", file(after)),
        {
            ("lost", ann, "s3:GetObject", key): ("allowed", "implicitDeny"),
            ("gained", ann, "s3:PutObject", key): ("implicitDeny", "allowed"),
        },
    )
    out, _ = aws("changes", "--before", file(before), "--after", file(before))
    same(out, "0 lost and 0 gained, of 2 requests\n")
    run([AWS, "changes", "--before", file(before), "--after", file(after), "--exit-status"], status=3)
    _, said = aws("changes", "--before", file(before), status=1)
    assert "--before and --after belong together" in said, said
    _, said = aws("changes", EXPORT, status=1)
    assert "say what changes" in said, said


def test_both_sides_have_one_moment():
    """A world of second 0 and one of 2026-01-02: what ends with 2025 is allowed in neither, or with --moment 0 before alone."""
    until = document(statement(Condition={"DateLessThan": {"aws:CurrentTime": "2026-01-01T00:00:00Z"}}))
    old, new = small_world(until), {**small_world(until), "moment": 1767312000}
    told = "before and after are of two moments: both are asked at the later one, 1767312000 (--moment)"
    for before, after in ((old, new), (new, old)):
        out, said = aws("changes", "--before", file(before), "--after", file(after), "--verbose")
        assert told in said and "getobject" not in out.lower(), out + said
    none = {**small_world(document()), "moment": 1767312000}
    lost = {
        ("lost", "arn:aws:iam::111122223333:user/ann", "s3:GetObject", "arn:aws:s3:::b/k"): ("allowed", "implicitDeny")
    }
    for before, after in ((old, none), (new, none)):
        words = ["--before", file(before), "--after", file(after)]
        same(changes(*words), lost)
        assert "two moments" not in aws("changes", *words, "--moment", "0")[1]
    # A world and an export: the export has the moment of today, which is the later.
    _, said = aws("changes", "--before", file(old), "--after", EXPORT)
    assert "before and after are of two moments: both are asked at the later one, " in said, said
    # What is no moment stays, and iamsim refuses it.
    _, said = aws("changes", "--before", file({**old, "moment": "0"}), "--after", file(new), status=1)
    assert "BadShape at moment" in said, said


def test_worlds_with_and_without_trust_policies():
    """What both are asked for is compared, also where one has roles with trust policies alone."""
    role = {"arn": f"{ACCOUNT}role/r", "account": "111122223333"}
    trusted = {**role, "sealed": True, "policy": document({"Effect": "Deny", "Principal": "*", "Action": "sts:*"})}
    sides = [
        small_world(*of, resources=[it], actions=("s3:GetObject", "iam:PassRole"))
        for of, it in (([], trusted), ([document(statement(action="iam:PassRole"))], role))
    ]
    for one, other, change in ((0, 1, "gained"), (1, 0, "lost")):
        found = changes("--before", file(sides[one]), "--after", file(sides[other]))
        same(set(found), {(change, f"{ACCOUNT}user/ann", "iam:PassRole", role["arn"])})


def test_worlds_in_which_one_stands_twice():
    """As iamsim itself has it: of two that have one name nobody sees which is compared."""
    allow = {**statement(), "Condition": {"Bool": {"aws:MultiFactorAuthPresent": "true"}}}
    before, after = small_world(document(allow)), small_world(document(statement()))
    for it in (before, after):
        it["principals"].append({**it["principals"][0], "context": {"aws:MultiFactorAuthPresent": "true"}})
    for one, other, word in ((before, after, "before"), (small_world(document()), after, "after")):
        words = ["--before", file(one), "--after", file(other), "--fail-on", "gained"]
        _, said = aws("changes", *words, status=1)
        same(said, f"iamsim-aws: fault 8 Twice: {word} at principals/1 (arn:aws:iam::111122223333:user/ann)\n")
        _, plain = run([IAMSIM, "changes", words[1], words[3]], status=1)
        assert plain.startswith(f"fault 8 Twice: {word} at principals/1"), plain


def test_texts_that_are_made_up():
    """It is said for which pattern of which policy they stand."""
    draft = file(document(statement(action="s3:Get*")))
    words = ["changes", EXPORT, "--put", f"ReadObjects={draft}", "--session", "s1"]
    stands = "s3:List stands for s3:List* of arn:aws:iam::aws:policy/ReadObjects"
    out, _ = aws(*words)
    lines = out.splitlines()
    same(lines[1:4], ["lost:", f"- {ALICE} s3:List *", f"    {stands}"])
    out, _ = aws(*words, "--format", "csv")
    header, *rows = csv.reader(io.StringIO(out))
    same([header[-1], *(row[-1] for row in rows)], ["stands for", stands, stands])
    out, _ = aws(*words, "--format", "markdown")
    assert f"  - <code>{stands.replace('*', '&#42;')}</code> on <code>&#42;</code>\n" in out, out
    out, _ = aws(*words, "--format", "page")
    assert f'["s3:List","{stands.partition(" ")[2]}"]' in out, "the page does not have it"


def test_texts_that_a_variable_makes():
    """A text that the value of a variable makes is made up too: bob is no user/bob, but user/ops/bob."""
    own = statement(action="iam:ChangePassword", resource=f"{ACCOUNT}user/${{aws:username}}")
    export, words = load(EXPORT), ["--action", "iam:ChangePassword"]
    export["UserDetailList"][1]["UserPolicyList"] = [{"PolicyName": "Own", "PolicyDocument": document(own)}]
    del export["UserDetailList"][1]["PermissionsBoundary"]
    stands = f"{ACCOUNT}user/bob stands for {ACCOUNT}user/${{aws:username}} of {BOB} inline Own"
    given = ["changes", file(export), "--put", f"Own={file(document(statement(action='s3:GetObject')))}", *words]
    assert f"- {BOB} iam:ChangePassword {ACCOUNT}user/bob\n    {stands}\n" in aws(*given)[0]
    assert f",{stands}\n" in aws(*given, "--format", "csv")[0]
    assert f"<code>{stands}</code>" in aws(*given, "--format", "markdown")[0]
    assert f"\n{stands}\n" in aws("who-can", "iam:ChangePassword", "*", "--kinds", file(export))[0]
    # What a policy names itself stands for itself.
    out, _ = aws(
        "changes", EXPORT, "--put", f"Homes={file(document({**own, 'Resource': f'{ACCOUNT}user/bob'}))}", *words
    )
    assert f"+ {ALICE} iam:ChangePassword {ACCOUNT}user/bob\n    allowed by" in out, out


def test_variables_that_nothing_gives():
    """Nothing gives the variable's value, so not each was asked for: that is open, of what changes alone."""
    path = "arn:aws:s3:::secrets/${aws:RequestTag/none}/*"
    words = ["--action", "s3:GetObject"]
    for resource, wanted in ((path, True), ("arn:aws:s3:::secrets/${aws:username}/*", False), ("*", False)):
        draft = file(document(statement(action="s3:GetObject", resource=resource)))
        for given in (["--put", f"ReadObjects={draft}"], ["--attach", f"New={draft}@bob"]):
            out, said = aws("changes", EXPORT, *given, *words)
            same(f"nothing gives it, and {ACCOUNT}" in said.replace("arn:aws:iam::aws:", ACCOUNT), wanted, resource + said)
            same(out.splitlines()[0].endswith(" all names, and 1 open"), wanted, out)
        if wanted:
            assert "open" not in aws("changes", EXPORT, *given, *words, "--resource", "arn:aws:s3:::homes/*")[1]
            aws("changes", EXPORT, *given, *words, "--fail-on", "lost", status=5)
    # The policy of a bucket does not know who asks.
    grant = {"Effect": "Allow", "Principal": "*", "Action": "s3:GetObject"}
    resources = lambda **more: file([{"arn": "arn:aws:s3:::homes", "account": "111122223333", **more}])
    rule = file("never chain s3:GetObject arn:aws:s3:::homes/*\n")
    # A session has no user's name, and a request may have a tag.
    for variable, status, failures in (("aws:username", 0, 0), ("aws:RequestTag/none", 3, 1)):
        policy = document({**grant, "Resource": f"arn:aws:s3:::homes/${{{variable}}}/*"})
        junit = file("")
        aws("rules", rule, EXPORT, "--resources", resources(policy=policy), "--junit", junit, status=status)
        assert f'failures="{failures}"' in open(junit).read(), variable
        _, said = aws("changes", EXPORT, "--resources", resources(), "--put", f"homes={file(policy)}")
        same(f"open: {variable}: nothing gives it" in said, status == 3, said)


def test_an_action_of_one_service_on_a_resource_of_another():
    """Such a row is told last; the service reference tells that no service has it."""
    granting = {"Effect": "Allow", "Principal": {"AWS": "111122223333"}, "Action": "kms:*", "Resource": "*"}
    key = {"arn": "arn:aws:kms:eu-west-1:111122223333:key/7c1d", "account": "111122223333", "sealed": True}
    further = {"arn": "arn:aws:s3:::releases/app.zip", "account": "111122223333"}
    resources = file([further, {**key, "policy": document(granting)}])
    draft = file(document(statement(action=["s3:Get*", "s3:List*", "kms:Decrypt"])))
    words = ["changes", EXPORT, "--resources", resources, "--put", f"ReadObjects={draft}", "--session", "s1"]
    people, places = [ALICE, f"{SESSION}deploy/s1"], [key["arn"], "*", further["arn"]]
    lines = lambda out: [line for line in out.splitlines() if not line.startswith("    ")]
    gained = sorted(f"+ {who} kms:Decrypt {it}" for who in people for it in places[:2])
    mixed = [f"+ {who} kms:Decrypt {places[2]}" for who in people]
    title = "2 of an action of one service on a resource of another (--services FOLDER leaves out those that no service has):"
    out, _ = aws(*words)
    first, *rest = lines(out)
    assert first.startswith("0 lost and 6 gained, of "), first
    same([rest[0], sorted(rest[1:5]), *rest[5:]], ["gained:", gained, title, *mixed])
    out, _ = aws(*words, "--format", "csv")
    same([row[3] for row in csv.reader(io.StringIO(out))][-2:], [places[2]] * 2)
    out, _ = aws(*words, "--format", "markdown")
    assert f"\n### {title[:-1]}\n" in out and out.index("### Gained") < out.index("### 2 of"), out
    out, said = aws(*words, "--services", data("kms.json"), "--services", data("s3.json"))
    same(sorted(lines(out)[2:]), gained)
    assert "4 requests that change are left out, since no service has them (--services)\n" in said, said
    words += ["--action", "kms:Decrypt", "--resource", places[2], "--fail-on", "gained"]
    aws(*words, status=3)
    aws(*words, "--services", data("kms.json"), status=4)


def test_a_policy_has_one_name():
    """However a draft names it, and whether it was there before."""
    draft = file(document({"Effect": "Deny", "Principal": {"AWS": ALICE}, "Action": "s3:GetObject", "Resource": "*"}))
    for resources in (
        [{"arn": "arn:aws:s3:::homes/a", "account": "111122223333"}],
        [{"arn": "arn:aws:s3:::homes/a", "account": "111122223333", "policy": document()}],
        [{"arn": "arn:aws:s3:::homes", "account": "111122223333", "policy": document()}],
    ):
        for name in ("homes", "arn:aws:s3:::homes", "arn:aws:s3:::homes policy"):
            words = ["--resources", file(resources), "--put", f"{name}={draft}", "--resource", "arn:aws:s3:::homes/a"]
            out, _ = aws("changes", EXPORT, *words)
            same(
                out.splitlines()[2:4],
                [
                    f"- {ALICE} s3:GetObject arn:aws:s3:::homes/a",
                    "    denied by arn:aws:s3:::homes policy, statement 0 (the resource's policy)",
                ],
            )


def test_changes_with_a_key_alone():
    before, after = small_world(document()), small_world(
        document(statement(Condition={"Bool": {"aws:MultiFactorAuthPresent": "true"}}))
    )
    out, _ = aws("changes", "--before", file(before), "--after", file(after))
    same(
        out.splitlines()[:3],
        [
            "0 lost and 1 gained, of 1 requests",
            "gained:",
            "+ arn:aws:iam::111122223333:user/ann s3:GetObject arn:aws:s3:::b/k, if `aws:MultiFactorAuthPresent` is `true`",
        ],
    )


def test_what_is_freed_with_a_key_alone():
    """A limit goes, and a policy that did not change allows with a key that nothing gives."""
    with_key = document(statement(action="s3:GetObject", Condition={"Bool": {"aws:MultiFactorAuthPresent": "true"}}))
    plain, denying = document(statement()), document(statement("Deny", "s3:GetObject"))
    reading = small_world(with_key)
    # A policy of a resource that grants to ann with the key, and that grants to her.
    grant = {"Principal": {"AWS": f"{ACCOUNT}user/ann"}, "Action": "s3:GetObject", "Resource": "*"}
    guarding = {**grant, "Effect": "Deny", "Condition": {"BoolIfExists": {"aws:MultiFactorAuthPresent": "false"}}}
    guarded = {**reading, "resources": [{**reading["resources"][0], "policy": document(guarding)}]}
    (ann,), (one,) = reading["principals"], reading["accounts"]
    for before, after in (
        ({**reading, "principals": [{**ann, "identity": [with_key, denying]}]}, reading),
        ({**reading, "principals": [{**ann, "boundary": document(statement(action="sts:*"))}]}, reading),
        (
            {**reading, "accounts": [{**one, "org": [[plain, denying]]}]},
            {**reading, "accounts": [{**one, "org": [[plain]]}]},
        ),
        # What she may do from now on, a deny of the resource that stays keeps from her without the key.
        (
            {**guarded, "principals": [{**ann, "identity": []}]},
            {**guarded, "principals": [{**ann, "identity": [plain]}]},
        ),
    ):
        out, _ = aws("changes", "--before", file(before), "--after", file(after), "--action", "s3:GetObject")
        line = f"+ {ACCOUNT}user/ann s3:GetObject arn:aws:s3:::b/k, if `aws:MultiFactorAuthPresent` is `true`"
        same(out.splitlines()[:3], ["0 lost and 1 gained, of 1 requests", "gained:", line], str(before))


def test_a_tag_alone_opens_what_no_resource_names():
    """Where a tag changes, policies that did not allow something else."""
    after = load(EXPORT)
    after["UserDetailList"][0]["Tags"] = [{"Key": "team", "Value": "blue"}]
    found = changes("--before", EXPORT, "--after", file(after), "--action", "s3:PutObject")
    wanted = [("lost", "red", ("allowed", "implicitDeny")), ("gained", "blue", ("implicitDeny", "allowed"))]
    same(found, {(way, ALICE, "s3:PutObject", f"arn:aws:s3:::teams/{of}/"): it for way, of, it in wanted})


def test_changes_with_the_keys_of_a_statement():
    """A statement that asks for several keys is shown by an example of all of them."""
    bounds = {"NumericLessThan": {"aws:MultiFactorAuthAge": "60"}, "Bool": {"aws:SecureTransport": "false"}}
    address = {"IpAddress": {"aws:SourceIp": "203.0.113.0/24"}, "StringNotEquals": {"aws:SourceVpc": "vpc-1"}}
    after = small_world(document(statement(Condition={**bounds, **address})))
    out, _ = aws("changes", "--before", file(small_world(document())), "--after", file(after))
    given = "`aws:MultiFactorAuthAge` is `59` and `aws:SecureTransport` is `false` and `aws:SourceIp` is `203.0.113."
    same(out.splitlines()[:2], ["0 lost and 1 gained, of 1 requests", "gained:"])
    assert out.splitlines()[2].startswith(f"+ {ACCOUNT}user/ann s3:GetObject arn:aws:s3:::b/k, if {given}"), out
