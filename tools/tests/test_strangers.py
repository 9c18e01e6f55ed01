"""Who is outside the exports and named by a policy of a resource: a stand-in is asked in their place. Whom each policy lets in is worked
out by hand: a stand-in may do all that the resource's account lets it, so the resource's policy alone decides."""

import csv
import io
import json

from harness import aws, data, document, file, load, same, small_world, statement
from test_terraform import change, plan

ACCOUNT = "arn:aws:iam::111122223333:"
EXPORT, PARTNER = data("account.json"), data("partner.json")
BUCKET = "arn:aws:s3:::releases"
OUT, ANY = "anyone outside: account 999988887777", "anyone outside: any account"
SESSION_R, SESSION_S = ("outside: arn:aws:sts::999988887777:assumed-role/" + it for it in ("r/s1", "r/s"))


def grant(*who, effect="Allow", action="s3:GetObject", **more):
    return {"Effect": effect, "Principal": {"AWS": list(who)}, "Action": action, "Resource": "*", **more}


def bucket(*statements, arn=BUCKET, account="111122223333"):
    return file([{"arn": arn, "account": account, "policy": document(*statements)}])


def outside(action, resources, *words, exports=(EXPORT,), resource=BUCKET, status=0):
    """{stand-in: whether it is allowed} of who-can."""
    given = ["--resources", resources, *words, "--format", "json", "--session", "s1"]
    out, _ = aws("who-can", action, resource, *exports, *given, status=status)
    return {it["principal"]: it["decision"] == "allowed" for it in json.loads(out) if it["outside"]}


def test_whom_a_policy_names():
    """Who is of an account without an export, as the policy names them; nobody of an account that has one."""
    role, user = "arn:aws:iam::999988887777:role/team/r", "arn:aws:iam::999988887777:user/u"
    cases = [
        (grant("999988887777"), {OUT: True}),
        (grant("arn:aws:iam::999988887777:root"), {OUT: True}),
        (grant(role), {SESSION_R: True}),
        (grant("arn:aws:sts::999988887777:assumed-role/r/s"), {SESSION_S: True}),
        (grant(user), {f"outside: {user}": True}),
        (grant("*"), {ANY: True}),
        ({**grant(), "Principal": "*"}, {ANY: True}),
        (grant("999988887777", user, "*"), {OUT: True, f"outside: {user}": True, ANY: True}),
        (grant("999988887777", action="s3:PutObject"), {OUT: False}),
        (grant(f"{ACCOUNT}user/alice"), {}),
        (grant("999988887777", effect="Deny"), {}),
        ({**grant(), "Principal": {"Service": "s3.amazonaws.com"}}, {"service: s3.amazonaws.com": True}),
        ({**grant(), "Principal": {"CanonicalUser": "79a5"}}, {"canonical user: 79a5": True}),
        ({**grant(effect="Deny"), "Principal": {"Service": "s3.amazonaws.com"}}, {}),
        (grant("AIDAALICEALICEALICE00"), {}),
    ]
    for one, wanted in cases:
        same(outside("s3:GetObject", bucket(one)), wanted, one)
    # A deny reaches them, and the policy that grants is another statement.
    same(
        outside(
            "s3:GetObject",
            bucket(
                grant("*"),
                grant("*", effect="Deny", Condition={"StringNotEquals": {"aws:PrincipalAccount": "111122223333"}}),
            ),
        ),
        {ANY: False},
    )
    # With its export an account is asked as it is: carol and tool may nothing of s3.
    carol = grant("444455556666")
    same(outside("s3:GetObject", bucket(carol)), {"anyone outside: account 444455556666": True})
    same(outside("s3:GetObject", bucket(carol), exports=(EXPORT, PARTNER)), {})


def test_who_is_chosen_by_a_condition():
    where = lambda operator, key, value: grant("*", Condition={operator: {key: value}})
    deploy = "outside: arn:aws:sts::999988887777:assumed-role/deploy-x/s1"
    cases = [
        (where("StringEquals", "aws:PrincipalAccount", "999988887777"), {ANY: False, OUT: True}),
        (where("ArnLike", "AWS:principalarn", "arn:aws:iam::999988887777:role/deploy-*"), {ANY: False, deploy: True}),
        (where("StringNotEquals", "aws:PrincipalAccount", "111122223333"), {ANY: True}),
        (where("StringEquals", "aws:PrincipalAccount", "111122223333"), {ANY: False}),
    ]
    for one, wanted in cases:
        same(outside("s3:GetObject", bucket(one)), wanted, one)


OTHER, OWN = "777788889999", "111122223333"
OF_OTHER, OF_PATTERN = (f"anyone outside: account {it}" for it in (OTHER, "777700000000"))


def deny(operator, key, *values, **more):
    return grant("*", effect="Deny", Condition={operator: {key: list(values)}}, **more)


def role_of(account, name):
    """A session of a role of an account, as answers name it."""
    return f"outside: arn:aws:sts::{account}:assumed-role/{name}/s1"


def but(*who):
    """A deny of all but those."""
    return {"Effect": "Deny", "NotPrincipal": {"AWS": list(who)}, "Action": "s3:GetObject", "Resource": "*"}


def controlled(*statements):
    """The bucket, open to everybody, with a resource control policy besides that which allows all."""
    every = {"Effect": "Allow", "Principal": "*", "Action": "*", "Resource": "*"}
    control = [[document(every, *({**it, "Principal": "*"} for it in statements))]]
    return file([{"arn": BUCKET, "account": OWN, "policy": document(grant("*")), "control": control}])


def test_whom_a_deny_excepts():
    """Everybody is let in but by a deny, and whom that excepts is asked; the twins except nobody outside."""
    account, arn = "aws:PrincipalAccount", "aws:PrincipalArn"
    user, role = f"arn:aws:iam::{OTHER}:user/u", f"arn:aws:iam::{OTHER}:role/team/r"
    cases = [
        (deny("StringNotEquals", account, OTHER, OWN), {ANY: False, OF_OTHER: True}),
        (deny("StringNotEquals", account, OWN), {ANY: False}),
        (deny("StringNotEqualsIfExists", account, OTHER), {ANY: False, OF_OTHER: True}),
        (deny("StringNotEqualsIfExists", account, OWN), {ANY: False}),
        # Of the accounts of a pattern one is asked.
        (deny("ForAllValues:StringNotLike", account, "7777*"), {ANY: False, OF_PATTERN: True}),
        (deny("ForAllValues:StringNotLike", account, OWN), {ANY: False}),
        (deny("ArnNotLike", arn, f"arn:aws:iam::{OTHER}:role/read-*"), {ANY: False, role_of(OTHER, "read-x"): True}),
        (deny("ArnNotLike", arn, f"arn:aws:iam::{OWN}:role/read-*"), {ANY: False}),
        # With `NotPrincipal` who asks is named, and his account too; of a session its role and it.
        (but(OTHER, user), {ANY: False, OF_OTHER: False, f"outside: {user}": True}),
        (but(OTHER), {ANY: False, OF_OTHER: False}),
        (
            but(OTHER, role, f"arn:aws:sts::{OTHER}:assumed-role/r/s"),
            {ANY: False, OF_OTHER: False, role_of(OTHER, "r"): False, role_of(OTHER, "r")[:-1]: True},
        ),
    ]
    for one, wanted in cases:
        same(outside("s3:GetObject", bucket(grant("*"), one)), wanted, one)
    # A resource control policy speaks so too, and lets nobody in by itself.
    for one, wanted in cases[:2]:
        same(outside("s3:GetObject", controlled(one)), wanted, one)
    alone = load(controlled(cases[0][0]))
    alone[0].pop("policy")
    same(outside("s3:GetObject", file(alone)), {})


def test_who_meets_several_conditions():
    """Each kind is asked that policies tell apart together, by a name that meets no pattern by chance."""
    arn, every = "aws:PrincipalArn", grant("*")
    of_other = deny("StringNotEquals", "aws:PrincipalAccount", OTHER, OWN)
    auditors, nobody = deny("ArnNotLike", arn, "arn:aws:iam::*:role/auditor"), "000000000000"
    of_role = {"ArnLike": {arn: f"arn:aws:iam::{OTHER}:role/app-*"}}
    cases = [
        # The auditors of one account.
        (
            (every, of_other, auditors),
            {ANY: False, OF_OTHER: False, role_of(nobody, "auditor"): False, role_of(OTHER, "auditor"): True},
        ),
        (
            (every, deny("StringNotEquals", "aws:PrincipalAccount", OWN), auditors),
            {ANY: False, role_of(nobody, "auditor"): False},
        ),
        # Whom two patterns mean.
        (
            (grant("*", Condition=of_role), deny("ArnNotLike", arn, "arn:aws:iam::*:role/*.prod")),
            {
                ANY: False,
                **{role_of(nobody, "x.prod"): False, role_of(OTHER, "app-x"): False},
                **{role_of(OTHER, "x.prod"): False, role_of(OTHER, "app-x.prod"): True},
            },
        ),
        # The first sign that no name has is no x here.
        (
            (grant("*", Condition=of_role), deny("ArnLike", arn, "arn:aws:iam::*:role/app-x*")),
            {
                ANY: False,
                **{role_of(nobody, "app-xb"): False, role_of(OTHER, "app-xb"): False, role_of(OTHER, "app-b"): True},
            },
        ),
        # A name may have the digits of an account, and be of any.
        (
            (every, deny("ArnNotLike", arn, f"arn:aws:iam::*:role/of-{OTHER}")),
            {ANY: False, role_of(nobody, f"of-{OTHER}"): True, role_of(OTHER, f"of-{OTHER}"): True},
        ),
        # No user is let in, and so a role is asked.
        ((every, deny("ArnLike", arn, "arn:aws:iam::*:user/*")), {ANY: False, role_of(nobody, "x"): True}),
        ((every, deny("ArnLike", arn, "arn:aws:iam::*:*")), {ANY: False}),
        # Of the accounts to which nobody grants none is asked.
        ((grant(OTHER), deny("StringNotEquals", "aws:PrincipalAccount", OTHER, "999988887777")), {OF_OTHER: True}),
    ]
    for some, wanted in cases:
        # A deny of each user and role leaves who signs nothing, for whom nobody is asked.
        status = 5 if deny("ArnLike", arn, "arn:aws:iam::*:*") in some or deny("ArnLike", arn, "arn:aws:iam::*:user/*") in some else 0
        same(outside("s3:GetObject", bucket(*some), status=status), wanted, some)
    # The account of the bucket itself, where it is outside.
    of_own = (every, deny("StringNotEquals", "aws:PrincipalAccount", "${aws:ResourceAccount}"))
    same(outside("s3:GetObject", bucket(*of_own)), {ANY: False})
    same(outside("s3:GetObject", bucket(*of_own, account="999988887777")), {ANY: False, OUT: True})

def test_whose_account_calls_a_key():
    """kms:CallerAccount is the account of each principal, also of who is outside."""
    key = "arn:aws:kms:eu-west-1:111122223333:key/7c1d"
    condition = {"StringEquals": {"kms:CallerAccount": ["111122223333", "999988887777"]}}
    given = {"Principal": "*", "Action": "kms:Decrypt", "Condition": condition}
    policy = file(document({"Effect": "Allow", "Resource": "*", **given}))
    words = ["who-can", "kms:Decrypt", key, EXPORT, PARTNER, "--policy", policy, "--sealed"]
    # alice is of the account of the key, to which its policy grants; carol, and whoever is of no account there is, are of others.
    alice, carol = f"{ACCOUNT}user/alice", "arn:aws:iam::444455556666:user/carol"
    wanted = {alice: "allowed", carol: "implicitDeny", OUT: "allowed", ANY: "implicitDeny"}
    found = json.loads(aws(*words, "--format", "json")[0])
    same({it["principal"]: it["decision"] for it in found if it["principal"] in wanted}, wanted)
    same([it["principal"] for it in found if it["hangsOn"]], [])
    # What --context says stands in its place.
    given = file({"kms:CallerAccount": "444455556666"})
    found = json.loads(aws(*words, "--format", "json", "--context", given)[0])
    same([it["principal"] for it in found if it["decision"] == "allowed"], [])


def test_its_own_account_decides_nothing():
    """What a stand-in may in its own account nobody knows: a bucket there that trusts its account lets nobody in by that, and who is
    named by its ARN is let in."""
    own = "arn:aws:iam::999988887777:user/u"
    given = bucket(grant("999988887777", own), account="999988887777")
    same(outside("s3:GetObject", given), {OUT: False, f"outside: {own}": True})


def test_an_account_for_everybody_is_none_that_occurs():
    given = bucket(grant("*"), grant("000000000000", action="s3:PutObject"))
    same(outside("s3:PutObject", given), {ANY: False, "anyone outside: account 000000000000": True})


def test_who_can_names_them_apart():
    out, _ = aws("who-can", "s3:GetObject", BUCKET, EXPORT, "--resources", bucket(grant("999988887777")))
    lines = out.splitlines()
    # alice, bob and deploy read by policies of their own.
    same(lines[0], "3 of 8 principals are allowed, by 3 of 8 requests")
    same(
        lines[-4:],
        [
            "1 of 1 stand-ins for who is outside the exports are allowed, where their own accounts let them",
            f"allowed: {OUT} s3:GetObject {BUCKET}",
            f"  allowed by {BUCKET} policy, statement 0 (the resource's policy)",
            "  allowed by what its own account may allow (assumed), statement 0 (identity policy)",
        ],
    )
    out, _ = aws(
        "who-can", "s3:GetObject", BUCKET, EXPORT, "--resources", bucket(grant("999988887777")), "--format", "csv"
    )
    same([row[0] for row in csv.reader(io.StringIO(out))][-1], OUT)
    # The role trusts 444455556666 with a key that nothing gives.
    out, _ = aws("who-can", "sts:AssumeRole", "role/app/partner", EXPORT)
    same(
        out.splitlines()[-6:-3],
        [
            "0 of 1 stand-ins for who is outside the exports are allowed, where their own accounts let them",
            "1 more would be, with a key that nothing gives:",
            f"implicitDeny: anyone outside: account 444455556666 sts:AssumeRole {ACCOUNT}role/app/partner",
        ],
    )
    assert "  allowed if `sts:ExternalId` is `e-1`\n" in out, out
    # `can` asks for those who are named, of the exports.
    out, _ = aws(
        "can",
        "*",
        "s3:GetObject",
        BUCKET,
        EXPORT,
        "--resources",
        bucket(grant("999988887777")),
        "--format",
        "json",
        status=3,
    )
    same((len(json.loads(out)), any(it["outside"] for it in json.loads(out))), (8, False))


def test_they_may_come_by_roles():
    """Whoever of 999988887777 may assume the role that reads."""
    role = "arn:aws:iam::111122223333:role/reader"
    trust = document({"Effect": "Allow", "Principal": {"AWS": "999988887777"}, "Action": "sts:AssumeRole"})
    made = small_world(
        resources=[
            {"arn": BUCKET, "account": "111122223333"},
            {"arn": role, "account": "111122223333", "sealed": True, "policy": trust},
        ]
    )
    made["principals"].append({"role": role, "session": "s", "identity": [document(statement(action="s3:*"))]})
    out, _ = aws("who-can", "s3:GetObject", BUCKET, "--world", file(made), "--chains")
    same(
        out.splitlines()[-2:],
        [
            "1 more may come to it by assuming at most 3 roles one after the other:",
            f"  {OUT} -> arn:aws:sts::111122223333:assumed-role/reader/s",
        ],
    )


def rules(text, resources, status, *words):
    out, said = aws("rules", file(text), EXPORT, "--resources", resources, *words, status=status)
    return out, said


def test_a_never_is_broken_by_them():
    rule, own = f"never * s3:GetObject {BUCKET} except alice bob deploy", bucket(grant(f"{ACCOUNT}user/alice"))
    rules(f"{rule}\n", own, 0)
    for who, name in (
        ("999988887777", OUT),
        ("*", ANY),
        ("arn:aws:iam::999988887777:role/r", SESSION_R.replace("/s1", "/session")),
    ):
        out, _ = rules(f"{rule}\n", bucket(grant(f"{ACCOUNT}user/alice"), grant(who)), 3)
        # With everybody the other five of the account come in too.
        assert (
            f"  {name} may s3:GetObject {BUCKET}: allowed by {BUCKET} policy, statement 1 (the resource's policy)"
            in out
        ), out
    rules(f"never * s3:PutObject {BUCKET} except bob\n", bucket(grant("*")), 0)
    # `always` asks for the principals of the exports.
    rules(f"always alice s3:GetObject {BUCKET}\nalways * s3:GetObject {BUCKET}\n", bucket(grant("*")), 0)


def test_a_never_names_what_lets_them_in_with_a_key():
    """Anyone of the organisation o-1 is let in; of no request the key is known."""
    resources = bucket(grant("*", Condition={"StringEquals": {"aws:PrincipalOrgID": "o-1"}}))
    rule = file(f"never *(anybody) s3:GetObject {BUCKET}\n")
    out, _ = aws("rules", rule, EXPORT, "--resources", resources, status=3)
    same(
        out.splitlines()[1],
        f"  {ANY} may s3:GetObject {BUCKET} if `aws:PrincipalOrgID` is `o-1`, which nothing gives (--context gives it):"
        f" allowed by {BUCKET} policy, statement 0 (the resource's policy);"
        " allowed by what its own account may allow (assumed), statement 0 (identity policy)",
    )


def test_a_rule_is_open_where_too_many_kinds_are_told_apart():
    """Nobody outside is let in; nine patterns that meet each other tell 512 kinds of roles apart."""
    account = {"StringEquals": {"aws:PrincipalAccount": OWN}}
    for letters, status in (("ab", 0), ("abcdefghi", 5)):
        patterns = (f"arn:aws:iam::*:role/*{it}*" for it in letters)
        given = bucket(grant("*", Condition=account), deny("ArnLike", "aws:PrincipalArn", *patterns))
        _, said = rules(f"never * s3:GetObject {BUCKET} except *:{OWN}:*\n", given, status)
        same("for some of them nobody is asked" in said, status == 5, said)


def test_a_never_is_broken_by_whom_a_deny_excepts():
    account = "aws:PrincipalAccount"
    for who, status in ((OTHER, 3), (OWN, 0)):
        given = bucket(grant("*"), deny("StringNotEquals", account, OWN, who))
        for pattern in (BUCKET, f"{BUCKET}*"):
            out, _ = rules(f"never * s3:GetObject {pattern} except *:{OWN}:*\n", given, status)
            same(f"  {OF_OTHER} may s3:GetObject {BUCKET}" in out, status == 3, out)


def test_exceptions_mean_all_of_an_account():
    rule, given = f"never * s3:GetObject {BUCKET} except alice bob deploy", bucket(grant("999988887777"))
    for pattern, status in (
        ("arn:aws:iam::999988887777:*", 0),
        ("*", 4),
        ("*:user/*", 3),
        ("*:role/*", 3),
        ("arn:aws:iam::123412341234:*", 3),
    ):
        _, said = rules(f"{rule} {pattern}\n", given, status)
        same("matches no principal" in said, pattern == "arn:aws:iam::123412341234:*", pattern)
    rules(f"{rule} *:user/* *:role/*\n", given, 4)
    # Who is named by an ARN is excepted by it.
    rules(f"{rule} *:role/r\n", bucket(grant("arn:aws:iam::999988887777:role/r")), 0)
    # A rule may be of users or of roles alone, and of an account that no policy names.
    for pattern, status in (
        ("*:user/*", 3),
        ("*:role/*", 3),
        ("arn:aws:iam::999988887777:*", 3),
        ("*:role/worker", 0),
        ("arn:aws:iam::444455556666:*", 0),
    ):
        rules(f"never {pattern} s3:GetObject {BUCKET} except alice bob\n", given, status)


def test_changes_show_what_they_gain():
    nothing, open_to = bucket(), file(document(grant("999988887777")))
    words = ["--resources", nothing, "--put", f"releases={open_to}", "--action", "s3:GetObject", "--resource", BUCKET]
    out, _ = aws("changes", EXPORT, *words)
    same(
        out.splitlines(),
        [
            "0 lost and 1 gained, of 13 principals and all names",
            "gained:",
            f"+ {OUT} s3:GetObject {BUCKET}",
            "    allowed by arn:aws:s3:::releases policy, statement 0 (the resource's policy)",
            "    allowed by what its own account may allow (assumed), statement 0 (identity policy)",
        ],
    )
    out, _ = aws("changes", EXPORT, *words, "--format", "csv")
    same(list(csv.reader(io.StringIO(out)))[1][:6], ["gained", OUT, "s3:GetObject", BUCKET, "implicitDeny", "allowed"])
    out, _ = aws("changes", EXPORT, *words, "--format", "page")
    # In the words of answers.
    assert f'"{OUT}"' in out and "(anyone)" not in out and "what its own account may allow (assumed)" in out, out
    # A trust policy, and back.
    role = f"{ACCOUNT}role/app/audit"
    trust = lambda *who: file(
        document({"Effect": "Allow", "Principal": {"AWS": list(who)}, "Action": "sts:AssumeRole"})
    )
    changed = lambda given: [
        line for line in aws("changes", EXPORT, "--put", f"audit={given}")[0].splitlines() if line[0] in "+-"
    ]
    same(changed(trust("999988887777", f"{ACCOUNT}user/alice")), [f"+ {OUT} sts:AssumeRole {role}"])
    same(changed(trust("arn:aws:iam::111122223333:user/alice")), [])


def test_changes_ask_the_same_whatever_is_chosen():
    """The draft excepts one more account from a deny, in the twin its own again. Besides the eight of the export are asked: any
    account, 999988887777 of the other bucket, 444455556666 whom a role trusts, and the one that is excepted; and the two services and the
    provider that roles trust."""
    policy = lambda *who: document(grant("*"), deny("StringNotEquals", "aws:PrincipalAccount", OWN, *who))
    archive = {"arn": "arn:aws:s3:::archive", "account": OWN, "policy": document(grant("999988887777"))}
    resources = file([{"arn": BUCKET, "account": OWN, "policy": policy()}, archive])
    action, chosen = ["--action", "s3:Get*"], ["--resource", BUCKET]
    choices = [["--action", "s3:GetObject"], ["--resource", f"{BUCKET}*", *action], chosen]
    gains = [f"+ {OF_OTHER} s3:GetObject {it}" for it in (BUCKET, f"{BUCKET}/")]
    for who, gained, asked in ((OTHER, gains, 15), (OWN, [], 14)):
        before, after = ({"bucket": "releases", "policy": json.dumps(it)} for it in (policy(), policy(who)))
        terraform = plan(change("aws_s3_bucket_policy.b", before, after))
        for words in ([], *choices):
            out = aws("changes", EXPORT, "--resources", resources, "--terraform", terraform, *words)[0].splitlines()
            wanted = gained[: 1 if words == chosen else 2]
            same([it for it in out if it[0] in "+-"], wanted, str((who, words)))
            same(out[0].split(", of ")[1], f"{asked} principals and all names", str((who, words)))


def test_accounts_that_are_named_are_asked():
    """By `--outside`, whether a policy names them or not: of the accounts of a pattern each may be named."""
    given, third = bucket(grant("*"), deny("StringNotLike", "aws:PrincipalAccount", "7777*", OWN)), "888877776666"
    of_third = f"anyone outside: account {third}"
    wanted = {OF_OTHER: True, of_third: False, OF_PATTERN: True, ANY: False}
    same(outside("s3:GetObject", given, "--outside", OTHER, "--outside", third), wanted)
    same(outside("s3:GetObject", bucket(), "--outside", OTHER), {OF_OTHER: False})
    for who, status in ((OTHER, 3), (third, 0)):
        rules(f"never arn:aws:iam::{who}:* s3:GetObject {BUCKET}*\n", given, status, "--outside", who)
    draft = ["--put", f"releases={file(load(given)[0]['policy'])}", "--action", "s3:GetObject", "--resource", BUCKET]
    words = ["changes", EXPORT, "--resources", bucket(), *draft, "--outside", OTHER, "--outside", third]
    same(
        [it for it in aws(*words)[0].splitlines() if "anyone outside" in it],
        [f"+ {it} s3:GetObject {BUCKET}" for it in (OF_OTHER, OF_PATTERN)],
    )
    for who, status, line in (("7777", 2, "twelve digits"), (OWN, 1, f"--outside {OWN}: this account is not outside")):
        assert line in aws("who-can", "s3:GetObject", BUCKET, EXPORT, "--outside", who, status=status)[1]
    aws("can", "alice", "s3:GetObject", BUCKET, EXPORT, "--outside", OTHER, status=2)


def test_members_of_the_organisation():
    """A stand-in is bound by the policies of its account, where the organisation has it, and has its keys."""
    own = {"Principal": "*", "Condition": {"StringEquals": {"aws:PrincipalOrgID": "o-example0001"}}}
    organization = ["--organization", data("organization.json")]
    given = bucket({**grant(), **own}, grant("444455556666", action="s3:PutObject"))
    # 444455556666 is a member, as is 999900001111, which manages it, and whoever is of no account there is none.
    members = [f"anyone outside: account {it}" for it in ("444455556666", "999900001111")]
    same(outside("s3:GetObject", given, *organization, status=5), {**dict.fromkeys(members, True), ANY: False})
    # 444455556666 may not do this by its organisation's policies.
    bound = load(data("organization.json"))
    bound["targets"]["444455556666"] = [{"Id": "p-00000001", "Type": "SERVICE_CONTROL_POLICY"}]
    same(
        outside("s3:PutObject", given, "--organization", file(bound)),
        {members[0]: False, members[1]: False, ANY: False},
    )
    # Of those there whom they except somebody is asked.
    member = "anyone outside: account 444455556666"
    for name, wanted in (("444455556666", {role_of("444455556666", "admin"): True}), (OWN, {})):
        but_admin = {"ArnNotLike": {"aws:PrincipalArn": f"arn:aws:iam::{name}:role/admin"}}
        bound["policies"][1]["Content"] = json.dumps(document(statement(effect="Deny", Condition=but_admin)))
        ids = ("p-FullAWSAccess", "p-00000001")
        bound["targets"]["444455556666"] = [{"Id": it, "Type": "SERVICE_CONTROL_POLICY"} for it in ids]
        found = outside("s3:GetObject", bucket(grant("444455556666")), "--organization", file(bound))
        same(found, {member: False, **wanted})


def test_members_that_the_file_lacks():
    """Nobody knows them, so it is open where they may be let in: told by each question alike. The twins deny whoever they are, grant
    another action, or grant to a unit and deny all members."""
    line = f"{BUCKET} policy grants to members of an organisation: of those that its file lacks nobody is asked"
    member = {"StringEquals": {"aws:PrincipalOrgID": "o-example0001"}}
    unit = {"ForAnyValue:StringLike": {"aws:PrincipalOrgPaths": "o-example0001/r-ab12/ou-ab12-99999999/*"}}
    own = ("444455556666", "999900001111", OWN)
    others = deny("StringNotEquals", "aws:PrincipalAccount", *own)
    but = " ".join(f"*:{it}:*" for it in own)
    cases = [
        ([grant("*", Condition=member)], True),
        ([grant("*", Condition=unit)], True),
        ([grant("*", Condition=member), deny("Null", "aws:PrincipalArn", "true")], True),
        ([grant("*", Condition=member), others], False),
        ([grant("*", Condition=member), deny("StringEquals", "aws:PrincipalOrgID", "o-example0001")], False),
        ([grant("*", Condition=member, action="s3:PutObject")], False),
        ([grant("*", Condition=unit), deny("Null", "aws:PrincipalOrgID", "false")], False),
    ]
    words = ["--organization", data("organization.json")]
    for some, is_open in cases:
        given, status = bucket(*some), 5 if is_open else 0
        for resource in (BUCKET, f"{BUCKET}/k", f"{BUCKET}/*"):
            rule = file(f"never * s3:GetObject {resource} except {but}\n")
            out, _ = aws("rules", rule, EXPORT, "--resources", given, *words, status=status)
            same(f"  open: {line}\n" in out, is_open, str((some, resource, out)))
        _, said = aws("who-can", "s3:GetObject", BUCKET, EXPORT, "--resources", given, *words, status=status)
        same(said, f"iamsim-aws: {line}\n" if is_open else "", str(some))
    # A draft that grants to members, but to none of those that the file has.
    listed = deny("StringEquals", "aws:PrincipalAccount", *own)
    for some, is_open in (([grant("*", Condition=member), listed], True), ([grant("*", Condition=member), listed, others], False)):
        draft = ["--put", f"releases={file(document(*some))}", "--fail-on", "gained"]
        _, said = aws("changes", EXPORT, "--resources", bucket(), *draft, *words, status=5 if is_open else 0)
        same(line in said, is_open, said)


def test_members_whom_a_deny_excepts():
    """Of the members without an export, whom a deny of all outside the organisation excepts, one is asked of each place there with
    the same policies; the twin denies members too."""
    organization = load(data("organization.json"))
    for n, unit in enumerate(["ou-ab12-11111111", "ou-ab12-11111111", "r-ab12"]):
        organization["parents"][f"55556666777{n}"] = [{"Id": unit, "Type": "ORGANIZATIONAL_UNIT"}]
        organization["targets"][f"55556666777{n}"] = organization["targets"]["111122223333"]
    # At the root stands 444455556666 with the same policies; 999900001111 manages.
    members = [f"anyone outside: account {it}" for it in ("444455556666", "555566667770", "999900001111")]
    every = deny("StringNotEqualsIfExists", "aws:PrincipalOrgID", "o-example0001")
    exports = deny("StringNotEquals", "aws:PrincipalAccount", OWN)
    rule = file(f"never * s3:GetObject {BUCKET} except *:{OWN}:*\n")
    for some, is_open in (([every], True), ([every, exports], False)):
        for given in (bucket(grant("*"), *some), controlled(*some)):
            words = ["--organization", file(organization)]
            same(outside("s3:GetObject", given, *words), {ANY: False, **dict.fromkeys(members, is_open)})
            aws("rules", rule, EXPORT, "--resources", given, *words, status=3 if is_open else 0)


def test_nobody_outside_is_of_the_organisation():
    """999988887777 is no account of o-example0001 by its file, and may be of another organisation; without the file of any."""
    file_of = ["--organization", data("organization.json")]
    equal, like = ("StringEquals", "aws:PrincipalOrgID"), ("ForAnyValue:StringLike", "aws:PrincipalOrgPaths")
    cases = [
        (equal, "o-example0001", file_of, 0),
        (equal, "o-example0001", [], 3),
        (equal, "o-other", file_of, 3),
        (like, "o-example0001/r-ab12/*", file_of, 0),
        (like, "o-other/r-ab12/*", file_of, 3),
    ]
    rule = file(f"never *(anyone) s3:GetObject {BUCKET}*\n")
    for (operator, key), of, words, status in cases:
        given = bucket(grant("999988887777", Condition={operator: {key: of}}))
        draft = file(load(given)[0]["policy"])
        for question, resources, wanted in (
            (["rules", rule], given, status),
            (["who-can", "s3:GetObject", BUCKET], given, 0),
            (["changes", "--put", f"releases={draft}", "--fail-on", "gained"], bucket(), status),
        ):
            out, _ = aws(*question, EXPORT, "--resources", resources, *words, status=wanted)
            same(f"`{key}` is `o-" in out, status == 3, str((question, of, words, out)))
    # The keys of a member are those of the file, also where nobody outside may have them.
    equal_to = {"StringEquals": {"aws:PrincipalOrgID": "o-example0001"}}
    both = bucket(grant("999988887777", "444455556666", Condition=equal_to))
    same(outside("s3:GetObject", both, *file_of), {OUT: False, "anyone outside: account 444455556666": True})
    # No world of iamsim says of whom that is so.
    without = file({**load(data("organization.json")), "parents": {}})
    made = json.loads(aws("world", PARTNER, "--organization", without)[0])
    same({name for it in made["principals"] for name in it} - {"user", "role", "session", "identity", "context"}, set())


def test_who_is_not_asked():
    """Who is of another account and neither a user nor a role is told."""
    federated = "arn:aws:sts::999988887777:federated-user/x"
    _, said = aws("who-can", "s3:GetObject", BUCKET, EXPORT, "--resources", bucket(grant(federated)), status=5)
    same(said, f"iamsim-aws: {BUCKET} policy names {federated}, for whom nobody is asked\n")
    _, said = aws("who-can", "s3:GetObject", BUCKET, EXPORT, "--resources", bucket(grant("999988887777", "*")))
    same(said, "")


def test_who_is_no_principal_of_an_account():
    """A service, who comes by a provider and a canonical user are asked where a policy names them, for what it lets them do."""
    role, worker = f"{ACCOUNT}role/people", f"{ACCOUNT}role/worker"
    context = ["--context", file({"SAML:aud": "https://signin.aws.amazon.com/saml"})]
    for action, arn, wanted in (
        ("sts:AssumeRoleWithSAML", role, {"SAML identity: idp": True}),
        ("sts:AssumeRole", role, {"SAML identity: idp": False}),
        ("sts:AssumeRole", worker, {"service: lambda.amazonaws.com": True}),
    ):
        same(outside(action, bucket(), *context, resource=arn), wanted, action)
        out, _ = rules(f"never * {action} {arn}\n", bucket(), 3 if all(wanted.values()) else 0, *context)
        same([f"  {it} may {action} {arn}: allowed by" in out for it in wanted], list(wanted.values()), out)
    # By its own name, or that of the policy, it may be excepted; not by the account whose provider it is.
    for pattern, status in (("saml-provider/idp", 0), ("SAML\\ identity:\\ *", 0), (f"{ACCOUNT}*", 3), ("*:user/*", 3)):
        rules(f"never * sts:AssumeRoleWithSAML {role} except {pattern}\n", bucket(), status)
    # Who may not be named so is told as not asked, which fails in the reports of a pipeline.
    rule, junit = file("never alice s3:PutObject arn:aws:s3:::releases*\n"), file("")
    given = bucket({**grant(), "Principal": {"CanonicalUser": "79 a5"}, "Action": "s3:PutObject"})
    _, said = aws("rules", rule, EXPORT, "--resources", given, "--junit", junit)
    assert f"{BUCKET} policy names CanonicalUser 79 a5, for whom nobody is asked\n" in said, said
    assert 'failures="1"' in open(junit, encoding="utf-8").read()


def test_a_world_has_them_too():
    """Of a world that was made before those are outside whose accounts have no principal there."""
    made = small_world(
        resources=[
            {"arn": BUCKET, "account": "111122223333", "policy": document(grant("999988887777", "111122223333"))}
        ]
    )
    out, _ = aws("rules", file(f"never * s3:GetObject {BUCKET}\n"), "--world", file(made), status=3)
    same([line.split(" may ")[0].strip() for line in out.splitlines()[1:-1]], [OUT])
    made["principals"].append({"user": "arn:aws:iam::999988887777:user/x"})
    made["accounts"].append({"id": "999988887777"})
    aws("rules", file(f"never * s3:GetObject {BUCKET}\n"), "--world", file(made))
