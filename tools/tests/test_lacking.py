"""Keys that some requests have and others lack: each that lacks one is asked with it. The answers are worked out by hand."""

import csv
import io
import json

from harness import aws, data, document, file, same, small_world, statement

USER = "arn:aws:iam::111122223333:user/"
OBJECT = "arn:aws:s3:::b/k"
IF_YES = document(statement(action="s3:GetObject", Condition={"StringEquals": {"k": "yes"}}))
# Of `may` and `has` either could read with k=yes; `has` has k=no, and `may` has none.
WORLD = {
    **small_world(),
    "principals": [
        {"user": f"{USER}has", "identity": [IF_YES], "context": {"k": "no"}},
        {"user": f"{USER}may", "identity": [IF_YES]},
    ],
}
BROKEN = "{} may {} {} if `{}` is `{}`, which nothing gives ({} gives it)"
IN_WORLD = "the context of the world"


def broken(rule, *words):
    """The requests that break a rule, each without the statements that allow it; its status has to be 3."""
    out, _ = aws("rules", file(rule), *words, "--moment", "0", "--session", "s1", status=3)
    return [line.strip().split(": allowed by ")[0] for line in out.splitlines() if line.startswith("  ")]


def hangs(*words, status=0):
    out, _ = aws(*words, "--format", "json", "--moment", "0", status=status)
    return {
        (row["principal"], row["resource"]): {it["key"]: it["value"] for it in row["hangsOn"]}
        for row in json.loads(out)
    }


def test_a_wide_rule_is_broken_where_a_narrow_one_is():
    found = [BROKEN.format(f"{USER}may", "s3:GetObject", it, "k", "yes", IN_WORLD) for it in (OBJECT, "*", "arn:aws:s3:::x")]
    for who in ("*:user/may", "*", "*:user/*"):
        same(broken(f"never {who} s3:GetObject *", "--world", file(WORLD)), found, who)
    # What a request has it has: `has` may not.
    out, _ = aws("rules", file("never *:user/has s3:GetObject *"), "--world", file(WORLD))
    assert out.endswith("1 rules: 1 kept, 0 broken, 0 empty, 0 open\n"), out


def test_who_stands_twice_is_asked_as_both():
    """Of two that have one name, and of two resources that have one, each is asked with what it lacks."""
    both = {**WORLD, "principals": [{**it, "user": f"{USER}may"} for it in WORLD["principals"]]}
    both["resources"] = [*WORLD["resources"], {**WORLD["resources"][0], "context": {"aws:ResourceTag/t": "x"}}]
    out, _ = aws("who-can", "s3:GetObject", OBJECT, "--world", file(both), "--format", "json", "--moment", "0")
    found = [[(it["key"], it["value"]) for it in row["hangsOn"]] for row in json.loads(out)]
    same(found, [[], [], [("k", "yes")], [("k", "yes")]])


def test_a_key_with_decimals():
    """It is told as the policy has it."""
    over = {"NumericGreaterThan": {"s3:TlsVersion": "1.2"}, "NumericEquals": {"s3:TlsVersion": ["1.15", "1.3"]}}
    made = file(small_world(document(statement(Condition=over))))
    found = hangs("can", "ann", "s3:GetObject", OBJECT, "--world", made, status=3)
    same(found, {(f"{USER}ann", OBJECT): {"s3:TlsVersion": "1.3"}})


def test_who_can_with_a_key_that_others_have():
    same(
        hangs("who-can", "s3:GetObject", OBJECT, "--world", file(WORLD)),
        {(f"{USER}has", OBJECT): {}, (f"{USER}may", OBJECT): {"k": "yes"}},
    )
    # In any case of letters, and not where the world has it for all.
    same(
        hangs(
            "can",
            "may",
            "s3:GetObject",
            OBJECT,
            "--world",
            file({**WORLD, "principals": [{**WORLD["principals"][0], "context": {"K": "no"}}, WORLD["principals"][1]]}),
            status=3,
        ),
        {(f"{USER}may", OBJECT): {"k": "yes"}},
    )
    plain = {**WORLD, "principals": WORLD["principals"][1:], "context": {"K": "no"}}
    same(hangs("who-can", "s3:GetObject", OBJECT, "--world", file(plain)), {(f"{USER}may", OBJECT): {}})


def test_keys_of_resources():
    """Of two objects the one has a tag, and the other lacks it."""
    key = "s3:ExistingObjectTag/open"
    policy = document(
        {
            "Effect": "Allow",
            "Principal": {"AWS": f"{USER}ann"},
            "Action": "s3:GetObject",
            "Resource": "*",
            "Condition": {"StringEquals": {key: "yes"}},
        }
    )
    resources = [{"arn": f"arn:aws:s3:::{it}/k", "account": "111122223333", "policy": policy} for it in "ab"]
    resources[0]["context"] = {key: "no"}
    made = file(small_world(resources=resources))
    found = BROKEN.format(f"{USER}ann", "s3:GetObject", "arn:aws:s3:::b/k", key, "yes", IN_WORLD)
    for what in ("arn:aws:s3:::b/k", "arn:aws:s3:::*/k", "*"):
        assert found in broken(f"never * s3:GetObject {what}", "--world", made), what
    same(
        hangs("who-can", "s3:GetObject", "*/k", "--world", made),
        {(f"{USER}ann", "arn:aws:s3:::a/k"): {}, (f"{USER}ann", "arn:aws:s3:::b/k"): {key: "yes"}},
    )


def test_who_is_outside_lacks_the_tags_of_the_exports():
    """alice has a team by a tag; the stand-in of the account that the bucket's policy names has none."""
    policy = document(
        {
            "Effect": "Allow",
            "Principal": {"AWS": "777788889999"},
            "Action": "s3:GetObject",
            "Resource": "*",
            "Condition": {"StringEquals": {"aws:PrincipalTag/team": "red"}},
        }
    )
    resources = file([{"arn": OBJECT, "account": "111122223333", "policy": policy}])
    wanted = BROKEN.format(
        "anyone outside: account 777788889999", "s3:GetObject", OBJECT, "aws:PrincipalTag/team", "red", "--context"
    )
    # Others may by policies of their own.
    assert wanted in broken(f"never * s3:GetObject {OBJECT}", data("account.json"), "--resources", resources)
    same(
        broken("never arn:aws:iam::777788889999:* s3:GetObject *", data("account.json"), "--resources", resources)[0],
        wanted,
    )


def test_changes_with_a_key_that_others_have():
    """The draft lets with k=yes; without it nobody may."""
    without = {
        **WORLD,
        "principals": [{name: it[name] for name in it if name != "identity"} for it in WORLD["principals"]],
    }
    out, _ = aws("changes", "--before", file(without), "--after", file(WORLD), "--format", "csv")
    same(
        [row[:4] + row[6:7] for row in list(csv.reader(io.StringIO(out)))[1:]],
        [["gained", f"{USER}may", "s3:GetObject", OBJECT, "`k` is `yes`"]],
    )


def test_keys_tells_of_those_that_some_requests_lack():
    out, _ = aws("keys", file(WORLD))
    same(out, "k\tprincipals/1/identity/0 statement 0\n")
    # A policy of a resource is asked by all principals, and one of a principal on all resources.
    policy = document(
        {
            "Effect": "Allow",
            "Principal": "*",
            "Action": "*",
            "Resource": "*",
            "Condition": {"StringEquals": {"k": "yes"}},
        }
    )
    out, _ = aws("keys", file({**WORLD, "resources": [{"arn": OBJECT, "account": "111122223333", "policy": policy}]}))
    same(out, "k\tprincipals/1/identity/0 statement 0, resources/0/policy statement 0\n")
    both = [{**it, "context": {"k": "no"}} for it in WORLD["principals"]]
    same(aws("keys", file({**WORLD, "principals": both}))[0], "")
    out, _ = aws(
        "keys",
        file(
            {
                **WORLD,
                "principals": WORLD["principals"][1:],
                "resources": [
                    {"arn": OBJECT, "account": "111122223333", "context": {"k": "no"}},
                    {"arn": "*", "account": "111122223333"},
                ],
            }
        ),
    )
    same(out, "k\tprincipals/0/identity/0 statement 0\n")
