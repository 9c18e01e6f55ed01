"""What `rules` calls kept: no name that a rule means is allowed. Each case is a policy with a danger that made-up texts do not meet, and
a twin without it. What is allowed is worked out by hand; `can` confirms each example."""

import re
import sys

from harness import TOOLS, aws, document, file, same, small_world, statement
from test_ruling import rules_of, states

sys.path.insert(0, TOOLS)
from iamsim_aws.patterns import overlap  # noqa: E402

ACCOUNT = "111122223333"
S3 = "arn:aws:s3:::"
MAY = re.compile(r"  (\S+) may (\S+) (\S+?)(?: if .*)?: ")


def on(*names, action="s3:GetObject", effect="Allow", **more):
    return statement(effect, action, [f"{S3}{it}" for it in names], **more)


def asked(made, rule, *words, status=0):
    """The state of a rule in a world, and its examples; each is confirmed."""
    out, _ = rules_of(made, f"{rule}\n", *words, status=status)
    found = [it.groups() for it in map(MAY.match, out.splitlines()) if it]
    for who, action, resource in found if "which nothing gives" not in out else ():
        aws("can", who, action, resource, "--world", file(made))
    return states(out)[0], [it[1:] for it in found], out


def broken(made, rule, *examples, words=()):
    state, found, out = asked(made, rule, *words, status=3)
    same((state, found), ("broken", list(examples)), out)


def kept(made, rule, *words):
    state, _, out = asked(made, rule, *words)
    same(state, "kept", out)


def bounded(boundary, *statements):
    made = small_world(document(*statements))
    made["principals"][0]["boundary"] = document(boundary)
    return made


def test_a_deny_on_one_name():
    """The deny meets just the text that would be made up for the pattern."""
    rule = f"never * s3:GetObject {S3}secrets/*"
    some = on("secrets/*")
    broken(small_world(document(some, on("secrets/x", effect="Deny"))), rule, ("s3:GetObject", f"{S3}secrets/"))
    broken(small_world(document(some, on("secrets/x*", "secrets/", effect="Deny"))), rule, ("s3:GetObject", f"{S3}secrets/a"))
    kept(small_world(document(some, on("secret*", effect="Deny"))), rule)


def test_a_deny_on_one_action():
    rule = "never * iam:* *"
    may = [statement(action="iam:*"), statement("Deny", "iam:x")]
    made = small_world(document(*may), actions=["iam:PassRole"])
    state, found, out = asked(made, rule, status=3)
    assert state == "broken" and "iam:x" not in {it[0] for it in found} and found, out
    denied = small_world(document(may[0], statement("Deny", "iam:*")), actions=["iam:PassRole"])
    kept(denied, rule)


def test_two_patterns_that_meet():
    """What identity and boundary allow together is none of their texts."""
    rule = "never * s3:GetObject *"
    broken(bounded(on("prod-*"), on("*-logs/*")), rule, ("s3:GetObject", f"{S3}prod-logs/"))
    kept(bounded(on("prod-*"), on("logs-*/*")), rule)
    # As a rule over the draft.
    but = statement("Deny", "s3:GetObject", resource=None, NotResource=f"{S3}b/*")
    broken(bounded(on("b/*"), statement(action="s3:GetObject"), {k: v for k, v in but.items() if v}), rule, ("s3:GetObject", f"{S3}b/k"), ("s3:GetObject", f"{S3}b/"))
    kept(bounded(on("c/*"), statement(action="s3:GetObject"), {k: v for k, v in but.items() if v}), rule)


def test_two_patterns_of_actions_that_meet():
    rule = "never * s3:* *"
    made = bounded(statement(action="s3:Get*"), on("b/*", action="s3:*Object"))
    state, found, out = asked(made, rule, status=3)
    same((state, {it[0].lower() for it in found}), ("broken", {"s3:getobject"}), out)
    kept(bounded(statement(action="s3:Put*"), on("b/*", action="s3:Get*")), rule)


def test_what_goes_and_comes():
    """As rules over what would be."""
    deletes = "s3:DeleteObject"
    made = small_world(document(on("homes/*", action=deletes), on("homes/x*", action=deletes, effect="Deny")))
    broken(made, f"never * {deletes} {S3}homes/*", (deletes, f"{S3}homes/"))
    denied = [on("homes/x*", action=deletes), on("homes/*", action=deletes, effect="Deny")]
    kept(small_world(document(*denied)), f"never * {deletes} {S3}homes/*")
    but_one = [on("homes/*"), on("homes/?", effect="Deny")]
    broken(small_world(document(*but_one)), f"never * s3:GetObject {S3}homes/??*", ("s3:GetObject", f"{S3}homes/xx"))
    kept(small_world(document(*but_one)), f"never * s3:GetObject {S3}homes/?")
    secret = [on("a*"), on("*secret", effect="Deny")]
    broken(small_world(document(secret[0])), f"never * s3:GetObject {S3}*secret", ("s3:GetObject", f"{S3}asecret"))
    kept(small_world(document(*secret)), f"never * s3:GetObject {S3}*secret")
    reads = [statement(action="secretsmanager:Get*"), statement("Deny", "secretsmanager:*")]
    rule = "never * secretsmanager:GetSecretValue *"
    state, found, out = asked(small_world(document(reads[0])), rule, status=3)
    assert state == "broken" and {it[0] for it in found} == {"secretsmanager:GetSecretValue"}, out
    kept(small_world(document(*reads)), rule)


def test_objects_of_a_bucket_with_a_policy():
    """The policy of a bucket holds of each of its objects, and of no others; a rule's pattern narrows them."""
    grants = document({"Effect": "Allow", "Principal": "*", "Action": "s3:GetObject", "Resource": f"{S3}b/*/open*"})
    bucket = {"arn": f"{S3}b", "account": ACCOUNT, "policy": grants}
    made = small_world(document(statement(action="sqs:*")), resources=[bucket])
    ann = f"arn:aws:iam::{ACCOUNT}:user/ann"
    broken(made, f"never {ann} s3:GetObject {S3}*/op*", ("s3:GetObject", f"{S3}b//open"))
    denies = document({"Effect": "Deny", "Principal": "*", "Action": "s3:*", "Resource": [f"{S3}b", f"{S3}b/*"]})
    may = small_world(document(statement(action="s3:*")), resources=[{**bucket, "policy": denies}])
    kept(may, f"never {ann} s3:GetObject {S3}b/*")
    broken(may, f"never {ann} s3:GetObject {S3}b*/k", ("s3:GetObject", f"{S3}bx/k"))


def test_resources_of_other_accounts():
    """Nothing is allowed to one account on what another has and no policy is given of, whatever its own policies say."""
    other = "arn:aws:kms:*:444455556666:key/*"
    made = small_world(document(statement(action="kms:Decrypt", resource=[other])), actions=["kms:Decrypt"])
    made["accounts"].append({"id": "444455556666"})
    kept(made, "never * kms:Decrypt *")
    kept(made, f"never * kms:Decrypt {other}")
    mine = small_world(document(statement(action="kms:Decrypt", resource="arn:aws:kms:*:*:key/a*")), actions=["kms:Decrypt"])
    example = "kms:Decrypt", f"arn:aws:kms::{ACCOUNT}:key/a"
    broken(mine, "never * kms:Decrypt *", example)
    broken(mine, f"never * kms:Decrypt arn:aws:kms:*:{ACCOUNT}:key/*", example)
    kept(mine, f"never * kms:Decrypt {other}")


def test_kinds_that_are_not_shown():
    """Of 13 letters that an action may have or not there are 8,192 kinds, more than are looked at."""
    letters = [statement(action=f"s3:*{it}*") for it in "abcdefghijklm"]
    made, rule = small_world(document(*letters)), f"never * s3:* {S3}b/k"
    state, _, out = asked(made, rule, status=5)
    same(state, "open", out)
    assert f"  open: arn:aws:iam::{ACCOUNT}:user/ann s3:* {S3}b/k has too many kinds to be shown\n" in out, out
    asked(made, rule, "--allow-open")
    junit, sarif = file(""), file("")
    asked(made, rule, "--junit", junit, "--sarif", sarif, status=5)
    with open(junit, encoding="utf-8") as it:
        assert 'failures="1"' in it.read()
    with open(sarif, encoding="utf-8") as it:
        assert '"ruleId":"open"' in it.read()
    kept(small_world(document(*letters[:2], statement("Deny", "s3:*"))), rule)


def test_variables_that_nothing_gives():
    """A key with which it is allowed is found where a variable in a resource, or a value that it is compared with, has it."""
    tag = "${aws:PrincipalTag/team}"
    rule = f"never * s3:GetObject {S3}homes/*"
    made = small_world(document(on(f"homes/{tag}/*")))
    state, _, out = asked(made, rule, status=3)
    assert state == "broken" and "if `aws:PrincipalTag/team` is" in out, out
    kept(made, rule, "--as-given")
    compares = on("homes/*", Condition={"StringEquals": {"s3:ExistingObjectTag/team": tag}})
    state, _, out = asked(small_world(document(compares)), rule, status=3)
    assert state == "broken" and "`s3:ExistingObjectTag/team` is" in out, out
    # What the request gives, or the principal, is no such variable, whosever policy has it.
    own = document({"Effect": "Allow", "Principal": "*", "Action": "s3:GetObject", "Resource": f"{S3}homes/${{aws:username}}/*"})
    bucket = {"arn": f"{S3}homes", "account": ACCOUNT, "policy": own}
    made = small_world(document(statement(action="sqs:*")), resources=[bucket])
    broken(made, "never *:user/ann s3:GetObject arn:aws:s3:::homes/*", ("s3:GetObject", f"{S3}homes/ann/"))
    kept(made, "never *:user/ann s3:GetObject arn:aws:s3:::homes/bob/*")


def test_keys_that_nothing_gives():
    """Each name is asked with each key too, and with all of one statement."""
    rule = f"never * s3:GetObject {S3}secrets/*"
    mfa = {"Bool": {"aws:MultiFactorAuthPresent": "true"}}
    both = {**mfa, "StringEquals": {"aws:SourceVpc": "vpc-1"}}
    denied = on("secrets/x", effect="Deny")
    for condition, words in (
        (mfa, "`aws:MultiFactorAuthPresent` is `true`"),
        (both, "`aws:MultiFactorAuthPresent` is `true` and `aws:SourceVpc` is `vpc-1`"),
    ):
        made = small_world(document(on("secrets/*", Condition=condition), denied))
        _, _, out = asked(made, rule, status=3)
        assert f" may s3:GetObject {S3}secrets/ if {words}, which nothing gives" in out, out
        kept(made, rule, "--as-given")
        kept(small_world(document(on("secrets/*", Condition=condition), on("secrets/*", effect="Deny"))), rule)


def test_whom_nobody_asks():
    """Whom a policy lets in by words that no name can have. A rule that means none of them is not open by it."""
    who = {"Federated": "*"}
    grants = document({"Effect": "Allow", "Principal": who, "Action": "s3:*", "Resource": f"{S3}b/*"})
    bucket = {"arn": f"{S3}b", "account": ACCOUNT, "policy": grants}
    made = small_world(document(statement(action="sqs:*")), resources=[bucket])
    state, _, out = asked(made, f"never * s3:GetObject {S3}b/*", status=5)
    assert state == "open" and "names Federated *, for whom nobody is asked" in out, out
    kept(made, f"never *:user/ann s3:GetObject {S3}b/*")
    other = {"Effect": "Allow", "Principal": {"AWS": f"arn:aws:iam::{ACCOUNT}:user/bob"}, "Action": "s3:*", "Resource": f"{S3}b/*"}
    made["resources"] = [{**bucket, "policy": document(other)}]
    kept(made, f"never * s3:GetObject {S3}b/*")


def test_what_two_patterns_share():
    """Patterns of what a pattern and a form of ARNs share; a run of the form holds no colon before the last part."""
    own = "arn:?*:?*:*:1:?*"
    for pattern, form, wanted in (
        ("*", own, {own}),
        (f"{S3}b/*", own, set()),
        (f"{S3}b/*", "arn:?*:?*:*::?*", {f"{S3}b/*"}),
        (f"{S3}b?", f"{S3}b", set()),
        (f"{S3}b*", f"{S3}b", {f"{S3}b"}),
        (f"{S3}*/k", f"{S3}b/?*", {f"{S3}b/?*/k", f"{S3}b//k", f"{S3}b/k"}),
        (f"{S3}b\\*", "arn:?*:?*:*::?*", {f"{S3}b\\*"}),
        ("arn:aws:*:1:key/*", "arn:aws:kms:*:1:?*", {"arn:aws:kms:*:1:key/*", "arn:aws:kms:*:1:?*:1:key/*", "arn:aws:kms:*:1::1:key/*", "arn:aws:kms:*:1:1:key/*"}),
        ("*:get*", "iam:*", {"iam:get*"}),
        ("s3:*", "iam:*", set()),
    ):
        same(set(overlap(pattern, form)), wanted, f"{pattern} {form}")
