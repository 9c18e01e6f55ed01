"""Checks that a pipeline trusts, over dangers that hang on keys that nothing gives. Each case has a harmless twin, which is green. What
is allowed or gained is worked out by hand; each example is confirmed with its keys."""

import csv
import datetime
import io
import ipaddress
import os
import re

from harness import aws, document, file, load, same, statement
from test_dangers import ACCOUNT, ALICE, GET, OTHER, OWN, S3, bucket, export, on, organization, rule, to

KEY = f"never * {GET} {S3}b/k"
ALL = f"never * {GET} {S3}b/*"
# Without any policy that speaks of what a rule means, the rule is taken for a slip.
HINT = on("b/-", effect="Deny")


def when(**operators):
    """A condition, where an underscore stands for the colon of an operator."""
    return {"Condition": {name.replace("_", ":"): keys for name, keys in operators.items()}}


def breaks(text, given, *wanted):
    """A rule is broken, with these words in its message."""
    out = rule(text, given, 3)
    for it in wanted:
        assert it in out, (it, out)


def test_numbers_beside_what_is_asked():
    """The least that is greater, as policies write it."""
    newer = lambda operator, than, **more: export(on("b/*", **when(**{operator: {"s3:TlsVersion": than}}), **more))
    for text in (KEY, ALL):
        breaks(text, newer("NumericGreaterThan", "1.1"), "if `s3:TlsVersion` is `1.2`, which nothing gives")
        rule(text, export(on("c/*", **when(NumericGreaterThan={"s3:TlsVersion": "1.1"})), HINT), 0)
    denied = on("b/*", effect="Deny", **when(NumericGreaterThan={"s3:TlsVersion": "1.1"}))
    breaks(KEY, export(on("b/*"), denied), f"{ALICE} may {GET} {S3}b/k: allowed by")
    rule(KEY, export(on("b/*", **when(NumericGreaterThan={"s3:TlsVersion": "1.1"})), on("b/*", effect="Deny")), 0)


def test_two_keys_of_two_statements():
    """Of one statement, and of an allow and a deny."""
    wants = {"aws:SourceVpc": "vpc-1"}, {"aws:RequestTag/team": "red"}
    both = on("b/*", **when(StringEquals=wants[0], StringLike=wants[1]))
    apart = [on("b/*", **when(StringEquals=wants[0])), on("b/*", effect="Deny", **when(StringNotEquals=wants[1]))]
    for text in (KEY, ALL):
        for some in ([both], apart):
            breaks(text, export(*some), "if `aws:RequestTag/team` is `red` and `aws:SourceVpc` is `vpc-1`, which")
        rule(text, export(both, on("*", effect="Deny")), 0)
        rule(text, export(apart[0], on("*", effect="Deny", **when(Null={"aws:PrincipalArn": "false"}))), 0)


def test_keys_that_are_compared_with_variables():
    """Where nothing gives either side, both may be the same; a variable in a resource may be any text."""
    owned, asked = (on("b/*", **when(StringEquals={"s3:ExistingObjectTag/team": f"${{aws:{it}/team}}"})) for it in ("PrincipalTag", "RequestTag"))
    for text in (KEY, ALL):
        breaks(text, export(asked), "`aws:RequestTag/team` is", "`s3:ExistingObjectTag/team` is")
        breaks(text, export(owned, tags={"team": "red"}), "if `s3:ExistingObjectTag/team` is `red`, which")
        breaks(text, export(on("${aws:RequestTag/home}/*")), "if `aws:RequestTag/home` is `b`, which")
        rule(text, export(on("${aws:PrincipalTag/home}/*"), HINT, tags={"home": "c"}), 0)
        rule(text, export(on("c/${aws:RequestTag/home}/*"), HINT), 0)
    rule(KEY, export(owned, on("b/*", effect="Deny"), tags={"team": "red"}), 0)


def test_names_that_keys_alone_tell_apart():
    """Of what two statements grant with keys, another key is denied on the shorter names: the longer ones are found all the same."""
    first = on("b/a*", **when(StringEquals={"aws:SourceVpc": "vpc-1"}))
    second = on("b/long*", **when(StringEquals={"aws:SourceVpc": "vpc-2"}))
    denied = on("*", effect="Deny", **when(StringEquals={"aws:SourceVpc": "vpc-1"}))
    breaks(ALL, export(first, second, denied), f"{ALICE} may {GET} {S3}b/long if `aws:SourceVpc` is `vpc-2`")
    rule(ALL, export(first, on("c/long*"), on("*", effect="Deny")), 0)
    # What is allowed without keys is told apart from what is with some, beside a deny that leaves no value for these.
    wide = on("b/*", **when(StringEquals={"aws:SourceVpc": "vpc-1"}))
    others = on("*", effect="Deny", **when(StringNotEquals={"aws:SourceVpc": "vpc-2"}))
    breaks(ALL, export(on("b/long*"), wide, others), f"{ALICE} may {GET} {S3}b/long if `aws:SourceVpc` is `vpc-2`")
    # An allow and a deny of one value: that no value is left for the allow is not shown, which is open.
    out = rule(ALL, export(first, denied), 5)
    assert f"open: {ALICE} {GET} {S3}b/a: which values of aws:SourceVpc allow it is not shown" in out, out
    rule(ALL, export(first, denied), 0, "--allow-open")


def test_many_people_and_many_values():
    """What is asked is no sample of the people, of the resources or of the values."""
    count = 600 // int(os.environ.get("SLOWER", "1"))
    wide = on("b/*", **when(IpAddress={"aws:SourceIp": [f"198.51.{n // 200}.{n % 200}/32" for n in range(400)]}))
    made = load(export(HINT))
    [alice] = made["UserDetailList"]
    people = []
    for n in range(count):
        own = [{"PolicyName": "Own", "PolicyDocument": document(wide if n >= count - 5 else HINT)}]
        arn = f"{ACCOUNT}user/u{n}"
        people.append({**alice, "UserName": f"u{n}", "UserId": f"AIDA{n}", "Arn": arn, "UserPolicyList": own})
    things = file([{"arn": f"{S3}b/{n}", "account": OWN} for n in range(count * 215 // 600)])
    given = file({**made, "UserDetailList": people})
    out = rule(ALL, given, 3, "--resources", things, "--most", "9999")
    for n in range(count):
        assert (f"  {ACCOUNT}user/u{n} may " in out) == (n >= count - 5), n
    given = file({**made, "UserDetailList": people[:-5]})
    scope = f"({count - 5} principals, every name of resource, every value of each key)"
    assert scope in rule(ALL, given, 0, "--resources", things)


def test_who_cannot_be_of_the_organisation():
    """An account outside has no id of the organisation; where another one is let in, it may be of that."""
    given, made = export(statement(action="sqs:*")), load(organization(document(statement())))
    made["parents"][made["management"]] = made["parents"][OWN]
    given_by = ["--organization", file(made)]
    granted = lambda *ids: to("*", "b/*", **when(StringEquals={"aws:PrincipalOrgID": list(ids)}))
    text = f"{ALL} except {ACCOUNT}* arn:aws:iam::{made['management']}:*"
    out = rule(text, given, 5, *given_by, "--resources", bucket(granted("o-example0001"), name="b"))
    # Nobody knows which further members there are, and that alone is open.
    same(out.count("  open: "), 1, out)
    assert "of those that its file lacks nobody is asked" in out, out
    out = rule(text, given, 3, *given_by, "--resources", bucket(granted("o-example0001", "o-other"), name="b"))
    assert f"anyone outside: any account may {GET} {S3}b/ if `aws:PrincipalOrgID` is `o-other`, which" in out, out
    # Without the file of the organisation nobody knows of which one is who asks.
    rule(text, given, 3, "--resources", bucket(granted("o-example0001"), name="b"))


# --- what changes ---------------------------------------------------------------------------------------------------------


def gained(given, *words, moment="0", confirm=True):
    """What is gained with keys: {(principal, action, resource): {key: value}}; `can` confirms each over the draft."""
    words = [*words, "--moment", moment]
    out, _ = aws("changes", given, *words, "--fail-on", "gained", "--format", "csv", status=3)
    found = {}
    for row in (it for it in csv.DictReader(io.StringIO(out)) if it["change"] == "gained"):
        keys = dict(re.findall("`([^`]*)` is `([^`]*)`", row["if"]))
        moments = re.findall("the moment is (\\S+)", row["if"])
        found[row["principal"], row["action"], row["resource"]] = {**keys, **({"moment": moments[0]} if moments else {})}
        if confirm:
            at = [str(seconds_of(moments[0]))] if moments else [moment]
            draft = [it for it in words if it not in ("--moment", moment)]
            aws("can", row["principal"], row["action"], row["resource"], given, *draft, "--moment", *at, "--context", file(keys))
    return found


def seconds_of(text):
    return int(datetime.datetime.fromisoformat(text.replace("Z", "+00:00")).timestamp())


def put(*statements, name="Own"):
    return ["--put", f"{name}={file(document(*statements))}"]


def green(given, *words, status=0):
    """Nothing is gained, and nothing open."""
    out, said = aws("changes", given, *words, "--moment", "0", "--fail-on", "gained", "--format", "csv", status=status)
    same([it for it in csv.DictReader(io.StringIO(out)) if it["change"] == "gained"], [], said)
    assert status or "open:" not in said, said


def lone(found):
    """The keys of the one request that is gained."""
    [keys] = found.values()
    return keys


def test_networks_that_widen():
    """The first address of a network is in the one before too."""
    within = lambda network, **more: on("b/*", **when(IpAddress={"aws:SourceIp": network}), **more)
    outside = lambda network: [on("b/*"), on("b/*", effect="Deny", **when(NotIpAddress={"aws:SourceIp": network}))]
    for narrow, wide in (("10.0.0.0/24", "10.0.0.0/8"), ("2001:db8::/64", "2001:db8::/32")):
        for before, after in (([within(narrow)], [within(wide)]), (outside(narrow), outside(wide))):
            at = ipaddress.ip_address(lone(gained(export(*before), *put(*after)))["aws:SourceIp"])
            assert at in ipaddress.ip_network(wide) and at not in ipaddress.ip_network(narrow), at
            green(export(*after), *put(*before))
            green(export(*before), *put(*before, on("b/x*", effect="Deny")))


def test_lists_that_grow():
    """Behind another key, in a trust policy, and where the key may be absent."""
    mfa = {"aws:MultiFactorAuthPresent": "true"}
    behind = lambda *vpcs: on("b/*", **when(Bool=mfa, StringEquals={"aws:SourceVpc": list(vpcs)}))
    same(lone(gained(export(behind("vpc-1")), *put(behind("vpc-1", "vpc-2")))), {**mfa, "aws:SourceVpc": "vpc-2"})
    green(export(behind("vpc-1", "vpc-2")), *put(behind("vpc-1")))
    # The same in another order, with a further action, and with a name.
    wide = {**behind("vpc-2", "vpc-1"), "Action": [GET, "s3:GetObjectTagging"], "Sid": "Named"}
    found = gained(export(behind("vpc-1", "vpc-2")), *put(wide))
    same({it[1].lower() for it in found}, {"s3:getobjecttagging"})
    green(export(wide), *put(behind("vpc-1", "vpc-2")))
    lenient = lambda *vpcs: on("b/*", **when(StringEqualsIfExists={"aws:SourceVpc": list(vpcs)}))
    same(lone(gained(export(lenient("vpc-1")), *put(lenient("vpc-1", "vpc-2")))), {"aws:SourceVpc": "vpc-2"})
    green(export(lenient("vpc-1", "vpc-2")), *put(lenient("vpc-1")))


def test_a_trust_policy_with_another_external_id():
    """Of a role that another account may assume behind a second factor."""
    mfa = {"aws:MultiFactorAuthPresent": "true"}
    trust = lambda *ids: {"Effect": "Allow", "Principal": {"AWS": OTHER}, "Action": "sts:AssumeRole", **when(Bool=mfa, StringEquals={"sts:ExternalId": list(ids)})}
    role = {"RoleName": "app", "RoleId": "AROA0", "Arn": f"{ACCOUNT}role/app", "AssumeRolePolicyDocument": document(trust("x"))}
    given = file({**load(export(on("c/*"))), "RoleDetailList": [role]})
    found = gained(given, *put(trust("x", "y"), name="role/app"), confirm=False)
    same(found[f"anyone outside: account {OTHER}", "sts:AssumeRole", f"{ACCOUNT}role/app"], {**mfa, "sts:ExternalId": "y"})
    green(given, *put(trust("x"), {**trust("x"), "Effect": "Deny"}, name="role/app"))


def test_what_begins_and_what_ends():
    """An allow from a date on, an expiry that moves, and a coming deny that goes."""
    dated = lambda operator, day, effect="Allow": on("b/*", effect=effect, **when(**{operator: {"aws:CurrentTime": f"{day}T00:00:00Z"}}))
    nothing, later = on("c/*"), dated("DateGreaterThan", "2030-01-01")
    same(lone(gained(export(nothing), *put(nothing, later))), {"moment": "2030-01-01T00:00:01Z"})
    green(export(nothing, later), *put(later))
    until = lambda day: dated("DateLessThan", day)
    moved = lone(gained(export(until("2030-01-01")), *put(until("2031-01-01"))))["moment"]
    assert "2030-01-01T00:00:00Z" <= moved < "2031-01-01", moved
    green(export(until("2030-01-01")), *put(until("2030-01-01"), on("b/x*", effect="Deny")))
    denied = dated("DateGreaterThan", "2030-01-01", "Deny")
    same(lone(gained(export(on("b/*"), denied), *put(on("b/*")))), {"moment": "2030-01-01T00:00:01Z"})
    green(export(on("b/*")), *put(on("b/*"), denied))


def test_gains_with_two_keys_and_with_variables():
    """Of two statements, and of a variable that nothing gives."""
    denied = on("b/*", effect="Deny", **when(StringNotEquals={"aws:RequestTag/team": "red"}))
    allowed = on("b/*", **when(StringEquals={"aws:SourceVpc": "vpc-1"}))
    wanted = {"aws:SourceVpc": "vpc-1", "aws:RequestTag/team": "red"}
    same(lone(gained(export(denied), *put(denied, allowed))), wanted)
    green(export(allowed), *put(denied, allowed))
    owned = on("b/*", **when(StringEquals={"s3:ExistingObjectTag/team": "${aws:RequestTag/team}"}))
    tags = lone(gained(export(on("c/*")), *put(on("c/*"), owned)))
    same(set(tags), {"s3:ExistingObjectTag/team", "aws:RequestTag/team"})
    same(len(set(tags.values())), 1)
    green(export(owned), *put(owned, on("b/x*", effect="Deny")))


def test_what_tightens_in_other_words():
    """What a condition more, a resource less or a list of values less keeps back gains nothing; what is not seen to is open."""
    mfa, vpc = {"Bool": {"aws:MultiFactorAuthPresent": "true"}}, {"StringEquals": {"aws:SourceVpc": "vpc-1"}}
    for before, after in (
        ([on("b/*", **when(**mfa))], [on("b/*", **when(**mfa, **vpc))]),
        ([on("b*", **when(**mfa))], [on("b/*", "b/x", **when(**mfa))]),
        ([on("b/*", **when(StringLike={"s3:prefix": "*"}))], [on("b/*", **when(StringLike={"s3:prefix": ["x*", "y"]}))]),
        ([on("b/*"), on("b/*", effect="Deny", **when(**mfa, **vpc))], [on("b/*"), on("b/*", effect="Deny", **when(**mfa))]),
        ([on("b/*", action=[GET, "s3:PutObject"], **when(**mfa))], [on("b/*", **when(**mfa)), on("b/*", action="s3:PutObject", **when(**mfa))]),
    ):
        green(export(*before), *put(*after))
    number = lambda operator, n: on("b/*", **when(**{operator: {"s3:max-keys": n}}))
    _, said = aws("changes", export(number("NumericEquals", "5")), *put(number("NumericLessThan", "6")), "--action", GET, "--fail-on", "gained", status=3)
    _, said = aws("changes", export(number("NumericLessThan", "6")), *put(number("NumericEquals", "5")), "--fail-on", "gained", status=5)
    assert f"open: {ALICE} {GET} {S3}b/: with which values of s3:max-keys it changes is not shown" in said, said


def test_a_pattern_of_a_key_that_widens():
    """What is new is outside of what was there; the twin narrows it."""
    prefix = lambda of: on("b", action="s3:ListBucket", **when(StringLike={"s3:prefix": of}))
    value = lone(gained(export(prefix("x*")), *put(prefix("*"))))["s3:prefix"]
    assert not value.startswith("x"), value
    green(export(prefix("*")), *put(prefix("x*")))


def test_twins_in_other_words():
    """The same deny in both with twenty keys that nothing gives, a deny by `NotResource`, and a network as its two halves."""
    unknown = [on("b/*", effect="Deny", **when(StringNotEquals={f"aws:RequestTag/t{n}": "a"})) for n in range(20)]
    mfa = when(Bool={"aws:MultiFactorAuthPresent": "true"})
    green(export(on("b/*"), *unknown), *put(on("b/*"), *unknown, on("b/x*", effect="Deny")))
    but = {"Effect": "Deny", "Action": GET, "NotResource": f"{S3}b/x*", **mfa}
    green(export(on("b/*"), but), *put(on("b/x*"), but))
    within = lambda *networks: on("b/*", **when(IpAddress={"aws:SourceIp": list(networks)}))
    green(export(within("10.0.0.0/8")), *put(within("10.0.0.0/9", "10.128.0.0/9")))
    green(export(within("10.0.0.0/9", "10.128.0.0/9")), *put(within("10.0.0.0/8")))
