"""can PRINCIPAL '*' '*': what may be done at all. What each answer must be is worked out by hand from the exports in data/."""

import ipaddress
import json

from harness import aws, data, document, file, load, same, small_world, statement

ACCOUNT = "arn:aws:iam::111122223333:"
EXPORT = data("account.json")
ALICE, ANN = f"{ACCOUNT}user/alice", f"{ACCOUNT}user/ann"
# What the program shows of all that no policy tells apart from its fewest signs.
REST = "arn:::::"
OTHERS = "any other service, for which the first letters stand"


def asked(who, *words, action="*", status=0):
    """{(actions, decision): (resources, others, policies)} of an answer in JSON; actions in lower case."""
    out, _ = aws("can", who, action, "*", *words, "--format", "json", "--session", "s1", status=status)
    return {
        (" ".join(it["actions"]).lower(), it["decision"]): (
            it["resources"],
            it["others"],
            [one["policy"] for one in it["statements"]],
        )
        for it in json.loads(out)
    }


def of_world(*statements, status=0, action="*", words=(), **more):
    """What ann of a small world may do."""
    made = file(small_world(document(*statements), **more))
    return {
        key[0]: found[:2] for key, found in asked("ann", "--world", made, *words, action=action, status=status).items()
    }


def test_what_a_user_may_do():
    homes, roles = f"{ACCOUNT}group/Developers inline Homes", f"{ACCOUNT}policy/AssumeRoles"
    found = asked("alice", EXPORT)
    # deploy trusts the account, audit her; partner, which her policy means too, another account, with a key.
    assumed = [f"{ACCOUNT}role/app/{it}" for it in ("deploy", "audit")]
    rest = [f"{ACCOUNT}role/{it}" for it in ("app/partner", "worker", "people", "app/chain")]
    rest += [f"{ACCOUNT}role/aws-service-role/support.amazonaws.com/AWSServiceRoleForSupport", "*"]
    same(
        found,
        {
            ("s3:get", "allowed"): (["*", REST], [], ["arn:aws:iam::aws:policy/ReadObjects"]),
            ("s3:putobject", "allowed"): (["arn:aws:s3:::teams/red/"], ["*", REST], [homes, homes]),
            ("sts:assumerole", "allowed"): (assumed, rest, [roles, *(f"{it} trust policy" for it in assumed)]),
        },
    )
    # Of one service alone.
    same(set(asked("alice", EXPORT, action="S3:*")), {("s3:get", "allowed"), ("s3:putobject", "allowed")})
    same(set(asked("alice", EXPORT, action="sts:*")), {("sts:assumerole", "allowed")})
    same(asked("alice", EXPORT, action="kms:*", status=3), {})
    # With --kinds each is told by itself, also what she may not.
    out, _ = aws("can", "alice", "s3:*", "*", EXPORT, "--kinds", status=3)
    assert f"\nallowed: {ALICE} s3:Get *\n" in out and f"\nimplicitDeny: {ALICE} s3:PutObject *\n" in out, out


def test_it_is_told_in_words():
    out, said = aws("can", "alice", "s3:*", "*", EXPORT)
    lines = out.splitlines()
    same(lines[:2], [f"{ALICE} may", "  of s3"])
    same(lines[2].lower(), "    s3:get on all")
    same(
        lines[3],
        "      by arn:aws:iam::aws:policy/ReadObjects, statement 0 (identity policy): s3:Get*, s3:List* on *",
    )
    same(lines[4].lower(), "    s3:putobject on arn:aws:s3:::teams/red/")
    home = f"      by {ACCOUNT}group/Developers inline Homes, statement 0 OwnHome (identity policy): s3:PutObject on "
    same(lines[5], home + "arn:aws:s3:::homes/${aws:username}/*")
    assert lines[7].startswith("of actions and resources that are decided alike one is shown, "), out
    same((len(lines), said), (9, ""))
    out, _ = aws("can", "partner", "*", "*", EXPORT, status=3)
    same(out.splitlines()[0], "arn:aws:sts::111122223333:assumed-role/partner/session may do nothing of this")
    out, _ = aws("can", "alice", "s3:*", "*", EXPORT, "--format", "csv")
    same(out.splitlines()[1].lower(), f"{ALICE},allowed,s3,s3:get,* {REST},,arn:aws:iam::aws:policy/readobjects,")
    _, said = aws("can", "nobody", "*", "*", EXPORT, status=1)
    assert "no principal matches nobody" in said, said


def test_each_service_by_itself():
    """Actions of several services that a statement allows alike are told of each; others together."""
    some = of_world(statement(action=["s3:Get*", "kms:*", "sqs:Send*"]))
    same(set(some), {"s3:get", "kms:x", "sqs:send"})
    open_to_all = document({"Effect": "Allow", "NotAction": ["iam:*", "sts:Get*"], "NotResource": "arn:aws:s3:::b/k"})
    made = small_world(open_to_all, actions=["s3:GetObject"])
    out, _ = aws("can", "ann", "*", "*", "--world", file(made))
    lines = out.splitlines()
    same([it for it in lines if it.startswith("  of")], [f"  of {it}" for it in ("s3", "sts", OTHERS)])
    same(lines[2:3], ["    s3:x on all but arn:aws:s3:::b/k"])
    assert lines[3].endswith(": all on all but arn:aws:s3:::b/k"), out
    assert ": all but sts:Get* on all but arn:aws:s3:::b/k\n" in out, out
    assert lines[-3].endswith(": all but iam:*, sts:Get* on all but arn:aws:s3:::b/k"), out


def test_what_resources_say():
    """A bucket's policy holds of all objects, and one of another account grants by its policy alone."""
    denying = document(statement("Deny", "s3:*", ["arn:aws:s3:::b", "arn:aws:s3:::b/*"], Principal="*"))
    bucket = {"arn": "arn:aws:s3:::b", "account": "111122223333", "policy": denying}
    (found,) = of_world(statement(action="s3:*"), resources=[bucket]).values()
    same(found, (["*", REST], ["arn:aws:s3:::b", "arn:aws:s3:::b/"]))
    # So where an object alone is named.
    (found,) = of_world(statement(action="s3:*"), resources=[{**bucket, "arn": "arn:aws:s3:::b/k"}]).values()
    same(found, (["*", REST], ["arn:aws:s3:::b/k", "arn:aws:s3:::b", "arn:aws:s3:::b/"]))
    queue = "arn:aws:sqs:eu-west-1:444455556666:q"
    same(of_world(statement(action="sqs:*", resource=queue), status=3), {})
    granting = document(statement(action="sqs:SendMessage", Principal={"AWS": ANN}))
    given = {"resources": [{"arn": queue, "account": "444455556666", "policy": granting}]}
    made = small_world(document(statement(action="sqs:*", resource=queue)), **given)
    made["accounts"].append({"id": "444455556666"})
    found = asked("ann", "--world", file(made))
    same({it[0]: of[0] for it, of in found.items()}, {"sqs:sendmessage": [queue]})
    same(next(iter(found.values()))[2], ["principals/0/identity/0", "resources/0/policy"])


def test_roles_that_are_passed_and_assumed():
    """A trust policy says nothing on iam:PassRole; a role that no export has is not there to be assumed."""
    export = load(EXPORT)
    actions = statement(action=["iam:*", "sts:*"])
    export["UserDetailList"][0]["UserPolicyList"] = [{"PolicyName": "p", "PolicyDocument": document(actions)}]
    found = asked("alice", file(export))
    same(found["iam:x", "allowed"][:2][1], [])
    roles = [it["Arn"] for it in export["RoleDetailList"]]
    same([it for it in roles if it not in found["iam:x", "allowed"][0]], [])
    same(found["sts:assumerole", "allowed"][0][:2], [f"{ACCOUNT}role/app/{it}" for it in ("deploy", "audit")])
    # A world that names a role and not its trust policy.
    role = {"arn": roles[0], "account": "111122223333"}
    made = file(small_world(document(actions), actions=["iam:PassRole"], resources=[role]))
    out, said = aws("can", "ann", "*", "*", "--world", made)
    assert "  of iam\n" in out and "sts:" not in out.split("by ")[0], out
    assert f"sts:* is not asked: the world has no trust policy of {roles[0]}" in said, said


def test_what_the_organisation_forbids():
    words = [EXPORT, data("partner.json"), "--organization"]
    found = asked("alice", *words, data("organization.json"))
    same(found["sts:assumerole", "allowed"][0], [f"{ACCOUNT}role/app/deploy"])
    # A resource control policy for S3 binds what no file names, too.
    given = load(data("organization.json"))
    allows = {"Effect": "Allow", "Principal": "*", "Action": "*", "Resource": "*"}
    denies = {**allows, "Effect": "Deny", "Action": "s3:Put*"}
    content = json.dumps(document(allows, denies))
    given["policies"].append({"PolicySummary": {"Id": "p-rcp", "Name": "rcp"}, "Content": content})
    for it in given["targets"].values():
        it.append({"Id": "p-rcp", "Type": "RESOURCE_CONTROL_POLICY"})
    for controlled, wanted in ((["s3"], {"s3:get"}), (["sqs"], {"s3:get", "s3:putobject"})):
        found = asked("alice", *words, file({**given, "controlled": controlled}), action="s3:*")
        same({it[0] for it in found}, wanted, str(controlled))


def test_what_a_draft_gives():
    draft = file(document(statement(action="sqs:*")))
    same(set(asked("audit", EXPORT, "--attach", f"New={draft}@audit")), {("sqs:x", "allowed")})


def test_too_many_kinds_are_told():
    """Of 13 letters that an action may have or not there are 8,192 kinds."""
    many = [statement(action=f"s3:*{it}*") for it in "abcdefghijklm"]
    made = file(small_world(document(*many)))
    out, _ = aws("can", "ann", "s3:*", "*", "--world", made, status=5)
    same(out.splitlines()[1], "  not shown, since it has too many kinds: s3:* on *")
    same(asked("ann", "--world", made, action="s3:*", status=5), {("s3:*", "notShown"): (["*"], [], [])})


def test_the_keys_that_it_hangs_on():
    """What `can` of one action tells with 'allowed if' and 'denied if' the summary tells as well, by service."""
    mfa, ip = "aws:MultiFactorAuthPresent", "aws:SourceIp"
    made = small_world(
        document(
            statement(action="s3:Get*"),
            statement(action="s3:Put*", Condition={"Bool": {mfa: "true"}}),
            statement("Deny", action="s3:GetObject", Condition={"IpAddress": {ip: ["10.0.0.0/8", "192.0.2.0/24"]}}),
            statement(action="sns:*", Condition={"StringEquals": {"aws:PrincipalTag/team": "red"}}),
            statement("Deny", action="sqs:*", Condition={"Bool": {"aws:ViaAWSService": "true"}}),
        )
    )
    path = file(made)
    lines = aws("can", "ann", "*", "*", "--world", path)[0].lower().splitlines()
    wanted = [
        f"    s3:put: allowed if `{mfa}` is `true`",
        "    sns:x: allowed if `aws:PrincipalTag/team` is `red`",
    ]
    denied = f"    s3:getobject: denied if `{ip.lower()}` is "
    told = [it for it in lines if " if " in it]
    same([it for it in told if not it.startswith(denied)], [it.lower() for it in wanted])
    [address] = [ipaddress.ip_address(it[len(denied) :].strip("`")) for it in told if it.startswith(denied)]
    assert any(address in ipaddress.ip_network(it) for it in ("10.0.0.0/8", "192.0.2.0/24")), address
    assert lines.index(wanted[1].lower()) == lines.index("  of sns") + 1, lines
    # No value of this one turns an answer: nobody may sqs:.
    assert not any("aws:viaawsservice" in it for it in lines), lines
    rows = json.loads(aws("can", "ann", "*", "*", "--world", path, "--format", "json")[0])
    hangs = [{"key": mfa, "value": "true", "decision": "allowed", "values": ["true"]}]
    same([it["hangsOn"] for it in rows if it["actions"][0].lower() == "s3:put"], [hangs])
    out, _ = aws("can", "ann", "s3:PutObject", "arn:aws:s3:::b/k", "--world", path, status=3)
    assert f"  allowed if `{mfa}` is `true`\n" in out, out
    # By a key alone something may be done: that is not allowed as things stand.
    made["principals"][0]["identity"] = [document(statement(action="sns:*", Condition={"Bool": {mfa: "true"}}))]
    out, _ = aws("can", "ann", "*", "*", "--world", file(made), status=3)
    first = [f"{ANN} may do nothing of this", "  of sns", f"    sns:x: allowed if `{mfa}` is `true`"]
    same(out.splitlines()[:3], first)
    # A variable that has a value parts names otherwise, which is open.
    team = "aws:PrincipalTag/team"
    own = statement(resource=f"arn:aws:sns:*:*:${{{team}}}-*", action="sns:*", Condition={"StringLike": {team: "r*"}})
    made["principals"][0]["identity"] = [document(own)]
    out, _ = aws("can", "ann", "*", "*", "--world", file(made), status=5)
    assert f"open: {team}: nothing gives it, and principals/0/identity/0 is for arn:aws:sns:*:*:${{{team}}}-*\n" in out, out
