"""Who can come to be an administrator: each way of the table, and the same without one of its requests, under a condition, behind a
boundary and behind a policy of the organisation."""

import json
import os
import re
import sys
import urllib.parse

from harness import TOOLS, aws, data, document, file, patience, same, statement

sys.path.insert(0, TOOLS)
from iamsim_aws.escalation.table import (  # noqa: E402
    ANY,
    BECOMES,
    BOUNDARY,
    ELSEWHERE,
    GROUP,
    HELD,
    KINDS,
    REPLACED,
    TAGGED,
    UNTOLD,
    VERSION,
    WAYS,
)

OWN, OTHER = "111122223333", "444455556666"
SECRET = {"Bool": {"aws:MultiFactorAuthPresent": "true"}}
ASSUME, NEEDS_MFA = "sts:AssumeRole", {"aws:MultiFactorAuthPresent": ["true"]}
SERVICES = sorted({ask.service for way in WAYS for ask in way.asks} - {""})
SCP = "SERVICE_CONTROL_POLICY"


def arn(kind, name):
    return f"arn:aws:iam::{OWN}:{kind}/{name}"


def entity(kind, name, statements=(), **more):
    """A user, role or group with an inline policy of these statements."""
    own = [{"PolicyName": "own", "PolicyDocument": document(*statements)}] if statements else []
    ids = {f"{kind}Name": name, f"{kind}Id": f"ID{name}", "Arn": arn(kind.lower(), name)}
    return {**ids, f"{kind}PolicyList": own, "AttachedManagedPolicies": [], **more}


def role(name, principal, statements=(), **more):
    trust = document({"Effect": "Allow", "Principal": principal, "Action": "sts:AssumeRole"})
    return entity("Role", name, statements, AssumeRolePolicyDocument=trust, **more)


def managed(name, *documents):
    """A managed policy, of which the first version is in force."""
    versions = [{"VersionId": f"v{n}", "IsDefaultVersion": n == 0, "Document": it} for n, it in enumerate(documents)]
    return {"PolicyName": name, "Arn": arn("policy", name), "PolicyVersionList": versions}


def attached(name):
    return {"AttachedManagedPolicies": [{"PolicyName": name, "PolicyArn": arn("policy", name)}]}


def bound(name):
    return {"PermissionsBoundary": {"PermissionsBoundaryArn": arn("policy", name)}}


UNTAGGED = [way for way in WAYS if way.gain != TAGGED]
HARMLESS, EVERYTHING = document(statement(action="s3:ListBucket")), document(statement())
# The kinds of resources that are asked for alone.
ASKED = (*HELD, *KINDS, ELSEWHERE, "*")
SERVED = {"Service": SERVICES, "AWS": arn("user", "boss")}


def ground():
    """An account with administrators: a user, a role that services may have, one without an instance profile, and a group."""
    return {
        "UserDetailList": [entity("User", "boss", [statement()])],
        "GroupDetailList": [entity("Group", "admins", [statement()])],
        "RoleDetailList": [
            role("chief", SERVED, [statement()], InstanceProfileList=[{"InstanceProfileName": "chief"}]),
            role("bare", SERVED, [statement()]),
            role("open", {"AWS": f"arn:aws:iam::{OWN}:root"}, [statement()]),
        ],
        "Policies": [managed("storage", document(statement(action="s3:*")))],
    }


def target(way, ask, kind, name):
    """What a request of a way is allowed on."""
    if ask.kind == ELSEWHERE:
        return f"arn:aws:iam::{OTHER}:role/away"
    if ask.kind not in HELD:
        return "*" if ask.kind == "*" else KINDS[ask.kind].replace("arn:*", "arn:aws")
    if way.gain in BECOMES:
        roles = {"assume-role": "open", "ec2-new-profile": "bare"}
        return arn("role", roles.get(way.name, "chief")) if ask.kind == "role" else arn("user", "boss")
    if ask.kind == "group":
        return arn("group", "admins" if way.gain == GROUP else f"g-{name}")
    return arn("policy", f"p-{name}") if ask.kind == "policy" else arn(kind.lower(), name)


def add(export, way, name, lacks=None, **more):
    """A principal that may go a way, but for the request that it lacks; `more` stands in each of its statements."""
    kind = "Role" if way.gain in (ANY, BOUNDARY) and way.asks[0].kind == "role" else "User"
    asks = [it for it in way.asks if it != lacks and it.kind in ASKED]
    allowed = [statement(action=it.action, resource=target(way, it, kind, name), **more) for it in asks]
    has, own = {}, allowed
    if way.gain == BOUNDARY:
        own, has = [statement()], bound(f"b-{name}")
        export["Policies"].append(managed(f"b-{name}", document(*allowed, statement(action="s3:ListBucket"))))
    if way.gain in (REPLACED, VERSION):
        has = attached(f"p-{name}")
        export["Policies"].append(managed(f"p-{name}", HARMLESS, EVERYTHING))
    if way.gain == ANY and way.asks[0].kind == "group":
        has = {"GroupList": [f"g-{name}"]}
        export["GroupDetailList"].append(entity("Group", f"g-{name}"))
    if kind == "Role":
        export["RoleDetailList"].append(role(name, {"Service": "unused.amazonaws.com"}, own, **has))
    else:
        export["UserDetailList"].append(entity("User", name, own, **has))
    return (export["RoleDetailList"] if kind == "Role" else export["UserDetailList"])[-1]


def account():
    """An account with a principal for each way, and its twins that may not go it. No policy asks for tags."""
    made = ground()
    for way in UNTAGGED:
        add(made, way, way.name)
        for n, ask in enumerate(it for it in way.asks if it.kind in ASKED):
            add(made, way, f"{way.name}-lacks-{n}", lacks=ask)
        add(made, way, f"{way.name}-keyed", Condition=SECRET)
        if way.gain != BOUNDARY:
            add(made, way, f"{way.name}-bound").update(bound("storage"))
    return made


def organization(*denied):
    """An organisation whose policy denies these actions."""
    full = [statement(), *([statement("Deny", list(denied))] if denied else [])]
    return {
        "id": "o-1",
        "management": "999900001111",
        "parents": {OWN: [{"Id": "r-1"}]},
        "targets": {it: [{"Id": "p-1", "Type": SCP}] for it in ("r-1", OWN)},
        "policies": [{"PolicySummary": {"Id": "p-1"}, "Content": json.dumps(document(*full))}],
    }


def escalated(export, *words, status=3):
    given = ["escalate", file(export), "--moment", "0", "--format", "json", *words]
    out, _ = aws(*given, status=status, seconds=patience(120))
    return json.loads(out)


def short(name):
    """The name of a user, or of the role of a session."""
    return name.split("/")[1]


def found(answer):
    """{name: [names of the ways of each step]} of who comes there."""
    return {
        short(it["principal"]): [[part["way"] for part in step["parts"]] for step in it["steps"]]
        for it in answer["found"]
    }


def test_each_way_is_found_and_none_without_one_of_its_requests():
    answer = escalated(account())
    same(sorted(map(short, answer["already"])), ["bare", "boss", "chief", "open"])
    told = {(short(it["principal"]), it["way"]): it for it in answer["open"]}
    wanted = {}
    for way in UNTAGGED:
        if way.gain != UNTOLD:
            wanted.update({way.name: [[way.name]], f"{way.name}-keyed": [[way.name]]})
            continue
        twins = {who for who, name in told if name == way.name and who.startswith(way.name)}
        assert {way.name, f"{way.name}-keyed"} <= twins and f"{way.name}-bound" not in twins, twins
        for who, given in ((way.name, {}), (f"{way.name}-keyed", NEEDS_MFA)):
            same([it["if"] for it in told[who, way.name]["requests"]], [given] * len(way.asks), who)
    same(found(answer), wanted)
    for it in answer["found"]:
        given = NEEDS_MFA if short(it["principal"]).endswith("-keyed") else {}
        of = [one["if"] for step in it["steps"] for part in step["parts"] for one in part["requests"] if one["action"] != ASSUME]
        assert given in of and all(one in ({}, given) for one in of) or not of, (it["principal"], of)
    # Those that need keys are told behind the others.
    keyed = [short(it["principal"]).endswith("-keyed") for it in answer["found"]]
    same(keyed, sorted(keyed))
    same((answer["absentKeys"], answer["maybe"]), (["aws:MultiFactorAuthPresent"], []))


def test_no_way_is_found_behind_a_policy_of_the_organisation():
    denied = sorted({way.asks[0].action for way in WAYS})
    answer = escalated(account(), "--organization", file(organization(*denied)), status=0)
    same(sorted(map(short, answer["already"])), ["bare", "boss", "chief", "open"])
    same((answer["found"], answer["open"]), ([], []))


def test_with_the_key_that_a_condition_asks_for():
    way = next(it for it in WAYS if it.name == "lambda-new")
    export = ground()
    add(export, way, "keyed", Condition=SECRET)
    answer = escalated(export)
    same((answer["absentKeys"], found(answer)), (["aws:MultiFactorAuthPresent"], {"keyed": [["lambda-new"]]}))
    same([it["if"] for it in answer["found"][0]["steps"][0]["parts"][0]["requests"]], [NEEDS_MFA] * 3)
    out, _ = aws("escalate", file(export), status=3)
    assert out.startswith("1 of 5 principals can come to be an administrator (1 of these with keys that nothing gives)"), out
    assert " (iam:PassedToService lambda.amazonaws.com) if `aws:MultiFactorAuthPresent` is `true`\n" in out, out
    for given, status in ((True, 3), (False, 0), ([], 0)):
        answer = escalated(export, "--context", file({"aws:MultiFactorAuthPresent": given}), status=status)
        same((found(answer), answer["maybe"]), ({"keyed": [["lambda-new"]]} if status else {}, []))
    # Who changes a role with that key and assumes it is told, and not the role, which does nothing by itself.
    export = ground()
    export["RoleDetailList"].append(role("idle", {"AWS": f"arn:aws:iam::{OWN}:root"}))
    own = statement(action=["iam:PutRolePolicy", "sts:AssumeRole"], resource=arn("role", "idle"), Condition=SECRET)
    export["UserDetailList"].append(entity("User", "kim", [own]))
    same(found(escalated(export)), {"kim": [["put-role-policy", "assume-role"]]})
    # Who may do everything with that key may give himself a policy; where nobody may, it is not shown that he is an administrator.
    export = ground()
    export["UserDetailList"] += [entity("User", "pat", [statement(Condition=SECRET)]), entity("User", "lee", [statement("Deny"), statement(Condition=SECRET)])]
    same(list(found(escalated(export))), ["pat"])
    every = {ask.action for way in WAYS for ask in way.asks}
    nothing = ["--organization", file(organization(*every))]
    same(escalated(export, *nothing, status=5)["maybe"], [arn("user", "pat")])
    answer = escalated(export, *nothing, "--context", file({"aws:MultiFactorAuthPresent": True}), status=0)
    same(sorted(map(short, answer["already"])), ["bare", "boss", "chief", "open", "pat"])


def test_a_grant_that_begins_later_or_has_ended():
    """The moment is of the example; the twins ended before."""
    way = next(it for it in WAYS if it.name == "access-key")
    for operator, status in (("DateGreaterThan", 3), ("DateLessThan", 0)):
        export = ground()
        add(export, way, "dev", Condition={operator: {"aws:CurrentTime": "1970-01-01T00:00:00Z" if status == 0 else "2030-01-01T00:00:00Z"}})
        answer = escalated(export, status=status)
        [moment] = [one["ifMoment"] for it in answer["found"] for one in it["steps"][0]["parts"][0]["requests"]] or [None]
        same(moment, 1893456001 if status else None)


def test_keys_that_a_request_has_not():
    """`iam:PolicyARN` is a key of attaching alone, and no value of it lets somebody write a policy; the twin attaches."""
    given = {"ArnEquals": {"iam:PolicyARN": "arn:aws:iam::aws:policy/AdministratorAccess"}}
    for name, status in (("put-user-policy", 0), ("attach-to-user", 3)):
        export = ground()
        add(export, next(it for it in WAYS if it.name == name), "dev", Condition=given)
        answer = escalated(export, status=status)
        same((found(answer), answer["maybe"]), ({"dev": [[name]]} if status else {}, []))


def test_all_names_are_asked():
    """A deny on some functions, regions or names leaves others, and two patterns may meet in a name that none of them has; the twins leave
    none."""
    way = next(it for it in WAYS if it.name == "lambda-new")
    own = [ask.action for ask in way.asks]
    every = f"arn:aws:lambda:*:{OWN}:function:"
    passes, denied = statement(action=own[0]), lambda *of: statement("Deny", "lambda:*", list(of))
    outside = lambda *of: {"Effect": "Deny", "Action": "lambda:*", "NotResource": list(of)}
    meeting = [passes, statement(action=own[1], resource=f"{every}a*"), statement(action=own[2], resource=f"{every}*b")]
    apart = [passes, statement(action=own[1], resource=f"{every}a*"), statement(action=own[2], resource=f"{every}b*")]
    keyed = [passes, statement(action=own[1]), statement(action=own[2], resource=every + "${aws:SourceVpc}")]
    cases = [
        ([statement(action=own), denied("arn:aws:lambda:us-east-1:*")], f"arn:aws:lambda::{OWN}:function:"),
        ([statement(action=own), outside("arn:aws:lambda:eu-west-1:*")], f"arn:aws:lambda:eu-west-1:{OWN}:function:"),
        ([statement(action=own, resource=["*", f"{every}a*"]), denied(f"{every}*")], ""),
        ([statement(action=own), denied("arn:aws:lambda:*")], ""),
        ([statement(action=own), outside("arn:aws:s3:::*", "arn:aws:iam::*")], ""),
        (meeting, f"arn:aws:lambda::{OWN}:function:ab"),
        ([*meeting, denied(f"{every}ab")], f"arn:aws:lambda::{OWN}:function:a.b"),
        ([*meeting, denied(f"{every}a*b")], ""),
        (apart, ""),
        ([passes, statement(action=own[1:], resource=f"arn:aws:lambda:*:{OTHER}:function:*")], ""),
    ]
    for given, name in cases:
        export = ground()
        export["UserDetailList"].append(entity("User", "dev", given))
        answer = escalated(export, status=3 if name else 0)
        asked = [it["resource"] for one in answer["found"] for it in one["steps"][0]["parts"][0]["requests"][1:]]
        assert len(asked) == (2 if name else 0) and all(re.fullmatch(name, it) for it in asked), (given, asked)
        same(answer["maybe"], [], str(given))
    # A variable in a name that nothing gives may have a value.
    export = ground()
    export["UserDetailList"].append(entity("User", "dev", keyed))
    [[*_, last]] = [part["requests"] for it in escalated(export)["found"] for part in it["steps"][0]["parts"]]
    same(list(last["if"]), ["aws:SourceVpc"])


MARKED = {"StringEquals": {"aws:PrincipalTag/team": "a"}}


def marked(name, actions, given, tags=()):
    """A role that the account may assume by these actions, whose own policy asks for a tag."""
    trust = {"Effect": "Allow", "Principal": {"AWS": f"arn:aws:iam::{OWN}:root"}, "Action": actions}
    made = role(name, {}, [given], Tags=[{"Key": "team", "Value": it} for it in tags])
    return {**made, "AssumeRolePolicyDocument": document(trust)}


def test_tags_of_sessions():
    """Who may set them comes to what they allow; the twins may not set them, by their own policies or by the role's trust policy."""
    key = statement(action="iam:CreateAccessKey", resource=arn("user", "boss"), Condition=MARKED)
    both = [ASSUME, "sts:TagSession"]
    for tags in ((), ("b",)):
        for trusted, own, wanted in (
            (both, both, {"kim": [["assume-role-tags"], ["access-key"]], "tagged": [["access-key"]]}),
            (both, [ASSUME], {"tagged": [["access-key"]]}),
            ([ASSUME], both, {}),
            ([ASSUME], [*both, "iam:UpdateAssumeRolePolicy"], {"kim": [["trust-policy-tags"], ["access-key"]]}),
            # The trust policy that is written names whoever writes it, which suffices; a deny of his own does not pass.
            ([ASSUME], ["iam:UpdateAssumeRolePolicy"], {"kim": [["trust-policy-tags"], ["access-key"]]}),
            ([ASSUME], ["iam:Update*", "!"], {}),
        ):
            export = ground()
            export["RoleDetailList"].append(marked("marked", trusted, key, tags))
            but = [statement("Deny", "sts:TagSession")] if own[-1] == "!" else []
            own = [it for it in own if it != "!"]
            export["UserDetailList"].append(entity("User", "kim", [statement(action=own, resource=arn("role", "marked")), *but]))
            answer = escalated(export, status=3 if wanted else 0)
            same({it.split("/")[-1]: way for it, way in ways_of(answer).items()}, wanted, str((tags, trusted, own)))
            last = [one["steps"][-1]["parts"][-1]["requests"][-1]["if"] for one in answer["found"]]
            same((last, answer["maybe"]), ([{"aws:PrincipalTag/team": ["a"]}] * len(wanted), []))
    # The role's own tag is that of each session that sets none.
    export = ground()
    export["RoleDetailList"].append(marked("marked", [ASSUME], key, ("a",)))
    same(found(escalated(export)), {"marked": [["access-key"]]})
    # Who may do everything with a tag may give himself a policy.
    export = ground()
    export["RoleDetailList"].append(marked("marked", both, statement(Condition=MARKED)))
    export["UserDetailList"].append(entity("User", "kim", [statement(action=both, resource=arn("role", "marked"))]))
    same(sorted(found(escalated(export))), ["kim", "marked"])


def test_sessions_that_policies_name():
    """Who assumes a role names the session; the twin names a session of a role that nobody assumes."""
    for of, status in (("AROAAPP:alice", 3), ("AROAGONE:alice", 0)):
        export = ground()
        key = statement(action="iam:CreateAccessKey", resource=arn("user", "boss"), Condition={"StringEquals": {"aws:userid": of}})
        export["RoleDetailList"].append({**role("app", {"AWS": f"arn:aws:iam::{OWN}:root"}, [key]), "RoleId": "AROAAPP"})
        export["UserDetailList"].append(entity("User", "kim", [statement(action=ASSUME, resource=arn("role", "app"))]))
        wanted = {arn("user", "kim"): [["assume-role"], ["access-key"]], session("app", "alice"): [["access-key"]]}
        same(ways_of(escalated(export, status=status)), wanted if status else {})


def test_a_service_by_the_name_of_its_region():
    way = next(it for it in WAYS if it.name == "state-machine")
    for service in ("states.eu-west-1.amazonaws.com", "states.amazonaws.com.cn"):
        export = ground()
        trusted = export["RoleDetailList"][0]["AssumeRolePolicyDocument"]
        trusted["Statement"] = [{"Effect": "Allow", "Principal": {"Service": service}, "Action": "sts:AssumeRole"}]
        add(export, way, "dev")
        same(found(escalated(export)), {"dev": [["state-machine"]]})


def test_what_runs_under_a_role_that_the_resources_tell():
    function = f"arn:aws:lambda:eu-west-1:{OWN}:function:nightly"
    export = ground()
    export["UserDetailList"].append(
        entity("User", "coder", [statement(action="lambda:UpdateFunctionCode", resource=function)])
    )
    answer = escalated(export, status=5)
    same((found(answer), [it["way"] for it in answer["open"]]), ({}, ["lambda-code"]))
    resources = [{"arn": function, "account": OWN, "runsAs": arn("role", "chief")}]
    answer = escalated(export, "--resources", file(resources))
    same((found(answer), answer["open"]), ({"coder": [["lambda-code"]]}, []))


def test_several_steps_are_the_shortest_way():
    """By a role to a group, where she may write a policy; the boundary goes first where it is in the way."""
    export = ground()
    export["RoleDetailList"] += [
        role(
            "one",
            {"AWS": arn("user", "ann")},
            [statement(action="iam:AddUserToGroup", resource=arn("group", "writers"))],
        ),
        role(
            "two", {"AWS": arn("role", "one")}, [statement(action="iam:CreateAccessKey", resource=arn("user", "boss"))]
        ),
    ]
    export["GroupDetailList"].append(entity("Group", "writers", [statement(action="iam:PutUserPolicy")]))
    own = ["iam:AddUserToGroup", "iam:DeleteUserPermissionsBoundary"]
    export["Policies"].append(managed("iam", document(statement(action=[*own, "iam:PutUserPolicy"]))))
    export["UserDetailList"] += [
        entity("User", "ann"),
        entity(
            "User",
            "joe",
            [statement(action=own, resource=[arn("group", "writers"), arn("user", "joe")])],
            **bound("iam"),
        ),
        entity(
            "User", "kim", [statement(action=["iam:PutRolePolicy", "sts:AssumeRole"], resource=arn("role", "idle"))]
        ),
    ]
    export["RoleDetailList"].append(role("idle", {"AWS": f"arn:aws:iam::{OWN}:root"}))
    answer = escalated(export)
    ways = found(answer)
    same(ways["ann"], [["assume-role"], ["assume-role"], ["access-key"]])
    same(ways["two"], [["access-key"]])
    same(ways["kim"], [["put-role-policy", "assume-role"]])
    same(sorted(it for step in ways["joe"] for it in step)[:2], ["join-group", "no-user-boundary"])
    same(len(ways["joe"]), 3)


def test_two_who_change_one_user():
    """What the one makes of him keeps nothing from the other, who makes less of him; the twin may not be him."""
    export = ground()
    export["GroupDetailList"].append(entity("Group", "writers", [statement(action="iam:PutUserPolicy")]))
    key, joins = ("iam:CreateAccessKey", arn("user", "x")), statement(action="iam:AddUserToGroup", resource=arn("group", "writers"))
    export["UserDetailList"] += [
        entity("User", "x"),
        entity("User", "kim", [statement(action=["iam:PutUserPolicy", key[0]], resource=key[1])]),
    ]
    export["RoleDetailList"] += [
        role("lee", {"Service": "x.amazonaws.com"}, [joins, statement(action=key[0], resource=key[1])]),
        role("twin", {"Service": "x.amazonaws.com"}, [joins]),
    ]
    ways = found(escalated(export))
    same(ways, {"kim": [["put-user-policy", "access-key"]], "lee": [["join-group", "access-key"], ["put-user-policy"]]})


def test_an_administrator_is_whom_nothing_of_his_own_keeps_from_anything():
    """What the organisation denies to all makes nobody less; a deny of one's own does, and so does a boundary."""
    export = ground()
    bucket = statement("Deny", "s3:PutObject", "arn:aws:s3:::logs/*")
    export["UserDetailList"] += [
        entity("User", "denied", [statement(), bucket]),
        entity("User", "bound", [statement()], **bound("storage")),
        entity(
            "User", "parts", [statement(action="iam:*"), {"Effect": "Allow", "NotAction": "iam:*", "Resource": "*"}]
        ),
    ]
    answer = escalated(export, "--organization", file(organization("s3:DeleteBucket")))
    same(sorted(map(short, answer["already"])), ["bare", "boss", "chief", "open", "parts"])
    same(sorted(found(answer)), ["denied"])


def test_to_a_principal():
    export = ground()
    way = next(it for it in WAYS if it.name == "put-user-policy")
    add(export, way, "eve")
    answer = escalated(export, "--to", "boss")
    same(found(answer)["eve"], [["put-user-policy"], ["access-key"]])
    same(sorted(found(answer)), ["bare", "chief", "eve", "open"])
    _, said = aws("escalate", file(export), "--to", "bos", status=1)
    assert "no principal matches bos" in said, said


def sessions(*some, sets=()):
    """Sessions of roles, each (role, name, statements), and permission sets, as --sessions has them."""
    made = [{"role": arn("role", of), "session": it, "sessionPolicies": [document(*own)]} for of, it, own in some]
    return ["--sessions", file({"sessions": made, "permissionSets": [{"account": OWN, **it} for it in sets]})]


def session(of, name="session"):
    return f"arn:aws:sts::{OWN}:assumed-role/{of}/{name}"


def ways_of(answer):
    """As `found` has them, by the whole texts of the principals."""
    return {
        it["principal"]: [[part["way"] for part in step["parts"]] for step in it["steps"]] for it in answer["found"]
    }


def test_sessions_that_their_policies_limit():
    """A session may do what its role and its session policies allow. Who assumes the role has it in full, also from a session of
    it; a policy that is written into the role does not widen the session."""
    export = ground()
    own = [
        statement(action="iam:CreateAccessKey", resource=arn("user", "boss")),
        statement(action=["sts:AssumeRole", "iam:PutRolePolicy"], resource=arn("role", "builder")),
    ]
    export["RoleDetailList"].append(role("builder", {"AWS": f"arn:aws:iam::{OWN}:root"}, own))
    given = sessions(
        ("builder", "free", [statement()]),
        ("builder", "again", [statement(action="sts:*")]),
        ("builder", "writer", [statement(action="iam:PutRolePolicy")]),
        ("builder", "reader", [statement(action="s3:*")]),
    )
    answer = escalated(export, *given)
    key = [["access-key"]]
    wanted = {"session": key, "free": key, "again": [["assume-role"], ["access-key"]]}
    same(ways_of(answer), {session("builder", name): it for name, it in wanted.items()})
    same((answer["principals"], len(answer["already"])), (9, 4))
    # The role is its own session, and no session that is less; who is the role may make each of its sessions.
    for to, ends in (("builder", ["session"]), ("*/builder/reader", ["session", "reader"])):
        answer = escalated(export, *given, "--to", to)
        same(answer["already"], [session("builder", it) for it in ends], to)
        same(ways_of(answer)[session("builder", "again")], [["assume-role"]], to)
        assert session("builder", "writer") not in ways_of(answer), to


def test_permission_sets():
    keys = document(statement(action="iam:CreateAccessKey", resource=arn("user", "boss")))
    given = sessions(
        sets=(
            {"name": "Admin", "inline": document(statement())},
            {"name": "Keys", "inline": keys},
            {"name": "Less", "inline": keys, "boundary": arn("policy", "storage")},
        )
    )
    answer = escalated(ground(), *given)
    assert session("AWSReservedSSO_Admin_x") in answer["already"], answer["already"]
    same(ways_of(answer), {session("AWSReservedSSO_Keys_x"): [["access-key"]]})


def test_who_is_outside():
    export = ground()
    export["RoleDetailList"].append(role("partner", {"AWS": OTHER}, [statement()]))
    answer = escalated(export)
    same([it["principal"] for it in answer["found"]], [f"anyone outside: account {OTHER}"])
    same([it["outside"] for it in answer["found"]], [True])

    # A resource's policy lets the other account change the code of a function, which runs under a role of this one.
    code = {"Effect": "Allow", "Principal": {"AWS": OTHER}, "Action": "lambda:UpdateFunctionCode", "Resource": "*"}
    function = f"arn:aws:lambda:eu-west-1:{OWN}:function:nightly"
    one = {"arn": function, "account": OWN, "policy": document(code), "runsAs": arn("role", "chief")}
    for given, ways, way in ((one, [[["lambda-code"]]], []), ({**one, "runsAs": ""}, [], ["lambda-code"])):
        answer = escalated(ground(), "--resources", file([given]), status=3 if ways else 5)
        same(list(ways_of(answer).values()), ways)
        same([it["way"] for it in answer["open"]], way)


def test_roles_of_accounts_without_an_export():
    """Where they lead nobody knows, so it is told; a deny of all that is elsewhere leaves nothing open."""
    away = f"arn:aws:iam::{OTHER}:role/away"
    here = {"Effect": "Deny", "Action": "sts:*", "NotResource": f"arn:aws:iam::{OWN}:*"}
    named, every = f"no export has the role {away}", "no export has the roles of other accounts that {} means"
    cases = [
        ([statement(action="sts:AssumeRole", resource=away)], [named]),
        ([statement(action="sts:*")], [every.format("*")]),
        ([statement(action="sts:*", resource="arn:aws:iam::*:role/a*")], [every.format("arn:aws:iam::*:role/a*")]),
        ([statement(action="sts:*"), here], []),
        ([statement(action="sts:*", resource=away), statement("Deny", "sts:*", f"arn:aws:iam::{OTHER}:*")], []),
        ([statement(action="sts:*", resource=arn("role", "gone"))], []),
    ]
    export = {**ground(), "RoleDetailList": []}
    for given, wanted in cases:
        made = {**export, "UserDetailList": [*ground()["UserDetailList"], entity("User", "dev", given)]}
        answer = escalated(made, status=5 if wanted else 0)
        same((answer["found"], [it["why"] for it in answer["open"]]), ([], wanted))
    # With the export of that account the way goes on.
    text = json.dumps({**ground(), "UserDetailList": [], "GroupDetailList": [], "Policies": []})
    other = json.loads(text.replace(OWN, OTHER))
    trust = document({"Effect": "Allow", "Principal": {"AWS": OWN}, "Action": "sts:AssumeRole"})
    other["RoleDetailList"] = [{**role("away", {}, [statement()]), "Arn": away, "AssumeRolePolicyDocument": trust}]
    made = {**export, "UserDetailList": [*ground()["UserDetailList"], entity("User", "dev", cases[0][0])]}
    answer = escalated(made, file(other))
    same((found(answer), answer["open"]), ({"dev": [["assume-role"]]}, []))


def test_310_principals_in_a_minute():
    """Of 250 users, each with a bucket of its own, and 60 roles, each of which some users may assume, one may pass the only role
    that is an administrator, so may a role, and five may assume that."""
    way = next(it for it in WAYS if it.name == "lambda-new")
    passes = [statement(action=it.action, resource=target(way, it, "User", "")) for it in way.asks]
    users = [entity("User", "passer", passes)]
    for n in range(249):
        own = [statement(action="s3:*", resource=f"arn:aws:s3:::home-{n}/*")]
        own += [statement(action="sts:AssumeRole", resource=arn("role", f"r{n % 60}"))] if n % 2 else []
        users.append(entity("User", f"u{n}", own))
    roles = [role("chief", {"Service": "lambda.amazonaws.com"}, [statement()])]
    for n in range(59):
        own = passes if n == 1 else [statement(action="dynamodb:*", resource=f"arn:aws:dynamodb:*:{OWN}:table/t{n}")]
        roles.append(role(f"r{n}", {"AWS": f"arn:aws:iam::{OWN}:root"}, own))
    export = {"UserDetailList": users, "RoleDetailList": roles, "GroupDetailList": [], "Policies": []}
    given = ["escalate", file(export), "--moment", "0", "--format", "json"]
    answer = json.loads(aws(*given, status=3, seconds=patience(60))[0])
    same((answer["principals"], answer["already"]), (310, [session("chief")]))
    passed, first = [["lambda-new"]], [["assume-role"], ["lambda-new"]]
    wanted = {"passer": passed, "r1": passed, **{f"u{n}": first for n in (1, 61, 121, 181, 241)}}
    same(found(answer), wanted)


def test_what_runs_under_a_role_that_no_export_has():
    function, away = f"arn:aws:lambda:eu-west-1:{OWN}:function:nightly", f"arn:aws:iam::{OTHER}:role/away"
    export = ground()
    coder = entity("User", "coder", [statement(action="lambda:UpdateFunctionCode", resource=function)])
    export["UserDetailList"].append(coder)
    answer = escalated(export, "--resources", file([{"arn": function, "account": OWN, "runsAs": away}]), status=5)
    same([it["why"] for it in answer["open"]], [f"the exports have no principal {away}"])


def test_who_is_let_into_a_role_and_not_asked_for():
    """Of who comes by SAML it is not known whether he comes to be an administrator, where the role that lets him in is one."""
    provider = f"arn:aws:iam::{OWN}:saml-provider/idp"
    for given, status in (([statement()], 5), ([statement(action="s3:*")], 0)):
        export = ground()
        made = role("people", {"Federated": provider}, given)
        made["AssumeRolePolicyDocument"]["Statement"][0]["Action"] = "sts:AssumeRoleWithSAML"
        export["RoleDetailList"].append(made)
        line = f"{arn('role', 'people')} trust policy names Federated {provider}, for whom nobody is asked"
        out, said = aws("escalate", file(export), status=status)
        assert f"{line}\n" in said, said
        same(f"not asked: who comes to be an administrator so: {line}\n" in out, status == 5, out)
        same(escalated(export, status=status)["notAsked"], [line] if status else [])


def test_what_is_open_once_something_is_changed():
    """Who may add herself to a group has what the group may do: to run commands on instances, whose roles nothing tells."""
    export = ground()
    command = statement(action="ssm:SendCommand", resource=f"arn:aws:ec2:eu-west-1:{OWN}:instance/*")
    export["GroupDetailList"].append(entity("Group", "runners", [command]))
    joins = statement(action="iam:AddUserToGroup", resource=arn("group", "runners"))
    export["UserDetailList"].append(entity("User", "ann", [joins]))
    answer = escalated(export, status=5)
    told = [(it["principal"], it["way"], [one["what"] for one in it["changes"]]) for it in answer["open"]]
    same(told, [(arn("user", "ann"), "ssm-command", [arn("group", "runners")])])
    drawing = file("")
    out, _ = aws("escalate", file(export), "--svg", drawing, status=5)
    line = "since nothing tells under which role: allowed to {0}user/ann, in the group {0}group/runners\n"
    assert line.format(f"arn:aws:iam::{OWN}:") in out, out
    with open(drawing, encoding="utf-8") as it:
        assert "not asked: where ssm:SendCommand leads (ssm-command)" in it.read()


def test_the_forms():
    """The trust policy is a text with %-escapes, as the API of IAM gives it."""
    export = ground()
    chief = export["RoleDetailList"][0]
    chief["AssumeRolePolicyDocument"] = urllib.parse.quote(json.dumps(chief["AssumeRolePolicyDocument"]))
    add(export, next(it for it in WAYS if it.name == "lambda-new"), "dev")
    path = file(export)
    out, _ = aws("escalate", path, status=3)
    assert out.startswith("1 of 5 principals can come to be an administrator; 4 are already\n"), out
    assert "  1. runs a new function under the role" in out and "inline own, statement 1 (identity policy)" in out, out
    out, _ = aws("escalate", path, "--format", "markdown", status=3)
    assert out.startswith("**1 of 5 principals can come to be an administrator; 4 are already**\n\n- `"), out
    drawing = file("")
    aws("escalate", path, "--svg", drawing, status=3)
    with open(drawing, encoding="utf-8") as it:
        text = it.read()
    assert text.startswith("<svg ") and "lambda-new" in text and not re.search("https?://(?!www.w3.org/2000/svg)", text)


def test_nobody_to_ask():
    export = {**ground(), "UserDetailList": [], "RoleDetailList": []}
    out, _ = aws("escalate", file(export), status=4)
    same(out, "")


def test_the_page_shows_what_the_command_prints_and_names_each_way():
    with open(os.path.join(os.path.dirname(TOOLS), "docs", "escalate.md"), encoding="utf-8") as it:
        text = it.read()
    shown = re.search(r"\$ iamsim-aws escalate export.json\n(.*?)```", text, re.S).group(1)
    same(aws("escalate", data("escalate.json"), status=3)[0], shown)
    for way in WAYS:
        names = [f"`{way.name}`"] if way.gain != UNTOLD else [it.action.partition(":")[2] for it in way.asks]
        assert all(it in text for it in names), way.name


def test_where_the_organisation_lets_nobody_do_anything_no_administrator_is_shown():
    """A policy on regions denies to all but who says his region; a context gives it."""
    denied = {"StringNotEquals": {"aws:RequestedRegion": "eu-west-1"}}
    made = organization()
    content = document(statement(), statement("Deny", Condition=denied))
    made["policies"][0]["Content"] = json.dumps(content)
    export, words = ground(), ["--organization", file(made)]
    add(export, next(it for it in WAYS if it.name == "put-user-policy"), "eve")
    answer = escalated(export, *words, status=5)
    same((answer["already"], len(answer["notShown"]), answer["absentKeys"]), ([], 5, ["aws:RequestedRegion"]))
    answer = escalated(export, *words, "--context", file({"aws:RequestedRegion": "eu-west-1"}))
    same((found(answer), len(answer["already"])), ({"eve": [["put-user-policy"]]}, 4))
