"""Sessions with session policies, and permission sets, beside an export (--sessions)."""

import json

from harness import aws, data, document, file, load, same, small_world, statement
from test_strangers import BUCKET, bucket, deny, grant

EXPORT = data("account.json")
ACCOUNT = "arn:aws:iam::111122223333:"
SESSION = "arn:aws:sts::111122223333:assumed-role/"
DEPLOY = f"{ACCOUNT}role/app/deploy"
OBJECT = ["s3:GetObject", "arn:aws:s3:::homes/alice/x"]
HOMES = document(statement(action="s3:Get*", resource="arn:aws:s3:::homes/*"))
NONE = document(statement(action="s3:Get*", resource="arn:aws:s3:::none/*"))
READ = "arn:aws:iam::aws:policy/ReadObjects"


def sessions(*some):
    return ["--sessions", file({"sessions": [{"role": DEPLOY, **it} for it in some]})]


def sets(*some):
    return ["--sessions", file({"permissionSets": [{"account": "111122223333", **it} for it in some]})]


def decided(who, words, action, resource, status=0):
    out, _ = aws("can", who, action, resource, EXPORT, *words, "--format", "json", status=status)
    return {it["principal"]: (it["decision"], it["lacks"]) for it in json.loads(out)}


def test_sessions_with_their_policies():
    """The role's own session is asked for besides; a session may do what both the role's policies and its own allow."""
    given = sessions({"session": "ci", "sessionPolicies": [HOMES]}, {"session": "old", "sessionPolicies": [NONE]})
    found = decided("*:role/app/deploy", given, *OBJECT, status=3)
    wanted = {"session": ("allowed", []), "ci": ("allowed", []), "old": ("implicitDeny", ["session"])}
    same(found, {f"{SESSION}deploy/{name}": it for name, it in wanted.items()})
    same(len(decided("*assumed-role/deploy/ci", given, *OBJECT)), 1)
    out, _ = aws("can", f"{SESSION}deploy/ci", *OBJECT, EXPORT, *given)
    assert f"  allowed by {SESSION}deploy/ci session policy 0, statement 0 (session policy)\n" in out, out
    # Several policies of a session allow what one of them does.
    given = sessions({"session": "ci", "sessionPolicies": [NONE, HOMES]})
    same(decided("*/ci", given, *OBJECT), {f"{SESSION}deploy/ci": ("allowed", [])})


def test_permission_sets_are_roles():
    inline = document(statement("Deny", "s3:*", "arn:aws:s3:::homes/bob/*"))
    given = sets({"name": "Reader", "managed": [READ], "inline": inline, "sessionDuration": "PT8H"})
    who = f"{SESSION}AWSReservedSSO_Reader_x/session"
    same(decided("AWSReservedSSO_Reader_x", given, *OBJECT), {who: ("allowed", [])})
    same(decided(who, given, OBJECT[0], "arn:aws:s3:::homes/bob/x", status=3), {who: ("explicitDeny", [])})
    _, said = aws("can", who, *OBJECT, EXPORT, *given)
    role = f"{ACCOUNT}role/aws-reserved/sso.amazonaws.com/AWSReservedSSO_Reader_x"
    assert f"permissionSets 0 is the role {role}, whose name and trust policy are made up\n" in said, said
    # Documents in place of ARNs, as a policy and as the boundary.
    given = sets({"name": "Own", "managed": [document(statement())], "boundary": HOMES})
    who = f"{SESSION}AWSReservedSSO_Own_x/session"
    same(decided(who, given, *OBJECT), {who: ("allowed", [])})
    same(decided(who, given, "s3:PutObject", OBJECT[1], status=3), {who: ("implicitDeny", ["boundary"])})
    # Nobody assumes it but by the Identity Center.
    out, _ = aws("who-can", "sts:AssumeRole", "AWSReservedSSO_Own_x", EXPORT, *given)
    assert out.startswith("0 of 9 principals are allowed"), out


def test_faults_of_sessions():
    session = {"session": "ci", "sessionPolicies": [HOMES]}
    for words, why in (
        (["--sessions", file([])], ": it is no object of sessions and permissionSets"),
        (["--sessions", file({"session": []})], ": it is no object of sessions and permissionSets"),
        (["--sessions", file({"sessions": {}})], ": sessions is no list of objects"),
        (sessions({"sessionPolicies": [HOMES]}), ": sessions 0: session is no text"),
        (sessions({"session": "ci"}), ": sessions 0: sessionPolicies is no list of policies"),
        (sessions({**session, "policies": []}), ": sessions 0: nothing is known of its policies"),
        (sessions({**session, "role": f"{DEPLOY}2"}), f"has no role {DEPLOY}2, of which a session is given"),
        (sessions(session, session), f"{SESSION}deploy/ci comes twice"),
        (sets({"managed": []}), ": permissionSets 0: name is no text"),
        (sets({"name": "A", "account": "1"}), ": permissionSets 0: account is no account of twelve digits: 1"),
        (
            sets({"name": "A", "account": "444455556666"}),
            ": permissionSets 0: there is no export of account 444455556666",
        ),
        (sets({"name": "A", "managed": READ}), ": permissionSets 0: managed is no list of policies"),
        (sets({"name": "A", "managed": [f"{READ}2"]}), f"the export does not hold the policy {READ}2"),
        (sets({"name": "A"}, {"name": "A"}), "/AWSReservedSSO_A_x comes twice"),
    ):
        _, said = aws("who-can", *OBJECT, EXPORT, *words, status=1)
        assert why in said, f"{why}: {said}"
    _, said = aws("who-can", *OBJECT, "--world", EXPORT, *sessions(session), status=1)
    assert "--sessions and --organization join exports" in said, said


ROLES = ("deploy", "audit", "partner", "worker", "people", "chain")
WORKER = "AROAWORKER00000000000"
KMS = "arn:aws:kms:eu-west-1:111122223333:"


def puts(*who, **more):
    return grant(*who, action="s3:PutObject", **more)


def of_roles(*statements):
    """{session but the role's own: whether it may write} by a bucket's policy."""
    out, _ = aws("who-can", "s3:PutObject", BUCKET, EXPORT, "--resources", bucket(*statements), "--format", "json")
    rows = {it["principal"]: it["decision"] == "allowed" for it in json.loads(out) if "assumed-role" in it["principal"]}
    own = {f"{SESSION}{it}/session" for it in ROLES}
    assert own <= set(rows) and not any(rows[it] for it in own), rows
    return {who: it for who, it in rows.items() if who not in own}


def test_each_session_that_a_policy_names():
    """None of the roles may write by policies of its own, and a session that is named may."""
    alice, userid = f"{SESSION}worker/alice@corp.com", "aws:userid"
    where = lambda operator, of: puts("*", Condition={operator: {userid: of}})
    cases = [
        (puts(alice), {alice: True}),
        # No session of a role that is not there, and none that a policy does not name.
        (puts(f"{SESSION}nobody/alice", "arn:aws:sts::444455556666:assumed-role/worker/alice"), {}),
        (puts(f"{ACCOUNT}user/alice"), {}),
        (where("StringEquals", f"{WORKER}:bob"), {f"{SESSION}worker/bob": True}),
        (where("StringEquals", "AROANOBODY00000000000:bob"), {}),
        (where("StringLike", "*:bob"), {f"{SESSION}{it}/bob": True for it in ROLES}),
    ]
    for one, wanted in cases:
        found = {who: it for who, it in of_roles(one).items() if "444455556666" not in who}
        same(found, wanted, one)
    # Whom a deny excepts.
    role = puts(f"{ACCOUNT}role/worker")
    for name, wanted in ((WORKER, {f"{SESSION}worker/bob": True}), ("AROANOBODY00000000000", {})):
        same(of_roles(role, {**deny("StringNotEquals", userid, f"{name}:bob"), "Action": "s3:PutObject"}), wanted)


def test_sessions_that_the_policies_of_roles_name():
    """A role's own policy allows one session of it, which has the role's tags too."""
    for asked, wanted in (("AROAX:ci", ["ci"]), ("AROAY:ci", [])):
        own = document(statement(Condition={"StringEquals": {"aws:userid": asked, "aws:PrincipalTag/team": "red"}}))
        context = {"aws:userid": "AROAX:s", "aws:PrincipalTag/team": "red"}
        made = small_world()
        made["principals"].append({"role": f"{ACCOUNT}role/r", "session": "s", "identity": [own], "context": context})
        out, _ = aws("who-can", "s3:GetObject", "arn:aws:s3:::b/k", "--world", file(made), "--format", "csv")
        same([it.split(",")[0] for it in out.splitlines() if ",allowed," in it], [f"{SESSION}r/{it}" for it in wanted])


def test_rules_and_drafts_ask_for_sessions_that_are_named():
    given, alice = bucket(puts(f"{SESSION}worker/alice")), f"{SESSION}worker/alice"
    for rule, status in (
        (f"never *:role/worker s3:PutObject {BUCKET}", 3),
        (f"never * s3:PutObject {BUCKET}* except bob", 3),
        (f"never * s3:PutObject {BUCKET}* except bob worker", 0),
        (f"never * s3:PutObject {BUCKET} except bob {alice}", 0),
        (f"always {alice} s3:PutObject {BUCKET}", 0),
        (f"always {alice} s3:GetObject {BUCKET}", 3),
    ):
        out, said = aws("rules", file(f"{rule}\n"), EXPORT, "--resources", given, status=status)
        is_told = f"  {alice} may s3:PutObject {BUCKET}:" in out
        same((is_told, said), (status == 3 and rule.startswith("never"), ""), out)
    # A draft that names a session gives it what its role may not, and nothing else is gained.
    reads, writes = (document(grant(f"{SESSION}deploy/ci", action=f"s3:{it}Object")) for it in ("Get", "Put"))
    writer = f"+ {SESSION}deploy/ci s3:PutObject {BUCKET}"
    for draft, gained in ((writes, [writer, f"{writer}/"]), (reads, [])):
        out, _ = aws("changes", EXPORT, "--resources", bucket(), "--put", f"releases={file(draft)}")
        same([it for it in out.splitlines() if it[0] in "+-"], gained)


def test_who_comes_to_a_session_that_is_named():
    """ann may assume the role, and so may come to the session of it that the bucket lets in."""
    role = f"{ACCOUNT}role/reader"
    trust = document({"Effect": "Allow", "Principal": {"AWS": f"{ACCOUNT}user/ann"}, "Action": "sts:AssumeRole"})
    sealed = {"arn": role, "account": "111122223333", "sealed": True, "policy": trust}
    for name, wanted in (("reader", [f"  {ACCOUNT}user/ann -> {SESSION}reader/alice"]), ("other", [])):
        policy = document(grant(f"{SESSION}{name}/alice"))
        made = small_world(resources=[{"arn": BUCKET, "account": "111122223333", "policy": policy}, sealed])
        made["principals"].append({"role": role, "session": "s", "identity": []})
        out, _ = aws("who-can", "s3:GetObject", BUCKET, "--world", file(made), "--chains")
        same([it for it in out.splitlines() if " -> " in it], wanted)
        rule = file(f"never *:user/ann s3:GetObject {BUCKET}\n")
        aws("rules", rule, "--world", file(made), "--chains", status=3 if wanted else 0)


def test_service_linked_roles_that_a_policy_names():
    """The key's policy alone grants; what other policies name is no such role of the export."""
    linked, key = f"{ACCOUNT}role/aws-service-role/support.amazonaws.com/AWSServiceRoleForSupport", f"{KMS}key/7c1d"
    session = f"{SESSION}AWSServiceRoleForSupport/session"
    decrypts = lambda *who, **more: grant(*who, action="kms:Decrypt", **more)
    sealed = lambda *who: {"arn": key, "account": "111122223333", "sealed": True, "policy": document(decrypts(*who))}
    alice, like = f"{ACCOUNT}user/alice", f"{ACCOUNT}role/aws-service-role/support*"
    chosen = decrypts("*", Condition={"ArnLike": {"aws:PrincipalArn": like}})
    for policy, wanted in (
        (decrypts(alice, linked), [alice, session]),
        (chosen, [session]),
        (decrypts(alice, f"{ACCOUNT}role/worker"), [alice, f"{SESSION}worker/session"]),
    ):
        given = file([{**sealed(), "policy": document(policy)}])
        out, said = aws("who-can", "kms:Decrypt", key, EXPORT, "--resources", given, "--format", "json")
        same([it["principal"] for it in json.loads(out) if it["decision"] == "allowed"], wanted)
        same(said, "")
    for rule, who, status in (
        (f"never * kms:Decrypt {key} except alice", [alice, linked], 3),
        ("never * kms:* *key/* except alice", [alice, linked], 3),
        (f"never * kms:Decrypt {key} except alice *AWSServiceRoleForSupport", [alice, linked], 0),
        ("never * kms:* *key/* except alice", [alice], 0),
    ):
        out, _ = aws("rules", file(f"{rule}\n"), EXPORT, "--resources", file([sealed(*who)]), status=status)
        same(f"  {session} may kms:Decrypt {key}: " in out, status == 3, out)
    for who, gained in ((linked, [f"+ {session} kms:Decrypt {key}"]), (f"{linked}s", [])):
        draft = ["--put", f"{key}={file(document(decrypts(alice, who)))}"]
        out, _ = aws("changes", EXPORT, "--resources", file([sealed(alice)]), *draft)
        same([it for it in out.splitlines() if it[0] in "+-"], gained)


def test_service_linked_roles_are_not_asked_within_an_organisation():
    """Its policies do not bind them: they are told, a rule is open, and so where the export does not hold what one may."""
    linked = f"{ACCOUNT}role/aws-service-role/support.amazonaws.com/AWSServiceRoleForSupport"
    lacking = load(EXPORT)
    role = next(it for it in lacking["RoleDetailList"] if it["Arn"] == linked)
    role["AttachedManagedPolicies"] = [{"PolicyName": "x", "PolicyArn": "arn:aws:iam::aws:policy/x"}]
    organization = ["--organization", data("organization.json")]
    rule = file(f"never * s3:PutObject {BUCKET} except bob\n")
    for who, words, export, status in (
        (linked, [], EXPORT, 3),
        (linked, organization, EXPORT, 5),
        (linked, [], file(lacking), 5),
        (f"{ACCOUNT}user/bob", organization, EXPORT, 0),
    ):
        _, said = aws("rules", rule, export, "--resources", bucket(puts(who)), *words, status=status)
        line = f"{BUCKET} policy names {linked}, a service-linked role, for whom nobody is asked"
        same(line in said, status == 5, said)
