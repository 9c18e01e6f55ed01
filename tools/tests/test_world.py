"""Worlds from AWS's exports. What each cell must be is worked out by hand from docs/LOGIC.md."""

import json
import os
import tempfile

from harness import IAMSIM, AWS, aws, data, document, file, load, matrix, run, same, statement, world

ACCOUNT = "arn:aws:iam::111122223333:"
SESSION = "arn:aws:sts::111122223333:assumed-role/"
SUPPORT = "role/aws-service-role/support.amazonaws.com/AWSServiceRoleForSupport"
ROLES = [
    "role/app/deploy",
    "role/app/audit",
    "role/app/partner",
    "role/worker",
    "role/people",
    "role/app/chain",
    SUPPORT,
]

# Who may assume which role of account.json, in the order of ROLES: '+' allowed, else the lacks, r resource,
# i identity, b boundary.
#
# deploy trusts the account, so a policy of the asker's own has to allow; audit trusts alice herself, chain the role
# deploy; partner trusts another account, and worker, people and the last one services and federated users alone.
# alice may assume roles under app/ (by her group), bob anything, but his boundary knows deploy alone; no role has a
# policy on sts:AssumeRole.
ASSUME = {
    f"{ACCOUNT}user/alice": "+ + r ri ri r ri",
    f"{ACCOUNT}user/ops/bob": "+ rb rb rb rb rb rb",
    f"{SESSION}deploy/s1": "i ri ri ri ri + ri",
    f"{SESSION}audit/s1": "i ri ri ri ri ri ri",
    f"{SESSION}partner/s1": "i ri ri ri ri ri ri",
    f"{SESSION}worker/s1": "i ri ri ri ri ri ri",
    f"{SESSION}people/s1": "i ri ri ri ri ri ri",
    f"{SESSION}chain/s1": "i ri ri ri ri ri ri",
}
LACKS = {"r": "resource", "i": "identity", "b": "boundary"}


def answer(word):
    return ("allowed", "") if word == "+" else ("implicitDeny", " ".join(LACKS[it] for it in word))


def cells(value):
    return {key: (decision, lacks) for key, (decision, _, lacks) in matrix(value).items()}


def test_who_may_assume_which_role():
    found = cells(world(data("account.json")))
    wanted = {
        (who, "sts:AssumeRole", ACCOUNT + role): answer(word)
        for who, words in ASSUME.items()
        for role, word in zip(ROLES, words.split())
    }
    same(found, wanted)


def test_an_object_has_the_policy_of_its_bucket():
    policy, own = (
        document({"Effect": effect, "Principal": "*", "Action": "s3:GetObject", "Resource": "*"})
        for effect in ("Allow", "Deny")
    )
    given = [
        {"arn": "arn:aws:s3:::b/k"},
        {"arn": "arn:aws:s3:::b", "policy": policy},
        {"arn": "arn:aws:s3:::b/own", "policy": own},
        {"arn": "arn:aws:s3:::bb/k"},
    ]
    resources = file([{**it, "account": "111122223333"} for it in given])
    made = world("--resources", resources, "--actions", file("s3:GetObject\n"), data("account.json"))
    same([it.get("policy") for it in made["resources"]], [policy, policy, own, None])


def test_policies_of_groups_versions_and_paths():
    made = world(data("account.json"))
    same(
        [it.get("user") or it["role"] for it in made["principals"]][:3],
        [f"{ACCOUNT}user/alice", f"{ACCOUNT}user/ops/bob", f"{ACCOUNT}role/app/deploy"],
    )
    alice, bob, deploy = made["principals"][:3]
    # ReadObjects comes by the user and by the group Readers, and stands once; of AssumeRoles the default version stands.
    sids = [it.get("Sid") for policy in alice["identity"] for it in policy["Statement"]]
    same(sids, [None, "OwnHome", "TeamFiles", "AppRoles"])
    same([it["Sid"] for it in bob["boundary"]["Statement"]], ["Storage", "Deploy"])
    same(alice["context"], {"aws:userid": "AIDAALICEALICEALICE00", "aws:PrincipalTag/team": "red"})
    # A policy asks for the team, which this role is known not to have.
    tags = {"aws:PrincipalTag/stage": "prod", "aws:PrincipalTag/team": []}
    same(deploy["context"], {"aws:userid": "AROADEPLOY00000000000:s1", **tags})
    same(made["resources"][0]["context"], {"aws:ResourceTag/stage": "prod", "iam:ResourceTag/stage": "prod"})
    same([it["arn"] for it in made["resources"] if not it["sealed"]], [])


def test_objects_of_buckets():
    resources = [
        {"arn": "arn:aws:s3:::homes/alice/x", "account": "111122223333"},
        {
            "arn": "arn:aws:s3:::homes/bob/x",
            "account": "111122223333",
            "policy": json.dumps(
                document(
                    {
                        "Effect": "Allow",
                        "Principal": {"AWS": f"{ACCOUNT}role/app/deploy"},
                        "Action": "s3:PutObject",
                        "Resource": "arn:aws:s3:::homes/*",
                    }
                )
            ),
        },
        {"arn": "arn:aws:s3:::teams/red/x", "account": "111122223333"},
    ]
    made = world(
        "--actions", file("s3:GetObject # read\n\ns3:PutObject\n"), "--resources", file(resources), data("account.json")
    )
    # Get and Put on each of the three objects: alice reads all and writes her home and her team's files; bob all; deploy
    # reads all, and the bucket's policy grants to the role; worker reads alice's home alone; the others have nothing.
    wanted = {
        f"{ACCOUNT}user/alice": ("+ + +", "+ i +"),
        f"{ACCOUNT}user/ops/bob": ("+ + +", "+ + +"),
        f"{SESSION}deploy/s1": ("+ + +", "i + i"),
        f"{SESSION}audit/s1": ("i i i", "i i i"),
        f"{SESSION}partner/s1": ("i i i", "i i i"),
        f"{SESSION}worker/s1": ("+ i i", "i i i"),
        f"{SESSION}people/s1": ("i i i", "i i i"),
        f"{SESSION}chain/s1": ("i i i", "i i i"),
    }
    same(
        cells(made),
        {
            (who, action, it["arn"]): answer(word)
            for who, rows in wanted.items()
            for action, words in zip(("s3:GetObject", "s3:PutObject"), rows)
            for it, word in zip(resources, words.split())
        },
    )


def test_two_accounts_under_an_organisation():
    words = ["--organization", data("organization.json"), "--context", file({"sts:ExternalId": "e-1"})]
    found = matrix(world(*words, data("account.json"), data("partner.json")))
    carol, tool = "arn:aws:iam::444455556666:user/carol", "arn:aws:sts::444455556666:assumed-role/tool/s1"
    role = lambda name: ACCOUNT + name
    cell = lambda who, resource: found[who, "sts:AssumeRole", resource]
    # The levels: root, unit, account for the one; root, account for the other. Each level has the policy that allows all.
    same(cell(carol, role("role/app/partner")), ("allowed", "org/0/0/0 org/1/0/0 resource/0/0 identity/0/0", ""))
    same(cell(carol, role("role/app/audit")), ("implicitDeny", "org/0/0/0 org/1/0/0 identity/0/0", "resource"))
    same(cell(tool, role("role/app/partner")), ("implicitDeny", "org/0/0/0 org/1/0/0 resource/0/0", "identity"))
    same(
        cell(tool, "arn:aws:iam::444455556666:role/tool"),
        ("implicitDeny", "org/0/0/0 org/1/0/0 resource/0/0", "identity"),
    )
    same(cell(f"{ACCOUNT}user/alice", role("role/app/audit")), ("explicitDeny", "org/1/1/0", ""))
    same(
        cell(f"{ACCOUNT}user/alice", role("role/app/deploy")),
        ("allowed", "org/0/0/0 org/1/0/0 org/2/0/0 resource/0/0 identity/2/0", ""),
    )
    # Without the key the trust policy of partner does not match.
    found = matrix(world(*words[:2], data("account.json"), data("partner.json")))
    same(cell(carol, role("role/app/partner")), ("implicitDeny", "org/0/0/0 org/1/0/0 identity/0/0", "resource"))


def test_keys_of_the_organisation():
    made = world("--organization", data("organization.json"), data("account.json"), data("partner.json"))
    alice = made["principals"][0]["context"]
    same(alice["aws:PrincipalOrgID"], "o-example0001")
    same(alice["aws:PrincipalOrgPaths"], ["o-example0001/r-ab12/ou-ab12-11111111/"])
    same(made["resources"][0]["context"]["aws:ResourceOrgID"], "o-example0001")
    made = world(
        "--organization",
        data("organization.json"),
        "--context",
        file({"AWS:PrincipalOrgId": "o-other"}),
        data("account.json"),
    )
    assert "aws:PrincipalOrgID" not in made["principals"][0]["context"], "the file's key stands alone"


def test_a_management_account_is_marked():
    export = {"UserDetailList": [{"UserName": "root", "UserId": "AIDA0", "Arn": "arn:aws:iam::999900001111:user/boss"}]}
    object_of_it = ["--resources", file([{"arn": "arn:aws:s3:::b/k", "account": "999900001111"}])]
    made = world("--organization", data("organization.json"), *object_of_it, file(export))
    same(made["accounts"], [{"id": "999900001111", "management": True}])
    same(made["principals"][0]["context"]["aws:PrincipalOrgPaths"], ["o-example0001/r-ab12/"])
    with open(data("organization.json")) as it:
        organization = json.load(it)
    del organization["parents"]["999900001111"]
    said = world("--organization", file(organization), *object_of_it, file(export), status=1)
    assert "organization: no parent of 999900001111" in said, said


def test_an_account_outside_the_organisation_is_told():
    export = {"UserDetailList": [{"UserName": "x", "UserId": "AIDA0", "Arn": "arn:aws:iam::123456789012:user/x"}]}
    resources = file([{"arn": "arn:aws:s3:::b/k", "account": "123456789012"}])
    _, said = aws("world", "--organization", data("organization.json"), "--resources", resources, file(export))
    assert "account 123456789012 is not in the organization" in said, said


def test_actions_of_iam_take_no_trust_policy():
    made = world("--actions", file("iam:PassRole\n"), data("account.json"))
    same([it for it in made["resources"] if "policy" in it or it.get("sealed")], [])
    # bob's policy allows all, and his boundary has nothing of iam; nobody else has a statement on it.
    found = cells(made)
    same(found[f"{ACCOUNT}user/ops/bob", "iam:PassRole", ACCOUNT + "role/worker"], answer("b"))
    same(found[f"{ACCOUNT}user/alice", "iam:PassRole", ACCOUNT + "role/worker"], answer("i"))
    assert "make a world of each" in world(
        "--actions", file("iam:PassRole\nsts:AssumeRole\n"), data("account.json"), status=1
    )


def test_principals_and_resources_by_pattern():
    made = world(
        "--principal", "*:user/*", "--principal", "*/chain", "--resource", "*:role/app/?udit", data("account.json")
    )
    same(
        [it.get("user") or it["role"] for it in made["principals"]],
        [f"{ACCOUNT}user/alice", f"{ACCOUNT}user/ops/bob", f"{ACCOUNT}role/app/chain"],
    )
    same([it["arn"] for it in made["resources"]], [f"{ACCOUNT}role/app/audit"])
    said = world("--resource", "*:role/app/????it", data("account.json"), status=1)
    assert "the world has no resources" in said, said
    said = world("--principal", "*/nobody", data("account.json"), status=1)
    assert "the world has no principals" in said, said
    _, said = aws("world", "--principal", "*/chain", "--principal", "*/nobody", data("account.json"))
    assert "the pattern */nobody matches no principal\n" in said, said
    made = world("--resource", "*:role/app/???it", "--resource", "*.peo?le", data("account.json"))
    same([it["arn"] for it in made["resources"]], [f"{ACCOUNT}role/app/audit"])


def test_a_world_with_drafts():
    """It has the documents as if the drafts were in force."""
    draft = document(statement(action="s3:ListBucket"))
    resources = file([{"arn": "arn:aws:s3:::homes/a", "account": "111122223333"}])
    words = [data("account.json"), "--actions", file("s3:PutObject\n"), "--resources", resources]
    trust = document({"Effect": "Allow", "Principal": {"AWS": f"{ACCOUNT}user/zoe"}, "Action": "sts:AssumeRole"})
    made = world(*words, "--put", f"Homes={file(draft)}", "--put", f"homes={file(trust)}", "--principal", "alice")
    # alice has ReadObjects, then of her groups Homes and AssumeRoles.
    same([len(made["principals"]), made["principals"][0]["identity"][1]], [1, draft])
    same(made["resources"], [{"arn": "arn:aws:s3:::homes/a", "account": "111122223333", "policy": trust}])
    made = world(data("account.json"), "--put", f"deploy={file(trust)}")
    same([it["policy"] == trust for it in made["resources"]], [it == "role/app/deploy" for it in ROLES])
    said = world(data("account.json"), "--put", f"NoSuch={file(trust)}", status=1)
    same(said, "iamsim-aws: --put NoSuch: no policy and no resource is called so\n")


def test_a_policy_that_is_not_there_is_named():
    with open(data("account.json")) as it:
        export = json.load(it)
    export["Policies"] = [it for it in export["Policies"] if it["PolicyName"] != "ReadObjects"]
    said = world(file(export), status=1)
    assert ": the export does not hold the policy arn:aws:iam::aws:policy/ReadObjects" in said, said
    # Who is not chosen needs no policy.
    same(len(world("--principal", "*/bob", file(export))["principals"]), 1)
    said = world(file({**load(data("account.json")), "GroupDetailList": []}), status=1)
    assert "user/alice: the export does not hold the group " in said, said
    assert "comes twice" in world(data("partner.json"), data("partner.json"), status=1)


def test_an_export_without_its_end_is_refused():
    with open(data("account.json")) as it:
        whole = json.load(it)
    for more in ({"NextToken": "eyJ"}, {"IsTruncated": True, "Marker": "x"}):
        part = file({**whole, **more})
        assert "the end of the export is missing" in world(part, status=1)
        rest = file(
            {
                "UserDetailList": [{"UserName": "zoe", "UserId": "AIDA0", "Arn": ACCOUNT + "user/zoe"}],
                "IsTruncated": False,
            }
        )
        same(
            [it.get("user") for it in world(part, rest)["principals"]][-1:]
            + [it.get("user") for it in world(rest, part)["principals"]][:1],
            [None, ACCOUNT + "user/zoe"],
        )


def test_a_policy_as_aws_answers_it():
    policy = document(statement("Allow", "s3:GetObject", "*", Principal="*"))
    for given in (
        policy,
        json.dumps(policy),
        {"Policy": json.dumps(policy)},
        {"Policy": json.dumps(policy), "PolicyName": "default"},
    ):
        further = [{"arn": "arn:aws:s3:::b/k", "account": "111122223333", "policy": given}]
        made = world("--actions", file("s3:GetObject\n"), "--resources", file(further), data("account.json"))
        same(made["resources"][0]["policy"], policy)


def test_a_world_without_resources_is_told():
    _, said = aws("world", "--actions", file("s3:GetObject\n"), data("account.json"), status=1)
    assert "the world has no resources" in said, said


def test_resource_control_policies_stand_with_resources():
    with open(data("organization.json")) as it:
        organization = json.load(it)
    full = {"Id": "p-RCPFullAWSAccess", "Type": "RESOURCE_CONTROL_POLICY"}
    for list_of_target in organization["targets"].values():
        list_of_target.append(full)
    content = document({"Effect": "Allow", "Principal": "*", "Action": "*", "Resource": "*"})
    organization["policies"].append({"PolicySummary": full, "Content": json.dumps(content)})
    resources = [
        {"arn": arn, "account": "111122223333"}
        for arn in ("arn:aws:s3:::b/k", "arn:aws:ec2:eu-west-1:111122223333:instance/i")
    ]
    words = ["--actions", file("s3:GetObject"), "--resources", file(resources)]
    assert '"controlled"' in world(*words, "--organization", file(organization), data("account.json"), status=1)
    organization["controlled"] = ["s3", "sts"]
    made = world(*words, "--organization", file(organization), data("account.json"))
    same([it.get("control") for it in made["resources"]], [[[content]] * 3, None])
    made = world("--organization", file(organization), data("partner.json"))
    same(made["resources"][0]["control"], [[content]] * 2)


def test_worlds_with_control_are_read():
    resources = [
        {
            "arn": "arn:aws:s3:::b/k",
            "account": "111122223333",
            "control": [
                [
                    document({"Effect": "Allow", "Principal": "*", "Action": "*", "Resource": "*"}),
                    document({"Effect": "Deny", "Principal": "*", "Action": "s3:PutObject", "Resource": "*"}),
                ]
            ],
        }
    ]
    made = world(
        "--actions",
        file("s3:GetObject\ns3:PutObject"),
        "--resources",
        file(resources),
        "--principal",
        "*/bob",
        data("account.json"),
    )
    found = matrix(made)
    bob = f"{ACCOUNT}user/ops/bob"
    same(found[bob, "s3:PutObject", "arn:aws:s3:::b/k"], ("explicitDeny", "control/0/1/0", ""))
    same(found[bob, "s3:GetObject", "arn:aws:s3:::b/k"][0], "allowed")


def test_documents_that_are_refused():
    bad = document(statement(), statement(Condition={"NumericLessThan": {"s3:TlsVersion": "1.2"}}))
    resources = [
        {"arn": "arn:aws:s3:::b/k", "account": "111122223333"},
        {"arn": "arn:aws:s3:::c/k", "account": "111122223333", "policy": document(statement())},
    ]
    with open(data("account.json")) as it:
        export = json.load(it)
    export["Policies"][2]["PolicyVersionList"][0]["Document"] = bad
    names = file("")
    made = world("--actions", file("s3:GetObject"), "--resources", file(resources), "--names", names, file(export))
    _, said = aws("check", "--names", names, given=json.dumps(made), status=1)
    lines = sorted(line[len("iamsim-aws: ") :] for line in said.splitlines())
    same(len(lines), 2, said)
    assert lines[0].startswith("arn:aws:iam::aws:policy/ReadObjects: statement 1: a value of a condition"), lines[0]
    assert lines[0].endswith(
        "(fault 20 BadValue); of arn:aws:iam::111122223333:user/alice, arn:aws:sts::111122223333:assumed-role/deploy/s1"
    ), lines[0]
    assert lines[1].startswith(
        "arn:aws:s3:::c policy: statement 0: a resource's policy has to name a Principal (fault 12"
    ), lines[1]
    out, said = aws("check", "--leave-out", given=json.dumps(made))
    rest = json.loads(out)
    same(
        [it.get("user") or it["role"].split("/")[-1] for it in rest["principals"]],
        [f"{ACCOUNT}user/ops/bob", "audit", "partner", "worker", "people", "chain"],
    )
    same([it["arn"] for it in rest["resources"]], ["arn:aws:s3:::b/k"])
    same(sum(line.startswith("iamsim-aws: left out: ") for line in said.splitlines()), 3, said)
    run([IAMSIM, "check"], out)


def test_a_world_without_refused_documents():
    same(aws("check", given=json.dumps(world(data("account.json")))), ("", ""))


def test_the_organisation_is_collected():
    """A stand-in for the command line of AWS answers as organization.json says."""
    with open(data("organization.json")) as it:
        wanted = json.load(it)
    room = tempfile.mkdtemp(dir=os.environ["TOOLS_TEST_ROOM"])
    stand_in = os.path.join(room, "aws")
    with open(stand_in, "w") as it:
        it.write(
            f"""#!/usr/bin/env python3
import json, sys
with open({data('organization.json')!r}) as it:
    given = json.load(it)
name, words = sys.argv[2], dict(zip(sys.argv[3::2], sys.argv[4::2]))
if name == "describe-organization":
    found = {{"Organization": {{"Id": given["id"], "MasterAccountId": given["management"]}}}}
elif name == "list-parents":
    found = {{"Parents": given["parents"][words["--child-id"]]}}
elif name == "list-policies-for-target":
    found = {{"Policies": [it for it in given["targets"][words["--target-id"]] if it["Type"] == words["--filter"]]}}
else:
    [policy] = [it for it in given["policies"] if it["PolicySummary"]["Id"] == words["--policy-id"]]
    found = {{"Policy": policy}}
print(json.dumps(found))
"""
        )
    os.chmod(stand_in, 0o755)
    path = f"{room}:{os.environ['PATH']}"
    out, _ = run(["env", f"PATH={path}", AWS, "organization", "111122223333", "444455556666", "999900001111"])
    found = json.loads(out)
    by_id = lambda list_of: sorted(list_of, key=lambda it: it["PolicySummary"]["Id"])
    same(by_id(found.pop("policies")), by_id(wanted.pop("policies")))
    same(found, wanted)
