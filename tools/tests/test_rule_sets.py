"""The rule sets of rules/: each by the commands of its own comments, on exports that keep it and that break it."""

import os
import re
import subprocess
import tempfile

from harness import EXAMPLES, TOOLS, document, file, same, statement

SETS = os.path.join(os.path.dirname(EXAMPLES), "rules")
ACCOUNT = "111122223333"
IAM = f"arn:aws:iam::{ACCOUNT}:"
OF_AWS = "aws-service-role/"
SUPPORT = f"{OF_AWS}support.amazonaws.com/AWSServiceRoleForSupport"
LOGS, KEY = "arn:aws:s3:::company-logs", f"arn:aws:kms:eu-west-1:{ACCOUNT}:key/7c1d"
MFA = "aws:MultiFactorAuthPresent"


def names():
    return sorted(it for it in os.listdir(SETS) if it.endswith(".txt") and it != "actions.txt")


def text_of(name):
    with open(os.path.join(SETS, name), encoding="utf-8") as it:
        return it.read()


def trust(principal):
    return document({"Effect": "Allow", "Principal": principal, "Action": "sts:AssumeRole"})


def role(path, trusted, *statements):
    policies = [{"PolicyName": "Own", "PolicyDocument": document(*statements)}] if statements else []
    own = {"RoleName": path.split("/")[-1], "Arn": f"{IAM}role/{path}", "Path": f"/{path}".rpartition("/")[0] + "/"}
    return {**own, "RolePolicyList": policies, "AssumeRolePolicyDocument": trust(trusted)}


def export(*statements, roles=()):
    """The export of an account with the user ann, the role of AWS's support, and these roles."""
    ann = {"UserName": "ann", "Arn": f"{IAM}user/ann", "Path": "/", "GroupList": []}
    ann["UserPolicyList"] = [{"PolicyName": "Own", "PolicyDocument": document(*statements)}]
    every = [role(SUPPORT, {"Service": "support.amazonaws.com"}), *roles]
    return {"UserDetailList": [ann], "GroupDetailList": [], "RoleDetailList": every, "Policies": []}


def resource(arn, principal, action="*", **more):
    policy = document({"Effect": "Allow", "Principal": principal, "Action": action, "Resource": [arn, f"{arn}/*"]})
    return {"arn": arn, "account": ACCOUNT, "policy": policy, **more}


def named(arn, operator="ArnLike"):
    """A bucket that everybody may read whose ARN is so."""
    made = resource(LOGS, "*", "s3:GetObject")
    made["policy"]["Statement"][0]["Condition"] = {operator: {"aws:PrincipalArn": arn}}
    return made


def asked(name, given, resources):
    """What the commands say that the comments of a set have: (status, answer, what is told) of each."""
    room = tempfile.mkdtemp(dir=os.environ["TOOLS_TEST_ROOM"])
    for it in os.listdir(SETS):
        os.symlink(os.path.join(SETS, it), os.path.join(room, it))
    for path, value in (("export.json", given), ("resources.json", resources)):
        os.symlink(file(value), os.path.join(room, path))
    surroundings = {**os.environ, "PATH": f"{TOOLS}:{os.environ['PATH']}"}
    found = []
    for line in re.findall(r"^#   (\S.*)$", text_of(name), re.M):
        words = {"cwd": room, "env": surroundings, "capture_output": True, "encoding": "utf-8"}
        ran = subprocess.run(line, shell=True, **words)
        if line.startswith("iamsim-aws"):
            found.append((ran.returncode, ran.stdout, ran.stderr))
        else:
            same((ran.returncode, ran.stderr), (0, ""), line)
    return found


def without(action, operator="Bool", value="false"):
    """Statements that allow an action, and deny everything by a condition on the second factor."""
    return [statement(action=action), statement("Deny", Condition={operator: {MFA: value}})]


def own_or(name):
    """That ann may make keys of her own, or of a further user."""
    return statement(action="iam:*", resource=f"{IAM}user/{name}")


def not_passed(path):
    """That some roles are kept from being passed."""
    return statement("Deny", "iam:PassRole", f"{IAM}role/{path}")


ADMIN = role("admin", {"AWS": f"{IAM}root"}, statement(action="iam:*"))
KEEPER = role("log-keeper", {"Service": "lambda.amazonaws.com"}, statement(action=["s3:*", "cloudtrail:*"]))
KEPT = resource(LOGS, {"AWS": KEEPER["Arn"]}, "s3:*")
READER = statement(action=["s3:Get*", "cloudtrail:Get*", "kms:Decrypt"])
PASSES = statement(action="iam:PassRole", resource=f"{IAM}role/app/*")
ASSUMES = statement(action="sts:AssumeRole", resource=f"{IAM}role/admin")
# Of each set the exports that are tried, with what --resources gives, and the states of the rules by each of its commands.
TRIED = {
    "no-public-access.txt": [
        (export(READER), [resource(LOGS, {"AWS": "444455556666"})], ["kept"]),
        (export(READER), [resource(LOGS, "*", "s3:GetObject")], ["broken"]),
        (export(READER, roles=[role("open", {"AWS": "*"})]), [], ["broken"]),
        (export(READER), [named("arn:aws:iam::*:role/ci")], ["broken"]),
        (export(READER), [named("arn:*:role/app/ci*", "StringLike")], ["broken"]),
        # ArnLike compares part by part: an ARN has six, and nobody is meant.
        (export(READER), [named("arn:*:role/app/ci*")], ["kept"]),
        (export(READER), [named("*role/ci", "StringLike")], ["broken"]),
        (export(READER), [named(f"{IAM}user/ann")], ["kept"]),
        (export(READER), [named("arn:aws:iam::444455556666:role/*")], ["kept"]),
    ],
    "no-administrator-without-mfa.txt": [
        (export(*without("iam:*", "BoolIfExists")), [], ["kept", "kept"]),
        (export(statement(action="iam:*", Condition={"Bool": {MFA: "true"}})), [], ["kept", "kept"]),
        (export(*without("iam:*")), [], ["broken", "kept"]),
        (export(*without("iam:*", "Null", "true")), [], ["kept", "broken"]),
        (export(ASSUMES, roles=[ADMIN]), [], ["broken", "broken"]),
        (export({**ASSUMES, "Condition": {"Bool": {MFA: "true"}}}, roles=[ADMIN]), [], ["kept", "kept"]),
    ],
    "no-passrole-on-everything.txt": [
        (export(PASSES), [], ["kept"]),
        (export({**PASSES, "Resource": "*"}), [], ["broken"]),
        (export({**PASSES, "Resource": f"{IAM}role/*"}), [], ["broken"]),
        (export({**PASSES, "Resource": "*"}, not_passed(f"{OF_AWS}*")), [], ["broken"]),
        (export({**PASSES, "Resource": "*"}, not_passed("*")), [], ["kept"]),
    ],
    "logs-changed-by-one-role-alone.txt": [
        (export(READER, roles=[KEEPER]), [KEPT], ["kept"]),
        (export(READER, statement(action=["s3:*", "cloudtrail:*"]), roles=[KEEPER]), [KEPT], ["broken"]),
    ],
    "no-access-keys-for-others.txt": [
        (export(own_or("${aws:username}")), [], ["kept"]),
        (export(own_or("*")), [], ["broken"]),
    ],
    "no-keys-deleted.txt": [
        (export(READER), [resource(KEY, {"AWS": f"{IAM}user/ann"}, "kms:Decrypt", sealed=True)], ["kept"]),
        (export(READER), [resource(KEY, {"AWS": f"{IAM}user/ann"}, "kms:*", sealed=True)], ["broken"]),
    ],
}


def test_each_set_is_tried():
    same(names(), sorted(TRIED))


def test_what_keeps_and_what_breaks_each_set():
    """All rules of a set are kept, or all are broken, and none is taken for a slip."""
    for name, tries in TRIED.items():
        rules = len(re.findall("^never ", text_of(name), re.M))
        for n, (given, resources, states) in enumerate(tries):
            found = asked(name, given, resources)
            same(len(found), len(states), name)
            for (status, out, said), state in zip(found, states):
                same(status, {"kept": 0, "broken": 3}[state], f"{name} {n}: {out}{said}")
                counts = {"kept": 0, "broken": 0, "empty": 0, "open": 0, state: rules}
                last = ", ".join(f"{count} {it}" for it, count in counts.items())
                same(out.splitlines()[-1], f"{rules} rules: {last}", f"{name} {n}: {out}{said}")
                assert "is it a slip" not in said, f"{name} {n}: {said}"


def test_a_set_that_is_not_filled_in_is_refused():
    for name in names():
        rules = re.sub("^#.*", "", text_of(name), flags=re.M)
        if "#" in rules:
            words = ["iamsim-aws", "rules", os.path.join(SETS, name), file(TRIED[name][0][0])]
            ran = subprocess.run([os.path.join(TOOLS, words[0]), *words[1:]], capture_output=True, encoding="utf-8")
            same((ran.returncode, ran.stdout), (1, ""), f"{name}: {ran.stderr}")


def test_the_actions_of_all_sets_are_listed():
    found = {line.split()[2] for it in names() for line in text_of(it).splitlines() if line.startswith("never ")}
    listed = text_of("actions.txt").splitlines()[1:]
    same(listed, sorted(found - {"*"}))
