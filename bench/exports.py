#!/usr/bin/env python3
"""Makes exports of accounts to measure iamsim-aws with, the same bytes each time.

Each is some 400 KB: 40 users, 60 roles, 8 groups, and 80 managed policies of three versions each. With --estate each has 250 users
and 60 roles, and beside them stand the files actions, resources.json (240 an account) and organization.json (three levels of SCPs).
"""

import argparse
import json
import os
import random

from worlds import SERVICES, TEAMS, THINGS, VERBS, allow, deny, document


def account_of(n):
    return f"{100000000001 + n}"


def managed(rng, account, n):
    """A managed policy, which has its older versions too."""
    bucket = f"arn:aws:s3:::team{n}"
    versions = []
    for it in range(3):
        few = [
            allow(
                [f"{rng.choice(SERVICES)}:{rng.choice(VERBS)}{rng.choice(THINGS)}" for _ in range(4)], f"{bucket}/{k}/*"
            )
            for k in range(3)
        ]
        own = allow(
            ["s3:GetObject", "s3:ListBucket"],
            [bucket, f"{bucket}/*"],
            Condition={"StringEquals": {"aws:PrincipalTag/team": rng.choice(TEAMS)}},
        )
        versions.append(
            {
                "Document": document(*few, own),
                "VersionId": f"v{3 - it}",
                "IsDefaultVersion": it == 0,
                "CreateDate": "2026-01-05T10:00:00+00:00",
            }
        )
    return {
        "PolicyName": f"team{n}",
        "PolicyId": f"ANPA{n:016}",
        "Arn": f"arn:aws:iam::{account}:policy/team{n}",
        "Path": "/",
        "DefaultVersionId": "v3",
        "AttachmentCount": 3,
        "IsAttachable": True,
        "PolicyVersionList": versions,
    }


def some_of(rng, policies, count):
    return [{"PolicyName": it["PolicyName"], "PolicyArn": it["Arn"]} for it in rng.sample(policies, count)]


def trust(rng, account, count):
    """A service, the own account, or one of the others with an external id."""
    other = account_of(rng.randrange(count))
    kinds = [
        {"Principal": {"Service": "lambda.amazonaws.com"}},
        {"Principal": {"AWS": f"arn:aws:iam::{account}:root"}},
        {"Principal": {"AWS": other}, "Condition": {"StringEquals": {"sts:ExternalId": "agreed"}}},
    ]
    return document({"Effect": "Allow", "Action": "sts:AssumeRole", **rng.choice(kinds)})


def entity(kind, number, account):
    """What a user, group or role of a number has in an export, whatever it is."""
    name, prefix = f"{kind[0].lower()}{number}", {"User": "AIDA", "Group": "AGPA", "Role": "AROA"}[kind]
    arn = f"arn:aws:iam::{account}:{kind.lower()}/{name}"
    named = {f"{kind}Name": name, f"{kind}Id": f"{prefix}{number:016}"}
    return {"Path": "/", **named, "Arn": arn, "CreateDate": "2026-01-05T10:00:00+00:00"}


def export(n, count, users_of=40):
    """The export of an account, of so many."""
    rng, account = random.Random(n), account_of(n)
    policies = [managed(rng, account, it) for it in range(80)]
    inline = {"PolicyName": "own", "PolicyDocument": document(allow("s3:*", "arn:aws:s3:::homes/${aws:username}/*"))}
    users = [
        {
            **entity("User", it, account),
            "GroupList": [f"g{it % 8}"],
            "UserPolicyList": [inline],
            "AttachedManagedPolicies": some_of(rng, policies, 2),
            "Tags": [{"Key": "team", "Value": rng.choice(TEAMS)}],
        }
        for it in range(users_of)
    ]
    groups = [
        {**entity("Group", it, account), "GroupPolicyList": [], "AttachedManagedPolicies": some_of(rng, policies, 4)}
        for it in range(8)
    ]
    assume = {"PolicyName": "assume", "PolicyDocument": document(allow("sts:AssumeRole", "arn:aws:iam::*:role/r1*"))}
    roles = [
        {
            **entity("Role", it, account),
            "InstanceProfileList": [],
            "AssumeRolePolicyDocument": trust(rng, account, count),
            "RolePolicyList": [assume] if it % 5 == 0 else [],
            "AttachedManagedPolicies": some_of(rng, policies, 3),
            "RoleLastUsed": {},
            "Tags": [{"Key": "team", "Value": rng.choice(TEAMS)}],
        }
        for it in range(60)
    ]
    return {"UserDetailList": users, "GroupDetailList": groups, "RoleDetailList": roles, "Policies": policies}


def write(folder, count):
    """The paths of the exports of so many accounts."""
    os.makedirs(folder, exist_ok=True)
    paths = [os.path.join(folder, f"{account_of(n)}.json") for n in range(count)]
    for n, path in enumerate(paths):
        with open(path, "w") as it:
            json.dump(export(n, count), it, indent=1)
    return paths


ACTIONS = [
    "s3:GetObject",
    "s3:PutObject",
    "kms:Decrypt",
    "kms:Encrypt",
    "sqs:SendMessage",
    "secretsmanager:GetSecretValue",
    "sts:AssumeRole",
    "sts:TagSession",
]
AWS = {
    "AdministratorAccess": allow("*", "*"),
    "Data": allow(["s3:*", "sqs:*", "secretsmanager:*"], "*"),
    "Keys": allow(["kms:*", "sts:*"], "*"),
}


def with_aws(rng, made):
    """The export with policies of AWS's own: some have all, more have all of some services in their own account."""
    for name, statement in AWS.items():
        arn = f"arn:aws:iam::aws:policy/{name}"
        versions = [{"Document": document(statement), "VersionId": "v1", "IsDefaultVersion": True}]
        made["Policies"].append(
            {
                "PolicyName": name,
                "PolicyId": f"ANPA{name:.16}",
                "Arn": arn,
                "DefaultVersionId": "v1",
                "PolicyVersionList": versions,
            }
        )
    for it in made["UserDetailList"] + made["RoleDetailList"]:
        names = (
            ["AdministratorAccess"]
            if rng.random() < 0.15
            else [name for name in ("Data", "Keys") if rng.random() < 0.4]
        )
        it["AttachedManagedPolicies"] += [
            {"PolicyName": name, "PolicyArn": f"arn:aws:iam::aws:policy/{name}"} for name in names
        ]
    return made


def resources(n, count):
    """The resources of an account: objects, keys, queues and secrets; one in seven grants to another account too."""
    rng, account, found = random.Random(1000 + n), account_of(n), []
    for it in range(240):
        own, other = f"arn:aws:iam::{account}:root", f"arn:aws:iam::{account_of(rng.randrange(count))}:root"
        service = ("s3", "s3", "kms", "sqs", "secretsmanager")[it % 5]
        arn = {
            "s3": f"arn:aws:s3:::team{it % 80}-{account}/{it}",
            "kms": f"arn:aws:kms:eu-west-1:{account}:key/{it:08}",
        }.get(service)
        arn = arn or f"arn:aws:{service}:eu-west-1:{account}:" + (
            f"queue{it}" if service == "sqs" else f"secret:data{it}"
        )
        grants = (
            [{"Effect": "Allow", "Principal": {"AWS": own}, "Action": f"{service}:*", "Resource": "*"}]
            if service == "kms"
            else []
        )
        grants += (
            [{"Effect": "Allow", "Principal": {"AWS": other}, "Action": f"{service}:*", "Resource": "*"}]
            if it % 7 == 0
            else []
        )
        found.append(
            {
                "arn": arn,
                "account": account,
                **({"sealed": True} if service == "kms" else {}),
                **({"policy": document(*grants)} if grants else {}),
            }
        )
    return found


def organization(count):
    """Three levels: the root, five units below it, and the accounts."""
    texts = {
        "full": [allow("*", "*")],
        "leave": [deny("organizations:LeaveOrganization", "*")],
        "logs": [deny("s3:PutObject", "arn:aws:s3:::*-logs/*")],
        "region": [deny("sqs:*", "*", Condition={"StringNotEquals": {"aws:PrincipalTag/team": TEAMS}})],
    }
    policies = [
        {"PolicySummary": {"Id": f"p-{it}", "Name": it}, "Content": json.dumps(document(*of))}
        for it, of in texts.items()
    ]
    kind, units = "SERVICE_CONTROL_POLICY", [f"ou-{it}" for it in range(5)]
    targets = {
        it: ["full", more]
        for of, more in ((["r-root"], "leave"), (units, "logs"), ([account_of(n) for n in range(count)], "region"))
        for it in of
    }
    parents = {
        **{it: [{"Id": "r-root"}] for it in units},
        **{account_of(n): [{"Id": units[n % 5]}] for n in range(count)},
    }
    return {
        "id": "o-example0001",
        "management": "999999999999",
        "parents": parents,
        "policies": policies,
        "targets": {it: [{"Id": f"p-{name}", "Type": kind} for name in of] for it, of in targets.items()},
    }


def write_estate(folder, count):
    """The words of 'iamsim-aws estate' for so many accounts."""
    os.makedirs(folder, exist_ok=True)
    made = {f"{account_of(n)}.json": with_aws(random.Random(n), export(n, count, 250)) for n in range(count)}
    beside = {
        "resources.json": [it for n in range(count) for it in resources(n, count)],
        "organization.json": organization(count),
    }
    for name, value in {**made, **beside}.items():
        with open(os.path.join(folder, name), "w") as it:
            json.dump(value, it, indent=1)
    with open(os.path.join(folder, "actions"), "w") as it:
        it.write("\n".join(ACTIONS) + "\n")
    words = [
        word
        for name in ("actions", "resources.json", "organization.json")
        for word in (f"--{name.split('.')[0]}", os.path.join(folder, name))
    ]
    return [os.path.join(folder, it) for it in made] + words


def main():
    parser = argparse.ArgumentParser(description=__doc__, formatter_class=argparse.RawDescriptionHelpFormatter)
    parser.add_argument("--estate", action="store_true", help="the files of 'iamsim-aws estate' too")
    parser.add_argument("folder", metavar="FOLDER")
    parser.add_argument("accounts", metavar="ACCOUNTS", nargs="?", type=int, default=40, help="how many (default: 40)")
    asked = parser.parse_args()
    (write_estate if asked.estate else write)(asked.folder, asked.accounts)


if __name__ == "__main__":
    main()
