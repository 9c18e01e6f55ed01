#!/usr/bin/env python3
"""Makes a log of CloudTrail as S3 lays it out, an export that it fits and a draft, the same bytes each time.

usage: bench/logs.py FOLDER [--events N] [--distinct]

FOLDER has `AWSLogs`, `export.json` and `draft.json` afterwards. Half of the events are of objects, others of keys, tables, roles and
instances, by 60 users and by sessions of 120 roles; a policy asks for aws:SourceIp. Of 20,000 objects some are called far more often
than others, and sessions keep their addresses; with --distinct nearly each event is a request of its own.
"""

import argparse
import gzip
import json
import os
import random

ACCOUNT, REGION = "111122223333", "eu-west-1"
PER_FILE = 2000
USERS = [f"arn:aws:iam::{ACCOUNT}:user/user-{n}" for n in range(60)]
ROLES = [f"arn:aws:iam::{ACCOUNT}:role/app/role-{n}" for n in range(120)]
AGENT = "[Boto3/1.34.51 md/Botocore#1.34.51 ua/2.0 os/linux#5.10.209 md/arch#x86_64 lang/python#3.11.6]"
FIXED = {
    "eventVersion": "1.09",
    "awsRegion": REGION,
    "userAgent": AGENT,
    "responseElements": None,
    "additionalEventData": {
        "SignatureVersion": "SigV4",
        "CipherSuite": "TLS_AES_128_GCM_SHA256",
        "bytesTransferredIn": 0,
    },
    "readOnly": True,
    "eventType": "AwsApiCall",
    "managementEvent": False,
    "recipientAccountId": ACCOUNT,
    "eventCategory": "Data",
    "tlsDetails": {"tlsVersion": "TLSv1.3", "cipherSuite": "TLS_AES_128_GCM_SHA256"},
}


def user(arn):
    return {
        "type": "IAMUser",
        "principalId": "AIDA",
        "arn": arn,
        "accountId": ACCOUNT,
        "userName": arn.rpartition("/")[2],
    }


def session(role, number):
    name, own = role.rpartition("/")[2], f"i-{number:017x}"
    issuer = {"type": "Role", "principalId": "AROA", "arn": role, "accountId": ACCOUNT, "userName": name}
    attributes = {"creationDate": "2026-01-05T09:00:00Z", "mfaAuthenticated": "false"}
    context = {"sessionIssuer": issuer, "webIdFederationData": {}, "attributes": attributes}
    arn = f"arn:aws:sts::{ACCOUNT}:assumed-role/{name}/{own}"
    return {
        "type": "AssumedRole",
        "principalId": f"AROA:{own}",
        "arn": arn,
        "accountId": ACCOUNT,
        "sessionContext": context,
    }


def caller(some, is_distinct):
    """Who calls, and from where."""
    if some.random() < 0.2:
        number = some.randrange(60)
        who = user(USERS[number])
    else:
        number = some.randrange(5000)
        who = session(ROLES[number % 120], number)
    at = some.randrange(1 << 16) if is_distinct else number % 300
    return who, f"10.{at >> 8}.{at & 255}.7"


def called(some, is_distinct):
    """Service, name, parameters and resources of a call."""
    kind = some.random()
    if kind < 0.5:
        number = some.randrange(1 << 30) if is_distinct else min(int(some.paretovariate(0.6)), 20000)
        bucket, key = f"bucket-{number % 40}", f"p/{number}"
        arn = f"arn:aws:s3:::{bucket}"
        resources = [{"type": "AWS::S3::Object", "ARN": f"{arn}/{key}"}]
        resources += [{"accountId": ACCOUNT, "type": "AWS::S3::Bucket", "ARN": arn}]
        name = some.choice(["GetObject", "GetObject", "PutObject", "HeadObject"])
        return "s3", name, {"bucketName": bucket, "key": key, "Host": f"{bucket}.s3.{REGION}.amazonaws.com"}, resources
    if kind < 0.65:
        key = f"arn:aws:kms:{REGION}:{ACCOUNT}:key/{some.randrange(30):08x}"
        resources = [{"accountId": ACCOUNT, "type": "AWS::KMS::Key", "ARN": key}]
        return "kms", some.choice(["Decrypt", "GenerateDataKey"]), {"keyId": key}, resources
    if kind < 0.8:
        return "dynamodb", some.choice(["GetItem", "PutItem", "Query"]), {"tableName": f"t-{some.randrange(50)}"}, None
    if kind < 0.9:
        return "sts", "AssumeRole", {"roleArn": some.choice(ROLES), "roleSessionName": "x"}, None
    return "ec2", "DescribeInstances", {"instancesSet": {}, "filterSet": {}}, None


def event(some, number, is_distinct):
    who, address = caller(some, is_distinct)
    service, name, parameters, resources = called(some, is_distinct)
    made = {
        **FIXED,
        "userIdentity": who,
        "eventTime": f"2026-01-{number % 28 + 1:02}T{number % 24:02}:{number % 60:02}:00Z",
        "eventSource": f"{service}.amazonaws.com",
        "eventName": name,
        "sourceIPAddress": address,
        "requestParameters": parameters,
        "requestID": f"{number:016x}",
        "eventID": f"{number:08x}-0000-4000-8000-000000000000",
    }
    return {**made, "resources": resources} if resources else made


def document(*statements):
    return {"Version": "2012-10-17", "Statement": list(statements)}


def allow(actions):
    return {"Effect": "Allow", "Action": actions, "Resource": "*"}


OUTSIDE = {
    "Effect": "Deny",
    "Action": "*",
    "Resource": "*",
    "Condition": {"NotIpAddress": {"aws:SourceIp": "10.0.0.0/8"}},
}
POLICIES = {
    "Data": document(allow("s3:*"), allow(["kms:Decrypt", "kms:GenerateDataKey"])),
    "Rest": document(allow(["dynamodb:*", "sts:AssumeRole", "ec2:Describe*"]), OUTSIDE),
}
DRAFT = document(allow("s3:*"), allow("kms:Decrypt"))


def export():
    arns = {f"arn:aws:iam::{ACCOUNT}:policy/{name}": it for name, it in POLICIES.items()}
    attached = [{"PolicyName": it.rpartition("/")[2], "PolicyArn": it} for it in arns]
    trust = document({"Effect": "Allow", "Principal": {"AWS": ACCOUNT}, "Action": "sts:AssumeRole"})
    users = [{"Arn": it, "UserName": it.rpartition("/")[2], "AttachedManagedPolicies": attached} for it in USERS]
    roles = [
        {
            "Arn": it,
            "RoleName": it.rpartition("/")[2],
            "AssumeRolePolicyDocument": trust,
            "AttachedManagedPolicies": attached,
        }
        for it in ROLES
    ]
    policies = [
        {"Arn": arn, "PolicyVersionList": [{"IsDefaultVersion": True, "Document": it}]} for arn, it in arns.items()
    ]
    return {"UserDetailList": users, "GroupDetailList": [], "RoleDetailList": roles, "Policies": policies}


def write(path, value):
    with open(path, "w") as it:
        json.dump(value, it)


def main():
    options = argparse.ArgumentParser()
    options.add_argument("folder")
    options.add_argument("--events", type=int, default=1000000)
    options.add_argument("--distinct", action="store_true")
    given = options.parse_args()
    logs = os.path.join(given.folder, "AWSLogs", ACCOUNT, "CloudTrail", REGION, "2026", "01", "05")
    os.makedirs(logs)
    write(os.path.join(given.folder, "export.json"), export())
    write(os.path.join(given.folder, "draft.json"), DRAFT)
    some = random.Random(1)
    for first in range(0, given.events, PER_FILE):
        numbers = range(first, min(first + PER_FILE, given.events))
        name = f"{ACCOUNT}_CloudTrail_{REGION}_20260105T0000Z_{first // PER_FILE:06}.json.gz"
        with gzip.open(os.path.join(logs, name), "wt", compresslevel=1) as it:
            json.dump({"Records": [event(some, n, given.distinct) for n in numbers]}, it)


if __name__ == "__main__":
    main()
