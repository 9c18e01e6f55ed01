#!/usr/bin/env python3
"""Makes the worlds that are measured, the same bytes each time: worlds.py FOLDER [NAME..]"""

import argparse
import json
import os
import random

VERSION = "2012-10-17"
HOME, PARTNER, VENDOR = "100000000001", "200000000002", "300000000003"
SERVICES = "s3 sqs sns kms iam ec2 dynamodb lambda logs secretsmanager".split()
VERBS = "Get Put List Delete Describe Create Update Tag Start Stop".split()
THINGS = "Object Bucket Queue Topic Key Role Table Function Stream Secret Instance Item".split()
TEAMS = "web data ops mobile audit".split()
STAGES = "prod test dev".split()


def document(*statements):
    return {"Version": VERSION, "Statement": list(statements)}


def allow(action, resource=None, **more):
    return {"Effect": "Allow", "Action": action, **({} if resource is None else {"Resource": resource}), **more}


def deny(action, resource=None, **more):
    return {**allow(action, resource, **more), "Effect": "Deny"}


def world(principals, actions, resources, accounts=None, **more):
    return {
        "moment": 1780000000,
        "accounts": accounts or [{"id": HOME}],
        "principals": principals,
        "actions": actions,
        "resources": resources,
        **more,
    }


def user(name, identity=(), account=HOME, **more):
    return {"user": f"arn:aws:iam::{account}:user/{name}", "identity": list(identity), **more}


def session(path, identity=(), account=HOME, **more):
    return {"role": f"arn:aws:iam::{account}:role/{path}", "session": "run", "identity": list(identity), **more}


def actions(count):
    """So many different actions, spread over the services."""
    names = []
    for n in range(count):
        service, rest = SERVICES[n % len(SERVICES)], n // len(SERVICES)
        names.append(f"{service}:{VERBS[rest % 10]}{THINGS[rest // 10 % 12]}{rest // 120 or ''}")
    return names


def arn(n, account=HOME):
    """The ARN of resource n, of eight services in turn."""
    team, stage = TEAMS[n % 5], STAGES[n % 3]
    regional = f"eu-central-1:{account}"
    return [
        f"arn:aws:s3:::{team}-{stage}/home/u{n % 40}/{n}.csv",
        f"arn:aws:s3:::{team}-logs/{stage}/{n}",
        f"arn:aws:sqs:{regional}:{team}-{stage}-{n}",
        f"arn:aws:dynamodb:{regional}:table/{team}-{stage}-{n}",
        f"arn:aws:kms:{regional}:key/{n:08}-0000",
        f"arn:aws:lambda:{regional}:function:{stage}-{team}-{n}",
        f"arn:aws:secretsmanager:{regional}:secret:{stage}/{team}/{n}",
        f"arn:aws:iam::{account}:role/{team}/{stage}-{n}",
    ][n % 8]


def organisation():
    """Three levels of SCPs."""
    everything = allow("*", "*")
    admins = {"ArnNotLike": {"aws:PrincipalArn": "arn:aws:iam::*:*/admin/*"}}
    abroad = {"StringNotEquals": {"aws:RequestedRegion": ["eu-central-1", "eu-west-1"]}}
    others = {
        "Effect": "Deny",
        "NotAction": [f"{it}:*" for it in SERVICES[:9]] + ["secretsmanager:Get*"],
        "Resource": "*",
    }
    return [
        [document(everything)],
        [document(everything, deny(["iam:Delete*", "kms:Delete*"], "*", Condition=admins))],
        [document(everything, deny("*", "*", Condition=abroad), others)],
    ]


CONDITIONS = [
    {"StringEquals": {"aws:ResourceTag/team": "${aws:PrincipalTag/team}"}},
    {"StringEquals": {"aws:PrincipalTag/team": ["web", "ops"]}},
    {"StringLike": {"aws:ResourceTag/stage": ["prod*", "test"]}},
    {"Bool": {"aws:MultiFactorAuthPresent": "true"}},
    {"NumericLessThan": {"aws:MultiFactorAuthAge": "1800"}},
    {"IpAddress": {"aws:SourceIp": ["10.0.0.0/8", "2001:db8::/32"]}},
    {"DateGreaterThan": {"aws:CurrentTime": "2025-06-01T00:00:00Z"}},
    {"ForAnyValue:StringEquals": {"groups": ["ops", "audit"]}},
    {"Null": {"aws:ResourceTag/team": "false"}, "StringNotEquals": {"aws:ResourceTag/stage": "prod"}},
]


def identity_statement(dice, account):
    service, team, stage = dice.choice(SERVICES), dice.choice(TEAMS), dice.choice(STAGES)
    pattern = dice.choice(
        [
            f"{service}:{dice.choice(VERBS)}*",
            f"{service}:*",
            [f"{service}:Get*", f"{service}:List*"],
            f"{service}:*{dice.choice(THINGS)}",
            "*",
        ]
    )
    where = dice.choice(
        [
            "*",
            f"arn:aws:s3:::{team}-*",
            [f"arn:aws:s3:::{team}-{stage}", f"arn:aws:s3:::{team}-{stage}/*"],
            "arn:aws:s3:::*/home/${aws:username}/*",
            "arn:aws:s3:::${aws:PrincipalTag/team, 'none'}-*",
            f"arn:aws:dynamodb:*:{account}:table/{team}-*",
            f"arn:aws:*:*:*:*{stage}*",
            f"arn:aws:sqs:eu-*-?:{account}:{team}-{stage}-*",
            f"arn:aws:secretsmanager:*:*:secret:{stage}/{team}/*",
        ]
    )
    more = {"Condition": dice.choice(CONDITIONS)} if dice.random() < 0.3 else {}
    if dice.random() < 0.15:
        return deny(dice.choice([f"{service}:Delete*", f"*:Delete{dice.choice(THINGS)}"]), where, **more)
    return allow(pattern, where, **more)


def member(dice, n, least, most):
    """A user or a session of one of three accounts, with policies, a boundary now and then, tags."""
    account = [HOME, PARTNER, VENDOR][n % 3]
    make, path = (user, "staff") if n % 2 else (session, "app")
    documents = [
        document(*[identity_statement(dice, account) for _ in range(dice.randint(least, most) // 2)]) for _ in range(2)
    ]
    it = make(f"{dice.choice([path, 'admin'])}/p{n}", documents, account)
    if n % 3 == 0:
        it["boundary"] = document(
            allow([f"{s}:*" for s in SERVICES[:7]], "*"), deny("iam:*", "*", Condition=CONDITIONS[3])
        )
    if "role" in it and n % 5 == 0:
        it["sessionPolicies"] = [document(allow(["s3:*", "sqs:*", "dynamodb:*"], "*")), document(allow("*:Get*", "*"))]
    it["context"] = {
        "aws:PrincipalTag/team": dice.choice(TEAMS),
        "aws:MultiFactorAuthPresent": dice.random() < 0.5,
        "aws:MultiFactorAuthAge": dice.randint(0, 7200),
        "groups": dice.sample(TEAMS, 2),
        "aws:SourceIp": dice.choice(["10.2.3.4", "198.51.100.7", "2001:db8::9"]),
    }
    return it


def owned(dice, n, principals):
    """A resource of one of three accounts; every other has a policy, some are sealed or under RCPs."""
    account = [HOME, PARTNER, VENDOR][n % 3]
    it = {
        "arn": arn(n, account),
        "account": account,
        "context": {"aws:ResourceTag/team": dice.choice(TEAMS), "aws:ResourceTag/stage": dice.choice(STAGES)},
    }
    if n % 2 == 0:
        names = [p.get("user") or p["role"] for p in dice.sample(principals, 3)]
        same_team = {"StringNotEquals": {"aws:PrincipalTag/team": "${aws:ResourceTag/team}"}}
        it["policy"] = document(
            allow(["s3:Get*", "kms:Get*", "sqs:*"], "*", Principal={"AWS": names}),
            allow("*:List*", Principal={"AWS": [HOME, f"arn:aws:iam::{account}:root"]}),
            deny("*:Delete*", Principal="*", Condition=same_team),
            *([deny("*:Put*", NotPrincipal={"AWS": [*names, account]})] if n % 8 == 0 else []),
        )
    if n % 8 == 4:
        it["sealed"] = True
    if n % 10 == 3:
        outside = {"StringNotEqualsIfExists": {"aws:PrincipalAccount": [HOME, PARTNER]}}
        everything = allow("*", "*", Principal="*")
        it["control"] = [
            [document(everything)],
            [document(everything, deny("*", "*", Principal="*", Condition=outside))],
        ]
    return it


def company(people, verbs, things, least, most):
    dice = random.Random(people * verbs)
    principals = [member(dice, n, least, most) for n in range(people)]
    accounts = [
        {"id": HOME, "management": True},
        {"id": PARTNER, "org": organisation()},
        {"id": VENDOR, "org": organisation()[:2]},
    ]
    return world(
        principals,
        actions(verbs),
        [owned(dice, n, principals) for n in range(things)],
        accounts,
        context={"aws:RequestedRegion": "eu-central-1"},
    )


def one_user():
    dice = random.Random(3)
    policies = [
        document(*[identity_statement(dice, HOME) for _ in range(20)]),
        document(allow("s3:*", "arn:aws:s3:::*")),
    ]
    ann = user("ann", policies, context={"aws:PrincipalTag/team": "web"})
    return world(
        [ann],
        actions(1500),
        [{"arn": arn(n), "account": HOME} for n in range(2000)],
        [{"id": HOME, "org": organisation()[:1]}],
    )


def many_rules():
    """Some 3,800 statements, of which few match a cell."""
    named = actions(60)

    def far(n):
        return [
            allow(named[n % 60], f"arn:aws:s3:::elsewhere-{n}/*"),
            deny(f"service{n}:*", "*"),
            allow("*", f"arn:aws:dynamodb:*:*:table/none{n}-*"),
            deny(f"{SERVICES[n % 10]}:*", "*", Condition={"StringEquals": {"aws:PrincipalTag/team": f"team{n}"}}),
            deny("*", f"arn:aws:*:*:*:*/far-{n}", Condition={"StringLike": {"aws:ResourceTag/stage": f"s{n}*"}}),
        ][n % 5]

    people = []
    for p in range(8):
        statements = [
            allow(f"{SERVICES[n % 10]}:*", f"arn:aws:*:*:*:*{n % 10}") if n % 25 == 0 else far(1000 * p + n)
            for n in range(360)
        ]
        people.append(
            user(
                f"u{p}",
                [document(*statements[:180]), document(*statements[180:])],
                context={"aws:PrincipalTag/team": "web"},
            )
        )
    org = [[document(allow("*", "*"), *[{**far(50000 + n), "Effect": "Deny"} for n in range(490)])]]
    things = [
        {
            "arn": arn(n),
            "account": HOME,
            "context": {"aws:ResourceTag/stage": STAGES[n % 3]},
            "policy": document(
                *[allow(named[(n + k) % 60], Principal={"AWS": f"arn:aws:iam::{HOME}:user/x{n}-{k}"}) for k in range(6)]
            ),
        }
        for n in range(70)
    ]
    return world(people, named, things, [{"id": HOME, "org": org}])


def wildcards():
    """Patterns of many wildcards against long texts, with variables and without."""
    long = ["a" * (1400 + n) if n % 3 else "ab" * 700 + "a" * n for n in range(60)]
    things = [
        {
            "arn": f"arn:aws:s3:::{text}{'b' if n % 5 == 0 else ''}",
            "account": HOME,
            "context": {"path": "a" * 900 + str(n)},
        }
        for n, text in enumerate(long)
    ]
    patterns = [
        "a*" * 200 + "b",
        "*" + "a?" * 60 + "b*",
        "*" + "a" * 250 + "b*",
        "a*" * 100 + "c",
        "?" * 1400 + "*b",
        "*ab*" * 50 + "aa",
        "*a*" * 100 + "${aws:username}*b",
        "a*" * 60 + "${absent, 'a*'}",
    ]
    people = []
    for p in range(3):
        statements = []
        for n, it in enumerate(patterns):
            make = allow if n % 3 else deny
            statements += [
                make(actions(8)[(n + p) % 8] if n % 2 else "*", f"arn:aws:s3:::{it}"),
                allow("*:" + "*e" * 20 + "t*", f"arn:*:s3:::*{it[:500]}"),
                deny("*", "*", Condition={"StringLike": {"path": "a*" * 100 + f"{n}${{aws:username}}"}}),
            ]
        people.append(user("a" * (p + 1), [document(*statements)]))
    return world(people, actions(8), things)


def late_cell():
    """One cell is allowed, among the last."""
    named, things = actions(100), [{"arn": arn(n), "account": HOME} for n in range(100)]
    people = []
    for p in range(100):
        statements = [allow(f"{SERVICES[n]}:{VERBS[n]}*", f"arn:aws:s3:::none-{p}-{n}/*") for n in range(9)]
        statements.append(deny("*", "arn:aws:s3:::*", Condition={"StringNotEquals": {"aws:PrincipalTag/team": "web"}}))
        if p == 98:
            statements.append(allow(named[97], things[93]["arn"]))
        people.append(user(f"u{p}", [document(*statements)], context={"aws:PrincipalTag/team": "web"}))
    return world(people, named, things)


def many_users():
    accounts = [HOME, PARTNER, VENDOR]
    own = document(allow("s3:*", "arn:aws:s3:::home/${aws:username}/*"))
    people = [user(f"u{n}", [own] if n % 20 == 0 else [], accounts[n % 3]) for n in range(24000)]
    org = [
        [document(allow("*", "*"))],
        [document(allow("*", "*"), deny("s3:Delete*", "*", Condition={"StringLike": {"aws:username": "u*7"}}))],
    ]
    policy = document(
        allow("s3:Get*", Principal={"AWS": PARTNER}),
        deny("s3:Put*", Principal="*", Condition={"StringNotLike": {"aws:PrincipalArn": "arn:aws:iam::*:user/u*0"}}),
    )
    things = [{"arn": f"arn:aws:s3:::home/u{20 * n}/x", "account": HOME, "policy": policy} for n in range(5)]
    named = ["s3:GetObject", "s3:PutObject", "s3:DeleteObject", "s3:ListBucket", "s3:GetBucketAcl"]
    return world(people, named, things, [{"id": HOME}, {"id": PARTNER, "org": org}, {"id": VENDOR, "org": org}])


def tags():
    """Conditions that compare tags of both sides."""
    dice = random.Random(8)
    policy = document(
        allow("*:Get*", "*", Condition={"StringEquals": {"aws:ResourceTag/team": "${aws:PrincipalTag/team}"}}),
        allow("*:Put*", "*", Condition={"StringEquals": {"aws:PrincipalTag/owner": "${aws:ResourceTag/owner}"}}),
        deny(
            "*:Delete*",
            "*",
            Condition={"StringNotLike": {"aws:ResourceTag/path": ["/${aws:PrincipalTag/team}/*", "/all/*"]}},
        ),
        allow("*", "arn:aws:s3:::${aws:PrincipalTag/team}-*"),
    )
    people = [
        session(
            f"r{n}",
            [policy],
            context={"aws:PrincipalTag/team": dice.choice(TEAMS), "aws:PrincipalTag/owner": f"o{n % 50}"},
        )
        for n in range(200)
    ]
    things = [
        {
            "arn": arn(n),
            "account": HOME,
            "context": {
                "aws:ResourceTag/team": dice.choice(TEAMS),
                "aws:ResourceTag/owner": f"o{dice.randint(0, 60)}",
                "aws:ResourceTag/path": f"/{dice.choice([*TEAMS, 'all'])}/{n}",
            },
        }
        for n in range(200)
    ]
    return world(people, actions(25), things)


def half_tags():
    """The same, where half of the keys are left out."""
    dice, made = random.Random(1), tags()
    for it in (*made["principals"], *made["resources"]):
        it["context"] = {key: value for key, value in it["context"].items() if dice.random() < 0.5}
    return made


def many_accounts():
    ids = [f"{n:012}" for n in range(40000)]
    people = [user(f"u{n}", (), ids[-1 - n]) for n in range(40)]
    return world(
        people,
        actions(25),
        [{"arn": f"arn:aws:s3:::b{n}", "account": ids[-1 - n]} for n in range(40)],
        [{"id": it} for it in ids],
    )


def managed_statement(dice):
    service = dice.choice(SERVICES)
    named = [
        f"{service}:{dice.choice(VERBS)}{dice.choice(['*', '*', dice.choice(THINGS)])}"
        for _ in range(dice.randint(1, 4))
    ]
    where = [
        f"arn:aws:{service}:eu-central-1:{HOME}:{dice.choice(TEAMS)}{dice.randint(1, 30)}/*"
        for _ in range(dice.randint(1, 3))
    ]
    make, chance = (allow if dice.random() < 0.94 else deny), dice.random()
    condition = (
        {"StringEquals": {"aws:PrincipalTag/team": dice.choice(TEAMS)}}
        if chance < 0.2
        else {"StringLike": {"aws:userid": "*:${aws:PrincipalTag/team}-*"}}
        if chance < 0.26
        else {"Bool": {"aws:MultiFactorAuthPresent": "true"}}
        if chance < 0.32
        else None
    )
    return make(
        named if dice.random() < 0.85 else f"{service}:*",
        "*" if dice.random() < 0.3 else where,
        **({"Condition": condition} if condition else {}),
    )


def managed(named, things, shared=4, most=None):
    """An account's export: sessions that share managed policies, up to so many each; so many sessions, where that is said."""
    dice = random.Random(len(named) * 7 + 1)
    policies = [document(*[managed_statement(dice) for _ in range(dice.randint(2, 8))]) for _ in range(180)]
    people, count = [], 0
    while len(people) < most if most else count < 3400:
        n, team = len(people), dice.choice(TEAMS)
        own = [document(*[managed_statement(dice) for _ in range(dice.randint(1, 3))])] if dice.random() < 0.5 else []
        identity = dice.sample(policies, dice.randint(1, shared)) + own
        count += sum(len(it["Statement"]) for it in identity)
        people.append(
            session(
                f"{team}/app-{n}",
                identity,
                context={"aws:userid": f"AROA{n:017}:{team}-run", "aws:PrincipalTag/team": team},
            )
        )
        if dice.random() < 0.1:
            people[-1]["boundary"] = document(allow(["s3:*", "sqs:*", "sts:*"], "*"))
    accounts = [{"id": HOME, "org": [[document(allow("*", "*"))]]}, {"id": PARTNER}]
    return world(people, named, things(dice, people), accounts)


def roles(dice, people):
    """Roles with their trust policies, those of the sessions among them."""

    def trust():
        who = dice.choice(
            [
                {"Service": "lambda.amazonaws.com"},
                {"AWS": f"arn:aws:iam::{HOME}:root"},
                {"AWS": dice.choice(people)["role"]},
            ]
        )
        return document(allow("sts:AssumeRole", Principal=who))

    names = [it["role"] for it in people] + [f"arn:aws:iam::{HOME}:role/service/x{n}" for n in range(400)]
    return [{"arn": it, "account": HOME, "sealed": True, "policy": trust()} for it in names]


def plain_resources(count):
    return lambda dice, people: [
        {"arn": f"arn:aws:{s}:eu-central-1:{HOME}:{team}{n}/x{n}", "account": HOME}
        for n in range(1, 1 + count // 20)
        for s in ("s3", "sqs", "kms", "dynamodb")
        for team in TEAMS
    ]


DOMAINS = "sales finance hr marketing logistics support product risk".split()
LOGS = "CloudTrail/*/*.json CloudTrail-Digest/*/*.json Config/*/*.json vpcflowlogs/*/*.log elasticloadbalancing/*/*.log"


def protected():
    """What the policy of an organisation denies: to change logs, to touch what is classified, to replace what was released."""
    classified = ["*/pii", "*/confidential", "*/*_restricted", "quarantine"]
    unclear = {"StringNotEquals": {"aws:PrincipalTag/clearance": "high"}}
    logs = [f"arn:aws:s3:::*-logs-*/AWSLogs/*/{it}.gz" for it in LOGS.split()]
    lake = [f"arn:aws:s3:::*-lake-*/{it}/*" for it in classified]
    kinds = ["jar", "whl", "zip"]
    return document(
        allow("*", "*"),
        deny(["s3:Put*", "s3:Delete*"], [*logs, "arn:aws:s3:::aws-controltower-*-logs-*/*"]),
        deny(["s3:Get*", "s3:Put*", "s3:Delete*"], lake, Condition=unclear),
        deny(["s3:Put*", "s3:Delete*"], [f"arn:aws:s3:::*-artifacts-*/*/releases/*/*.{it}" for it in kinds]),
    )


def domain(name):
    """The managed policy of those who work with the data of a domain."""
    read, there = ["s3:GetObject", "s3:GetObjectVersion"], "arn:aws:s3:::*-lake-*"
    return document(
        allow([*read, "s3:ListBucket"], [f"{there}/curated/{name}/*", f"{there}/consumption/{name}/*", there]),
        allow("s3:PutObject", [f"{there}/raw/{name}/*", f"{there}/curated/{name}/*"]),
        deny(read, [f"{there}/{name}/*/_delta_log/*.crc", f"{there}/*/{name}/*/_temporary/*"]),
    )


def lake_object(dice, n):
    stage, day, print_ = dice.choice(STAGES[:2]), 1 + n % 28, f"{dice.getrandbits(64):016x}"
    kind, of = dice.random(), dice.choice(DOMAINS)
    if kind < 0.8:
        table = dice.choice("orders customers events pii invoices positions_restricted clicks".split())
        part = f"year=2026/month={1 + n % 12:02}/day={day:02}/part-{n:05}-{print_}.c000.snappy.parquet"
        return f"arn:aws:s3:::acme-lake-{stage}/{dice.choice(['raw', 'curated', 'consumption'])}/{of}/{table}/{part}"
    if kind < 0.9:
        log = dice.choice(["CloudTrail", "Config", "vpcflowlogs"])
        file = f"{HOME}/{log}/eu-central-1/2026/11/{day:02}/{HOME}_{n:06}_{print_}.json.gz"
        return f"arn:aws:s3:::acme-logs-{stage}/AWSLogs/{file}"
    store = dice.choice(["releases", "snapshots", "cache"])
    return f"arn:aws:s3:::acme-artifacts-{stage}/{of}/{store}/{n % 90}.{n % 7}/app-{n}-{print_[:8]}.jar"


def lake():
    """A data lake, an archive of logs and a store of artefacts: patterns of several `*` on long names of objects."""
    dice = random.Random(11)
    policies = {it: domain(it) for it in DOMAINS}
    logs, store = "arn:aws:s3:::*-logs-*/AWSLogs/*", "arn:aws:s3:::*-artifacts-*/*"
    audit = document(allow("s3:GetObject*", [f"{logs}/{it}/*" for it in ("CloudTrail", "Config", "vpcflowlogs")]))
    build = document(
        allow(["s3:GetObject", "s3:PutObject"], [f"{store}/snapshots/*", f"{store}/cache/*"]),
        allow("s3:GetObject", f"{store}/releases/*"),
    )
    people = []
    for n in range(120):
        identity = [policies[it] for it in dice.sample(DOMAINS, dice.randint(1, 3))]
        identity += [audit] * (n % 6 == 0) + [build] * (n % 5 == 0)
        tags = {"aws:PrincipalTag/clearance": "high" if n % 9 == 0 else "low"}
        people.append(session(f"lake/job-{n}", identity, context=tags))
    things = [{"arn": lake_object(dice, n), "account": HOME} for n in range(5000)]
    named = ["s3:GetObject", "s3:PutObject", "s3:ListBucket", "s3:GetObjectVersion", "s3:DeleteObject"]
    return world(people, named, things, [{"id": HOME, "org": [[document(allow("*", "*"))], [protected()]]}])


def lists(count, of, statement):
    """Statements with lists of so many members."""
    return world(
        [user(f"u{n}", [document(statement(of))]) for n in range(count)],
        ["s3:GetObject"],
        [{"arn": "arn:aws:s3:::b/k", "account": HOME}],
    )


EIGHT = "s3:GetObject s3:PutItem kms:DeleteKey dynamodb:GetItem sqs:ListQueue iam:GetRole ec2:StartInstance logs:GetLog".split()
MATRIX, READING = ("brief", "full", "json", "first", "check"), ("check",)
# What each world is, for which commands, and how it is made.
WORLDS = {
    "company": (
        "150 principals of some 15 statements, 40 actions, 60 resources, SCPs and RCPs",
        MATRIX,
        lambda: company(150, 40, 60, 12, 18),
    ),
    "estate": ("the same kind: 150, 120, 200", MATRIX, lambda: company(150, 120, 200, 8, 14)),
    "one-user": ("one principal, 1,500 actions, 2,000 resources", MATRIX, one_user),
    "many-rules": ("some 3,800 statements, of which few match a cell", MATRIX, many_rules),
    "wildcards": ("patterns of many wildcards against texts of 1,500 characters", MATRIX, wildcards),
    "late-cell": ("100, 100, 100; one cell among the last is allowed", MATRIX, late_cell),
    "many-users": ("24,000 principals, 5 actions, 5 resources", MATRIX, many_users),
    "tags": ("conditions on tags of both sides: 200, 25, 200", MATRIX, tags),
    "half-tags": ("the same without half of the tags", READING, half_tags),
    "many-accounts": ("40,000 accounts; 40, 25, 40", MATRIX, many_accounts),
    "assume": (
        "sessions that share managed policies, sts:AssumeRole, roles",
        MATRIX,
        lambda: managed(["sts:AssumeRole"], roles),
    ),
    "read": (
        "the same sessions, one action, 1,500 resources",
        MATRIX,
        lambda: managed(["s3:GetObject"], plain_resources(1500)),
    ),
    "managed": ("the same kind, 8 actions, 400 resources", MATRIX, lambda: managed(EIGHT, plain_resources(400))),
    "services": (
        "the same kind, 150 actions, 200 resources",
        MATRIX,
        lambda: managed(actions(150), plain_resources(200)),
    ),
    "requests": (
        "the same kind, 300 principals, 10 actions, 5,000 resources",
        READING,
        lambda: managed([*EIGHT, "s3:PutObject", "kms:Decrypt"], plain_resources(5000), shared=3, most=300),
    ),
    "lake": (
        "a data lake, an archive of logs, a store of artefacts: 120 sessions, 5 actions, 5,000 objects of long names",
        READING,
        lake,
    ),
    "resources": (
        "120,000 resources",
        READING,
        lambda: world(
            [user("ann")], ["s3:GetObject"], [{"arn": f"arn:aws:s3:::b{n}/k", "account": HOME} for n in range(120000)]
        ),
    ),
    "lists": (
        "lists of 3,900 patterns",
        READING,
        lambda: lists(
            40,
            3900,
            lambda of: allow([f"svc{n}:Act{n}*" for n in range(of)], [f"arn:aws:s3:::bucket{n}/*" for n in range(of)]),
        ),
    ),
    "values": (
        "lists of 4,000 values of a condition",
        READING,
        lambda: lists(
            90, 4000, lambda of: allow("*", "*", Condition={"StringEquals": {"k": [f"value-{n}" for n in range(of)]}})
        ),
    ),
    "variables": (
        "120,000 texts with variables",
        READING,
        lambda: lists(
            30, 4000, lambda of: allow("s3:*", [f"arn:aws:s3:::home/${{aws:username}}/{n}/*" for n in range(of)])
        ),
    ),
}


def made(name):
    return json.dumps(WORLDS[name][2](), separators=(",", ":")).encode()


def main():
    parser = argparse.ArgumentParser(description="Writes the worlds of the benchmark as files.")
    parser.add_argument("folder")
    parser.add_argument("world", nargs="*", help="of these worlds alone: " + ", ".join(WORLDS))
    asked = parser.parse_args()
    folder = asked.folder
    os.makedirs(folder, exist_ok=True)
    for name in asked.world or WORLDS:
        if name not in WORLDS:
            parser.error(f"there is no world {name}")
        with open(os.path.join(folder, f"{name}.json"), "wb") as it:
            it.write(made(name))


if __name__ == "__main__":
    main()
