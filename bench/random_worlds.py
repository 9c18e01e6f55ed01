"""Random worlds of the whole language: most are accepted, the others have faults of every kind."""

import copy
import json
import random

ACCOUNTS = ["111122223333", "444455556666", "777788889999"]
USERS = ["ann", "team/bob", 'a,b"c']
ROLES = ["app/dev", "build", "x/y/z"]
SESSIONS = ["s1", "run,2"]
ACTIONS = ["s3:GetObject", "S3:getobject", "s3:PutObject", "sts:AssumeRole", "kms:Decrypt", "iam-x:List_All.v2"]
ACTION_PATTERNS = [
    "*",
    "s3:*",
    "s3:Get*",
    "S3:get?bject",
    "s*:*Object",
    "*:*",
    "kms:Decrypt",
    "sts:Assume*",
    "i?m-x:List_*",
    "none:None",
]
RESOURCES = [
    "*",
    "arn:aws:s3:::b/k",
    "arn:aws:s3:::home/ann/x",
    "arn:aws:s3:::b/*",
    "arn:aws:kms:eu:111122223333:key/1",
    "arn:aws:iam::111122223333:role/build",
    'arn:aws:s3:::b/é,"q"\n',
    "arn:aws:s3:::${aws:username}",
    "arn:a:b:c:d:e:f:g",
]
RESOURCE_PATTERNS = [
    "*",
    "arn:*",
    "arn:aws:s3:::b/*",
    "arn:aws:s3:::b/?",
    "arn:aws:s3:::home/${aws:username}/*",
    "arn:aws:*:*:*:*",
    "arn:aws:s3:::${k, 'b'}/k",
    "arn:aws:s3:::b/${*}",
    "arn:aws:s3:::${Tag}*",
    "arn:aws:s3:::b/é*",
    "arn:aws:s3:::*a*${r}?",
    "arn:aws:kms:*:*:key/${k, '1'}",
    "arn:aws:iam::111122223333:role/build",
    "arn:aws:s3:::$b",
    "arn:aws:s3:::${$}{k}",
]
WORLD_KEYS, PRINCIPAL_KEYS, RESOURCE_KEYS = (
    ["k", "List", "aws:SourceIp", "when"],
    ["tag", "n", "many"],
    ["r", "aws:ResourceTag/a", "flag"],
)
DERIVED = [
    "aws:PrincipalArn",
    "aws:username",
    "aws:PrincipalType",
    "aws:PrincipalAccount",
    "aws:ResourceAccount",
    "aws:CurrentTime",
    "aws:EpochTime",
]
KEYS = WORLD_KEYS + PRINCIPAL_KEYS + RESOURCE_KEYS + DERIVED + ["TAG", "K", "absent"]
TEXTS = [
    "a",
    "A",
    "ab",
    "b",
    "*",
    "?",
    "",
    "é",
    "a*b",
    "true",
    "TRUE",
    "false",
    "7",
    "007",
    "-1",
    "1.5",
    "2026-01-01",
    "2024-02-29T23:59:59.5Z",
    "1767225600",
    "10.1.2.3",
    "10.0.0.0/8",
    "::1",
    "2001:db8::/32",
    "aGk=",
    "aGl=",
    "arn:aws:s3:::b:c",
    "arn:aws:iam::111122223333:user/ann",
    "${tag}",
    "${k}x",
    "9223372036854775807",
    "x y",
]
VALUES = {
    "String": [
        "a",
        "A",
        "ab",
        "a*",
        "?",
        "${tag}",
        "${aws:username, 'ann'}",
        "${*}",
        "a${r}",
        "é",
        "${absent}",
        "${k, ''}b",
        "User",
        "",
    ],
    "Numeric": ["7", "007", "-1", "0", 7, -1, "9223372036854775807"],
    "Date": ["2026-01-01", "1767225600", "2024-02-29T23:59:59.5Z", "2026-01-01T01:00:00+01:00", 0],
    "Bool": ["true", "FALSE", True, False],
    "Null": ["true", "false", True],
    "Binary": ["aGk=", "", "AAAA"],
    "Ip": ["10.0.0.0/8", "10.1.2.3", "::1", "2001:db8::/32", "::/0", "0.0.0.0/0"],
    "Arn": [
        "*",
        "arn:*",
        "arn:aws:s3:::b*",
        "arn:aws:iam::*:user/*",
        "arn:${k}:s3:::b",
        "arn:aws:*:*:*:?:c",
        "a",
        "arn:aws:iam::${aws:PrincipalAccount}:role/*",
    ],
}
COMPARED = ["Equals", "NotEquals", "LessThan", "LessThanEquals", "GreaterThan", "GreaterThanEquals"]
BASES = {
    "String": [
        f"String{it}" for it in ("Equals", "NotEquals", "EqualsIgnoreCase", "NotEqualsIgnoreCase", "Like", "NotLike")
    ],
    "Numeric": [f"Numeric{it}" for it in COMPARED],
    "Date": [f"Date{it}" for it in COMPARED],
    "Bool": ["Bool"],
    "Binary": ["BinaryEquals"],
    "Ip": ["IpAddress", "NotIpAddress"],
    "Arn": ["ArnEquals", "ArnLike", "ArnNotEquals", "ArnNotLike"],
}
ODD = [None, True, 0, -1, 1.5, 10**20, "", "x", [], {}, ["x"], [[]], {"x": 1}, "*", "2012-10-17"]


def places(value):
    """Each object or list within a value, with each of its keys."""
    for key in value if isinstance(value, dict) else range(len(value)):
        yield value, key
        if isinstance(value[key], (dict, list)):
            yield from places(value[key])


class Maker:
    """Makes one world after another by its dice."""

    def __init__(self, seed):
        self.dice = random.Random(seed)

    def often(self, chance):
        return self.dice.random() < chance

    def some(self, values, most=3):
        return [self.dice.choice(values) for _ in range(self.dice.randint(1, most))]

    def texts(self, values):
        """One text, or a list of them."""
        return self.dice.choice(values) if self.often(0.5) else self.some(values)

    def scalar(self):
        return self.dice.choice([*TEXTS, 7, -3, True, False, 18446744073709551615])

    def context(self, keys):
        """Keys with their values; now and then one that another object may give too, or that none may."""
        given = [it for it in keys if self.often(0.6)] + (
            [self.dice.choice(["K", "TAG", "r", "AWS:UserName"])] if self.often(0.02) else []
        )
        return {
            it: self.scalar() if self.often(0.6) else [self.scalar() for _ in range(self.dice.randint(0, 3))]
            for it in given
        }

    def operator(self):
        """The name of an operator, and its kind."""
        if self.often(0.1):
            return "Null", "Null"
        kind = self.dice.choice(list(BASES))
        name = self.dice.choice(["", "", "", "ForAllValues:", "ForAnyValue:"]) + self.dice.choice(BASES[kind])
        return name + ("IfExists" if self.often(0.2) else ""), kind

    def condition(self):
        found = {}
        for _ in range(self.dice.randint(0, 3)):
            name, kind = self.operator()
            found.setdefault(name, {})[self.dice.choice(KEYS)] = [] if self.often(0.05) else self.texts(VALUES[kind])
        return found

    def principal_text(self):
        account = self.dice.choice(ACCOUNTS)
        role = self.dice.choice(ROLES)
        return self.dice.choice(
            [
                "*",
                account,
                f"arn:aws:iam::{account}:root",
                f"arn:aws:iam::{account}:user/{self.dice.choice(USERS)}",
                f"arn:aws:iam::{account}:role/{role}",
                "AIDAEXAMPLE",
                f"arn:aws:sts::{account}:assumed-role/{role.split('/')[-1]}/{self.dice.choice(SESSIONS)}",
            ]
        )

    def principal(self, kind):
        if kind == "control":
            return self.dice.choice(["*", {"AWS": "*"}, {"AWS": ["*"]}])
        if self.often(0.2):
            return "*"
        found = {"AWS": self.principal_text() if self.often(0.5) else [self.principal_text() for _ in range(3)]}
        return {**found, "Service": "s3.amazonaws.com"} if self.often(0.1) else found

    def statement(self, kind, number):
        it = {"Effect": "Deny" if self.often(0.15) else "Allow"}
        if self.often(0.3):
            it["Sid"] = f"S{number if self.often(0.95) else 0}"
        it["Action" if self.often(0.85) else "NotAction"] = self.texts(ACTION_PATTERNS)
        if kind in ("resource", "control"):
            spared = kind == "resource" and it["Effect"] == "Deny" and self.often(0.4)
            it["NotPrincipal" if spared else "Principal"] = self.principal(kind)
        if kind != "resource" or self.often(0.6):
            it["Resource" if self.often(0.85) else "NotResource"] = self.texts(RESOURCE_PATTERNS)
        if self.often(0.35):
            it["Condition"] = self.condition()
        return it

    def document(self, kind):
        statements = [self.statement(kind, n) for n in range(self.dice.choice([0, 1, 1, 2, 3]))]
        it = {"Statement": statements[0] if len(statements) == 1 and self.often(0.5) else statements}
        if self.often(0.85):
            it["Version"] = "2012-10-17" if self.often(0.8) else "2008-10-17"
        return {"Id": "any", **it} if self.often(0.1) else it

    def documents(self, kind, most=2):
        return [self.document(kind) for _ in range(self.dice.randint(0, most))]

    def levels(self, kind):
        """Levels of policies, most of which allow everything."""
        everything = {"Version": "2012-10-17", "Statement": {"Effect": "Allow", "Action": "*", "Resource": "*"}}
        if kind == "control":
            everything["Statement"]["Principal"] = "*"
        return [
            ([everything] if self.often(0.8) else []) + self.documents(kind, 1) for _ in range(self.dice.randint(0, 3))
        ]

    def requester(self):
        account = self.dice.choice(ACCOUNTS[:2])
        if self.often(0.5):
            it = {"user": f"arn:aws:iam::{account}:user/{self.dice.choice(USERS)}"}
        else:
            it = {
                "role": f"arn:aws:iam::{account}:role/{self.dice.choice(ROLES)}",
                "session": self.dice.choice(SESSIONS),
            }
            if self.often(0.3):
                it["sessionPolicies"] = self.documents("identity")
        it["identity"] = self.documents("identity", 3)
        if self.often(0.25):
            it["boundary"] = self.document("identity")
        return {**it, "context": self.context(PRINCIPAL_KEYS)} if self.often(0.6) else it

    def resource(self):
        it = {"arn": self.dice.choice(RESOURCES), "account": self.dice.choice(ACCOUNTS[:2])}
        if self.often(0.6):
            it["policy"] = self.document("resource")
        if self.often(0.2):
            it["sealed"] = self.often(0.7)
        if self.often(0.25):
            it["control"] = self.levels("control")
        return {**it, "context": self.context(RESOURCE_KEYS)} if self.often(0.5) else it

    def lawful(self):
        accounts = [
            {
                "id": it,
                **({"org": self.levels("org")} if self.often(0.4) else {}),
                **({"management": True} if self.often(0.15) else {}),
            }
            for it in ACCOUNTS
        ]
        return {
            "moment": self.dice.choice([0, 1767225600, 253402300799]),
            "accounts": accounts,
            "principals": [self.requester() for _ in range(self.dice.randint(self.often(0.9), 5))],
            "actions": [self.dice.choice(ACTIONS) for _ in range(self.dice.randint(self.often(0.9), 5))],
            "resources": [self.resource() for _ in range(self.dice.randint(self.often(0.9), 5))],
            **({"context": self.context(WORLD_KEYS)} if self.often(0.6) else {}),
        }

    def spoiled(self, value):
        """The world with one value changed, taken away or added, somewhere."""
        value = copy.deepcopy(value)
        self.spoil(*self.dice.choice(list(places(value))))
        return value

    def spoil(self, at, key):
        how = self.dice.randrange(5)
        if how == 0:
            del at[key]
        elif how == 1 and isinstance(at, dict):
            new = self.dice.choice(
                [
                    "x",
                    "Sid",
                    "Principal",
                    "NotResource",
                    "NotAction",
                    "Condition",
                    "Effect",
                    "session",
                    "role",
                    "context",
                ]
            )
            at[new] = self.dice.choice(
                [
                    *ODD,
                    "Allow",
                    {"StringEquals": {"k": "${"}},
                    {"Nothing": {}},
                    {"Aws:UserName": "x"},
                    {"Bool": {"": "true"}},
                ]
            )
        elif how == 2 and isinstance(at[key], str):
            text, n = at[key], self.dice.randrange(len(at[key]) + 1)
            at[key] = (
                text[:n]
                + self.dice.choice(["${", "*", "?", ":", " ", "é", "", "}", "0"])
                + text[n + self.dice.randrange(2) :]
            )
        elif how == 3 and isinstance(at, list):
            at.append(copy.deepcopy(at[key]))
        else:
            at[key] = self.dice.choice(ODD)

    def world(self):
        """The bytes of one world."""
        value = self.lawful()
        if self.often(0.35):
            for _ in range(self.dice.randint(1, 2)):
                value = self.spoiled(value)
        text = json.dumps(value, ensure_ascii=self.often(0.5), indent=1 if self.often(0.2) else None).encode()
        if self.often(0.03):
            n = self.dice.randrange(len(text))
            text = text[:n] if self.often(0.3) else text[:n] + bytes([self.dice.randrange(256)]) + text[n + 1 :]
        return text


def requester(principal):
    """The text of a principal in reports."""
    account, _, name = (principal.get("role") or "").partition(":role/")
    return (
        principal.get("user")
        or f"{account.replace(':iam:', ':sts:')}:assumed-role/{name.split('/')[-1]}/{principal['session']}"
    )


def request(dice, maker, world):
    """A request of a world that has one, mostly with keys of its own; now and then off the world, or off the shape."""
    principal = dice.choice(world["principals"])
    action = dice.choice(world["actions"])
    it = {
        "principal": requester(principal),
        "action": action.swapcase() if maker.often(0.2) else action,
        "resource": dice.choice(world["resources"])["arn"],
    }
    if maker.often(0.6):
        given = {**world.get("context", {}), **principal.get("context", {})}
        it["context"] = {
            key: value
            for key, value in maker.context(
                ["k", "List", "aws:SourceIp", "tag", "n", "many", "flag", "r", "own"]
            ).items()
            if maker.often(0.02) or key.lower() not in {known.lower() for known in given}
        }
    if maker.often(0.01):
        it[dice.choice(list(it))] = dice.choice(["none", 7, None, {"x": {}}, {"aws:username": "x"}])
    return it


def requests(seed, world, most=12):
    """The bytes of two files of requests of a world, each of so many lines at most, the first without keys."""
    maker = Maker(-seed - 1)
    dice = maker.dice
    if not (world["principals"] and world["actions"] and world["resources"]):
        return [b""]
    files = []
    for with_keys in (False, True):
        lines = [request(dice, maker, world) for _ in range(dice.randint(1, most))]
        if not with_keys:
            lines = [{name: value for name, value in it.items() if name != "context"} for it in lines]
        files.append(
            b"\n".join(json.dumps(it, ensure_ascii=maker.often(0.5)).encode() for it in lines)
            + (b"\n" if maker.often(0.7) else b"")
        )
    return files
