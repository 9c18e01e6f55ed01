"""Rows that are asked for, on the program as it is built: what comes out is worked out by hand, and stands here."""

import json
import os

from harness import EXAMPLES, answer, document, file, same, statement
from test_devices import BRIEF_HEADER, HEADER, many_cells

ANN, BOB = "arn:aws:iam::111122223333:user/ann", "arn:aws:iam::111122223333:user/bob"
GET, PUT, DECRYPT = "s3:GetObject", "S3:PutObject", "kms:Decrypt"
K, Q = "arn:aws:s3:::b/k", "arn:aws:s3:::b/q"

WORLD = {
    "moment": 0,
    "accounts": [{"id": "111122223333"}],
    "principals": [
        {"user": ANN, "identity": [document(statement(action="s3:*"), statement("Deny", "s3:PutObject", K))]},
        {"user": BOB, "identity": [document(statement(action=GET, resource=K))]},
    ],
    "actions": [GET, PUT, DECRYPT],
    "resources": [{"arn": it, "account": "111122223333"} for it in (K, Q)],
}
TEXT = json.dumps(WORLD).encode()

# The twelve rows: ann may do all of S3, but not write k; bob may read k.
ROWS = [
    (0, ANN, GET, K, "allowed", "identity/0/0", ""),
    (1, ANN, GET, Q, "allowed", "identity/0/0", ""),
    (2, ANN, PUT, K, "explicitDeny", "identity/0/1", ""),
    (3, ANN, PUT, Q, "allowed", "identity/0/0", ""),
    (4, ANN, DECRYPT, K, "implicitDeny", "", "identity"),
    (5, ANN, DECRYPT, Q, "implicitDeny", "", "identity"),
    (6, BOB, GET, K, "allowed", "identity/0/0", ""),
    (7, BOB, GET, Q, "implicitDeny", "", "identity"),
    (8, BOB, PUT, K, "implicitDeny", "", "identity"),
    (9, BOB, PUT, Q, "implicitDeny", "", "identity"),
    (10, BOB, DECRYPT, K, "implicitDeny", "", "identity"),
    (11, BOB, DECRYPT, Q, "implicitDeny", "", "identity"),
]
ALL = list(range(12))

# What is asked for, and the cells whose rows come; None where the patterns select no request, which is status 4.
SELECTIONS = [
    (f"--principal {ANN}", [0, 1, 2, 3, 4, 5]),
    ("--principal *:user/bob", [6, 7, 8, 9, 10, 11]),
    ("--principal *b*", [6, 7, 8, 9, 10, 11]),
    ("--principal *:user/???", ALL),
    ("--principal *:user/??", None),
    ("--principal *ANN", None),
    ("--principal ann", None),
    ("--principal *", ALL),
    ("--action s3:GetObject", [0, 1, 6, 7]),
    ("--action S3:GETOBJECT", [0, 1, 6, 7]),
    ("--action s3:putobject", [2, 3, 8, 9]),
    ("--action ?3:*object", [0, 1, 2, 3, 6, 7, 8, 9]),
    ("--action KMS:*", [4, 5, 10, 11]),
    ("--action s3:", None),
    ("--action *:*", ALL),
    (f"--resource {K}", [0, 2, 4, 6, 8, 10]),
    ("--resource arn:aws:s3:::b/?", ALL),
    ("--resource arn:aws:s3:::B/k", None),
    ("--resource *q", [1, 3, 5, 7, 9, 11]),
    ("--resource ?", None),
    # A backslash before a wildcard gives it as a character, and is one before any other.
    ("--resource arn:aws:s3:::b/\\?", None),
    ("--resource arn:aws:s3:::b/\\k", None),
    ("--resource *\\* --resource *q", [1, 3, 5, 7, 9, 11]),
    ("--resource **", ALL),
    ("--decision allowed", [0, 1, 3, 6]),
    ("--decision explicitDeny", [2]),
    ("--decision implicitDeny", [4, 5, 7, 8, 9, 10, 11]),
    # One of several has to be right, in whatever order they are said, and twice is once.
    ("--action kms:* --action *:GetObject", [0, 1, 4, 5, 6, 7, 10, 11]),
    ("--action *:GetObject --action kms:*", [0, 1, 4, 5, 6, 7, 10, 11]),
    ("--action kms:* --action kms:*", [4, 5, 10, 11]),
    ("--action kms:* --action nothing", [4, 5, 10, 11]),
    ("--principal *ann --principal *bob", ALL),
    ("--resource *k --resource *q", ALL),
    ("--decision explicitDeny --decision allowed", [0, 1, 2, 3, 6]),
    ("--decision implicitDeny --decision allowed", [0, 1, 3, 4, 5, 6, 7, 8, 9, 10, 11]),
    ("--decision allowed --decision explicitDeny --decision implicitDeny", ALL),
    # Each of several has to be right.
    (f"--principal {BOB} --action {GET} --resource {Q}", [7]),
    (f"--principal {ANN} --action {PUT}", [2, 3]),
    ("--principal *ann --action s3:* --resource *k", [0, 2]),
    ("--principal *ann --action s3:* --resource *k --decision explicitDeny", [2]),
    ("--principal *ann --action s3:* --resource *k --decision implicitDeny", []),
    ("--principal *bob --decision allowed", [6]),
    ("--principal *bob --decision explicitDeny", []),
    ("--principal nobody --decision allowed", None),
]

# What is asked for, and the first cell of those that is allowed, in a list; None as above.
FIRSTS = [
    ("--principal *", [0]),
    ("--principal *bob", [6]),
    ("--action *:put*", [3]),
    ("--action kms:*", []),
    ("--resource *q", [1]),
    ("--resource *q --action s3:p*", [3]),
    ("--principal *bob --resource *q", []),
    ("--principal nobody", None),
    ("--principal *bob --principal *ann", [0]),
    (f"--principal {BOB} --action S3:getOBJECT --resource {K}", [6]),
    (f"--principal {ANN} --action {PUT} --resource {K}", []),
]


def line(row, count):
    return ",".join(map(str, row[:count])) + "\n"


def made(row, is_brief):
    """The object of a row."""
    cell, principal, action, resource, decision, statements, lacks = row
    value = {"cell": cell, "principal": principal, "action": action, "resource": resource, "decision": decision}
    return value if is_brief else {**value, "statements": statements.split(), "lacks": lacks.split()}


def status_of(cells):
    return 4 if cells is None else 0


def reports(cells):
    """The reports of these cells, under the words that ask for each, with the status."""
    rows = [ROWS[cell] for cell in cells or []]
    texts = {
        "": HEADER + "".join(line(row, 7) for row in rows),
        "--brief": BRIEF_HEADER + "".join(line(row, 5) for row in rows),
    }
    for words, is_brief in (("--format json", False), ("--format json --brief", True)):
        texts[words] = json.dumps([made(row, is_brief) for row in rows], separators=(",", ":"), sort_keys=True) + "\n"
    return {words: (status_of(cells), text.encode(), b"") for words, text in texts.items()}


def test_the_whole_matrix():
    # The rows above are those of the world.
    for words, whole in reports(ALL).items():
        same(answer(["matrix", *words.split()], TEXT), whole, words)


def test_what_is_asked_for_comes():
    path = file(TEXT)
    for asked, cells in SELECTIONS:
        for words, wanted in reports(cells).items():
            same(answer(["matrix", *words.split(), *asked.split()], TEXT), wanted, f"{asked} {words}")
        same(answer(["matrix", path, *asked.split()]), reports(cells)[""], asked)
        same(answer(["matrix", *asked.split(), path]), reports(cells)[""], asked)


def test_workers_and_tiles_change_no_byte():
    for asked, cells in SELECTIONS:
        wanted = reports(cells)
        for workers in ("1", "4", "64"):
            for tile in ("1", "5", "12"):
                for words in ("", "--format json --brief"):
                    more = ["--workers", workers, "--tile", tile, *words.split()]
                    same(answer(["matrix", *more, *asked.split()], TEXT), wanted[words], f"{asked} {more}")


def test_the_first_of_those_that_are_asked_for():
    path = file(TEXT)
    for asked, cells in FIRSTS:
        text = BRIEF_HEADER + "".join(line(ROWS[cell], 5) for cell in cells or [])
        for more in ([], [path], ["--workers", "1"], ["--workers", "64", "--tile", "1"], ["--tile", "5"]):
            done = (status_of(cells), text.encode(), b"")
            same(answer(["first", *more, *asked.split()], TEXT), done, f"{asked} {more}")


def test_nothing_is_asked_for():
    # The value may stand behind a sign of equality too, and options may stand in any order.
    same(answer(["matrix", "--principal=*", "--brief"], TEXT), reports(ALL)["--brief"])
    same(answer(["matrix", "--decision=allowed", "--workers=1", "--principal=*bob"], TEXT), reports([6])[""])
    # A pattern that begins with a hyphen stands behind the sign; none of these actions does.
    same(answer(["matrix", "--action=-*"], TEXT), reports(None)[""])
    # A comma and a space are signs of a pattern.
    same(answer(["matrix", "--action", "s3:GetObject,kms:Decrypt"], TEXT), reports(None)[""])
    same(answer(["matrix", "--action", " kms:Decrypt"], TEXT), reports(None)[""])


def test_a_world_without_cells():
    for axis in ("principals", "actions", "resources"):
        text = json.dumps({**WORLD, axis: []}).encode()
        for words, wanted in reports(None).items():
            same(answer(["matrix", *words.split(), "--principal", "*", "--decision", "allowed"], text), wanted, axis)
        same(answer(["first", "--action", "*"], text), (4, BRIEF_HEADER.encode(), b""), axis)


def test_texts_with_signs_of_patterns_and_of_csv():
    arns = ["*", "arn:aws:s3:::b/?", 'arn:aws:s3:::a,"b"', "arn:aws:s3:::b/${aws:username}", "arn:aws:s3:::é"]
    text = json.dumps(
        {
            **WORLD,
            "principals": WORLD["principals"][1:],
            "actions": [GET],
            "resources": [{"arn": it, "account": "111122223333"} for it in arns],
        }
    ).encode()
    fields = ["*", "arn:aws:s3:::b/?", '"arn:aws:s3:::a,""b"""', "arn:aws:s3:::b/${aws:username}", "arn:aws:s3:::é"]
    for pattern, cells in (
        ("?", [0]),
        ("*", [0, 1, 2, 3, 4]),
        ("arn:aws:s3:::b/?", [1]),
        ('*,"b"', [2]),
        ("*,*", [2]),
        ("*${aws:username}", [3]),
        ("*:::?", [4]),
        ("*\\*", [0]),
        ("*\\?", [1]),
        ("*\\\\*", None),
    ):
        lines = "".join(f"{cell},{BOB},{GET},{fields[cell]},implicitDeny,,identity\n" for cell in cells or [])
        done = (status_of(cells), (HEADER + lines).encode(), b"")
        same(answer(["matrix", "--resource", pattern], text), done, pattern)


def test_a_session_is_asked_for_by_its_own_name():
    roles = os.path.join(EXAMPLES, "roles.json")
    build = "arn:aws:sts::111122223333:assumed-role/build/run-1"
    _, whole, _ = answer(["matrix", "--brief", roles])
    rows = [it for it in whole.decode().splitlines(True) if f",{build}," in it]
    same(len(rows), 4)
    same(
        answer(["matrix", "--brief", roles, "--principal", "*:assumed-role/build/*"]),
        (0, (BRIEF_HEADER + "".join(rows)).encode(), b""),
    )
    same(answer(["matrix", "--brief", roles, "--principal", "*:role/build"]), (4, BRIEF_HEADER.encode(), b""))


def test_many_cells():
    # Of 120 actions the eleven that are 7 or begin with it, of 120 resources the eleven that end with 3 below 110.
    actions, resources = [7, *range(70, 80)], [n for n in range(3, 104, 10)]
    user = "arn:aws:iam::111122223333:user/ann"
    rows = "".join(
        f"{120 * a + r},{user},s3:Get{a},arn:aws:s3:::b/{r},implicitDeny\n" for a in actions for r in resources
    )
    asked = [
        "--action",
        "s3:get7",
        "--action",
        "S3:GET7?",
        "--resource",
        "*/3",
        "--resource",
        "*/?3",
        "--resource",
        "*/103",
    ]
    world = many_cells()
    for workers in ("1", "4", "64"):
        for more in ([], ["--tile", "7"], ["--tile", "14400"], ["--decision", "implicitDeny"]):
            found = answer(["matrix", "--brief", "--workers", workers, *more, *asked], world)
            same(found, (0, (BRIEF_HEADER + rows).encode(), b""), f"{workers} {more}")
        same(
            answer(["matrix", "--brief", "--workers", workers, "--decision", "allowed"], world),
            (0, BRIEF_HEADER.encode(), b""),
        )
        same(answer(["first", "--workers", workers, *asked], world), (0, BRIEF_HEADER.encode(), b""))


def test_faults_are_those_of_the_matrix():
    for words, fault in (
        ("--workers 0", "3 Matrix: 1 Workers"),
        ("--workers 65", "3 Matrix: 1 Workers"),
        ("--tile 0", "6 Cut: 1 ZeroTile"),
        ("--tile 0 --workers 0", "6 Cut: 1 ZeroTile"),
    ):
        for command in ("matrix", "first"):
            for asked in ("--principal *", "--principal nobody"):
                same(
                    answer([command, *words.split(), *asked.split()], TEXT),
                    (1, b"", f"fault {fault}\n".encode()),
                    f"{command} {words} {asked}",
                )
    # What is not asked for is read too.
    bad = json.dumps(
        {**WORLD, "principals": [{"user": ANN, "identity": [{"Version": "2012-10-17"}]}, *WORLD["principals"][1:]]}
    ).encode()
    whole = answer(["matrix"], bad)
    same((whole[0], whole[2].startswith(b"fault 2 World: 8 Policy at principals/0/identity/0: ")), (1, True), whole)
    same(answer(["matrix", "--principal", BOB], bad), whole)
    same(answer(["first", "--principal", BOB], bad), whole)


def test_words_that_are_refused():
    for words in (
        "matrix --decision Allowed",
        "matrix --decision deny",
        "matrix --decision explicitdeny",
        "matrix --decision allowed,explicitDeny",
        "matrix --decision",
        "matrix --principal",
        "matrix --action",
        "matrix --resource",
        "matrix --principal --brief",
        "matrix --principal=",
        "matrix --action -x",
        "first --decision allowed",
        "check --principal *",
        "check --decision allowed",
        "decide 0 0 0 --action *",
        "decide 0 0 0 --resource *",
        "matrix --principals *",
        "matrix --statement *",
        "first --brief --action *",
    ):
        status, out, said = answer(words.split(), TEXT)
        same((status, out, said.startswith(b"error: ")), (2, b"", True), f"{words}: {said}")
    for option in ("--principal", "--action", "--resource", "--decision"):
        same(answer(["matrix", option, ""], TEXT)[:2], (2, b""), option)
