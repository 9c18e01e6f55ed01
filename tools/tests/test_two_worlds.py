"""Two worlds held against each other, on the program as it is built: what comes out is worked out by hand, and stands here."""

import csv
import io
import json
import os
import random
import tempfile

from harness import EXAMPLES, IAMSIM, answer, document, file, same, statement
from test_devices import FAULTY, many_cells, shell
from test_selections import ANN, BOB, DECRYPT, GET, K, PUT, Q, WORLD

HEADER = b"change,principal,action,resource,before,after,statements_before,lacks_before,statements_after,lacks_after\n"
BRIEF_HEADER = b"change,principal,action,resource,before,after\n"
MISSING = "No such file or directory"

# Before, ann may do all of S3, but not write k, and bob may read k. After, bob may do nothing, and ann not read q.
BEFORE = json.dumps(WORLD).encode()
AFTER = json.dumps(
    {
        **WORLD,
        "principals": [
            {"user": ANN, "identity": [document(statement(action="s3:*"), statement("Deny", "s3:*", Q))]},
            {"user": BOB},
        ],
    }
).encode()
ROWS = [
    ("lost", ANN, GET, Q, "allowed", "explicitDeny", "identity/0/0", "", "identity/0/1", ""),
    ("gained", ANN, PUT, K, "explicitDeny", "allowed", "identity/0/1", "", "identity/0/0", ""),
    ("lost", ANN, PUT, Q, "allowed", "explicitDeny", "identity/0/0", "", "identity/0/1", ""),
    ("lost", BOB, GET, K, "allowed", "implicitDeny", "identity/0/0", "", "", "identity"),
]
NAMES = HEADER.decode().strip().split(",")


def lines(rows, is_brief=False):
    header = BRIEF_HEADER if is_brief else HEADER
    return header + "".join(",".join(row[: 6 if is_brief else 10]) + "\n" for row in rows).encode()


def objects(rows, is_brief=False):
    made = []
    for row in rows:
        value = dict(zip(NAMES[: 6 if is_brief else 10], row))
        for name in value:
            if name in ("before", "after"):
                value[name] = value[name] or None
            elif name.startswith(("statements", "lacks")):
                value[name] = value[name].split()
        made.append(dict(sorted(value.items())))
    return json.dumps(made, separators=(",", ":")).encode() + b"\n"


def folder():
    return tempfile.mkdtemp(dir=os.environ["TOOLS_TEST_ROOM"])


def test_each_form():
    before, after = file(BEFORE), file(AFTER)
    for words, text in [
        ("", lines(ROWS)),
        ("--brief", lines(ROWS, True)),
        ("--format csv", lines(ROWS)),
        ("--format json", objects(ROWS)),
        ("--format json --brief", objects(ROWS, True)),
        ("--all", lines(ROWS)),
        ("--workers 1 --tile 1", lines(ROWS)),
        ("--principal *:user/bob", lines(ROWS[3:])),
        ("--action s3:GET* --resource *q", lines(ROWS[:1])),
        ("--action kms:*", lines([])),
        ("--format json --principal nobody", b"[]\n"),
    ]:
        done = (4 if words.endswith("nobody") else 0, text, b"")
        for places, given in (
            ([before, after], b"{}"),
            ([before], AFTER),
            ([before, "-"], AFTER),
            (["-", after], BEFORE),
        ):
            same(answer(["changes", *words.split(), *places], given), done, f"{words} {places}")
        same(shell(f"changes {words} {before} {after}", "<&-"), done, words)


def test_a_request_of_one_world_alone():
    whole = file(BEFORE)
    less = file(json.dumps({**WORLD, "principals": WORLD["principals"][:1], "actions": [DECRYPT, GET]}))
    rows = [
        ("lost", ANN, PUT, Q, "allowed", "", "identity/0/0", "", "", ""),
        ("lost", BOB, GET, K, "allowed", "", "identity/0/0", "", "", ""),
    ]
    same(answer(["changes", whole, less]), (0, lines(rows), b""))
    same(answer(["changes", "--format", "json", whole, less]), (0, objects(rows), b""))
    turned = [("gained", *row[1:4], "", "allowed", "", "", "identity/0/0", "") for row in rows]
    same(answer(["changes", less, whole]), (0, lines(turned), b""))
    same(answer(["changes", "--brief", "--format", "json", less, whole]), (0, objects(turned, True), b""))


def test_what_differs():
    # The deny on the keys is said by a lack before, and ann's reading of k stands in another statement.
    denied = document(statement("Deny", "kms:*"), statement(action="s3:*"), statement("Deny", "s3:PutObject", K))
    after = file(json.dumps({**WORLD, "principals": [{"user": ANN, "identity": [denied]}, WORLD["principals"][1]]}))
    rows = [
        ("differs", ANN, GET, K, "allowed", "allowed", "identity/0/0", "", "identity/0/1", ""),
        ("differs", ANN, GET, Q, "allowed", "allowed", "identity/0/0", "", "identity/0/1", ""),
        ("differs", ANN, PUT, K, "explicitDeny", "explicitDeny", "identity/0/1", "", "identity/0/2", ""),
        ("differs", ANN, PUT, Q, "allowed", "allowed", "identity/0/0", "", "identity/0/1", ""),
        ("differs", ANN, DECRYPT, K, "implicitDeny", "explicitDeny", "", "identity", "identity/0/0", ""),
        ("differs", ANN, DECRYPT, Q, "implicitDeny", "explicitDeny", "", "identity", "identity/0/0", ""),
    ]
    words = ["changes", file(BEFORE), after]
    same(answer(words), (0, HEADER, b""))
    same(answer([*words, "--all"]), (0, lines(rows), b""))
    same(answer([*words, "--all", "--brief"]), (0, lines(rows, True), b""))
    same(answer([*words, "--all", "--format", "json"]), (0, objects(rows), b""))


def test_statuses():
    before, after, other = file(BEFORE), file(AFTER), file(json.dumps({**WORLD, "principals": WORLD["principals"][:1]}))
    for places, kind, status in [
        ([before, after], "gained", 3),
        ([before, after], "lost", 3),
        ([before, after], "any", 3),
        ([before, before], "any", 0),
        ([before, other], "gained", 0),
        ([before, other], "lost", 3),
        ([other, before], "lost", 0),
        ([other, before], "gained", 3),
    ]:
        found = answer(["changes", "--fail-on", kind, *places])
        same(found, (status, answer(["changes", *places])[1], b""), f"{places} {kind}")
    same(answer(["changes", "--fail-on", "any", before, "no-such-file"])[0], 1)
    same(shell(f"changes --fail-on any {before} {after}", "> /dev/full"), (1, b"", b"fault 4 Write\n"))


def test_files_that_cannot_be_read():
    room, world = folder(), file(BEFORE)
    os.symlink("no-such-file", os.path.join(room, "dangling"))
    for name, reason in [
        ("no-such-file.json", MISSING),
        (os.path.join(room, "no", "world.json"), MISSING),
        (os.path.join(room, "dangling"), MISSING),
        (room, "Is a directory"),
        ("/", "Is a directory"),
        (world + "/", "Not a directory"),
    ]:
        wanted = (1, b"", f"fault 1 Read: {name}: {reason}\n".encode())
        for places in ([name, world], [world, name], [name], [name, "-"], ["-", name], [name, "no-such-file"]):
            same(answer(["changes", *places], BEFORE), wanted, str(places))
            same(answer(["changes", "--brief", "--fail-on", "any", *places], BEFORE), wanted, str(places))
    told = (1, b"", f'fault 1 Read: "a\\nb": {MISSING}\n'.encode())
    same(answer(["changes", "a\nb", world]), told)
    same(answer(["changes", world, "a\nb"]), told)


def test_standard_input_that_cannot_be_read():
    world = file(BEFORE)
    for words in (f"changes {world}", f"changes {world} -", f"changes - {world}"):
        for streams in ("<&-", "< /", "0> /dev/null"):
            same(shell(words, streams), (1, b"", b"fault 1 Read\n"), f"{words} {streams}")


def test_both_from_standard_input():
    text = b"error: BEFORE and AFTER cannot both come from standard input\n"
    for words in (["-"], ["-", "-"], ["--brief", "-"], ["-", "--all", "-"], ["--", "-"], ["--", "-", "-"]):
        status, written, told = answer(["changes", *words], BEFORE)
        same((status, written, told.startswith(text)), (2, b"", True), str(words))


def test_the_order_of_faults():
    world, faulty, twice = file(BEFORE), file("{}"), file(json.dumps({**WORLD, "actions": [GET, PUT, GET]}))
    shape = b"2 BadShape at moment\n"
    for places, line in [
        ([faulty, "no-such-file"], b"fault 9 Before: " + shape),
        ([twice, "no-such-file"], b"fault 8 Twice: before at actions/2\n"),
        ([world, faulty], b"fault 2 World: " + shape),
        ([world, twice], b"fault 8 Twice: after at actions/2\n"),
        ([faulty, faulty], b"fault 9 Before: " + shape),
        ([twice, twice], b"fault 8 Twice: before at actions/2\n"),
        (["no-such-file", faulty], f"fault 1 Read: no-such-file: {MISSING}\n".encode()),
        ([FAULTY, world], answer(["check", FAULTY])[2].replace(b"fault 2 World", b"fault 9 Before")),
        ([world, FAULTY], answer(["check", FAULTY])[2]),
    ]:
        for more in ([], ["--tile", "0"], ["--workers", "0"], ["--principal", "nobody", "--all"]):
            same(answer(["changes", *more, *places]), (1, b"", line), f"{more} {places}")
    same(answer(["changes", "--tile", "0", "--workers", "0", world, world]), (1, b"", b"fault 6 Cut: 1 ZeroTile\n"))
    same(answer(["changes", "--workers", "65", world, world]), (1, b"", b"fault 3 Matrix: 1 Workers\n"))


def test_output_that_cannot_be_written():
    world, after = file(BEFORE), file(AFTER)
    for words in ("", "--brief", "--format json"):
        for streams in (">&-", "> /dev/full", "1< /dev/null"):
            same(shell(f"changes {words} {world} {after}", streams), (1, b"", b"fault 4 Write\n"), f"{words} {streams}")


def test_pipes_are_files():
    before, after = file(BEFORE), file(AFTER)
    script = f'exec "$0" changes <(cat {before}) <(cat {after})'
    same(answer(["-c", script, IAMSIM], program="bash"), (0, lines(ROWS), b""))


def test_the_longest_worlds():
    before, after = file(BEFORE.ljust(8_388_608)), file(AFTER.ljust(8_388_608))
    same(answer(["changes", before, after]), (0, lines(ROWS), b""))
    same(answer(["changes", file(BEFORE.ljust(8_388_609)), after]), (1, b"", b"fault 9 Before: 9 TooLarge\n"))
    same(answer(["changes", before], AFTER.ljust(8_388_609)), (1, b"", b"fault 2 World: 9 TooLarge\n"))
    same(shell(f"changes {before}", "< /dev/zero"), (1, b"", b"fault 2 World: 9 TooLarge\n"))
    same(answer(["changes", "/dev/zero", "no-such-file"]), (1, b"", b"fault 9 Before: 9 TooLarge\n"))


def test_many_cells_in_every_cut():
    # Of 14,400 requests each is gained, and 120 of another action are lost.
    after = json.loads(many_cells())
    after["principals"] = [{"user": ANN, "identity": [document(statement())]}]
    before = json.loads(many_cells())
    before["actions"] = before["actions"][:-1] + ["ec2:RunInstances"]
    before["principals"] = [{"user": ANN, "identity": [document(statement(action="ec2:*"))]}]
    places = [file(json.dumps(before)), file(json.dumps(after))]
    texts = [it["arn"] for it in after["resources"]]
    wanted = BRIEF_HEADER.decode()
    wanted += "".join(
        f"gained,{ANN},{action},{text},{'' if action == 's3:Get119' else 'implicitDeny'},allowed\n"
        for action in after["actions"]
        for text in texts
    )
    wanted += "".join(f"lost,{ANN},ec2:RunInstances,{text},allowed,\n" for text in texts)
    for words in (
        "",
        "--tile 4 --workers 64",
        "--tile 1000 --workers 1",
        "--tile 14400 --workers 4",
        "--tile 14520",
        "--tile 99999",
    ):
        same(answer(["changes", "--brief", *words.split(), *places]), (0, wanted.encode(), b""), words)
    same(answer(["changes", "--tile", "3", *places]), (1, b"", b"fault 6 Cut: 3 TooMany\n"))


def statement_at(world, user, place):
    """The statement at a place of an identity policy of a user."""
    _, policy, number = place.split("/")
    identity = next(it["identity"] for it in world["principals"] if it["user"] == user)
    found = identity[int(policy)]["Statement"]
    return found[int(number)] if isinstance(found, list) else found


def said(world):
    """What the program says of each request of a world, and the statements that decide it."""
    status, text, _ = answer(["matrix", "--workers", "1"], json.dumps(world).encode())
    same(status, 0)
    rows = list(csv.reader(io.StringIO(text.decode())))[1:]
    return {
        (row[1], row[2], row[3]): (*row[4:7], [statement_at(world, row[1], it) for it in row[5].split()]) for row in rows
    }


def held(before, after, is_all):
    """The rows of what two worlds say of their requests."""
    rows, nothing = [], ("", "", "", [])
    for request in [*after, *(it for it in before if it not in after)]:
        one, other = before.get(request, nothing), after.get(request, nothing)
        was, now = one[0] == "allowed", other[0] == "allowed"
        if was != now:
            rows.append(("gained" if now else "lost", *request, one[0], other[0], *one[1:3], *other[1:3]))
        elif is_all and one != other and request in before and request in after:
            rows.append(("differs", *request, one[0], other[0], *one[1:3], *other[1:3]))
    return rows


def random_world(rng):
    users = rng.sample(["ann", "bob", "eve"], rng.randint(1, 3))
    actions = rng.sample([GET, PUT, DECRYPT, "s3:getobject"], rng.randint(1, 4))
    resources = rng.sample([K, Q, "*"], rng.randint(1, 3))

    def policy():
        return document(
            *(
                statement(
                    rng.choice(["Allow", "Allow", "Deny"]),
                    rng.choice(["*", "s3:*", "s3:Get*", "kms:*"]),
                    rng.choice(["*", K, "arn:aws:s3:::b/*"]),
                )
                for _ in range(rng.randint(1, 2))
            )
        )

    return {
        "moment": 0,
        "accounts": [{"id": "111122223333"}],
        "principals": [
            {"user": f"arn:aws:iam::111122223333:user/{it}", "identity": [policy() for _ in range(rng.randint(0, 2))]}
            for it in users
        ],
        "actions": actions,
        "resources": [{"arn": it, "account": "111122223333"} for it in resources],
    }


def test_random_worlds_against_their_matrices():
    rng = random.Random(26)
    for _ in range(60):
        before, after = random_world(rng), random_world(rng)
        places = [file(json.dumps(before)), file(json.dumps(after))]
        one, other = said(before), said(after)
        for more in ([], ["--all"]):
            words = [*more, "--tile", str(rng.randint(1, 40)), "--workers", rng.choice(["1", "4", "64"])]
            rows = held(one, other, bool(more))
            same(answer(["changes", *words, *places]), (0, lines(rows), b""), f"{words} {places}")
        same(answer(["changes", "--all", places[0], places[0]]), (0, HEADER, b""))


def test_the_example():
    company = os.path.join(EXAMPLES, "company.json")
    same(answer(["changes", "--all", company, company]), (0, HEADER, b""))
