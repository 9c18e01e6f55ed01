"""Inputs as people have them, inputs that are cut or of another form, and hostile texts: each command ends with its answer or with one
line, and every output stays of its form."""

import contextlib
import csv
import gzip
import io
import json
import os
import re
import sys
import xml.etree.ElementTree

from harness import (
    AWS,
    EXAMPLES,
    TOOLS,
    aws,
    data,
    document,
    file,
    load,
    matrix,
    run,
    same,
    small_world,
    statement,
    world,
)

sys.path.insert(0, TOOLS)
from iamsim_aws import command  # noqa: E402

EXPORT = data("account.json")
ORGANIZATION = load(data("organization.json"))


def call(*words):
    """Status and lines on standard error of a command, run in this process."""
    said, out = io.StringIO(), io.TextIOWrapper(io.BytesIO())
    with contextlib.redirect_stderr(said), contextlib.redirect_stdout(out):
        status = command.main(list(words))
    return status, said.getvalue()


def read(path):
    with open(path, "rb") as it:
        return it.read()


def test_files_as_people_have_them():
    whole, text = world(EXPORT), read(EXPORT).decode()
    forms = {
        "mark": b"\xef\xbb\xbf" + text.encode(),
        "PowerShell": text.encode("utf-16"),
        "UTF-16": text.encode("utf-16-le"),
        "gzip": gzip.compress(text.encode()),
    }
    for name, given in forms.items():
        same(world(file(given)), whole, name)
    out, _ = aws("world", "-", "--moment", "0", "--session", "s1", given=text)
    same(json.loads(out), whole)


def test_warnings_of_a_world():
    resources = [
        {
            "arn": "arn:aws:kms:eu-west-1:111122223333:key/1",
            "account": "111122223333",
            "policy": document({"Effect": "Allow", "Principal": "*", "Action": "*"}),
        },
        {"arn": "arn:aws:iam::111122223333:role/x", "account": "111122223333", "policy": document()},
        {"arn": "arn:aws:sqs:eu-west-1:444455556666:q", "account": "111122223333"},
        {"arn": "arn:aws:s3:::b/*", "account": "111122223333"},
    ]
    _, said = aws(
        "world",
        EXPORT,
        "--resources",
        file(resources),
        "--actions",
        file("s3:GetObjekt\n"),
        "--services",
        data("s3.json"),
    )
    for wanted in (
        'key/1: "sealed" is missing, and a KMS key\'s policy must grant',
        'role/x: "sealed" is missing, and a role\'s trust policy must grant',
        "sqs:eu-west-1:444455556666:q: its ARN names the account 444455556666, and its account is 111122223333",
        "arn:aws:s3:::b/*: a resource is one text and no pattern",
        "s3:GetObjekt: the service reference does not know this action",
    ):
        assert wanted in said, f"{wanted} is not in {said}"
    same(said.count("\n"), 5, said)
    _, said = aws("world", EXPORT)
    assert "policies ask (iamsim-aws keys tells where): SAML:aud, sts:ExternalId\n" in said, said


def test_faults_name_what_was_read_and_where():
    for words, why in [
        (["--resources", file([{"arn": "arn:aws:s3:::b/k"}])], "resource 0: account is no text"),
        (
            ["--resources", file([{"arn": "arn:aws:s3:::b/k", "account": "1"}])],
            "resource 0 (arn:aws:s3:::b/k): account is no account of twelve digits: 1",
        ),
        (["--resources", file({})], "it is no list of resources"),
        (["--resources", file(["x"])], "resource 0 is no object"),
        (
            ["--resources", file([{"arn": "a", "account": "111122223333", "policy": "{"}])],
            "a policy: its document: it is no JSON",
        ),
        (["--context", file([])], "it is no object"),
        (["--organization", file([])], "it is no object"),
        (["--organization", file({**ORGANIZATION, "parents": 3})], "organization: parents is not of the form"),
        (["--organization", file({"Roots": []})], "it is no file of 'iamsim-aws organization': it has no id"),
        (["--organization", file({**ORGANIZATION, "targets": None})], "organization: targets is not of the form"),
        (["--actions", file("# none\n")], "the world has no actions"),
        (["--services", file("{}")], "it is no file of AWS's service reference"),
        (["--resources", "no-such-file"], "no-such-file: No such file or directory"),
        (["--resources", TOOLS], "Is a directory"),
        (["--resources", file(b"\x1f\x8bcut")], "iamsim-aws: "),
        (["--resources", file(b"\xff\xfe\x00")], "no text in UTF-8 or UTF-16"),
        (["--resources", file("[" * 100000)], "nested too deep"),
        (["--resources", file('[{"arn": NaN}]')], "NaN is no JSON"),
    ]:
        _, said = aws("world", EXPORT, *words, status=1)
        assert why in said, f"{words}: {said}"
    for value in (
        {},
        [],
        3,
        "x",
        {"UserDetailList": 3},
        {"UserDetailList": [3]},
        {"UserDetailList": [{}]},
        {"RoleDetailList": [{"Arn": "x"}]},
    ):
        aws("world", file(value), status=1)
    same(run([AWS, "world"], status=2)[0], "")
    same(run([AWS, "world", EXPORT, "--moment", "-1"], status=2)[0], "")


def test_equal_keys_are_told():
    """Of equal keys of an object the last stands; each is told once, with its file."""
    twice = '{"Version": "2012-10-17", "Statement": {"Effect": "Deny", "Principal": "*", "Action": "s3:GetObject", "Action": "s3:Put*", "Effect": "Allow", "Resource": "*", "Action": "s3:Get*"}}'
    path = file(twice)
    out, said = aws("can", "alice", "s3:GetObject", "arn:aws:s3:::b/k", EXPORT, "--policy", path)
    assert out.startswith("allowed: "), out
    same(
        said.splitlines(),
        [
            f"iamsim-aws: {path}: the key {it} comes twice in one object: the last one stands"
            for it in ("Effect", "Action")
        ],
    )
    # In a file of other things, and in a policy that stands there as a text.
    for value, what in (
        (f'[{{"arn": "arn:aws:s3:::b", "account": "111122223333", "policy": {twice}}}]', None),
        (
            json.dumps([{"arn": "arn:aws:s3:::b", "account": "111122223333", "policy": twice}]),
            "arn:aws:s3:::b policy: its document",
        ),
    ):
        further = file(value)
        _, said = aws("who-can", "ec2:RunInstances", "arn:aws:s3:::b", EXPORT, "--resources", further)
        same(
            said.splitlines(),
            [
                f"iamsim-aws: {what or further}: the key {it} comes twice in one object: the last one stands"
                for it in ("Effect", "Action")
            ],
        )


def test_check_tells_every_fault():
    bad = small_world(document(statement("allow")), document(statement(action="GetObject")))
    bad["principals"].append({"user": "ann"})
    bad["principals"].append(
        {"user": "arn:aws:iam::111122223333:user/bob", "identity": [document(statement(resource="b"))]}
    )
    bad["resources"] += [{"arn": "no", "account": "111122223333"}, {"arn": "arn:aws:s3:::c", "account": "999999999999"}]
    bad["actions"] += ["s3:Get*"]
    _, said = aws("check", file(bad), status=1)
    for wanted in (
        "principals/0/identity/0: statement 0: the Effect is neither",
        "principals/0/identity/1: statement 0: an action is not written",
        "principals/2/identity/0: statement 0: a resource is neither",
        "3 BadRequester at principals/1",
        "4 BadAction at actions/1",
        "5 BadResourceArn at resources/1",
        "6 UnknownAccount at resources/2",
    ):
        assert wanted in said, f"{wanted} is not in {said}"
    same(said.count("\n"), 7, said)
    for value, why in (
        ({**small_world(), "moment": -1}, "2 BadShape at moment"),
        ({**small_world(), "more": 1}, "2 BadShape at"),
        ({}, "2 BadShape"),
        ({"moment": 0, "accounts": 3}, "2 BadShape"),
        ({"principals": [3]}, "2 BadShape"),
    ):
        _, said = aws("check", file(value), status=1)
        assert why in said, f"{value}: {said}"
    _, said = aws("check", file("{"), status=1)
    assert "it is no JSON" in said, said
    same(aws("check", os.path.join(EXAMPLES, "company.json")), ("", ""))


def test_an_export_cut_at_each_byte():
    # A small one with each kind of object, so that each byte is tried.
    export = {
        "UserDetailList": [
            {
                "UserName": "a",
                "UserId": "AIDA",
                "Arn": "arn:aws:iam::111122223333:user/a",
                "GroupList": ["g"],
                "UserPolicyList": [{"PolicyName": "p", "PolicyDocument": document(statement())}],
                "Tags": [{"Key": "k", "Value": "v"}],
            }
        ],
        "GroupDetailList": [{"GroupName": "g", "Arn": "arn:aws:iam::111122223333:group/g"}],
        "RoleDetailList": [
            {
                "RoleName": "r",
                "RoleId": "AROA",
                "Arn": "arn:aws:iam::111122223333:role/r",
                "AssumeRolePolicyDocument": document(),
            }
        ],
    }
    text = json.dumps(export).encode()
    path = file(text)
    status, said = call("world", path)
    same(status, 0, said)
    for size in range(len(text)):
        with open(path, "wb") as it:
            it.write(text[:size])
        status, said = call("world", path)
        same((status, said.count("\n")), (1, 1), f"{size}: {said}")
        assert "it could not go on" not in said, f"{size}: {said}"


PLACES = [
    '"Arn"',
    '"UserName"',
    '"arn:',
    '"Statement"',
    '"GroupList"',
    '"PolicyDocument"',
    '"Tags"',
    '"Key"',
    "[",
    "{",
    ":",
    '"',
]


def test_an_export_with_parts_of_another_form():
    text = json.dumps(load(data("partner.json")))
    path = file(text)
    for place in PLACES:
        for at in [it.start() for it in re.finditer(re.escape(place), text)][:12]:
            for other in ("3", "null", '"x', "[", "{}"):
                with open(path, "w") as it:
                    it.write(text[:at] + other + text[at + len(place) :])
                status, said = call("world", path)
                assert status in (0, 1) and "Traceback" not in said, said
                same(
                    status == 1,
                    any(not line.startswith("iamsim-aws: no context gives") for line in said.splitlines()),
                    said,
                )


def test_other_inputs_cut():
    """Each file of each command, cut at many places."""
    draft, plan = json.dumps(document(statement())), json.dumps(
        {
            "resource_changes": [
                {
                    "address": "aws_iam_user.x",
                    "mode": "managed",
                    "type": "aws_iam_user",
                    "change": {"before": None, "after": {"name": "x"}, "after_unknown": {}},
                }
            ]
        }
    )
    worlds = json.dumps(small_world(document(statement())))
    template = {"Resources": {"U": {"Type": "AWS::IAM::User", "Properties": {"UserName": "x"}}}}
    files = [
        ("changes", plan, lambda it: [EXPORT, "--terraform", it]),
        ("changes", json.dumps(template), lambda it: [EXPORT, "--cloudformation", it]),
        ("changes", draft, lambda it: [EXPORT, "--put", f"Homes={it}"]),
        ("check", worlds, lambda it: [it]),
        ("keys", worlds, lambda it: [it]),
        ("decimals", worlds, lambda it: [it]),
        ("split", worlds, lambda it: [it]),
        ("can", worlds, lambda it: ["ann", "s3:GetObject", "*", "--world", it]),
        ("page", worlds, lambda it: ["--world", it]),
        ("world", read(data("organization.json")).decode().strip(), lambda it: [EXPORT, "--organization", it]),
        ("actions", read(data("s3.json")).decode().strip(), lambda it: [it]),
    ]
    for name, text, words in files:
        path = file(text)
        for size in range(0, len(text), max(1, len(text) // 60)):
            with open(path, "w") as it:
                it.write(text[:size])
            status, said = call(name, *words(path))
            same((status, said.count("\n")), (1, 1), f"{name} {size}: {said}")


# --- hostile texts ---------------------------------------------------------------------------------------------------

HOSTILE = ['a,"b"\nc', "</script><script>alert(1)</script>", "`|*_[x](y)<b>&amp;", "]]>\u2028'\x1b[31m", ",allowed,"]
ARNS = [f"arn:aws:s3:::b/{it}" for it in HOSTILE]


def hostile_world():
    value = small_world(
        document(
            *[statement(Sid=it, action="s3:GetObject", Condition={"StringEquals": {f"k{it}": it}}) for it in HOSTILE],
            statement(Sid="All", action="s3:GetObject"),
        ),
        resources=[{"arn": it, "account": "111122223333"} for it in ARNS],
    )
    return value, {"principals/0/identity/0": HOSTILE[0] + HOSTILE[1] + HOSTILE[2] + HOSTILE[3]}


def lines_are_clean(text):
    """Whether no line holds a sign that a terminal or a reader of lines would obey."""
    return all(line.isprintable() for line in text.splitlines()) and "\u2028" not in text and "\x1b" not in text


def test_hostile_texts_in_answers():
    value, names = hostile_world()
    given = ["--world", file(value), "--names", file(names)]
    for words in (["can", "ann"], ["who-can"]):
        out, _ = aws(*words, "s3:GetObject", "*", *given)
        assert lines_are_clean(out), out
        same(sum(line.startswith("allowed: ") for line in out.splitlines()), 5)
        found = json.loads(aws(*words, "s3:GetObject", "*", *given, "--format", "json")[0])
        same([it["resource"] for it in found], ARNS)
        same([it["statements"][0]["policy"] for it in found], [names["principals/0/identity/0"]] * 5)
        rows = list(csv.reader(io.StringIO(aws(*words, "s3:GetObject", "*", *given, "--format", "csv")[0], newline="")))
        same([row[2] for row in rows[1:]], ARNS)
    # A resource that holds ',allowed,' and is denied is no allowed one.
    denied = small_world(resources=[{"arn": ARNS[4], "account": "111122223333"}])
    same(
        json.loads(aws("can", "ann", "s3:GetObject", "*", "--world", file(denied), "--format", "json", status=3)[0])[0][
            "decision"
        ],
        "implicitDeny",
    )


def test_hostile_texts_in_changes():
    value, names = hostile_world()
    after = {**value, "principals": [{**value["principals"][0], "identity": []}]}
    words = ["--before", file(value), "--after", file(after), "--names", file(names)]
    out, _ = aws("changes", *words)
    assert lines_are_clean(out) and out.startswith("5 lost and 0 gained, of 5 requests\n"), out
    rows = list(csv.reader(io.StringIO(aws("changes", *words, "--format", "csv")[0], newline="")))
    same([row[3] for row in rows[1:]], ARNS)
    # In Markdown the five are a line, in which three are named.
    for some in (value["resources"], value["resources"][::-1]):
        before, after = ({**it, "resources": some} for it in (value, after))
        words = ["--before", file(before), "--after", file(after), "--names", file(names), "--format", "markdown"]
        lines = aws("changes", *words)[0].splitlines()
        same([line.count("<code>") for line in lines if line.startswith("  - ")], [4])
        same([line for line in lines if "<script" in line or "](y)" in line], [])


def test_hostile_texts_in_reports_of_rules():
    value, names = hostile_world()
    junit, sarif = file(""), file("", " a&b.sarif")
    out, _ = aws(
        "rules",
        file("never * s3:GetObject *\n", " <r>&\"'.txt"),
        "--world",
        file(value),
        "--names",
        file(names),
        "--junit",
        junit,
        "--sarif",
        sarif,
        status=3,
    )
    assert lines_are_clean(out), out
    [case] = xml.etree.ElementTree.parse(junit).getroot()
    # The five, '*', and a name of S3, for all others.
    same(case[0].text.count("\n"), 7)
    results = load(sarif)["runs"][0]["results"]
    same(len(results), 7)
    assert all(ARNS[4] in it["message"]["text"] or "allowed by" in it["message"]["text"] for it in results)
    same(re.search(r"[ <>&\"]", results[0]["locations"][0]["physicalLocation"]["artifactLocation"]["uri"]), None)


def test_hostile_texts_on_pages_and_in_csv():
    value, names = hostile_world()
    out, _ = aws("page", "--world", file(value), "--names", file(names), "--hanging")
    same(out.count("</script>"), 2)
    lines = json.dumps(value) + "\n"
    rows = list(csv.reader(io.StringIO(aws("matrices", given=lines + lines)[0], newline="")))
    same([row[2] for row in rows[1:]], ARNS * 2)
    same(rows[0], ["principal", "action", "resource", "decision", "statements", "lacks"])
    wanted = {key: it[0] for key, it in matrix(value).items()}
    same({(row[0], row[1], row[2]): row[3] for row in rows[1:]}, wanted)


def test_half_a_character():
    value = json.dumps(small_world()).replace("b/k", "b/\\ud800")
    for words in (["check"], ["keys"], ["split"], ["can", "ann", "s3:GetObject", "*", "--world"], ["page", "--world"]):
        _, said = aws(*words, file(value), status=0 if words == ["keys"] else 1)
        same(said.count("\n"), 0 if words == ["keys"] else 1, said)


def test_a_reader_that_has_seen_enough():
    ran = run(
        [
            "bash",
            "-c",
            f"set -o pipefail; {AWS} who-can s3:GetObject '*' --world {file(hostile_world()[0])} | head -c 1; echo",
        ]
    )
    same((ran[0], ran[1]), ("5"[:0] + "1\n", ""))


def test_each_command_has_an_example():
    out, _ = aws("--help")
    names = re.findall(r"^    ([a-z][a-z-]+)  ", out, re.M)
    assert {
        "world",
        "can",
        "who-can",
        "changes",
        "rules",
        "page",
        "check",
        "decimals",
        "keys",
        "actions",
        "pairs",
        "split",
        "matrices",
    } <= set(names), names
    for name in names:
        out, _ = aws(name, "--help")
        assert "example:\n" in out and f"iamsim-aws {name}" in out, out
