"""Decimals, keys, splitting, actions and pairs."""

import csv
import io
import json
import os

from harness import EXAMPLES, IAMSIM, aws, data, document, filtered, load, matrix, run, same, small_world, statement


def numeric(operator, key, value):
    return statement(Condition={operator: {key: value}})


def decided(value):
    return [it[0] for it in matrix(value).values()]


def test_decimals_keep_each_comparison():
    # 1.2 against 1.2, 1.25 and 1.1, as texts and numbers, in lists too; every comparison is worked out by hand.
    cases = [
        ("NumericLessThan", "1.2", "1.2", False),
        ("NumericLessThan", "1.25", "1.2", True),
        ("NumericLessThan", 1.2, "1.1", True),
        ("NumericEquals", ["2.0", "3"], "2", True),
        ("NumericEqualsIfExists", "2.50", 2.5, True),
        ("NumericGreaterThanEquals", "-0.5", "-0.4", True),
        ("NumericGreaterThanEquals", "-0.5", "-0.6", False),
        ("ForAnyValue:NumericNotEquals", "1.5", ["1.5", "1.50"], False),
        ("ForAllValues:NumericLessThanEquals", "10", ["9.9", "10.0"], True),
        ("NumericEquals", "1.2", "a text", False),
    ]
    for operator, policy, given, holds in cases:
        key = "s3:TlsVersion"
        made = small_world(document(numeric(operator, key, policy)), context={key.upper(): given})
        [whole] = filtered("decimals", made)
        same(decided(whole), ["allowed" if holds else "implicitDeny"], f"{operator} {policy} {given}")


def test_decimals_change_all_values_of_their_key_alone():
    made = small_world(
        document(
            numeric("NumericLessThan", "a", "1.25"),
            numeric("NumericEquals", "A", [7, "007"]),
            numeric("NumericEquals", "b", "12"),
            statement(Condition={"Null": {"a": "true"}}),
        ),
        context={"b": 12, "a": [3, "0.5"]},
    )
    made["principals"][0]["boundary"] = document(numeric("NumericGreaterThan", "a", "-2"))
    [whole] = filtered("decimals", made)
    conditions = [it["Condition"] for it in whole["principals"][0]["identity"][0]["Statement"]]
    same(
        conditions,
        [
            {"NumericLessThan": {"a": "125"}},
            {"NumericEquals": {"A": ["700", "700"]}},
            {"NumericEquals": {"b": "12"}},
            {"Null": {"a": "true"}},
        ],
    )
    same(whole["principals"][0]["boundary"]["Statement"][0]["Condition"], {"NumericGreaterThan": {"a": "-200"}})
    same(whole["context"], {"b": 12, "a": ["300", "50"]})


def test_decimals_that_cannot_be_made_whole_are_named():
    both = document(numeric("NumericLessThan", "k", "1.2"), statement(Condition={"StringEquals": {"K": "x"}}))
    assert "k: it has decimals, and stands under StringEquals too" in filtered("decimals", small_world(both), status=1)
    variable = document(numeric("NumericLessThan", "k", "1.2"), statement(resource="arn:aws:s3:::b/${k}"))
    assert "k: it has decimals, and is a variable" in filtered("decimals", small_world(variable), status=1)
    long = document(numeric("NumericLessThan", "k", "1.0123456789"))
    assert "k: it has over nine places" in filtered("decimals", small_world(long), status=1)
    large = document(numeric("NumericLessThan", "k", ["1.5", "123456789012345678"]))
    assert "k: 1234567890123456780 has over eighteen digits" in filtered("decimals", small_world(large), status=1)
    derived = document(numeric("NumericLessThan", "aws:EpochTime", "1.5"))
    assert "aws:epochtime: it is compared with a decimal" in filtered("decimals", small_world(derived), status=1)
    nine = document(numeric("NumericLessThan", "k", "1.123456789"))
    same(
        filtered("decimals", small_world(nine))[0]["principals"][0]["identity"][0]["Statement"][0]["Condition"],
        {"NumericLessThan": {"k": "1123456789"}},
    )


def test_a_world_without_decimals_is_left_as_it_is():
    for name in ("company.json", "guarded.json"):
        value = load(os.path.join(EXAMPLES, name))
        same(filtered("decimals", value), [value], name)


def test_keys_that_nothing_gives():
    made = small_world(
        document(
            statement(
                resource=["arn:aws:s3:::b/${aws:username}/${team}", "arn:aws:s3:::b/${aws:PrincipalTag/unit, 'none'}"]
            ),
            statement(
                Condition={
                    "StringLike": {"aws:SourceVpc": ["vpc-${*}", "${VPC}"]},
                    "Bool": {"AWS:SecureTransport": "true"},
                }
            ),
        ),
        context={"team": "x", "aws:securetransport": True},
    )
    made["resources"][0]["policy"] = document(
        {"Effect": "Deny", "Principal": "*", "Action": "*", "Condition": {"NumericEquals": {"aws:sourcevpc": "${n}"}}}
    )
    out, _ = aws("keys", given=json.dumps(made))
    same(
        out.splitlines(),
        [
            "aws:PrincipalTag/unit\tprincipals/0/identity/0 statement 0",
            "aws:sourcevpc\tprincipals/0/identity/0 statement 1, resources/0/policy statement 0",
            "VPC\tprincipals/0/identity/0 statement 1",
        ],
    )


def with_many(count):
    """The first example with `count` users, each with a policy of 100 statements."""
    made = small_world(
        document(statement()), resources=[{"arn": f"arn:aws:s3:::b/{n}", "account": "111122223333"} for n in range(2)]
    )
    made["principals"] = [
        {
            "user": f"arn:aws:iam::111122223333:user/u{n}",
            "identity": [document(*[statement(resource=f"arn:aws:s3:::b/{n % 2}")] * 100)],
        }
        for n in range(count)
    ]
    return made


def test_a_large_estate_in_one_csv():
    # 90 users of 100 statements: over 4,096 in one world. User n may read object n mod 2 and not the other one.
    worlds = filtered("split", with_many(90))
    same([len(it["principals"]) for it in worlds], [40, 40, 10])
    lines = "".join(json.dumps(it) + "\n" for it in worlds)
    out, _ = aws("matrices", "--brief", given=lines)
    rows = list(csv.reader(io.StringIO(out)))
    same(rows[0], ["principal", "action", "resource", "decision"])
    same(
        rows[1:],
        [
            [
                f"arn:aws:iam::111122223333:user/u{n}",
                "s3:GetObject",
                f"arn:aws:s3:::b/{r}",
                "allowed" if n % 2 == r else "implicitDeny",
            ]
            for n in range(90)
            for r in range(2)
        ],
    )
    _, said = aws("matrices", given="{}\n", status=1)
    assert "world 0: fault 2 World: 2 BadShape at moment" in said, said


def test_splitting_by_cells_and_its_errors():
    worlds = filtered("split", with_many(3), "--cells", "2")
    same([[it["user"][-2:] for it in value["principals"]] for value in worlds], [["u0"], ["u1"], ["u2"]])
    nobody = {**with_many(1), "principals": []}
    same(filtered("split", nobody), [nobody])
    huge = with_many(1)
    huge["principals"][0]["identity"] *= 41
    assert "one principal alone is too large for a world: arn:aws:iam::111122223333:user/u0" in filtered(
        "split", huge, status=1
    )


def test_actions_of_services():
    out, _ = aws("actions", data("s3.json"), data("kms.json"))
    same(
        out.split(),
        ["s3:GetObject", "s3:ListAllMyBuckets", "s3:ListBucket", "s3:PutObject", "kms:Decrypt", "kms:ListKeys"],
    )


def test_rows_that_no_service_has():
    actions = [
        "S3:getobject",
        "s3:ListBucket",
        "s3:ListAllMyBuckets",
        "kms:Decrypt",
        "s3:NoSuchThing",
        "sqs:SendMessage",
    ]
    resources = ["arn:aws:s3:::b", 'arn:aws:s3:::b/k,"l', "arn:aws:kms:eu-west-1:111122223333:key/7c1d", "*"]
    made = small_world(
        document(statement()), actions=actions, resources=[{"arn": it, "account": "111122223333"} for it in resources]
    )
    # An object's ARN fits the form of a bucket too, but with fewer given characters.
    wanted = [(actions[0], resources[1]), (actions[0], "*"), (actions[1], resources[0]), (actions[1], "*")]
    wanted += (
        [(actions[2], it) for it in resources]
        + [(actions[3], resources[2]), (actions[3], "*")]
        + [(actions[5], it) for it in resources]
    )
    words = ["pairs", data("s3.json"), data("kms.json")]
    report, _ = run([IAMSIM, "matrix"], json.dumps(made))
    out, said = aws(*words, given=report)
    rows = list(csv.reader(io.StringIO(out)))
    same([(row[2], row[3]) for row in rows[1:]], wanted)
    same(rows[0][0], "cell")
    same(said, "iamsim-aws: no file of the service sqs: its rows stay\n")
    report, _ = run([IAMSIM, "matrix", "--format", "json"], json.dumps(made))
    out, _ = aws(*words, given=report)
    same([(row["action"], row["resource"]) for row in json.loads(out)], wanted)
