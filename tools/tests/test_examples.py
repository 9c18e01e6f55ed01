"""The example worlds whose stories docs/guide.md tells, as worked out there by hand."""

import os

from harness import EXAMPLES, aws, load, matrix, same

ANN, BOB = "arn:aws:iam::111122223333:user/ann", "arn:aws:iam::111122223333:user/bob"
BUILD = "arn:aws:sts::111122223333:assumed-role/build/run-1"


def example(name):
    return load(os.path.join(EXAMPLES, name))


def test_who_may_assume_which_role_across_two_accounts():
    value = example("roles.json")
    rows = {
        ANN: [
            ("allowed", "resource/0/0 identity/0/0", ""),
            ("implicitDeny", "identity/0/0", "resource"),
            ("allowed", "resource/0/0 identity/1/0", ""),
            ("implicitDeny", "", "resource identity"),
        ],
        BOB: [
            ("implicitDeny", "resource/0/0", "identity"),
            ("allowed", "resource/0/0", ""),
            ("implicitDeny", "resource/0/0", "identity"),
            ("implicitDeny", "", "resource identity"),
        ],
        BUILD: [
            ("allowed", "resource/0/0 identity/0/0", ""),
            ("implicitDeny", "identity/0/0", "resource"),
            ("allowed", "resource/0/0 identity/0/0", ""),
            ("implicitDeny", "identity/0/0", "resource"),
        ],
    }
    arns = [it["arn"] for it in value["resources"]]
    same(matrix(value), {(who, "sts:AssumeRole", arn): it for who, row in rows.items() for arn, it in zip(arns, row)})
    # With the external id that both sides agreed on, the build may.
    value["context"] = {"sts:ExternalId": "agreed"}
    same(matrix(value)[BUILD, "sts:AssumeRole", arns[3]], ("allowed", "resource/0/0 identity/0/0", ""))


def test_the_key_that_the_vault_asks_for():
    out, _ = aws("keys", os.path.join(EXAMPLES, "roles.json"))
    same(out, "sts:ExternalId\tresources/3/policy statement 0\n")


def test_a_bucket_shared_across_accounts():
    found = matrix(example("shared.json"))
    allows = "control/0/0/0 control/1/0/0"
    rows = {
        # dee is of the bucket's account, and needs nothing of its policy; ann may read by it, and not write; eve is
        # named by it too, and of another organisation.
        "arn:aws:iam::111122223333:user/dee": [("allowed", f"{allows} identity/0/0", "")] * 2,
        "arn:aws:iam::444455556666:user/ann": [
            ("allowed", f"{allows} resource/0/0 identity/0/0", ""),
            ("implicitDeny", f"{allows} identity/0/0", "resource"),
        ],
        "arn:aws:iam::777788889999:user/eve": [("explicitDeny", "control/1/1/0", "")] * 2,
    }
    same(
        found,
        {
            (who, action, "arn:aws:s3:::shared/data.csv"): it
            for who, row in rows.items()
            for action, it in zip(("s3:GetObject", "s3:PutObject"), row)
        },
    )
