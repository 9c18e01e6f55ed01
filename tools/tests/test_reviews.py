"""What changes in words, and as a comment for a review. What is lost and gained is worked out by hand from the exports in data/."""

from harness import aws, document, file, same, small_world, statement
from test_changes import SESSION
from test_cloudformation import ALICE, EXPORT


def test_changes_in_words_and_for_a_review():
    before = small_world(document(statement(Sid="Old|`", action="s3:GetObject")))
    after = small_world(document(statement("Deny", Sid="<b>No", action="s3:GetObject")))
    out, _ = aws("changes", "--before", file(before), "--after", file(after))
    same(
        out.splitlines(),
        [
            "1 lost and 0 gained, of 1 requests",
            "lost:",
            "- arn:aws:iam::111122223333:user/ann s3:GetObject arn:aws:s3:::b/k",
            "    denied by principals/0/identity/0, statement 0 <b>No (identity policy)",
            "    was allowed by principals/0/identity/0, statement 0 Old|` (identity policy)",
        ],
    )
    out, _ = aws(
        "changes", "--before", file(before), "--after", file(after), "--action", "s3:GetObject", "--format", "markdown"
    )
    same(
        out.splitlines(),
        [
            "**0 gained and 1 lost by 1 principal, of 1 requests**",
            "",
            "### Lost",
            "",
            "#### <code>arn:aws:iam::111122223333:user/ann</code>",
            "",
            "- <code>allowed, now explicitDeny; denied by principals/0/identity/0, statement 0 &#60;b&#62;No (identity policy);"
            " was allowed by principals/0/identity/0, statement 0 Old&#124;&#96; (identity policy)</code>",
            "  - <code>s3:GetObject</code> on <code>arn:aws:s3:::b/k</code>",
        ],
    )


def test_a_review_of_many_requests():
    """A principal has a block, and each reason one line there; behind it stand the actions, with three of the resources."""
    resources = [{"arn": f"arn:aws:s3:::b/{n}", "account": "111122223333"} for n in range(5)]
    actions = ("s3:GetObject", "s3:PutObject")
    before = small_world(
        document(statement("Deny", "s3:Put*", "arn:aws:s3:::b/4")), actions=actions, resources=resources
    )
    after = small_world(document(statement()), actions=actions, resources=resources)
    words = [word for it in actions for word in ("--action", it)]
    out, _ = aws("changes", "--before", file(before), "--after", file(after), *words, "--format", "markdown")
    why = "now allowed; allowed by principals/0/identity/0, statement 0 (identity policy)</code>"
    three = ", ".join(f"<code>arn:aws:s3:::b/{n}</code>" for n in range(3))
    # Reads of five objects, writes of four, and the write that was denied.
    same(
        out.splitlines(),
        [
            "**10 gained by 1 principal, among them an administrator, and 0 lost, of 10 requests**",
            "",
            "### Gained",
            "",
            "#### <code>arn:aws:iam::111122223333:user/ann</code>, an administrator",
            "",
            f"- <code>implicitDeny, {why}",
            f"  - <code>s3:GetObject</code> on {three} and 2 more",
            f"  - <code>s3:PutObject</code> on {three} and 1 more",
            f"- <code>explicitDeny, {why}",
            "  - <code>s3:PutObject</code> on <code>arn:aws:s3:::b/4</code>",
        ],
    )
    # For whom the same holds by the same policies there is one block, which names them all.
    draft = file(document(statement(action="s3:List*", resource="arn:aws:s3:::b/k")))
    words = ["--action", "s3:GetObject", "--resource", "arn:aws:s3:::b/k", "--format", "markdown", "--session", "s1"]
    out, _ = aws("changes", EXPORT, "--put", f"ReadObjects={draft}", *words)
    same(
        out.splitlines()[2:13],
        [
            "### Lost",
            "",
            "#### 2 principals",
            "",
            "- <code>allowed, now implicitDeny; lacks identity: no identity policy of the principal allows this; was allowed by"
            " arn:aws:iam::aws:policy/ReadObjects, statement 0 (identity policy)</code>",
            "  - <code>s3:GetObject</code> on <code>arn:aws:s3:::b/k</code>",
            "",
            "Each of:",
            "",
            f"- <code>{ALICE}</code>",
            f"- <code>{SESSION}deploy/s1</code>",
        ],
    )


def test_a_review_that_a_comment_has_no_room_for():
    """A comment of GitHub has at most 65,536 characters."""
    users = [f"arn:aws:iam::111122223333:user/{'u' * 50}{n:03}" for n in range(600)]
    before = {**small_world(), "principals": [{"user": it} for it in users]}
    after = {**before, "principals": [{"user": it, "identity": [document(statement())]} for it in users]}
    words = ["--action", "s3:GetObject", "--format", "markdown"]
    out, _ = aws("changes", "--before", file(before), "--after", file(after), *words)
    # All 600 want a block of over 120 signs, since each has the policy as its own.
    assert 65_000 < len(out) <= 65_536, len(out)
    *lines, last = out.splitlines()
    rows = sum(line.startswith("  - <code>") for line in lines)
    left = "requests and 0 notes are left out, for which a comment has no room: --format csv has all"
    same(last, f"{600 - rows} {left}")


def test_a_review_has_the_warnings():
    """What stands on standard error stands in the Markdown too."""
    plan = file(
        {
            "resource_changes": [
                {
                    "address": "aws_lambda_function.f",
                    "mode": "managed",
                    "type": "aws_lambda_function",
                    "change": {"before": None, "after": {"name": "`<f>"}, "after_unknown": {}},
                }
            ]
        }
    )
    out, said = aws("changes", EXPORT, "--terraform", plan, "--format", "markdown")
    lines = [line[len("iamsim-aws: ") :] for line in said.splitlines()]
    same(
        lines,
        [
            "1 changes of aws_lambda_function are not read: they are taken to change no policy",
            "no request was compared: the two sides differ in no policy, or no resource matches",
        ],
    )
    same(
        out.splitlines(),
        [
            "**0 gained and 0 lost, of 0 requests**",
            "",
            "### Notes",
            "",
            "- <code>1 changes of aws&#95;lambda&#95;function are not read: they are taken to change no policy</code>",
            f"- <code>{lines[1]}</code>",
        ],
    )
    before = small_world(document(statement()))
    out, said = aws(
        "changes", "--before", file(before), "--after", file(before), "--action", "s3:GetObject", "--format", "markdown"
    )
    same((out, said), ("**0 gained and 0 lost, of 1 requests**\n", ""))
