"""changes --any-key, on the program as it is built: worlds from files and from streams, the order of faults, what stands beside it, examples
that the requests of both worlds confirm, workers, and memory and threads that are refused."""

import itertools
import json
import os

from harness import EXAMPLES, IAMSIM, answer, file, same, streams_fail
from test_every_changes import AFTER, BEFORE, changed
from test_refused import FORMS, refused, tell

SMALLEST, COMPANY, ROLES, SHARED = (
    os.path.join(EXAMPLES, f"{name}.json") for name in ("smallest", "company", "roles", "shared")
)
HEADER = "change,principal,action,resource,before,after\n"
ROW = "gained,arn:aws:iam::111122223333:user/ann,S3:getobject,arn:aws:s3:::b/k,implicitDeny,allowed\n"
DONE, EMPTY = (0, (HEADER + ROW).encode(), b""), (0, HEADER.encode(), b"")


def any_key(*words, given=b"", **more):
    return answer(["changes", "--any-key", "--brief", *words], given, **more)


def test_worlds_from_files_and_from_standard_input():
    worlds = [json.dumps(it).encode() for it in (BEFORE, AFTER)]
    before, after = map(file, worlds)
    same(any_key(before, after), DONE)
    same(any_key(before, given=worlds[1]), DONE)
    same(any_key(before, "-", given=worlds[1]), DONE)
    same(any_key("-", after, given=worlds[0]), DONE)
    status, out, said = any_key("-", "-")
    same((status, out), (2, b""))
    assert said.startswith(b"error: BEFORE and AFTER cannot both come from standard input\n"), said


def test_what_is_refused_beside_it():
    before, after = file(BEFORE), file(AFTER)
    lines = file('{"pattern": "arn:aws:s3:::b/*", "like": 0}\n')
    for words in (
        ["--every", "--texts", lines],
        ["--texts", lines],
        ["--all"],
        ["--tile", "3"],
        ["--principal", "*"],
        ["--action", "*"],
        ["--resource", "*"],
        ["--fail-on", "open"],
    ):
        status, out, said = any_key(*words, before, after)
        same((status, out), (2, b""), f"{words}")
        assert said.startswith(b"error: "), said


def test_statuses():
    before, after, none = file(BEFORE), file(AFTER), file({**AFTER, "actions": []})
    for kind, status in (("gained", 3), ("lost", 0), ("any", 3)):
        same(any_key("--fail-on", kind, before, after), (status, *DONE[1:]), kind)
    same(any_key("--fail-on", "any", after, after), EMPTY)
    same(any_key(none, none), (4, *EMPTY[1:]))
    same(any_key("--allow-empty", none, none), EMPTY)


def test_the_order_of_faults():
    after, bad = file(AFTER), file("{}")
    for words, line in (
        (["no-such", bad], "fault 1 Read: no-such: No such file or directory"),
        ([bad, "no-such"], "fault 9 Before: 2 BadShape at moment"),
        ([after, bad, "--workers", "0"], "fault 2 World: 2 BadShape at moment"),
        ([after, after, "--workers", "0"], "fault 3 Matrix: 1 Workers"),
        ([after, after, "--workers", "65"], "fault 3 Matrix: 1 Workers"),
    ):
        same(any_key(*words), (1, b"", f"{line}\n".encode()), f"{words}")


def rows_of(before, after):
    return json.loads(answer(["changes", "--any-key", "--format", "json", before, after])[1])


def decided(path, row, shown):
    """What the world of a file decides on the request of a row, with the keys and at the moment of its example."""
    with open(path, encoding="utf-8") as it:
        world = json.load(it)
    request = {name: row[name] for name in ("principal", "action", "resource")}
    line = json.dumps({**request, "context": shown["context"]})
    out = answer(["ask", "--requests", file(line), "--format", "json", file({**world, "moment": shown["moment"]})])[1]
    return json.loads(out)[0]["decision"]


def test_examples_and_what_changes_as_the_worlds_are():
    for path in (COMPANY, ROLES, SHARED):
        before = file(changed(path))
        rows = rows_of(before, path)
        for row in rows:
            assert (row["example"] is None) == (row["change"] == "open"), row
            if row["example"] and row["principal"] == rows[0]["principal"]:
                same(decided(before, row, row["example"]), row["before"])
                same(decided(path, row, row["example"]), row["after"])
        # What changes in the contexts as they are given is told, or is open.
        told = {(row["change"], row["principal"], row["action"], row["resource"]) for row in rows}
        for row in json.loads(answer(["changes", "--format", "json", before, path])[1]):
            request = (row["principal"], row["action"], row["resource"])
            assert told & {(row["change"], *request), ("open", *request)}, row
        same(rows_of(path, path), [], path)


def test_any_number_of_workers():
    for path, form in itertools.product((COMPANY, ROLES, SHARED), FORMS):
        before = file(changed(path))
        words = ["changes", "--any-key", *form, before, path, "--workers"]
        found = {answer([*words, number]) for number in ("1", "2", "7", "64")}
        same(len(found), 1, f"{path} {form}")


def test_streams_that_fail():
    streams_fail(["changes", "--any-key", file(BEFORE)], SMALLEST)


def jobs(kind, path):
    with open(path, "rb") as it:
        world = it.read()
    before = file(changed(path))
    for words in (["--workers", "1"], ["--brief", "--format", "json"]):
        for later in (0, 1):
            yield kind, later, ["changes", "--any-key", *words, before], world


def test_memory_refused():
    for path, step in ((SMALLEST, 1), (ROLES, 397)):
        tell("memory refused where changes with any key are asked", *refused(IAMSIM, list(jobs("REFUSE_CALL", path)), step=step))


def test_threads_refused():
    for path in (SMALLEST, ROLES):
        tell("threads refused where changes with any key are asked", *refused(IAMSIM, list(jobs("REFUSE_THREAD", path))))
