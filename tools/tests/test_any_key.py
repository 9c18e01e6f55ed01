"""matrix and first with --any-key, on the program as it is built: examples, what is asked for, workers, streams that fail, and memory that
is refused."""

import itertools
import json
import os

from harness import EXAMPLES, IAMSIM, answer, file, row_world, same, streams_fail
from test_refused import FORMS, refused, tell

SMALLEST, COMPANY, ROLES, SHARED = (
    os.path.join(EXAMPLES, f"{name}.json") for name in ("smallest", "company", "roles", "shared")
)
ROW = "0,arn:aws:iam::111122223333:user/ann,S3:getobject,arn:aws:s3:::b/k,always"
BRIEF = (0, f"cell,principal,action,resource,decision\n{ROW}\n".encode(), b"")
FULL = (0, f"cell,principal,action,resource,decision,statements,lacks,hangs_on,keys,example\n{ROW},identity/0/0,,,,\n".encode(), b"")


def any_key(*words, given=b"", **more):
    return answer(["matrix", "--any-key", *words], given, **more)


def rows_of(*words):
    return json.loads(answer(["matrix", "--format", "json", *words])[1])


def test_world_from_a_file_and_from_standard_input():
    world = row_world("smallest")
    for words, given in (([SMALLEST], b""), (["-"], world), ([], world)):
        same(any_key("--brief", *words, given=given), BRIEF)
        same(any_key(*words, given=given), FULL)


def both(path):
    rows, cells = rows_of("--any-key", path), rows_of(path)
    same(len(rows), len(cells))
    return zip(rows, cells)


def test_rows_beside_the_matrix():
    for row, cell in itertools.chain(*map(both, (COMPANY, ROLES, SHARED))):
        for name in ("cell", "principal", "action", "resource"):
            same(row[name], cell[name])
        words = {"always", "possible"} if cell["decision"] == "allowed" else {"never", "possible", "open"}
        assert row["decision"] in words, row
        same({bool(row["hangs_on"]), bool(row["keys"])}, {row["decision"] in ("possible", "open")}, row)
        if row["decision"] == "possible":
            same(set(row["example"]), {"context", "moment"})
        else:
            same((row["example"], row["statements"], row["lacks"]), (None, cell["statements"], cell["lacks"]))


def test_examples_are_allowed():
    for path in (ROLES, SHARED):
        with open(path, encoding="utf-8") as it:
            world = json.load(it)
        row = next(it for it in rows_of("--any-key", path) if it["decision"] == "possible")
        request = {name: row[name] for name in ("principal", "action", "resource")}
        line = json.dumps({**request, "context": row["example"]["context"]})
        at_then = file({**world, "moment": row["example"]["moment"]})
        told = json.loads(answer(["ask", "--requests", file(line), "--format", "json", at_then])[1])
        same((told[0]["decision"], told[0]["statements"]), ("allowed", row["statements"]))


def test_what_is_asked_for_stands_as_in_the_report_of_all():
    for path in (COMPANY, ROLES, SHARED):
        rows = rows_of("--any-key", path)
        who = rows[-1]["principal"]
        for word in ("always", "never", "possible", "open"):
            wanted = [it for it in rows if it["decision"] == word]
            same(rows_of("--any-key", "--decision", word, path), wanted, f"{path} {word}")
            some = rows_of("--any-key", "--decision", word, "--principal", who, "--workers", "7", path)
            same(some, [it for it in wanted if it["principal"] == who], f"{path} {word} {who}")


def test_the_first_that_is_not_never():
    for path, number in itertools.product((SMALLEST, COMPANY, ROLES, SHARED), ("1", "64")):
        header, *lines = any_key("--brief", path)[1].splitlines(True)
        first = next((it for it in lines if not it.endswith(b",never\n")), b"")
        same(answer(["first", "--any-key", "--workers", number, path], b""), (0, header + first, b""), path)


def test_any_number_of_workers():
    for path, form in itertools.product((COMPANY, ROLES, SHARED), FORMS):
        found = {any_key(path, *form, "--workers", number) for number in ("1", "2", "7", "64")}
        same((len(found), {it[0] for it in found}), (1, {0}), f"{path} {form}")


def test_files_that_cannot_be_read():
    for path, reason in [("no-such", "No such file or directory"), ("/", "Is a directory")]:
        same(any_key(path), (1, b"", f"fault 1 Read: {path}: {reason}\n".encode()), path)
    same(any_key("/dev/null"), (1, b"", b"fault 2 World: 1 NotJson\n"))
    same(any_key("--workers", "0", "/dev/null"), (1, b"", b"fault 2 World: 1 NotJson\n"))
    same(any_key("--workers", "0", SMALLEST), (1, b"", b"fault 3 Matrix: 1 Workers\n"))


def test_streams_that_fail():
    streams_fail(["matrix", "--any-key"], SMALLEST)


def jobs(kind, path):
    with open(path, "rb") as it:
        world = it.read()
    one = ["--principal", "*", "--workers", "1"]
    for words in (["matrix", "--workers", "1"], ["matrix", "--brief", "--format", "json"], ["matrix", "--decision", "open", *one], ["first", *one]):
        for later in (0, 1):
            yield kind, later, [*words, "--any-key"], world


def test_memory_refused():
    for path, step in ((SMALLEST, 1), (COMPANY, 397), (ROLES, 397)):
        tell("memory refused where any key is asked about", *refused(IAMSIM, list(jobs("REFUSE_CALL", path)), step=step))


def test_threads_refused():
    for path in (SMALLEST, COMPANY, ROLES):
        tell("threads refused where any key is asked about", *refused(IAMSIM, list(jobs("REFUSE_THREAD", path))))
