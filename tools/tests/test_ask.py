"""ask, on the program as it is built: files of requests, their limits, streams that fail, and memory that is refused."""

import json
import os

from harness import EXAMPLES, IAMSIM, answer, file, row_world, same
from test_refused import FORMS, refused, tell

ANN, KEY = "arn:aws:iam::111122223333:user/ann", "arn:aws:s3:::b/k"
SMALLEST, COMPANY = (os.path.join(EXAMPLES, f"{name}.json") for name in ("smallest", "company"))
REQUEST = {"principal": ANN, "action": "s3:GetObject", "resource": KEY}
HEADER = b"cell,principal,action,resource,decision,statements,lacks\n"
ROW = f"{ANN},S3:getobject,{KEY},allowed,identity/0/0,\n"


def lines_of(requests):
    return "".join(json.dumps(it) + "\n" for it in requests)


def asked(world, *words, given=b"", **more):
    return answer(["ask", world, *words], given, **more)


def rows_of(world):
    return json.loads(answer(["matrix", "--format", "json", world])[1])


def request_of(row, **more):
    return {**{it: row[it] for it in ("principal", "action", "resource")}, **more}


def test_all_cells_in_any_order():
    rows = rows_of(COMPANY)
    for cells in (rows, rows[::-1], rows[1::7] + rows[::3]):
        requests = file(lines_of(request_of(it) for it in cells))
        wanted = [{**it, "cell": number} for number, it in enumerate(cells)]
        status, text, _ = asked(COMPANY, "--requests", requests, "--format", "json")
        same((status, json.loads(text)), (0, wanted))
        for form in FORMS:
            texts = {
                asked(COMPANY, "--requests", requests, *form, *more)
                for more in ([], ["--workers", "1"], ["--workers", "64", "--tile", "1"], ["--tile", "7"])
            }
            same(len(texts), 1, f"{form}")
    requests = file(lines_of(request_of(it) for it in rows))
    for form in FORMS:
        same(asked(COMPANY, "--requests", requests, *form), answer(["matrix", *form, COMPANY]), f"{form}")


def test_a_key_that_another_request_gives():
    world = json.loads(row_world("condition").replace(b'"CONDITION"', b'{"StringEquals":{"k":"yes"}}'))
    requests = [{**REQUEST, "context": {"k": "yes" if number % 3 else "no"}} for number in range(900)]
    status, text, _ = asked(file(world), "--requests", file(lines_of(requests)), "--brief", "--tile", "2")
    decisions = [line.rsplit(b",", 1)[1] for line in text.splitlines()[1:]]
    same((status, decisions), (0, [b"allowed" if number % 3 else b"implicitDeny" for number in range(900)]))


def test_files_that_cannot_be_read():
    for path, reason in [("no-such", "No such file or directory"), ("/", "Is a directory")]:
        fault = f"fault 1 Read: {path}: {reason}\n".encode()
        same(asked(SMALLEST, "--requests", path), (1, b"", fault), path)
        same(asked(path, "--requests", path), (1, b"", fault), path)
    requests = file(lines_of([REQUEST]))
    same(asked("-", "--requests", requests, given=row_world("smallest")), (0, HEADER + f"0,{ROW}".encode(), b""))
    same(asked(SMALLEST, "--requests", "-", given=lines_of([REQUEST]).encode()), (0, HEADER + f"0,{ROW}".encode(), b""))
    same(asked("/dev/null", "--requests", "no-such"), (1, b"", b"fault 2 World: 1 NotJson\n"))


def shell(streams, *words):
    return answer(["-c", f'exec "$0" "$@" {streams}', IAMSIM, "ask", *words], b"", program="bash")


def test_streams_that_fail():
    requests = file(lines_of([REQUEST] * 20_000))
    for streams in (">&-", "> /dev/full"):
        same(shell(streams, SMALLEST, "--requests", requests), (1, b"", b"fault 4 Write\n"), streams)
    same(shell("<&-", SMALLEST, "--requests", "-"), (1, b"", b"fault 1 Read\n"))
    faulty = file(lines_of([REQUEST] * 20_000 + [{**REQUEST, "action": "s3:Nothing"}]))
    same(asked(SMALLEST, "--requests", faulty), (1, b"", b"fault 10 Request: line 20000: 5 NoAction\n"))


def test_lines_without_an_end():
    long = lines_of([{**REQUEST, "context": {"k": "x" * 8_388_000}}])
    same(asked(SMALLEST, "--requests", file(long))[0], 0)
    too_long = lines_of([{**REQUEST, "context": {"k": "x" * 8_388_608}}])
    same(asked(SMALLEST, "--requests", file(too_long)), (1, b"", b"fault 10 Request: line 0: 2 BadShape\n"))
    same(asked(SMALLEST, "--requests", "/dev/zero"), (1, b"", b"fault 10 Request: line 0: 2 BadShape\n"))


def test_keys_as_large_as_they_may_be():
    # A key and its value take 64 bytes more each: of 1 MiB a request 64 are as large as the keys of a file may be.
    requests = [{**REQUEST, "context": {"k": f"{number:04}" + "x" * (1_048_576 - 128 - 1 - 4)}} for number in range(64)]
    status, text, _ = asked(SMALLEST, "--requests", file(lines_of(requests)), "--brief")
    same((status, text.count(b"\n")), (0, 65))
    further = file(lines_of([*requests, {**REQUEST, "context": {"k": ""}}]))
    same(asked(SMALLEST, "--requests", further), (1, b"", b"fault 10 Request: line 64: 10 ContextsTooLarge\n"))
    again = file(lines_of([*requests, requests[0]]))
    same(asked(SMALLEST, "--requests", again, "--brief")[0], 0)


def jobs(kind):
    """Worlds, from standard input, with requests for all of their cells, each second one with a key."""
    for name in ("smallest", "company"):
        path = os.path.join(EXAMPLES, f"{name}.json")
        requests = [
            request_of(it, **({"context": {"own": ["x", "y"]}} if number % 2 else {}))
            for number, it in enumerate(rows_of(path))
        ]
        lines = file(lines_of(requests))
        with open(path, "rb") as it:
            world = it.read()
        for words in ([], ["--workers", "1", "--brief", "--format", "json"]):
            for later in (0, 1):
                yield kind, later, ["ask", "--requests", lines, *words], world
    for lines in ("x\n", lines_of([{**REQUEST, "context": {"aws:username": "x"}}])):
        yield kind, 0, ["ask", "--requests", file(lines)], row_world("smallest")


def test_memory_refused():
    tell("memory refused where requests are asked", *refused(IAMSIM, list(jobs("REFUSE_CALL"))))


def test_threads_refused():
    tell("threads refused where requests are asked", *refused(IAMSIM, list(jobs("REFUSE_THREAD"))))
