"""What the tests of the tools share: running a tool, and comparing."""

import csv
import io
import json
import multiprocessing
import os
import subprocess
import tempfile

TOOLS = os.path.dirname(os.path.dirname(os.path.abspath(__file__)))
EXAMPLES = os.path.join(os.path.dirname(TOOLS), "examples")
DATA = os.path.join(TOOLS, "tests", "data")
ROWS = os.path.join(os.path.dirname(TOOLS), "crates", "iam_rows", "data")
IAMSIM = os.path.abspath(os.environ["IAMSIM"])
AWS = os.path.join(TOOLS, "iamsim-aws")


# What iamsim-aws was asked by which it shows examples, and what it wrote: for test_confirmed.
ASKED = []


class Skipped(Exception):
    pass


def data(name):
    return os.path.join(DATA, name)


def file(value, suffix=""):
    """A file with a JSON value, a text or bytes; the run of the tests removes its folder."""
    number, path = tempfile.mkstemp(dir=os.environ["TOOLS_TEST_ROOM"], suffix=suffix)
    with os.fdopen(number, "wb") as it:
        it.write(
            value if isinstance(value, bytes) else (value if isinstance(value, str) else json.dumps(value)).encode()
        )
    return path


def load(path):
    with open(path, encoding="utf-8") as it:
        return json.load(it)


def run(words, given="", status=0, seconds=120):
    """What a command writes on both streams; its status has to be `status`."""
    ran = subprocess.run(words, input=given, capture_output=True, encoding="utf-8", timeout=seconds, cwd=TOOLS)
    assert (
        ran.returncode == status
    ), f"{words[0]}: status {ran.returncode}, not {status}: {ran.stdout[-1000:]}{ran.stderr[:2000]}"
    return ran.stdout, ran.stderr


def aws(*words, given="", status=0, seconds=120):
    """What iamsim-aws writes on both streams; a fault is one line."""
    out, said = run([AWS, *words], given, status, seconds)
    assert "Traceback" not in said, said
    if words[0] in ("rules", "changes", "who-can") and not given and status != 1:
        ASKED.append((words, out))
    if status == 1:
        assert said.count("\n") == 1 or words[0] == "check", said
    return out, said


def filtered(name, value, *words, status=0):
    """The values, a line each, that a subcommand makes of a world, or its error's text."""
    out, said = aws(name, *words, given=json.dumps(value), status=status)
    return [json.loads(line) for line in out.splitlines()] if status == 0 else said


def world(*words, status=0):
    """The world of 'iamsim-aws world' with these arguments, or what it said."""
    out, said = run([AWS, "world", "--moment", "0", "--session", "s1", *words], status=status)
    return json.loads(out) if status == 0 else said


def matrix(value):
    """{(principal, action, resource): (decision, statements, lacks)} of a world, by the program."""
    out, _ = run([IAMSIM, "matrix", "--workers", "1"], json.dumps(value))
    rows = list(csv.reader(io.StringIO(out)))[1:]
    return {(row[1], row[2], row[3]): (row[4], row[5], row[6]) for row in rows}


def same(found, wanted, what=""):
    assert found == wanted, f"{what}: found {found!r}, wanted {wanted!r}"


def document(*statements):
    return {"Version": "2012-10-17", "Statement": list(statements)}


def statement(effect="Allow", action="*", resource="*", **more):
    return {"Effect": effect, "Action": action, "Resource": resource, **more}


def small_world(*documents, context=None, resources=None, actions=("s3:GetObject",)):
    """A world of one user with these identity policies."""
    user = {"user": "arn:aws:iam::111122223333:user/ann", "identity": list(documents)}
    resources = resources or [{"arn": "arn:aws:s3:::b/k", "account": "111122223333"}]
    made = {
        "moment": 0,
        "accounts": [{"id": "111122223333"}],
        "principals": [user],
        "actions": list(actions),
        "resources": resources,
    }
    return {**made, "context": context} if context else made


def lone_world(count):
    """The text of a world of one user with so many statements, and as many resources, each allowed by one of them."""
    texts = [f"arn:aws:s3:::b/{n}" for n in range(count)]
    resources = [{"arn": text, "account": "111122223333"} for text in texts]
    allowed = document(*(statement(resource=text) for text in texts))
    return json.dumps(small_world(allowed, resources=resources)).encode()


def answer(words, given=b"", seconds=60, program=IAMSIM, **more):
    """Status, standard output and standard error of the program; a signal that ended it is its number below 0."""
    ran = subprocess.run([program, *words], input=given, capture_output=True, timeout=seconds, **more)
    return ran.returncode, ran.stdout, ran.stderr


def streams_fail(words, world):
    """A report of this world that cannot be written, and a world that cannot be read, end with their faults."""

    def shell(command):
        return answer(["-c", command, IAMSIM, *words], b"", program="bash")

    for streams in (">&-", "> /dev/full"):
        same(shell(f'exec "$0" "$@" {world} {streams}'), (1, b"", b"fault 4 Write\n"), streams)
    for streams in ("<&-", "< /"):
        same(shell(f'exec "$0" "$@" {streams}'), (1, b"", b"fault 1 Read\n"), streams)


def patience(seconds):
    """So many seconds of a machine that has nothing else to do: more where more is to run than it has processors."""
    return seconds * max(1, 2 * os.getloadavg()[0] / (os.cpu_count() or 1))


def on_all_processors(work, jobs):
    """What `work` gives of each job, in their order."""
    with multiprocessing.Pool() as pool:
        return pool.map(work, jobs, chunksize=1)


def row_world(name):
    """The text of a world that rows of the program name."""
    return json.dumps(load(os.path.join(ROWS, "worlds.json"))[name], separators=(",", ":")).encode()
