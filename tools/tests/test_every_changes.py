"""changes --every, on the program as it is built: worlds and lines from files and from streams, the order of faults, limits, memory and
threads that are refused, and patterns that were made to take long."""

import json
import os

from harness import EXAMPLES, IAMSIM, answer, document, file, patience, same, small_world, statement
from test_every import ANN, B, COMPANY, KEY, LETTERS, LINE, MOST_BYTES, SECONDS, SMALLEST, TOO_LARGE
from test_every import hostile, lines_of, widened
from test_refused import FORMS, refused, tell
from test_two_worlds import HEADER, MISSING, lines

# Before, nobody may do anything; after, ann may read what begins with `b/`.
with open(SMALLEST, encoding="utf-8") as smallest:
    AFTER = json.load(smallest)
BEFORE = {**AFTER, "principals": [{"user": ANN}]}
ROWS = [
    ("gained", ANN, "S3:getobject", text, "implicitDeny", "allowed", "", "identity", "identity/0/0", "")
    for text in (KEY, B)
]
DONE, EMPTY = (0, lines(ROWS), b""), (0, HEADER, b"")


def every(*words, given=b"", **more):
    return answer(["changes", "--every", *words], given, **more)


def shell(command, *words):
    """The answer in a shell, in which the command has `changes --every` with the words as "$@"."""
    return answer(["-c", command, IAMSIM, "changes", "--every", *words], b"", program="bash")


def changed(path):
    """The world of a file in which nobody has the first policy of those there."""
    with open(path, "rb") as it:
        world = json.load(it)
    people = [{**one, "identity": one.get("identity", [])[1:]} for one in world["principals"]]
    return json.dumps({**world, "principals": people})


def test_worlds_and_lines_from_files_and_from_standard_input():
    worlds = [json.dumps(it).encode() for it in (BEFORE, AFTER)]
    before, after = map(file, worlds)
    given = lines_of([LINE]).encode()
    path = file(given)
    same(every(before, after, "--texts", path), DONE)
    same(every(before, "--texts", path, given=worlds[1]), DONE)
    same(every(before, "-", "--texts", path, given=worlds[1]), DONE)
    same(every("-", after, "--texts", path, given=worlds[0]), DONE)
    same(every(before, after, "--texts", "-", given=given), DONE)
    same(every(before, after, "--texts", "-", given=given[:-1]), DONE)
    same(shell(f'exec "$0" "$@" <(cat {before}) <(cat {after}) --texts <(cat {path})'), DONE)
    for places, texts in (([before], "-"), (["-"], path), (["-", after], "-"), (["-", "-"], "-")):
        words = [*places, "--texts", texts]
        status, out, said = every(*words, given=given)
        same((status, out), (2, b""), f"{words}")
        assert said.startswith(b"error: BEFORE, AFTER and --texts: only one can come from standard input\n"), said


def test_statuses():
    before, after, path = file(BEFORE), file(AFTER), file(lines_of([LINE]))
    nothing = file(lines_of([{**LINE, "pattern": "b/*"}]))
    for status, words in (
        (0, [before, after, "--texts", path]),
        (3, [before, after, "--texts", path, "--fail-on", "gained"]),
        (3, [after, before, "--texts", path, "--fail-on", "any"]),
        (0, [after, before, "--texts", path, "--fail-on", "gained"]),
        (0, [after, after, "--texts", path, "--fail-on", "any"]),
        (4, [before, after, "--texts", nothing, "--fail-on", "any"]),
        (0, [before, after, "--texts", nothing, "--allow-empty"]),
        (4, [before, after, "--texts", path, "--principal", "bob"]),
        (1, [before, after, "--texts", file(lines_of([{**LINE, "like": 1}]))]),
        (2, [before, after, "--texts", path, "--tile", "1"]),
    ):
        same(every(*words)[0], status, f"{words}")
    # Each letter tells actions apart: half of them before, half after.
    letters = ([statement(action=f"s3:*{it}*") for it in LETTERS[n::2]] for n in (0, 1))
    halves = [file(small_world(document(*it))) for it in letters]
    row = f"notShown,{ANN},s3:*,{B}*,,,,,,".encode()
    for words in ([], ["--fail-on", "any", "--allow-empty"]):
        status, out, _ = every(*halves, "--texts", path, "--action", "s3:*", *words)
        same((status, out.splitlines()[1:]), (5, [row]), f"{words}")


def test_any_number_of_workers():
    path, before = file(widened(COMPANY)), file(changed(COMPANY))
    for words in ([], ["--action", "*"], ["--action", "KMS:?*", "--principal", "*:user/*"]):
        for form in FORMS:
            asked = [before, COMPANY, "--texts", path, *words, *form]
            found = {every(*asked, "--workers", number) for number in ("1", "2", "7", "64")}
            same((len(found), {it[0] for it in found}), (1, {0}), f"{words} {form}")
            assert next(iter(found))[1].count(b"gained") > 1, f"{words} {form}"


def test_one_way_and_the_other():
    """By lines of resources that both worlds have under the same numbers, what is gained one way is lost the other."""
    path, before = file(widened(COMPANY)), file(changed(COMPANY))
    other = {"gained": "lost", "lost": "gained", "before": "after", "after": "before"}
    other.update({f"{it}_{one}": f"{it}_{other[one]}" for it in ("statements", "lacks") for one in ("before", "after")})

    def turned(row):
        return {**{other.get(name, name): value for name, value in row.items()}, "change": other[row["change"]]}

    there, back = (
        json.loads(every(*worlds, "--texts", path, "--format", "json")[1])
        for worlds in ((before, COMPANY), (COMPANY, before))
    )
    same([turned(it) for it in there], back)
    assert len(there) > 1


def test_files_that_cannot_be_read():
    world, path = file(BEFORE), file(lines_of([LINE]))
    for name, reason in [("no-such", MISSING), ("/", "Is a directory")]:
        fault = (1, b"", f"fault 1 Read: {name}: {reason}\n".encode())
        same(every(name, world, "--texts", path), fault, name)
        same(every(name, "no-such-either", "--texts", "no-such-either"), fault, name)
        same(every(world, name, "--texts", "no-such-either"), fault, name)
        same(every(world, world, "--texts", name, "--workers", "0"), fault, name)


def test_the_order_of_faults():
    world, twice, faulty = file(BEFORE), file({**BEFORE, "actions": ["s3:a", "s3:a"]}), file("{}")
    more = {"arn": f"{B}m", "account": "111122223333"}
    two = file({**BEFORE, "resources": [*BEFORE["resources"], more]})
    lacking, none = file(lines_of([LINE, {**LINE, "like": 1}])), "no-such-file"
    for words, line in [
        ([faulty, none, "--texts", none], "fault 9 Before: 2 BadShape at moment"),
        ([twice, none, "--texts", none], "fault 8 Twice: before at actions/1"),
        ([world, faulty, "--texts", none], "fault 2 World: 2 BadShape at moment"),
        ([world, twice, "--texts", none], "fault 8 Twice: after at actions/1"),
        ([world, world, "--texts", lacking], "fault 12 Texts: line 1: 3 NoResource"),
        ([world, two, "--texts", lacking], "fault 12 Texts: before at line 1: 3 NoResource"),
        ([two, world, "--texts", lacking], "fault 12 Texts: line 1: 3 NoResource"),
        ([world, two, "--texts", "/dev/null"], "fault 3 Matrix: 1 Workers"),
    ]:
        same(every(*words, "--workers", "0", "--principal", "nobody"), (1, b"", f"{line}\n".encode()), f"{words}")


def test_streams_that_fail():
    before, after, path = file(BEFORE), file(AFTER), file(lines_of([LINE]))
    for words in ([], ["--brief"], ["--format", "json"]):
        for streams in (">&-", "> /dev/full", "1< /dev/null"):
            found = shell(f'exec "$0" "$@" {streams}', before, after, "--texts", path, *words)
            same(found, (1, b"", b"fault 4 Write\n"), f"{words} {streams}")
    for streams in ("<&-", "< /"):
        for words in ([before, after, "--texts", "-"], [before, "--texts", path], ["-", after, "--texts", path]):
            same(shell(f'exec "$0" "$@" {streams}', *words), (1, b"", b"fault 1 Read\n"), f"{words} {streams}")


def test_the_longest_inputs():
    before, after, path = file(BEFORE), file(AFTER), file(lines_of([LINE]))
    longest = [file(json.dumps(it).ljust(MOST_BYTES)) for it in (BEFORE, AFTER, LINE)]
    same(every(*longest[:2], "--texts", longest[2]), DONE)
    same(every(before, after, "--texts", file(json.dumps(LINE).ljust(MOST_BYTES + 1))), TOO_LARGE)
    same(every("/dev/zero", "no-such", "--texts", "no-such"), (1, b"", b"fault 9 Before: 9 TooLarge\n"))
    same(every(before, "/dev/zero", "--texts", "no-such"), (1, b"", b"fault 2 World: 9 TooLarge\n"))
    same(every(before, after, "--texts", "/dev/zero"), TOO_LARGE)
    same(every(before, after, "--texts", path, "--principal", "nobody", "--allow-empty"), EMPTY)


def jobs(kind, path):
    """A world, from standard input, compared with one before for actions of its own or all; and lines that are faulty."""
    with open(path, "rb") as it:
        world = it.read()
    before, texts = file(changed(path)), file(widened(path))
    for words in ([], ["--action", "*", "--workers", "1", "--brief", "--format", "json"]):
        for later in (0, 1):
            yield kind, later, ["changes", before, "--every", "--texts", texts, *words], world
    for faulty in ("x\n", lines_of([LINE, {**LINE, "like": 9}])):
        yield kind, 0, ["changes", before, "--every", "--texts", file(faulty)], world


def test_memory_refused():
    # A search asks for memory at each letter, and so of many calls one in so many is refused.
    for path, step in ((SMALLEST, 5), (COMPANY, 797)):
        found = refused(IAMSIM, list(jobs("REFUSE_CALL", path)), step=step)
        tell("memory refused where two worlds are compared for all names", *found)


def test_threads_refused():
    for path in (SMALLEST, COMPANY):
        found = refused(IAMSIM, list(jobs("REFUSE_THREAD", path)))
        tell("threads refused where two worlds are compared for all names", *found)


def test_patterns_that_are_made_to_take_long():
    for what, pattern, policy, words in hostile():
        before, texts = file(small_world()), file(lines_of([{**LINE, "pattern": pattern}]))
        asked = [before, "--texts", texts, "--brief", *words]
        status, out, said = every(*asked, given=json.dumps(small_world(policy)).encode(), seconds=patience(SECONDS))
        shown = {line.split(b",", 1)[0] for line in out.splitlines()[1:]}
        same((status, said), (5 if b"notShown" in shown else 0, b""), what)
        assert shown <= {b"gained", b"notShown"}, f"{what}: {shown}"


def test_the_example():
    company = os.path.join(EXAMPLES, "company.json")
    same(every(company, company, "--texts", file(widened(company)), "--action", "*"), EMPTY)
