"""every, on the program as it is built: files of lines, their limits, streams that fail, memory that is refused,
patterns that were made to take long, and rows of any key beside the matrix of random names."""

import collections
import json
import os
import sys

from harness import EXAMPLES, IAMSIM, TOOLS, answer, document, file, patience, row_world, same, small_world, statement
from test_refused import FORMS, LINES, refused, tell

sys.path.insert(0, os.path.join(os.path.dirname(TOOLS), "bench"))
from random_keys import with_open_keys
from random_lines import Extended, Question, without_doubles
from random_worlds import Maker, requester

ANN, KEY, B = "arn:aws:iam::111122223333:user/ann", "arn:aws:s3:::b/k", "arn:aws:s3:::b/"
SMALLEST, COMPANY = (os.path.join(EXAMPLES, f"{name}.json") for name in ("smallest", "company"))
LINE = {"pattern": f"{B}*", "like": 0}
ONE = ["--resource", LINE["pattern"], "--like", "0"]
HEADER = b"cell,principal,action,resource,decision,statements,lacks\n"
ROWS = "".join(f"{n},{ANN},S3:getobject,{text},allowed,identity/0/0,\n" for n, text in enumerate((KEY, B)))
DONE, EMPTY = (0, HEADER + ROWS.encode(), b""), (0, HEADER, b"")
TOO_LARGE = (1, b"", b"fault 12 Texts: 6 TooLarge\n")
# What a file of lines may have.
MOST_LINES, MOST_BYTES = 65_536, 8_388_608
# So many letters tell apart more states than a search looks at.
LETTERS = "abcdefghijklmnopqrstuvwxyz"
# No run may take longer on a machine that has nothing else to do, whatever the patterns.
SECONDS = 30


def lines_of(lines):
    return "".join(json.dumps(it) + "\n" for it in lines)


def every(world, *words, given=b"", **more):
    return answer(["every", world, *words], given, **more)


def widened(path):
    """Lines for all texts that begin as those of a world, of which the last speaks for all that the others do not."""
    with open(path, "rb") as it:
        texts = [one["arn"] for one in json.load(it)["resources"]]
    lines = [{"pattern": f"{text[:-4]}*", "like": number} for number, text in enumerate(texts)]
    return lines_of([*lines, {"pattern": "arn:aws:s3:*", "account": "111122223333"}])


def test_lines_and_world_from_files_and_from_standard_input():
    lines, world = lines_of([LINE]).encode(), row_world("smallest")
    same(every(SMALLEST, *ONE), DONE)
    same(every("-", *ONE, given=world), DONE)
    same(every(SMALLEST, "--texts", file(lines)), DONE)
    same(every("-", "--texts", file(lines), given=world), DONE)
    same(every(SMALLEST, "--texts", "-", given=lines), DONE)
    same(every(SMALLEST, "--texts", "-", given=lines[:-1]), DONE)
    for words in (["every", "--texts", "-"], ["every", "--texts", "-", "-"]):
        status, out, said = answer(words, lines)
        same((status, out), (2, b""))
        assert said.startswith(b"error: WORLD and --texts cannot both come from standard input\n"), said


def test_statuses():
    for status, words in (
        (0, ONE),
        (1, ["--resource", "*", "--like", "1"]),
        (2, [*ONE, "--account", "111122223333"]),
        (2, []),
        (4, ["--resource", "b/*", "--like", "0"]),
        (0, ["--resource", "b/*", "--like", "0", "--allow-empty"]),
        (4, [*ONE, "--principal", "bob"]),
        (0, [*ONE, "--decision", "explicitDeny"]),
    ):
        same(every(SMALLEST, *words)[0], status, f"{words}")
    world = file(small_world(document(*(statement(action=f"s3:*{it}*") for it in LETTERS))))
    for words in ([], ["--decision", "explicitDeny", "--allow-empty"]):
        status, out, _ = every(world, *ONE, "--action", "s3:*", *words)
        same((status, out.splitlines()[1:]), (5, [f"0,{ANN},s3:*,{B}*,notShown,,".encode()]), f"{words}")


def test_any_number_of_workers():
    lines = file(widened(COMPANY))
    for words in ([], ["--action", "*"], ["--action", "KMS:?*", "--decision", "allowed"], ["--any-key"]):
        for form in FORMS:
            found = {
                every(COMPANY, "--texts", lines, *words, *form, "--workers", number) for number in ("1", "2", "7", "64")
            }
            same((len(found), {it[0] for it in found}), (1, {0}), f"{words} {form}")


def test_files_that_cannot_be_read():
    lines = file(lines_of([LINE]))
    for path, reason in [("no-such", "No such file or directory"), ("/", "Is a directory")]:
        fault = (1, b"", f"fault 1 Read: {path}: {reason}\n".encode())
        same(every(SMALLEST, "--texts", path), fault, path)
        same(every(path, "--texts", lines), fault, path)
        same(every(path, "--texts", "no-such-either"), fault, path)
    same(every("/dev/null", "--texts", "no-such"), (1, b"", b"fault 2 World: 1 NotJson\n"))
    same(every(SMALLEST, "--texts", "/dev/null", "--allow-empty"), EMPTY)


def shell(command, *words):
    """The answer in a shell, in which the command has `every` with the words as "$@"."""
    return answer(["-c", command, IAMSIM, "every", *words], b"", program="bash")


def test_streams_that_fail():
    lines = file(lines_of([LINE]))
    for words in (ONE, ["--texts", lines], [*ONE, "--format", "json"]):
        for streams in (">&-", "> /dev/full"):
            same(shell(f'exec "$0" "$@" {streams}', SMALLEST, *words), (1, b"", b"fault 4 Write\n"), streams)
    for streams in ("<&-", "< /"):
        same(shell(f'exec "$0" "$@" {streams}', SMALLEST, "--texts", "-"), (1, b"", b"fault 1 Read\n"), streams)
    faulty = file(lines_of([*[LINE] * 2000, {**LINE, "like": 1}]))
    same(every(SMALLEST, "--texts", faulty), (1, b"", b"fault 12 Texts: line 2000: 3 NoResource\n"))


def test_lines_of_any_length():
    asks_nobody = ["--principal", "bob", "--allow-empty", "--texts"]
    line = json.dumps(LINE)
    most = (line.ljust(MOST_BYTES // MOST_LINES - 1) + "\n") * MOST_LINES
    same(len(most), MOST_BYTES)
    same(every(SMALLEST, *asks_nobody, file(most)), EMPTY)
    same(every(SMALLEST, *asks_nobody, file(most + "\n")), TOO_LARGE)
    same(every(SMALLEST, *asks_nobody, file(line.ljust(MOST_BYTES))), EMPTY)
    same(every(SMALLEST, *asks_nobody, file(line.ljust(MOST_BYTES + 1))), TOO_LARGE)
    many = (1, b"", f"fault 12 Texts: line {MOST_LINES}: 5 TooMany\n".encode())
    same(every(SMALLEST, *asks_nobody, file(f"{line}\n" * (MOST_LINES + 1))), many)
    # What has no end is not read to it.
    same(every(SMALLEST, "--texts", "/dev/zero"), TOO_LARGE)
    same(shell(f'yes \'{line}\' | "$0" "$@"', SMALLEST, "--texts", "-"), TOO_LARGE)


def jobs(kind, path):
    """A world, from standard input, with lines of it, for actions of its own or all; and lines that are faulty."""
    with open(path, "rb") as it:
        world = it.read()
    lines = file(widened(path))
    for words in ([], ["--any-key"], ["--action", "*", "--workers", "1", "--brief", "--format", "json"]):
        for later in (0, 1):
            yield kind, later, ["every", "--texts", lines, *words], world
    for faulty in ("x\n", lines_of([LINE, {**LINE, "like": 9}])):
        yield kind, 0, ["every", "--texts", file(faulty)], world


def test_memory_refused():
    # A search asks for memory at each letter, and so of many calls one in so many is refused.
    for path, step in ((SMALLEST, 3), (COMPANY, 397)):
        found = refused(IAMSIM, list(jobs("REFUSE_CALL", path)), step=step)
        tell("memory refused where all names are asked about", *found)


def test_threads_refused():
    for path in (SMALLEST, COMPANY):
        tell("threads refused where all names are asked about", *refused(IAMSIM, list(jobs("REFUSE_THREAD", path))))


def hostile():
    """Worlds of one principal, and the words of a command on them, that have as much to look at as can be."""
    letters = [chr(0x4E00 + number) for number in range(4096)]
    stars, wild = [f"{B}{f'*{it}' * 2000}" for it in "ab"], f"{B}*"
    yield "stars beside stars", stars[0], document(statement(resource=stars[1])), []
    places = [f"{B}*a{'?' * number}" for number in range(64)]
    yield "places behind a star", wild, document(statement(resource=places)), []
    for end in ("", "*"):
        texts = [f"{B}{it}{end}" for it in letters]
        yield f"a letter and '{end}', a statement each", wild, document(*(statement(resource=it) for it in texts)), []
        yield f"a letter and '{end}', all in one", wild, document(statement(resource=texts)), []
    products = [[f"{B}*{one}*{other}*" for other in "abcd"] for one in "efghijklmnopqrst"]
    spared = document(*({"Effect": "Allow", "Action": "*", "NotResource": it} for it in products))
    yield "products of what is spared", wild, spared, []
    actions = document(*(statement(action=f"*:*{it}*") for it in LETTERS))
    yield "actions of all letters", wild, actions, ["--action", "*"]
    yield "actions of stars", B, document(statement(action="s3:" + "*a" * 2000)), ["--action", "s3:" + "*b" * 2000]


def test_a_small_machine():
    pattern, policy = next((pattern, policy) for what, pattern, policy, _ in hostile() if what.startswith("products"))
    world = file(small_world(policy))
    words = f'exec "$0" every {world} --resource "{pattern}" --like 0 --brief'
    whole = answer(["-c", words, IAMSIM], program="bash")
    same((whole[0], whole[2], whole[1].count(b"notShown")), (5, b"", 1))
    # So many KiB of address space: from what the C library alone fills nearly, to where nothing is refused.
    found = [answer(["-c", f"ulimit -v {8000 << n}; {words}", IAMSIM], program="bash") for n in range(9)]
    right = [whole, *((1, b"", line) for line in LINES[1:])]
    same([it for it in found if it not in right], [])
    same((found[0] in right[1:], found[-1]), (True, whole))


def test_patterns_that_are_made_to_take_long():
    for what, pattern, policy, words in hostile():
        words = ["--resource", pattern, "--like", "0", "--brief", *words]
        status, out, said = every(
            "-", *words, given=json.dumps(small_world(policy)).encode(), seconds=patience(SECONDS)
        )
        shown = {line.rsplit(b",", 1)[1] for line in out.splitlines()[1:]}
        same((status, said), (5 if b"notShown" in shown else 0, b""), what)
        assert shown and shown <= {b"allowed", b"implicitDeny", b"notShown"}, f"{what}: {shown}"


class Turned(Extended):
    """What `matrix --any-key` says of a world that has more names too."""

    def matrix(self):
        world = self.question.world
        resources = [*world["resources"], *map(self.question.resource, self.texts)]
        made = {**world, "actions": self.actions, "resources": resources}
        return answer(["matrix", "--any-key", "--format", "json", "--allow-empty"], json.dumps(made).encode())

    def of(self, row, text):
        """What is said of a row's request, but for this text in place of its own."""
        named = self.question.named
        number = named.index(text) if named.count(text) == 1 else self.number(text)
        who = [requester(it) for it in self.question.world["principals"]].index(row["principal"])
        return None if number is None else {**self.cell(who, row["action"], number), "cell": row["cell"]}


def any_key(question):
    """The rows of every --any-key, and the matrix of their texts and of others that the lines match."""
    words = ["--any-key", "--texts", file(lines_of(question.lines)), "--format", "json"]
    words += ["--action", question.action] if question.action else []
    status, out, said = every("-", *words, given=json.dumps(question.world).encode())
    assert status in (0, 4, 5), said
    rows = json.loads(out)
    sampled = [text for number in range(len(question.lines)) for text in question.texts_of(number)]
    own = [it["resource"] for it in rows if it["decision"] != "notShown" and it["resource"] not in question.named]
    turned = Turned(question, [it["action"] for it in rows if it["decision"] != "notShown"], own + sampled)
    same(turned.fault, "")
    return rows, turned


def test_any_key_beside_the_matrix():
    """Each row stands in the matrix, and no name contradicts all rows of the line that speaks of it."""
    contradictions = {"always", "never"}, {"never", "possible"}
    names, words = 0, set()
    for seed in range(40):
        world = Maker(seed).world()
        if answer(["check"], world)[0] != 0:
            continue
        question = Question(seed, with_open_keys(seed, without_doubles(json.loads(world))))
        rows, turned = any_key(question)
        told = collections.defaultdict(list)
        for row in rows:
            words.add(row["decision"])
            if row["decision"] == "notShown":
                place = [it["pattern"] for it in question.lines].index(row["resource"])
            else:
                place = question.place(row["resource"])
                same(turned.of(row, row["resource"]) or row, row, f"{seed}")
            if row["resource"] not in question.named:
                told[row["principal"], row["action"], place].append(row)
        for (_, action, place), some in told.items():
            for text in (it for it in turned.texts if action in turned.actions and question.place(it) == place):
                cell = turned.of(some[0], text)
                assert any({it["decision"], cell["decision"]} not in contradictions for it in some), f"{cell} {some}"
                names += 1
    assert names > 500 and words == {"always", "never", "possible", "open", "notShown"}, f"{names} {words}"
