"""Streams that fail and command lines, on the program as it is built: statuses, and the stream that a text goes to."""

import itertools
import json
import os
import subprocess

from harness import EXAMPLES, IAMSIM, answer, lone_world, row_world, same

ANN = "arn:aws:iam::111122223333:user/ann"
CELL = f"0,{ANN},S3:getobject,arn:aws:s3:::b/k,allowed,identity/0/0,\n"
BRIEF = f"0,{ANN},S3:getobject,arn:aws:s3:::b/k,allowed\n"
OBJECT = f'"principal":"{ANN}","resource":"arn:aws:s3:::b/k"'
HEADER, BRIEF_HEADER = (
    "cell,principal,action,resource,decision,statements,lacks\n",
    "cell,principal,action,resource,decision\n",
)

# Each command, and its answer on the smallest example.
ANSWERS = {
    "check": "ok principals 1 actions 1 resources 1 cells 1 statements 1\n",
    "decide 0 0 0": HEADER + CELL,
    "matrix": HEADER + CELL,
    "matrix --brief": BRIEF_HEADER + BRIEF,
    "matrix --format json": f'[{{"action":"S3:getobject","cell":0,"decision":"allowed","lacks":[],{OBJECT},"statements":["identity/0/0"]}}]\n',
    "matrix --format json --brief": f'[{{"action":"S3:getobject","cell":0,"decision":"allowed",{OBJECT}}}]\n',
    "first": BRIEF_HEADER + BRIEF,
}

# The same where one row is asked for.
SELECTED = {
    "matrix --action S3:GETOBJECT --decision allowed": HEADER + CELL,
    f"matrix --format json --brief --principal {ANN}": ANSWERS["matrix --format json --brief"],
    "first --resource arn:aws:s3:::b/?": BRIEF_HEADER + BRIEF,
    "every --resource arn:aws:s3:::b/k --like 0": HEADER + CELL,
}
EVERY = {**ANSWERS, **SELECTED}

SMALLEST, FAULTY = row_world("smallest"), os.path.join(EXAMPLES, "faulty.json")
READ, WRITE = (1, b"", b"fault 1 Read\n"), (1, b"", b"fault 4 Write\n")


def shell(words, streams, given=SMALLEST):
    """The answer to words in a shell that sets the streams before."""
    return answer(["-c", f'exec "$0" "$@" {streams}', IAMSIM, *words.split()], given, program="bash")


def test_answers_on_the_smallest_world():
    for words, text in EVERY.items():
        same(answer(words.split(), SMALLEST), (0, text.encode(), b""), words)


def test_input_that_cannot_be_read():
    for words in EVERY:
        for streams in ("<&-", "< /", "0> /dev/null"):
            same(shell(words, streams), READ, f"{words} {streams}")
        same(shell(words, "< /dev/null"), (1, b"", b"fault 2 World: 1 NotJson\n"), words)


def test_output_that_cannot_be_written():
    for words in EVERY:
        for streams in (">&-", "> /dev/full", "1< /dev/null"):
            same(shell(words, streams), WRITE, f"{words} {streams}")


def test_help_that_cannot_be_written():
    for words in ("--help", "--version", "help first", *(f"{words} --help" for words in EVERY)):
        for streams in (">&-", "> /dev/full"):
            same(shell(words, streams), (1, b"", b""), f"{words} {streams}")


def test_an_error_that_cannot_be_told():
    for streams in ("2>&-", "2> /dev/full", "2>&- >&-"):
        for words in EVERY:
            same(shell(words, f"{streams} < {FAULTY}"), (1, b"", b""), f"{words} {streams}")
        same(shell("matrix --workers 65", streams), (1, b"", b""), streams)
        same(shell("matrix --workers x", streams), (2, b"", b""), streams)
    for words, text in EVERY.items():
        same(shell(words, "2>&-"), (0, text.encode(), b""), words)


def many_cells():
    """A world of 14,400 cells, whose reports are longer than a pipe."""
    actions = ",".join(f'"s3:Get{n}"' for n in range(120))
    resources = ",".join(f'{{"arn":"arn:aws:s3:::b/{n}","account":"111122223333"}}' for n in range(120))
    return (
        f'{{"moment":0,"accounts":[{{"id":"111122223333"}}],"principals":[{{"user":"{ANN}"}}],'
        f'"actions":[{actions}],"resources":[{resources}]}}'
    ).encode()


def leaves(words, world, wanted):
    """Reads so many bytes of the answer and goes away: what was read, the status, and what the program said."""
    with subprocess.Popen(
        [IAMSIM, *words.split()], stdin=subprocess.PIPE, stdout=subprocess.PIPE, stderr=subprocess.PIPE
    ) as program:
        if wanted == 0:
            program.stdout.close()
        program.stdin.write(world)
        program.stdin.close()
        found = b""
        while len(found) < wanted:
            piece = os.read(program.stdout.fileno(), wanted - len(found))
            assert piece, f"{words}: the answer ends behind {len(found)} bytes"
            found += piece
        program.stdout.close()
        said = program.stderr.read()
        return found, program.wait(60), said


def test_a_reader_that_goes_away():
    for words in EVERY:
        same(leaves(words, SMALLEST, 0), (b"", 1, b"fault 4 Write\n"), words)
    world = many_cells()
    matrices = [it for it in ANSWERS if it.startswith("matrix")]
    for words in [*matrices, *(f"{it} --resource *" for it in matrices)]:
        status, whole, _ = answer(words.split(), world)
        same((status, len(whole) > 1_000_000), (0, True), words)
        for wanted in (1, len(HEADER), 5000):
            same(leaves(words, world, wanted), (whole[:wanted], 1, b"fault 4 Write\n"), f"{words}, {wanted} bytes")


def test_input_in_drips():
    with subprocess.Popen(
        [IAMSIM, "decide", "0", "0", "0"], stdin=subprocess.PIPE, stdout=subprocess.PIPE, stderr=subprocess.PIPE
    ) as program:
        for byte in SMALLEST:
            os.write(program.stdin.fileno(), bytes([byte]))
        same(program.communicate(timeout=60), (ANSWERS["decide 0 0 0"].encode(), b""))
        same(program.returncode, 0)


def test_the_longest_input():
    too_large = (1, b"", b"fault 2 World: 9 TooLarge\n")
    for words, text in EVERY.items():
        same(answer(words.split(), SMALLEST.ljust(8_388_608)), (0, text.encode(), b""), words)
        same(answer(words.split(), SMALLEST.ljust(8_388_609)), too_large, words)
        same(shell(words, "< /dev/zero"), too_large, words)


def test_a_report_of_a_million_rows():
    """No contract says that a device on which nothing fails is never told to have failed: here a long report is whole."""
    actions, resources = [f"s3:A{i}" for i in range(1024)], [f"arn:aws:s3:::b{i}" for i in range(1100)]
    account = "111122223333"
    world = json.dumps(
        {
            "moment": 0,
            "accounts": [{"id": account}],
            "principals": [{"user": ANN}],
            "actions": actions,
            "resources": [{"arn": it, "account": account} for it in resources],
        }
    ).encode()
    pairs = enumerate(itertools.product(actions, resources))
    text = BRIEF_HEADER + "".join(
        f"{cell},{ANN},{action},{resource},implicitDeny\n" for cell, (action, resource) in pairs
    )
    for workers in ("1", "4"):
        found = answer(["matrix", "--brief", "--workers", workers], world)
        assert found == (
            0,
            text.encode(),
            b"",
        ), f"{workers} workers: status {found[0]}, {len(found[1])} bytes, {found[2]}"


def test_a_report_whose_tails_all_differ():
    # So many tails that the table by which equal ones are found grows, and rows that are longer together than the buffer; so
    # many statements of one principal that workers begin with a survey.
    rows = (f"{n},{ANN},s3:GetObject,arn:aws:s3:::b/{n},allowed,identity/0/{n},\n" for n in range(1000))
    found = answer(["matrix", "--tile", "600", "--workers", "4"], lone_world(1000))
    same(found, (0, (HEADER + "".join(rows)).encode(), b""))


def test_a_small_stack():
    # The deepest worlds that are read, and one a level deeper, in 256 KiB; what a shell gives is 32 times that.
    for text, line in [
        (b"[" * 127 + b"]" * 127, "2 BadShape at ."),
        (b'{"a":' * 127 + b"0" + b"}" * 127, "2 BadShape at moment"),
        (b'[{"a":' * 63 + b"[]" + b"}]" * 63, "2 BadShape at ."),
        (b'{"a":' * 128, "1 NotJson"),
        (b"[" * 8_388_608, "1 NotJson"),
    ]:
        for words in EVERY:
            found = answer(["-c", f'ulimit -s 256; exec "$0" {words}', IAMSIM], text, program="bash")
            same(found, (1, b"", f"fault 2 World: {line}\n".encode()), words)


def test_many_elements_on_many_actions_take_little_memory():
    # 4,096 different patterns of actions, each tried on 4,096 actions: what is kept of them is bounded.
    statements = [{"Effect": "Allow", "Action": f"s3:Get{i}?", "Resource": "*"} for i in range(4096)]
    documents = [{"Version": "2012-10-17", "Statement": statements[at : at + 1024]} for at in range(0, 4096, 1024)]
    world = {
        "moment": 0,
        "accounts": [{"id": "111122223333"}],
        "principals": [{"user": ANN, "identity": documents}],
        "actions": [f"s3:Get{i}x" for i in range(4096)],
        "resources": [{"arn": "arn:aws:s3:::b/k", "account": "111122223333"}],
    }
    wanted = BRIEF_HEADER + "".join(f"{i},{ANN},s3:Get{i}x,arn:aws:s3:::b/k,allowed\n" for i in range(4096))
    found = answer(
        ["-c", 'ulimit -d 57344; exec "$0" matrix --brief --workers 4', IAMSIM],
        json.dumps(world).encode(),
        program="bash",
    )
    same(found, (0, wanted.encode(), b""))


def test_refused_command_lines_go_to_standard_error():
    for words, line in [
        ("", "error: 'iamsim' requires a subcommand but one was not provided"),
        (
            "matrix --workers 4294967296",
            "error: invalid value '4294967296' for '--workers <N>': 4294967296 is not in 0..=4294967295",
        ),
        ("first --tile -1", "error: unexpected argument '-1' found"),
        ("matrix --format xml", "error: invalid value 'xml' for '--format <FORMAT>'"),
        ("matrix --brief --brief", "error: the argument '--brief' cannot be used multiple times"),
    ]:
        # Standard input is closed: it is not looked at.
        status, out, said = shell(words, "<&-")
        same((status, out, said.decode().split("\n")[0]), (2, b"", line), words)
    same(answer([b"matrix", b"\xff"], SMALLEST), (2, b"", b"error: a word of the command line is not UTF-8\n"))


def test_numbers_at_the_ends_of_their_types():
    for words in ("matrix --tile 18446744073709551615", "matrix --workers 64 --tile 1"):
        same(answer(words.split(), SMALLEST), (0, ANSWERS["matrix"].encode(), b""), words)
    for words in ("matrix --workers 4294967295", "first --workers 0"):
        same(answer(words.split(), SMALLEST), (1, b"", b"fault 3 Matrix: 1 Workers\n"), words)
    same(answer(["decide", "0", "0", "18446744073709551615"], SMALLEST), (1, b"", b"fault 5 NoSuchCell\n"))
    same(answer(["matrix", "--tile", "0", "--workers", "0"], SMALLEST), (1, b"", b"fault 6 Cut: 1 ZeroTile\n"))


# What each command says of itself, and how it is used.
ABOUT = {
    "": ("Answers who may do what in AWS, from policy documents alone, before they are put in force.", "<COMMAND>"),
    "check": ("Read the world, and count what it has", "[WORLD]"),
    "decide": ("Decide one request: may principal P do action A on resource R?", "<P> <A> <R> [WORLD]"),
    "matrix": ("Decide all requests, and report each", "[OPTIONS] [WORLD]"),
    "first": ("Find the first request that is allowed, in the order of the matrix", "[OPTIONS] [WORLD]"),
}


def test_help_goes_to_standard_output():
    for command, (about, usage) in ABOUT.items():
        for words in (f"{command} --help", f"{command} -h", f"help {command}"):
            status, out, said = shell(words, "<&-")
            lines = out.decode().split("\n")
            same((status, lines[0], said), (0, about, b""), words)
            assert f"Usage: {' '.join(f'iamsim {command} {usage}'.split())}" in lines, out
            same(sum(it.startswith("The world is read from the file WORLD") for it in lines), int(command != ""), words)
    same(shell("--version", "<&-"), (0, b"iamsim 0.1.0\n", b""))
