"""Memory and threads refused to the program, one call after the other, and from each call on: it ends by itself with its whole
answer or with the fault that there is no memory, and never with a part."""

import itertools
import json
import os
import re
import shutil
import subprocess
import tempfile

from harness import (
    EXAMPLES,
    IAMSIM,
    Skipped,
    TOOLS,
    answer,
    data,
    document,
    lone_world,
    matrix,
    on_all_processors,
    row_world,
    run,
    same,
    small_world,
    statement,
)

HERE = os.path.dirname(os.path.abspath(__file__))

# What may stand on standard error where memory was refused.
LINES = [
    b"",
    b"fault 2 World: 10 OutOfMemory\n",
    b"fault 3 Matrix: 2 OutOfMemory\n",
    b"fault 6 Cut: 4 OutOfMemory\n",
    b"fault 7 OutOfMemory\n",
    b"fault 9 Before: 10 OutOfMemory\n",
]

FORMS = [form.split() for form in ("--format csv", "--format csv --brief", "--format json", "--format json --brief")]
MATRICES = [["matrix", "--workers", workers, *form] for workers in ("1", "4") for form in FORMS]
FIRSTS = [["first", "--workers", workers] for workers in ("1", "4")]
ASKED = ["--principal", "*", "--action", "S3:*"]
SELECTED = [
    *(
        ["matrix", "--workers", workers, *form, *ASKED, "--decision", "allowed"]
        for workers in ("1", "4")
        for form in (FORMS[0], FORMS[3])
    ),
    ["first", "--workers", "4", *ASKED],
]
COMMANDS = [["check"], ["decide", "0", "0", "0"], *MATRICES, *FIRSTS, *SELECTED]

# The ways of the allocator that refuse.c knows, and those that it does not.
REFUSED = {"malloc", "calloc", "realloc", "aligned_alloc", "posix_memalign"}
UNKNOWN = {"mmap", "mmap64", "brk", "sbrk", "memalign", "valloc", "pvalloc", "reallocarray", "strdup", "strndup"}


def file(path):
    with open(path, "rb") as it:
        return it.read()


def worlds():
    given = {name: file(os.path.join(EXAMPLES, f"{name}.json")) for name in ("smallest", "company", "faulty")}
    return {**given, "home": row_world("home"), "every": file(data("every.json"))}


def built(source, *options):
    """What cc makes of a text in C, as a file."""
    handle, path = tempfile.mkstemp(dir=os.environ["TOOLS_TEST_ROOM"])
    os.close(handle)
    try:
        run(["cc", "-O2", "-pthread", *options, "-o", path, "-x", "c", "-"], source)
    except FileNotFoundError:
        raise Skipped("there is no cc")
    return path


def shim():
    return built(file(os.path.join(HERE, "refuse.c")).decode(), "-shared", "-fPIC")


def refusals(job):
    """The number of the call at which the program met no refusal, and what was wrong. Right is the whole answer, or status 1 with
    nothing written and a line. The line may be absent until one was told, since the command line is read first, and wherever
    memory for the line is refused: of a world with a fault, or where all later calls are refused too."""
    program, library, seconds, step, kind, later, words, world = job
    read, write = os.pipe()
    os.set_blocking(read, False)
    whole = answer(words, world, program=program)
    findings, lines = [], LINES
    for number in itertools.count(1, step):
        setting = {"LD_PRELOAD": library, kind: str(number), "REFUSE_LATER": str(later), "REFUSE_TOLD": str(write)}
        try:
            found = answer(words, world, seconds, program, env=setting, pass_fds=[write])
        except subprocess.TimeoutExpired:
            found = ("no end", b"", b"")
        try:
            is_met = os.read(read, 65536) != b""
        except BlockingIOError:
            is_met = False
        if found != whole and not (is_met and found[:2] == (1, b"") and found[2] in lines):
            findings.append(f"{' '.join(words)}: {kind} {number}, later {later}: {found!r:.300}")
        if found[2] in LINES[1:] and whole[0] == 0 and not later:
            lines = LINES[1:]
        if not is_met or len(findings) > 9:
            os.close(read)
            os.close(write)
            return number, findings


def refused(program, jobs, seconds=20, step=1):
    """How many runs all jobs took together, in which each call was refused, or one of so many; and what was wrong."""
    library = shim()
    found = on_all_processors(refusals, [(program, library, seconds, step, *job) for job in jobs])
    return sum(-(-runs // step) for runs, _ in found), [it for _, several in found for it in several]


def tell(what, runs, findings):
    print("".join(f"{it}\n" for it in findings), end="")
    print(f"{what}: {runs} runs, {len(findings)} findings", flush=True)
    same(findings, [])


def test_answers_where_nothing_is_refused():
    # With these the others are compared; examples and rows say which they have to be.
    for name, world in worlds().items():
        same({answer(words, world)[0] for words in COMMANDS}, {1 if name == "faulty" else 0}, name)


def test_refused_memory():
    jobs = [
        ("REFUSE_CALL", later, words, world) for world in worlds().values() for words in COMMANDS for later in (0, 1)
    ]
    tell("refused memory", *refused(IAMSIM, jobs))


def test_memory_refused_where_the_world_is_a_file():
    files = [*(os.path.join(EXAMPLES, f"{name}.json") for name in ("smallest", "faulty")), "no-such-file", "/", "a\nb"]
    jobs = [
        ("REFUSE_CALL", later, [*words, path], b"")
        for path in files
        for words in (["check"], ["matrix"], ["matrix", *ASKED])
        for later in (0, 1)
    ]
    tell("memory refused where the world is a file", *refused(IAMSIM, jobs))


def two_worlds():
    """Commands that hold a world against the one that is given, and this one."""
    company, every = os.path.join(EXAMPLES, "company.json"), data("every.json")
    home = row_world("home").replace(b"home/bob", b"home/eve")
    path = os.path.join(os.environ["TOOLS_TEST_ROOM"], "home-before.json")
    with open(path, "wb") as it:
        it.write(row_world("home"))
    forms = [[], ["--all", "--brief", "--format", "json"], ["--workers", "1", "--tile", "1", "--principal", "*"]]
    for before, after in [(path, home), (company, file(every)), (every, file(company)), ("no-such-file", home)]:
        for form in forms:
            yield ["changes", *form, before], after
    yield ["changes", path], b"{}"
    yield ["changes", os.path.join(EXAMPLES, "faulty.json")], home
    yield ["changes", path], home.replace(b"home/eve", b"home/ann")


def test_memory_refused_where_worlds_are_compared():
    jobs = [("REFUSE_CALL", later, words, world) for words, world in two_worlds() for later in (0, 1)]
    tell("memory refused where worlds are compared", *refused(IAMSIM, jobs))


def test_threads_refused_where_worlds_are_compared():
    jobs = [("REFUSE_THREAD", later, words, world) for words, world in two_worlds() for later in (0, 1)]
    tell("threads refused where worlds are compared", *refused(IAMSIM, jobs))


def test_refused_threads():
    many = [["matrix", "--workers", "64", "--tile", "1"], ["first", "--workers", "64", "--tile", "1"]]
    jobs = [
        ("REFUSE_THREAD", later, words, world)
        for world in worlds().values()
        for words in [*MATRICES, *FIRSTS, *SELECTED, *many]
        for later in (0, 1)
    ]
    tell("refused threads", *refused(IAMSIM, jobs))


def test_a_survey_that_is_refused():
    # 182 statements on 182 resources are the least that workers survey; for that they start as many threads again. One worker,
    # for whom nobody waits, surveys nothing.
    for count, more, threads in [
        (181, [], 3),
        (182, [], 6),
        (181, ["--workers", "2"], 1),
        (182, ["--workers", "2"], 2),
        (182, ["--workers", "1"], 0),
    ]:
        met, findings = refused(IAMSIM, [("REFUSE_THREAD", 0, ["matrix", *more], lone_world(count))])
        same((met - 1, findings), (threads, []), f"{count} {more}")
    jobs = [
        ("REFUSE_CALL", later, ["matrix", *more], lone_world(182))
        for more in ([], ["--format", "json", "--tile", "50"])
        for later in (0, 1)
    ]
    tell("a survey that was refused", *refused(IAMSIM, jobs, step=11))


def met(words, world, **setting):
    """How many calls were refused under the settings, and what the program answered."""
    read, write = os.pipe()
    found = answer(words, world, env={"LD_PRELOAD": shim(), "REFUSE_TOLD": str(write), **setting}, pass_fds=[write])
    os.close(write)
    with os.fdopen(read, "rb") as told:
        return len(told.read()), found


def test_what_only_saves_work_refuses_no_answer():
    # What an action element matches takes as many bytes as there are actions, what a resource element matches as there are
    # resources; no other block of the program has such a size. Refused all of them, it answers as it does with them.
    allowed = document(
        statement(action=["s3:Get*", "ec2:*"]),
        statement(action="s3:*1?"),
        statement(resource="arn:aws:s3:::b/*"),
        statement(resource="arn:aws:s3:::b/${aws:username}*"),
    )
    actions = small_world(allowed, actions=[f"s3:Get{n}" for n in range(1013)])
    resources = small_world(
        allowed, resources=[{"arn": f"arn:aws:s3:::b/{n}", "account": "111122223333"} for n in range(977)]
    )
    for world, size, least in [(actions, 1013, 3), (resources, 977, 3)]:
        text = json.dumps(world).encode()
        for words in (
            ["matrix", "--workers", "1"],
            ["matrix", "--workers", "4", "--brief"],
            ["matrix", "--format", "json"],
        ):
            count, found = met(words, text, REFUSE_SIZE=str(size))
            same(found, answer(words, text))
            assert count >= least, f"{words}: {count} blocks of {size} bytes refused"


def test_engines_that_were_refused():
    # An engine of each kind decides the cells of a world, and is asked once more where it was refused: no refused call spoils a
    # verdict.
    program = os.path.join(os.path.dirname(TOOLS), "crates", "iam_tests", "out", "iam_tests_tests")
    if not os.path.exists(program):
        raise Skipped("the tests of calls are not built")
    program, library = shutil.copy(program, os.environ["TOOLS_TEST_ROOM"]), shim()
    os.chmod(program, 0o755)
    for name in ("engine::cells_asked_again", "cells::cells_asked_again"):
        are_right_again(program, library, name)


def are_right_again(program, library, name):
    """The test of an engine passes, whichever call of the allocator is refused to the engine."""
    passed, outcomes = (0, b"\ntest result: ok\n"), []
    for number in itertools.count(1):
        read, write = os.pipe()
        setting = {"LD_PRELOAD": library, "REFUSE_CALL": str(number), "REFUSE_TOLD": str(write)}
        found = answer([name], b"", program=program, env=setting, pass_fds=[write])
        os.close(write)
        with os.fdopen(read, "rb") as told:
            if not told.read():
                break
        outcomes.append(found[:2] == passed)
    # The first calls read the world, and most of them end the test; those of the engine follow.
    asked = outcomes[::-1].index(False)
    print(f"{name}, refused: {asked} runs, all right", flush=True)
    assert asked > 50, f"only the last {asked} calls leave the verdicts right"
    same(found[:2], passed)


def test_a_small_machine():
    accounts = ",".join(f'{{"id":"{n:012}"}}' for n in range(200_000))
    world = (
        f'{{"moment":0,"accounts":[{accounts}],"principals":[{{"user":"arn:aws:iam::000000000007:user/ann"}}],'
        '"actions":["s3:GetObject"],"resources":[{"arn":"*","account":"000000000007"}]}'
    ).encode()
    row = b"0,arn:aws:iam::000000000007:user/ann,s3:GetObject,*,implicitDeny,,identity\n"
    for words, text in [
        ("check", b"ok principals 1 actions 1 resources 1 cells 1 statements 0\n"),
        ("matrix --workers 64", b"cell,principal,action,resource,decision,statements,lacks\n" + row),
    ]:
        # So many KiB of address space: from what the C library alone fills nearly, to where nothing is refused.
        found = [
            answer(["-c", f'ulimit -v {8000 << n}; exec "$0" {words}', IAMSIM], world, program="bash") for n in range(9)
        ]
        right = [(0, text, b""), *((1, b"", line) for line in LINES[1:])]
        same([it for it in found if it not in right], [], words)
        same((found[0] in right[1:], found[-1]), (True, right[0]), words)


def test_only_known_ways_lead_to_memory():
    try:
        symbols, _ = run(["nm", "-D", "--undefined-only", IAMSIM])
    except FileNotFoundError:
        raise Skipped("there is no nm")
    names = set(re.findall(r"U (\w+)", symbols))
    assert names & REFUSED, f"the program asks for memory in no way that is known: {sorted(names)}"
    same(names & UNKNOWN, set())


# A program that answers "whole" by way of four blocks, the third of them in a thread; what it does without a block is put in.
CARELESS = """
#include <pthread.h>
#include <stdlib.h>
#include <unistd.h>
static int wanted;
static void want(void *block) { wanted++; if (!block) { OTHERWISE; write(2, "fault 7 OutOfMemory\\n", 20); _exit(1); } }
static void *work(void *nothing) { want(malloc(3)); return nothing; }
int main(void)
{
    pthread_t thread;
    want(malloc(1));
    want(realloc(NULL, 2));
    if (pthread_create(&thread, NULL, work, NULL)) work(NULL); else pthread_join(thread, NULL);
    want(calloc(4, 4));
    return write(1, "whole", 5) != 5;
}
"""


def test_what_is_wrong_is_found():
    for otherwise, is_wrong in [
        ("", False),
        ("*(volatile char *)block = 1", True),
        ('write(1, "who", 3)', True),
        ("for (;;)", True),
        ('write(2, "?", 1)', True),
        ("_exit(0)", True),
        ("_exit(1)", False),
    ]:
        program = built(CARELESS.replace("OTHERWISE", otherwise), "-w")
        for later in (0, 1):
            # What has no end is waited for each time.
            seconds = 1 if "for" in otherwise else 30
            _, findings = refused(program, [("REFUSE_CALL", later, [], b"")], seconds)
            same(bool(findings), is_wrong, otherwise)
    # No line behind one that was told is wrong where that one call is refused.
    silent = built(CARELESS.replace("OTHERWISE", "if (wanted > 2) _exit(1)"), "-w")
    same([bool(refused(silent, [("REFUSE_CALL", later, [], b"")])[1]) for later in (0, 1)], [True, False])
    same(refused(built(CARELESS, "-w", "-DOTHERWISE"), [("REFUSE_THREAD", 0, [], b"")]), (2, []))


def test_every_kind_of_element_takes_part():
    # So that a refusal anywhere has something to spoil: each operator holds, and each layer decides a cell.
    found = matrix(json.loads(file(data("every.json"))))
    ann, dev = "arn:aws:iam::111122223333:user/ann", "arn:aws:sts::444455556666:assumed-role/dev/s1"
    get, put, plain, sealed = "s3:GetObject", "s3:PutObject", "arn:aws:s3:::ann/k", 'arn:aws:s3:::ann/\u00e9,"k"'
    org, control = "org/0/0/0 org/1/0/0", "control/0/0/0 control/1/0/0"
    same(
        found,
        {
            (ann, get, plain): ("allowed", f"{org} {control} identity/0/0", ""),
            (ann, get, sealed): ("implicitDeny", f"{org} identity/0/0", "resource"),
            (ann, put, plain): ("implicitDeny", f"{org} control/0/0/0", "control identity"),
            (ann, put, sealed): ("implicitDeny", org, "resource identity"),
            (dev, get, plain): ("allowed", f"{control} resource/0/0 identity/0/0 boundary/0/0 session/0/0", ""),
            (dev, get, sealed): ("implicitDeny", "identity/0/0 boundary/0/0 session/0/0", "resource"),
            (dev, put, plain): ("implicitDeny", "control/0/0/0 boundary/0/0", "control resource identity session"),
            (dev, put, sealed): ("implicitDeny", "boundary/0/0", "resource identity session"),
        },
    )
