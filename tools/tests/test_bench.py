"""The makers of worlds that are measured, and of random ones."""

import json
import os
import re
import sys
import tempfile

from harness import IAMSIM, TOOLS, answer, aws, file, load, run, same

BENCH = os.path.join(os.path.dirname(TOOLS), "bench")
sys.path.insert(0, BENCH)
from exports import write
from random_worlds import Maker
from worlds import made


def statements_in(value):
    """How many statements the documents within a value have."""
    if isinstance(value, dict):
        own = value.get("Statement", [])
        return len(own if isinstance(own, list) else [own]) + sum(statements_in(it) for it in value.values())
    return sum(statements_in(it) for it in value) if isinstance(value, list) else 0


def test_worlds_to_measure_are_accepted():
    for name in ("company", "many-rules", "wildcards", "tags", "assume", "lake"):
        world = json.loads(made(name))
        p, a, r = (len(world[it]) for it in ("principals", "actions", "resources"))
        wanted = f"ok principals {p} actions {a} resources {r} cells {p * a * r} statements {statements_in(world)}\n"
        same(answer(["check"], made(name)), (0, wanted.encode(), b""), name)


def test_exports_to_measure_are_read():
    """Two accounts of 40 users and 60 roles, each role a resource."""
    paths = write(tempfile.mkdtemp(dir=os.environ["TOOLS_TEST_ROOM"]), 2)
    same([load(it) for it in write(tempfile.mkdtemp(dir=os.environ["TOOLS_TEST_ROOM"]), 2)], [load(it) for it in paths])
    world, _ = aws("world", *paths)
    status, said, _ = answer(["check"], world.encode())
    same(
        (status, said.decode().rsplit(" statements", 1)[0]),
        (0, "ok principals 200 actions 1 resources 120 cells 24000"),
    )


def test_the_makers_have_help():
    for name in ("exports.py", "worlds.py"):
        out, said = run([sys.executable, os.path.join(BENCH, name), "--help"])
        same((out.startswith(f"usage: {name} [-h] "), said), (True, ""), name)


def test_a_random_world_is_the_same_each_time():
    some = [Maker(seed).world() for seed in range(100)]
    same(some, [Maker(seed).world() for seed in range(100)])
    same(len(set(some)), 100)


def test_random_worlds_are_accepted_and_refused():
    status = [answer(["check"], Maker(seed).world())[0] for seed in range(60)]
    assert 20 < status.count(0) < 60 and set(status) == {0, 1}, status


# Stands in for the program: no row of `every` is an explicit deny.
WRONG = """#!/bin/sh
[ "$1" = every ] || exec {program} "$@"
{program} "$@" | sed 's/explicitDeny/allowed/g'
"""


def test_rows_of_all_names_are_held_against_the_matrix():
    path = file(WRONG.format(program=IAMSIM))
    os.chmod(path, 0o755)
    for program, status, last in (
        (IAMSIM, 0, r" rows, [1-9]\d+ texts, 0 "),
        (path, 1, r" rows, [1-9]\d+ texts, [1-9]\d* "),
    ):
        words = [os.path.join(BENCH, "names"), "--worlds", "40"]
        out, _ = run(["env", f"IAMSIM={program}", "TMPDIR=" + os.environ["TOOLS_TEST_ROOM"], *words], status=status)
        assert re.search(last + "contradictions\n$", out), out
