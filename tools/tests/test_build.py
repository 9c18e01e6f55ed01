"""In which order, and with how many jobs, tools/build proves crates."""

import importlib.machinery
import importlib.util
import os

from harness import TOOLS, same


def build():
    loader = importlib.machinery.SourceFileLoader("build", os.path.join(TOOLS, "build"))
    module = importlib.util.module_from_spec(importlib.util.spec_from_loader("build", loader))
    loader.exec_module(module)
    return module


def test_the_first_of_those_that_begin_gets_the_processors_that_are_left():
    jobs = build().jobs_of
    same(jobs(["a", "b", "c"], 4), {"a": 2, "b": 1, "c": 1})
    same(jobs(["a", "b", "c"], 2), {"a": 1, "b": 1})
    same(jobs(["a"], 3), {"a": 3})
    same(jobs(["a"], 16), {"a": 4})
    same(jobs(["a", "b"], 0), {})
    same(jobs([], 4), {})


def test_the_longest_way_to_the_program_counts():
    module = build()
    module.lines = {"low": 1, "short": 5, "long": 2, "high": 10, "main": 100}.get
    below = {"low": set(), "short": {"low"}, "long": {"low"}, "high": {"low", "long"}, "main": {"low", "short", "long", "high"}}
    same(module.ways(below), {"main": 100, "short": 105, "high": 110, "long": 112, "low": 113})


def test_the_crates_of_the_program_come_with_what_they_stand_on():
    below = build().libraries()
    assert below["iam_glob"] == set() and "iam_text" in below["iam_app"], below["iam_app"]
    assert all(below[low] < below[name] for name in below for low in below[name])
    assert "iam_tests" not in below and "iam_rows" not in below
