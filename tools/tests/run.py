#!/usr/bin/env python3
"""Runs the tests of the tools: run.py MODULE..; the last line is 'tools: N passed, M failed'."""

import importlib
import os
import shutil
import signal
import sys
import tempfile
import traceback

sys.path.insert(0, os.path.dirname(os.path.abspath(__file__)))


def tests_of(module):
    return [(name, it) for name, it in vars(module).items() if name.startswith("test_") and callable(it)]


def main():
    room = tempfile.mkdtemp(prefix="tools-test-")
    os.environ["TOOLS_TEST_ROOM"] = room
    # The tools start some thousands of times: what Python compiles of them is kept for the run.
    os.environ["PYTHONPYCACHEPREFIX"] = os.path.join(room, "compiled")
    os.environ.pop("PYTHONDONTWRITEBYTECODE", None)
    # A run in the background ignores the signal of a terminal, and so would what it starts.
    signal.signal(signal.SIGINT, signal.default_int_handler)
    from harness import Skipped

    passed = failed = 0
    for module in map(importlib.import_module, sys.argv[1:]):
        for name, test in tests_of(module):
            try:
                test()
                passed += 1
            except Skipped as why:
                print(f"left out: {name}: {why}")
            except Exception:
                failed += 1
                print(f"FAILED {name}\n{traceback.format_exc()}")
    shutil.rmtree(room, ignore_errors=True)
    print(f"tools: {passed} passed, {failed} failed")
    sys.exit(1 if failed else 0)


if __name__ == "__main__":
    main()
