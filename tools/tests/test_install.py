"""iamsim-aws as 'make install' leaves it, away from the repository."""

import os
import shutil
import tempfile

from harness import IAMSIM, TOOLS, data, run, same


def test_the_installed_command():
    room = tempfile.mkdtemp(dir=os.environ["TOOLS_TEST_ROOM"])
    run(["make", "-s", "-C", os.path.dirname(TOOLS), "install-aws", f"PREFIX={room}"])
    shutil.copy(IAMSIM, os.path.join(room, "bin", "iamsim"))
    command = ["env", "-u", "IAMSIM", f"{room}/bin/iamsim-aws"]
    out, said = run([*command, "can", "alice", "sts:AssumeRole", "*/audit", data("account.json"), "--format", "csv"])
    told = "iamsim-aws: */audit is taken for 1 named resource: with --kinds it means every name\n"
    same((out.count("\n"), ",allowed," in out, said), (2, True, told))
    out, _ = run([*command, "page", data("account.json")])
    assert out.startswith("<!DOCTYPE html>"), out[:100]
