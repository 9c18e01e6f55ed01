"""What the guide shows of a command is what comes out of it."""

import json
import os
import re
import shutil
import subprocess
import tempfile

from harness import AWS, TOOLS, Skipped, data, document, load, same, statement

GUIDE = os.path.join(os.path.dirname(TOOLS), "docs", "AWS.md")


def sessions(text):
    """(command, what it prints) of each block that shows one."""
    for block in re.findall(r"^```\n(\$ .*?)^```$", text, re.M | re.S):
        command, _, shown = block.partition("\n")
        yield command[2:], shown


def room_of(text):
    """A folder with the files that the guide speaks of."""
    room = tempfile.mkdtemp(dir=os.environ["TOOLS_TEST_ROOM"])
    shutil.copy(data("account.json"), os.path.join(room, "export.json"))
    shutil.copy(data("partner.json"), room)
    shutil.copy(data("draft.json"), room)
    with open(os.path.join(room, "rules.txt"), "w") as it:
        it.write(re.search(r"^```\n(# rules.txt.*?)^```$", text, re.M | re.S).group(1))
    os.symlink(AWS, os.path.join(room, "iamsim-aws"))
    return room


def test_what_the_guide_shows():
    with open(GUIDE, encoding="utf-8") as it:
        text = it.read()
    room, found = room_of(text), list(sessions(text))
    same([command.split()[1] for command, _ in found], ["who-can", "can", "changes", "rules"])
    for command, shown in found:
        ran = subprocess.run(f"./{command}", shell=True, cwd=room, capture_output=True, encoding="utf-8")
        wanted = ".*".join(re.escape(it) for it in shown.split("...\n"))
        assert re.fullmatch(wanted, ran.stdout, re.S), f"{command}: {ran.stdout}{ran.stderr}"


def test_the_loop_makes_resources():
    """With an `aws` that has two buckets, the second of which has no policy."""
    if shutil.which("jq") is None:
        raise Skipped("there is no jq")
    with open(GUIDE, encoding="utf-8") as it:
        loop = re.search(r"^  for b in .*?resources.json$", it.read(), re.M | re.S).group(0)
    room, answer = tempfile.mkdtemp(dir=os.environ["TOOLS_TEST_ROOM"]), json.dumps(
        {"Policy": json.dumps(document(statement()))}
    )
    with open(os.path.join(room, "aws"), "w") as it:
        it.write(
            f"#!/bin/sh\ncase \"$*\" in\n*list-buckets*) echo one two;;\n*'--bucket one') cat <<'E'\n{answer}\nE\n;;\n*) exit 254;;\nesac\n"
        )
    os.chmod(it.name, 0o755)
    path = f"{room}{os.pathsep}{os.environ['PATH']}"
    subprocess.run(["sh", "-c", loop], cwd=room, env={**os.environ, "PATH": path}, check=True)
    made = load(os.path.join(room, "resources.json"))
    same(
        [{**it, "policy": json.loads(it["policy"])} for it in made],
        [{"arn": "arn:aws:s3:::one", "account": "111122223333", "policy": document(statement())}],
    )
