"""What a release says of its version and of its proof."""

import hashlib
import os
import re
import subprocess
from typing import Dict, List

FIELDS = ("commit", "kit", "gate", "date", "program")


class Refused(Exception):
    """Why no release is made."""


def read(*path: str) -> str:
    with open(os.path.join(*path), encoding="utf-8") as it:
        return it.read()


def sum_of(path: str, kind: str = "sha256") -> str:
    with open(path, "rb") as it:
        return hashlib.new(kind, it.read()).hexdigest()


def version_of(top: str) -> str:
    found = re.search(r'^const VERSION: &str = "(.*)";$', read(top, "crates/iam_options/src/arguments.rt"), re.M)
    if not found:
        raise Refused("crates/iam_options/src/arguments.rt has no VERSION")
    return found.group(1)


def day_of(top: str, version: str) -> str:
    """The date that CHANGELOG.md has for a version."""
    found = re.search(rf"^## {re.escape(version)}, (\d{{4}}-\d\d-\d\d)$", read(top, "CHANGELOG.md"), re.M)
    if not found:
        raise Refused(f"CHANGELOG.md has no '## {version}, YYYY-MM-DD'")
    return found.group(1)


def check_program(program: str, version: str) -> None:
    with open(program, "rb") as it:
        head = it.read(20)
    if head[:5] != b"\x7fELF\x02" or head[18:20] != b"\x3e\x00":
        raise Refused(f"{program} is no program for Linux on x86-64")
    said = subprocess.run([program, "--version"], stdout=subprocess.PIPE, encoding="utf-8", check=True).stdout.strip()
    if said != f"iamsim {version}":
        raise Refused(f"{program} calls itself '{said}', and VERSION is {version}")


def said_by(top: str, *words: str) -> str:
    """What a command says; nothing where it fails or is not there."""
    try:
        ran = subprocess.run(words, cwd=top, stdout=subprocess.PIPE, stderr=subprocess.DEVNULL, encoding="utf-8")
    except OSError:
        return ""
    return ran.stdout.strip() if ran.returncode == 0 else ""


def record_of(path: str) -> Dict[str, str]:
    """What tools/gate left."""
    try:
        lines = [it.partition(": ") for it in read(path).splitlines()]
    except OSError:
        return {}
    return {name: value for name, _, value in lines}


def proved(top: str, program: str, record: str) -> Dict[str, str]:
    """The record of the gate that passed on this commit with this program; refused where none is."""
    found, commit = record_of(record), said_by(top, "git", "rev-parse", "HEAD")
    if not commit or found.get("commit") != commit or set(FIELDS) - set(found):
        raise Refused("no gate has passed on this commit")
    if said_by(top, "git", "status", "--porcelain"):
        raise Refused("no gate has passed on these files: some are not as in the commit")
    if found["program"] != sum_of(program):
        raise Refused(f"no gate has tested this program: {program}")
    return found


def unproved(top: str, program: str, day: str, why: str) -> Dict[str, str]:
    changed = ", with changes" if said_by(top, "git", "status", "--porcelain") else ""
    commit = (said_by(top, "git", "rev-parse", "HEAD") or "unknown") + changed
    kit = said_by(top, "rt", "version") or "unknown"
    return dict(zip(FIELDS, (commit, kit, f"UNPROVED: {why}", day, sum_of(program))))


def lines_of(version: str, found: Dict[str, str]) -> List[str]:
    """The lines of PROVED."""
    return [f"iamsim {version}", *(f"{it}: {found[it]}" for it in FIELDS)]
