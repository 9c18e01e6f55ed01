"""estate."""

import argparse
import hashlib
import json
import os
import shutil
import sqlite3
import subprocess
from typing import Any, Dict, List, Tuple

from .. import files, program
from ..estates import running, schema
from ..estates.planning import Plan
from ..faults import Fault, line_of, tell
from ..references import References
from ..sources import ASSUME, add_options, estate_of, read_actions, refuse_unknown
from ..splitting import CELLS
from .parsers import add, whole

EXAMPLE = "iamsim-aws estate estate/ exports/*.json --actions actions --resources resources.json"
BESIDE = ("resources", "organization", "context", "actions")


def add_all(commands: Any) -> None:
    what = "load what is allowed in many accounts into one database"
    parser = add(commands, "estate", what, EXAMPLE, estate)
    parser.add_argument("folder", metavar="FOLDER", help="holds the worlds and the database access.db")
    parser.add_argument("exports", nargs="+", metavar="EXPORT", help="of 'aws iam get-account-authorization-details'")
    parser.add_argument("--actions", metavar="FILE", help=f"the actions, one a line; without it {ASSUME}")
    add_options(parser)
    parser.add_argument("--cells", type=whole, default=CELLS, metavar="N", help="let no world have over N cells")
    parser.add_argument("--jobs", metavar="N", help="so many worlds side by side, as 'parallel --jobs' reads it")
    parser.add_argument("--sshlogin", action="append", default=[], metavar="LOGIN", help="as 'parallel --sshlogin'")
    parser.add_argument("--slurm", action="store_true", help="makes the worlds and a Slurm array job, and asks nothing")
    help_of_left = "leaves out principals and resources with a policy that is refused, which is told"
    parser.add_argument("--leave-out", action="store_true", help=help_of_left)
    parser.add_argument("--afresh", action="store_true", help="begins anew where the folder holds another estate")


def sums(options: argparse.Namespace) -> List[Tuple[str, str, str]]:
    """Each file that is read, with its kind and its SHA-256 sum."""
    given = [(it, "export") for it in options.exports]
    for kind in BESIDE:
        named = getattr(options, kind) or []
        given += [(it, kind) for it in ([named] if isinstance(named, str) else named)]
    found = []
    for path, kind in given:
        if path == "-":
            raise Fault("an estate reads its files twice, so none of them can be standard input")
        try:
            with open(path, "rb") as it:
                found.append((path, kind, hashlib.sha256(it.read()).hexdigest()))
        except OSError as error:
            raise Fault(f"{path}: {error.strerror or error}") from None
    return found


def key_of(options: argparse.Namespace, found: List[Tuple[str, str, str]]) -> str:
    """What tells one estate from another; the names of the files do not matter."""
    parts = [sorted((kind, of) for _, kind, of in found), options.session, options.cells]
    parts += ["leave out"] if options.leave_out else []
    return hashlib.sha256(json.dumps(parts).encode()).hexdigest()


def commit() -> str:
    """The commit of this command's repository, or nothing where it is installed."""
    if not os.path.exists(os.path.join(program.TOP, ".git")) or not shutil.which("git"):
        return ""
    ran = subprocess.run(["git", "-C", program.TOP, "rev-parse", "HEAD"], capture_output=True, text=True)
    return ran.stdout.strip() if ran.returncode == 0 else ""


def refuse(made: Plan, leaves_out: bool) -> None:
    """All policies that are refused are told before any world is asked."""
    for line in made.refused:
        tell(f"iamsim refuses a policy: {line}")
    if any(it.startswith("account ") for it in made.left_out):
        why = "a policy of the organisation is refused, and binds all principals of its account"
        raise Fault(f"{why}: nothing was asked")
    if made.refused and not leaves_out:
        count = f"{len(made.refused)} policies are refused, of {len(made.left_out)} principals and resources"
        raise Fault(f"{count}, and nothing was asked: mend them, or leave out who has them by --leave-out")


def version() -> str:
    return program.run(["--version"], b"").decode().strip()


def plan(options: argparse.Namespace, base: sqlite3.Connection, key: str, found: List[Tuple[str, str, str]]) -> None:
    """Makes the worlds, and the database without what is allowed."""
    actions = read_actions(options.actions) if options.actions else [ASSUME]
    refuse_unknown(References(options.services), actions)
    # The worlds go first: then no job of another estate leaves a report of them among those of this one.
    for it in ("worlds", "reports"):
        shutil.rmtree(os.path.join(options.folder, it), ignore_errors=True)
    os.makedirs(os.path.join(options.folder, "worlds"))
    estate = estate_of(options, [])
    base.execute("BEGIN IMMEDIATE")
    schema.create(base)
    made = Plan(base, options.folder, estate, actions, options.cells)
    made.make(options.exports)
    refuse(made, options.leave_out)
    accounts = {path: account for account, paths in made.parts.items() for path in paths}
    schema.fill(base, "files", [(*it, accounts.get(it[0]) if it[1] == "export" else None) for it in found])
    said: Dict[str, Any] = {"key": key, "program": version(), "commit": commit(), "moment": estate.moment}
    said.update({"session": options.session, "left out": "\n".join(map(line_of, made.left_out))})
    schema.fill(base, "asked", [(name, str(it)) for name, it in said.items()])
    base.execute("COMMIT")


def begin(options: argparse.Namespace) -> sqlite3.Connection:
    """The database of the folder, where it is of these files, or a new one."""
    path, found = os.path.join(options.folder, "access.db"), sums(options)
    key = key_of(options, found)
    if options.afresh:
        for it in ("access.db", "access.db-journal", "joblog", "joblog.elsewhere"):
            if os.path.exists(os.path.join(options.folder, it)):
                os.remove(os.path.join(options.folder, it))
    base = schema.connect(path)
    if schema.is_empty(base):
        plan(options, base, key, found)
        return base
    schema.refuse_other(base, path)
    is_later = options.moment is not None and str(options.moment) != schema.asked(base, "moment")
    if schema.asked(base, "key") != key or is_later:
        raise Fault(f"{path}: it is of other files or options: name another folder, or begin anew by --afresh")
    if schema.asked(base, "program") != version():
        was = schema.asked(base, "program")
        what = f"it was begun with {was}, and this is {version()}"
        raise Fault(f"{path}: {what}: begin anew by --afresh, or use that one")
    # What failed for want of memory, say, is tried again.
    base.execute("UPDATE worlds SET ended = 'waiting', fault = NULL WHERE ended = 'failed'")
    return base


def estate(options: argparse.Namespace) -> int:
    try:
        running.claim(options.folder)
        lock = running.locked(options.folder)
        if not options.slurm:
            running.parallel()
        return ask(options, begin(options), lock)
    except sqlite3.Error as error:
        raise Fault(f"{os.path.join(options.folder, 'access.db')}: {error}") from None
    except UnicodeEncodeError:
        raise Fault("a text holds half a character (a lone surrogate), which no JSON in UTF-8 has") from None


def ask(options: argparse.Namespace, base: sqlite3.Connection, lock: Any) -> int:
    count = schema.count_of_worlds(base)
    running.write_jobs(options.folder, count)
    if options.slurm:
        where = os.path.join(options.folder, "estate.slurm")
        files.write(
            f"{count} worlds; 'sbatch {where}' asks for them; then the same command without --slurm loads them\n"
        )
        return 0
    if options.sshlogin:
        running.ask_elsewhere(base, options.folder, options.sshlogin, options.jobs, lock)
    is_well = running.ask_here(base, options.folder, options.jobs, lock)
    left = len(running.waiting(base))
    if left or not is_well:
        raise Fault(f"{left} of {count} worlds are not loaded: run the command again, which goes on from here")
    base.execute(f"PRAGMA threads = {program.processors()}")
    base.execute(schema.INDEX)
    return told(base, count)


def told(base: sqlite3.Connection, count: int) -> int:
    cells, allowed = base.execute("SELECT sum(cells), sum(allowed) FROM worlds WHERE ended = 'done'").fetchone()
    lines = schema.unfinished(base)
    for line in [*lines, *schema.left_out(base)]:
        tell(line)
    files.write(f"{count} worlds, {cells or 0} requests asked for, {allowed or 0} allowed\n")
    return 1 if lines else 0
