"""The jobs of an estate: GNU parallel runs them here and on other machines, or Slurm does."""

import fcntl
import os
import shlex
import shutil
import signal
import sqlite3
import subprocess
import sys
import tempfile
import time
from typing import IO, Dict, List, Optional

from .. import files
from ..faults import Fault, tell
from ..program import processors, program
from . import schema
from .reading import kept

HOW = "on Debian and Ubuntu 'apt-get install parallel' installs it, on Fedora 'dnf install parallel', on macOS 'brew install parallel'"
ASK = """#!/bin/sh
# Asks iamsim for the world of this number; its report, or the line of its fault, is kept for the database.
set -e
mkdir -p reports
[ ! -e "reports/$1.json.gz" ] || exit 0
part=$(mktemp "reports/$1.XXXXXX")
trap 'rm -f "$part" "$part.said" "$part.gz"' EXIT
trap 'exit 1' HUP INT TERM
status=0
"${IAMSIM:-iamsim}" matrix --decision allowed --allow-empty --format json --workers "${WORKERS:-1}" "worlds/$1.json" > "$part" 2> "$part.said" || status=$?
# A program that is missing, or was killed, says nothing of the world.
if [ "$status" -gt 1 ]; then
    cat "$part.said" >&2
    exit "$status"
fi
[ "$status" = 0 ] || cat "$part.said" > "$part"
gzip -1 -c "$part" > "$part.gz"
mv "$part.gz" "reports/$1.json.gz"
"""
SLURM = """#!/bin/bash
#SBATCH --job-name=iamsim-estate
#SBATCH --array=0-{last}
#SBATCH --cpus-per-task=1
#SBATCH --output=slurm-%A.out
#SBATCH --open-mode=append
# Task N asks for the worlds N, N + {tasks}, .., but for those that have a report. Where all tasks have ended, the command
# that wrote this, without --slurm, loads the reports.
cd {folder} || exit 1
{program}status=0
for ((n = SLURM_ARRAY_TASK_ID; n < {count}; n += {tasks})); do
    sh ask.sh "$n" || status=1
done
exit "$status"
"""
TASKS = 1000  # Slurm takes no more in an array unless it is told to
MARKER = "iamsim-estate"
# The job of a world here. Nothing is taken from the folder that it runs in or from who starts it (-I), and the standard
# library is all that it wants (-S). Names come by the environment: GNU parallel replaces braces in a command.
JOB = (
    "import os, sys; sys.path.append(os.environ['IAMSIM_AWS_TOOLS']); "
    "from iamsim_aws.estates.__main__ import main; sys.exit(main())"
)
COMMAND = f'"$IAMSIM_AWS_PYTHON" -I -S -c "{JOB}" "$IAMSIM_AWS_FOLDER" "$IAMSIM_AWS_WORKERS" {{}}'
ENDING = 1.5  # the seconds that GNU parallel has to end by itself
MINUTE = 60.0


def claim(folder: str) -> None:
    """Takes a folder that is empty, or an estate's already: what stands in another one is somebody else's."""
    os.makedirs(folder, exist_ok=True)
    marker = os.path.join(folder, MARKER)
    if os.path.exists(marker):
        return
    if set(os.listdir(folder)) - {"lock"}:
        what = f"it is neither empty nor the folder of an estate, which has the file {MARKER}"
        raise Fault(f"{folder}: {what}: name another one")
    files.write_file(marker, "This folder is made by 'iamsim-aws estate', which may remove all that stands here.\n")


def locked(folder: str) -> IO[bytes]:
    """Holds the folder until this run and all of its jobs have ended."""
    path, end = os.path.join(folder, "lock"), time.monotonic() + 2 * ENDING
    while True:
        try:
            it = open(path, "ab")
            fcntl.flock(it, fcntl.LOCK_EX | fcntl.LOCK_NB)
            return it
        except BlockingIOError:
            # What a run has started that was killed ends soon after it.
            if time.monotonic() > end:
                raise Fault(f"{folder}: another run of 'iamsim-aws estate' works on it") from None
            time.sleep(0.05)
        except OSError as error:
            raise Fault(f"{path}: {error.strerror or error}") from None


def parallel() -> str:
    found = shutil.which("parallel")
    if not found:
        raise Fault(f"GNU parallel is not installed (parallel): {HOW}")
    said = subprocess.run([found, "--version"], capture_output=True, text=True).stdout
    if not said.startswith("GNU parallel"):
        raise Fault(f"{found} is not GNU parallel: {HOW}")
    return found


def waiting(base: sqlite3.Connection) -> List[int]:
    return [it[0] for it in base.execute("SELECT world FROM worlds WHERE ended = 'waiting' ORDER BY world")]


def log_of(base: sqlite3.Connection, folder: str) -> str:
    """The log by which a run goes on where an earlier one was stopped; one that tells of more than is there is put away."""
    path = os.path.join(os.path.abspath(folder), "joblog")
    if os.path.exists(path):
        left = set(waiting(base))
        lines = [it.split("\t") for it in files.read_text(path).splitlines()[1:]]
        done = {int(it[0]) - 1 for it in lines if len(it) > 6 and it[0].isdigit() and it[6] == "0"}
        if done & left:
            os.remove(path)
    return path


def run(
    base: sqlite3.Connection, words: List[str], numbers: List[int], where: str, more: Dict[str, str], lock: IO[bytes]
) -> int:
    """GNU parallel with these words, a number a job; it and its jobs hold the folder's lock too. However this run ends, its
    jobs end too: they watch a pipe whose other end it alone has."""
    bar = ["--bar"] if sys.stderr is not None and sys.stderr.isatty() else []
    command = [parallel(), *bar, "--halt", "soon,fail=1", *words]
    watched, held = os.pipe()
    with tempfile.TemporaryFile("w+") as given:
        given.write("".join(f"{it}\n" for it in numbers))
        given.seek(0)
        room = {"IAMSIM_AWS_WATCHED": str(watched), "TMPDIR": tempfile.gettempdir(), **more}
        try:
            ran = subprocess.Popen(
                command,
                stdin=given,
                cwd=where,
                env={**os.environ, **room},
                pass_fds=[lock.fileno(), watched],
                start_new_session=True,
            )
        except OSError as error:
            raise Fault(f"GNU parallel cannot be run: {error.strerror or error}") from None
        finally:
            os.close(watched)
        try:
            return ended(ran, base, bool(bar))
        finally:
            os.close(held)
            end(ran)


def ended(ran: "subprocess.Popen[bytes]", base: sqlite3.Connection, is_shown: bool) -> int:
    """Waits for the status of GNU parallel; a line a minute tells how far it is where it does not show that itself."""
    while True:
        try:
            return ran.wait(MINUTE)
        except subprocess.TimeoutExpired:
            if not is_shown:
                count = schema.count_of_worlds(base)
                tell(f"{count - len(waiting(base))} of {count} worlds are asked")


def end(ran: "subprocess.Popen[bytes]") -> None:
    """Ends GNU parallel and what it has started, where it has not ended by itself."""
    if ran.poll() is not None:
        return
    ran.terminate()
    try:
        ran.wait(ENDING)
    except subprocess.TimeoutExpired:
        os.killpg(ran.pid, signal.SIGKILL)
        ran.wait()


def named_program() -> str:
    """The program that $IAMSIM names, for other machines too."""
    return f"IAMSIM={shlex.quote(os.path.abspath(program()))}" if os.environ.get("IAMSIM") else ""


def write_jobs(folder: str, count: int) -> None:
    """The files by which other machines ask."""
    files.write_file(os.path.join(folder, "ask.sh"), ASK)
    named, tasks = named_program(), min(count, TASKS)
    text = SLURM.format(
        last=tasks - 1,
        tasks=tasks,
        count=count,
        folder=shlex.quote(os.path.abspath(folder)),
        program=f"export {named}\n" if named else "",
    )
    files.write_file(os.path.join(folder, "estate.slurm"), text)


def ask_elsewhere(
    base: sqlite3.Connection, folder: str, logins: List[str], jobs: Optional[str], lock: IO[bytes]
) -> None:
    """Has other machines ask iamsim, by ssh; their reports come back as files, which are loaded here."""
    os.makedirs(os.path.join(folder, "reports"), exist_ok=True)
    left = [it for it in waiting(base) if not os.path.exists(kept(folder, it))]
    if not left:
        return
    words = [it for login in logins for it in ("--sshlogin", login)] + (["--jobs", jobs] if jobs else [])
    words += [
        "--joblog",
        "joblog.elsewhere",
        "--workdir",
        "...",
        "--transferfile",
        "ask.sh",
        "--transferfile",
        "worlds/{}.json",
    ]
    words += ["--return", kept("", "{}"), "--cleanup", f"{named_program()} sh ask.sh {{}}".strip()]
    if run(base, words, left, folder, {}, lock) != 0:
        raise Fault("a job on another machine did not end well: run the command again, which goes on from here")


def ask_here(base: sqlite3.Connection, folder: str, jobs: Optional[str], lock: IO[bytes]) -> bool:
    """Asks for the worlds that wait and loads them; whether all jobs ended well."""
    left = waiting(base)
    if not left:
        return True
    tools = os.path.dirname(os.path.dirname(os.path.dirname(os.path.abspath(__file__))))
    room = {
        "IAMSIM": os.path.abspath(program()),
        "IAMSIM_AWS_TOOLS": tools,
        "IAMSIM_AWS_PYTHON": sys.executable,
        "IAMSIM_AWS_FOLDER": os.path.abspath(folder),
        "IAMSIM_AWS_WORKERS": str(max(1, processors() // len(left))),
    }
    words = [*(["--jobs", jobs] if jobs else []), "--joblog", log_of(base, folder), "--resume-failed", COMMAND]
    return run(base, words, list(range(schema.count_of_worlds(base))), "/", room, lock) == 0
