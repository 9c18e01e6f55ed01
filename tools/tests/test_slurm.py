"""iamsim-aws estate --slurm, under a Slurm of this machine alone."""

import os
import subprocess

from harness import AWS, IAMSIM, file, run, same
from slurm import slurm, within
from test_estate import HOSTILE, WANTED, allowed, ended, everything, exports, folder, rows, words


def reports(where):
    there = os.path.join(where, "reports")
    return sorted(os.listdir(there)) if os.path.isdir(there) else []


def sbatch(environment, where, *more):
    """Submits the job from a folder of its own: the status, and what the tasks said there."""
    here = os.path.dirname(folder())
    given = ["sbatch", *more, os.path.join(where, "estate.slurm")]
    ran = subprocess.run(given, cwd=here, env=environment, capture_output=True, timeout=60)
    said = [open(os.path.join(here, it)).read() for it in sorted(os.listdir(here))]
    return ran.returncode, said


def test_an_array_job():
    """Cancelled after three worlds, submitted again and loaded, it gives the rows of a run without Slurm."""
    with slurm() as environment:
        where, whole, go = folder() + f" {HOSTILE} %a", folder(), file("")
        os.remove(go)
        waits = f'case "$*" in --version | *worlds/[0-2].json) ;; *) [ -e {go} ] || exec sleep 60 ;; esac\nexec {IAMSIM} "$@"'
        program = file(f"#!/bin/sh\n{waits}\n")
        os.chmod(program, 0o755)
        given = words(where, exports(), "--cells", "8", "--moment", "0")
        ended([given[0], whole, *given[2:]], 0)
        run(["env", f"IAMSIM={program}", AWS, *given, "--slurm"])
        count = rows(where, "SELECT count(*) FROM worlds")[0][0]
        same(sbatch(environment, where)[0], 0)
        first = [f"{n}.json.gz" for n in range(3)]
        same(within(20, lambda: set(first) <= set(reports(where))), True)
        subprocess.run(["scancel", "--name", "iamsim-estate"], env=environment, check=True)
        same(within(20, lambda: reports(where) == first), True)
        with open(go, "w"):
            pass
        same(sbatch(environment, where, "--wait"), (0, [""]))
        same(reports(where), sorted(f"{n}.json.gz" for n in range(count)))
        ended(given, 0)
        same((everything(where), reports(where)), (everything(whole), []))
        same(allowed(where), sorted(WANTED))
