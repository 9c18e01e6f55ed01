"""A Slurm of this machine alone, for the tests: one node, on free ports, in a folder of its own."""

import contextlib
import os
import shutil
import socket
import subprocess
import tempfile
import time

from harness import Skipped

DAEMONS = ("munged", "slurmctld", "slurmd")
CONF = """ClusterName=test
SlurmctldHost={host}(127.0.0.1)
SlurmUser=root
SlurmdUser=root
AuthType=auth/munge
AuthInfo=socket={folder}/munge.socket
CredType=cred/munge
MpiDefault=none
ProctrackType=proctrack/linuxproc
TaskPlugin=task/none
SwitchType=switch/none
SelectType=select/cons_tres
SelectTypeParameters=CR_CPU
AccountingStorageType=accounting_storage/none
JobAcctGatherType=jobacct_gather/none
ReturnToService=2
KillWait=2
SlurmdParameters=config_overrides
SchedulerParameters=batch_sched_delay=0,sched_interval=1
SlurmctldPort={ports[0]}
SlurmdPort={ports[1]}
SlurmctldPidFile={folder}/slurmctld.pid
SlurmdPidFile={folder}/slurmd.pid
StateSaveLocation={folder}/state
SlurmdSpoolDir={folder}/spool
NodeName={host} NodeAddr=127.0.0.1 CPUs=8 State=UNKNOWN
PartitionName=all Nodes={host} Default=YES MaxTime=INFINITE State=UP
"""


def free_ports(count):
    sockets = [socket.socket() for _ in range(count)]
    for it in sockets:
        it.bind(("127.0.0.1", 0))
    ports = [it.getsockname()[1] for it in sockets]
    for it in sockets:
        it.close()
    return ports


def within(seconds, is_there):
    """Whether something is so, before so many seconds have passed."""
    end = time.monotonic() + seconds
    while not is_there():
        if time.monotonic() > end:
            return False
        time.sleep(0.1)
    return True


def commands(folder):
    """How the daemons are run in the foreground, in their order."""
    munge = ["--key-file", f"{folder}/key", "--socket", f"{folder}/munge.socket", "--seed-file", f"{folder}/seed"]
    munge += ["--pid-file", f"{folder}/munged.pid", "--log-file", f"{folder}/munged.log", "--num-threads=1"]
    conf = ["-D", "-f", f"{folder}/slurm.conf"]
    return [["munged", "--foreground", "--force", *munge], ["slurmctld", *conf, "-i"], ["slurmd", *conf]]


def is_idle(environment):
    ran = subprocess.run(["sinfo", "--noheader", "--format=%T"], capture_output=True, text=True, env=environment)
    return ran.stdout.strip() == "idle"


@contextlib.contextmanager
def slurm():
    """The environment in which sbatch and scancel speak to it; its daemons end with the block."""
    path = os.pathsep.join([os.environ.get("PATH", ""), "/usr/sbin", "/sbin"])
    missing = [it for it in (*DAEMONS, "sbatch", "scancel", "sinfo") if not shutil.which(it, path=path)]
    if missing or os.getuid() != 0:
        raise Skipped(f"there is no {', '.join(missing)}" if missing else "Slurm's daemons want root")
    # A socket's path is short, and munge wants folders that others cannot write to.
    folder = tempfile.mkdtemp(prefix="slurm-", dir="/tmp")
    os.chmod(folder, 0o755)
    for name in ("state", "spool"):
        os.mkdir(os.path.join(folder, name))
    with open(os.path.join(folder, "key"), "wb", opener=lambda it, flags: os.open(it, flags, 0o400)) as it:
        it.write(os.urandom(128))
    with open(os.path.join(folder, "slurm.conf"), "w") as it:
        it.write(CONF.format(folder=folder, host=socket.gethostname().split(".")[0], ports=free_ports(2)))
    environment = {**os.environ, "PATH": path, "SLURM_CONF": os.path.join(folder, "slurm.conf")}
    running = []
    try:
        with open(os.path.join(folder, "said"), "wb") as said:
            for words in commands(folder):
                running.append(subprocess.Popen(words, stdout=said, stderr=said, env=environment))
                within(30, lambda: words[0] != "munged" or os.path.exists(os.path.join(folder, "munge.socket")))
        if not within(30, lambda: is_idle(environment)):
            raise Skipped("Slurm's daemons do not start here")
        yield environment
    finally:
        for it in reversed(running):
            it.terminate()
        for it in reversed(running):
            with contextlib.suppress(subprocess.TimeoutExpired):
                it.wait(10)
            it.kill()
            it.wait()
        shutil.rmtree(folder, ignore_errors=True)
