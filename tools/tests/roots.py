"""A root with this machine's Python, env and bash, what these want, and nothing else."""

import glob
import os
import re
import shutil
import subprocess
import sys
import sysconfig

from harness import Skipped

# Parts of Python's library that no command needs.
LEFT_OUT = (
    "test",
    "tests",
    "site-packages",
    "dist-packages",
    "idlelib",
    "tkinter",
    "config-*",
    "__pycache__",
    "ensurepip",
    "lib2to3",
)


def needed(paths):
    """The libraries that these files want, and what loads them."""
    ran = subprocess.run(["ldd", *paths], capture_output=True, encoding="utf-8")
    return set(re.findall(r"(/\S+) \(0x", ran.stdout))


def put(path, root):
    """A copy of a file at its place in a root."""
    to = root + path
    if not os.path.exists(to):
        os.makedirs(os.path.dirname(to), exist_ok=True)
        shutil.copy(path, to)


def make_root(root, *programs):
    """Makes it with what these programs want too; skipped where no root can be entered."""
    if os.geteuid() != 0:
        raise Skipped("only root may enter another root")
    if subprocess.run(["chroot", "/", "/bin/sh", "-c", ":"], stderr=subprocess.DEVNULL).returncode != 0:
        raise Skipped("no other root may be entered here")
    python = os.path.realpath(sys.executable)
    library = sysconfig.get_path("stdlib")
    shutil.copytree(library, root + library, ignore=shutil.ignore_patterns(*LEFT_OUT))
    found = [
        os.path.join(folder, it) for folder, _, names in os.walk(root + library) for it in names if it.endswith(".so")
    ]
    wanted = [python, shutil.which("env"), shutil.which("bash")]
    for it in wanted:
        put(it, root)
    # Python 3.8 loads libgcc by itself where a thread ends.
    loaded = glob.glob("/lib*/libgcc_s.so.1") + glob.glob("/lib/*/libgcc_s.so.1")
    for it in {*loaded, *needed([*wanted, *programs, *found])}:
        put(it, root)
    for name, to in (("env", shutil.which("env")), ("python3", python)):
        if not os.path.exists(f"{root}/usr/bin/{name}"):
            os.makedirs(f"{root}/usr/bin", exist_ok=True)
            os.symlink(to, f"{root}/usr/bin/{name}")
    os.makedirs(f"{root}/tmp", exist_ok=True)


def inside(root, words, folder="/"):
    """What a command writes in that root; it has nothing of this one's surroundings."""
    bash = 'cd "$0" && exec "$@"'
    words = [shutil.which("chroot"), root, shutil.which("bash"), "-c", bash, folder, *words]
    ran = subprocess.run(
        words, capture_output=True, encoding="utf-8", env={"PATH": "/usr/bin:/bin", "HOME": "/tmp"}, timeout=120
    )
    assert ran.returncode == 0, f"{words}: status {ran.returncode}: {ran.stdout}{ran.stderr}"
    return ran.stdout
