"""The Debian package of a release."""

import gzip
import os
import re
import shutil
import subprocess
import time
from typing import List

from .proof import sum_of
from .tree import all_files, write

# What the program may want beside the C library, and the package that has it.
LIBRARIES = {b"libgcc_s.so.1": "libgcc-s1", b"libstdc++.so.6": "libstdc++6"}

CONTROL = """Package: iamsim
Version: {version}
Architecture: amd64
Maintainer: {maintainer}
Installed-Size: {size}
Depends: {depends}
Recommends: parallel, python3-yaml
Section: admin
Priority: optional
Description: policy simulator and access matrix for AWS
 Answers who may do what in AWS, from policy documents alone, before a policy
 is put in force. iamsim decides requests of a world, a JSON document with
 accounts, principals, actions, resources and their policies; iamsim-aws makes
 worlds of what AWS exports, and asks who can, what a draft changes, and
 whether the rules that a team keeps are kept. Only its command
 'organization' calls AWS.
"""

CHANGELOG = """iamsim ({version}) stable; urgency=medium

  * CHANGELOG.md has what users see.

 -- {maintainer}  {date}
"""

COPYRIGHT = """Format: https://www.debian.org/doc/packaging-manuals/copyright-format/1.0/
Upstream-Name: iamsim
Comment: The repository of iamsim names no licence. Ask its maintainers before
 you pass this package on.

Files: *
Copyright: {year} {maintainer}
License: none-given
 No licence is given.
"""

# The program is as the prover's toolchain left it: PROVED has its sum.
OVERRIDE = "iamsim: unstripped-binary-or-object [usr/bin/iamsim]\n"

# The bytecode that Python leaves beside the package is made and taken away with it.
POSTINST = """#!/bin/sh
set -e
if [ "$1" = configure ] && command -v py3compile > /dev/null 2>&1; then
    py3compile -p iamsim /usr/lib/iamsim-aws
fi
"""

PRERM = """#!/bin/sh
set -e
if command -v py3clean > /dev/null 2>&1; then
    py3clean -p iamsim
else
    find /usr/lib/iamsim-aws -name __pycache__ -type d -prune -exec rm -r {} +
fi
"""


def packed(path: str) -> None:
    """Puts FILE.gz in place of a file."""
    with open(path, "rb") as it, open(f"{path}.gz", "wb") as raw, gzip.GzipFile("", "wb", 9, raw, 0) as to:
        to.write(it.read())
    os.chmod(f"{path}.gz", 0o644)
    os.remove(path)


def wanted_by(program: str) -> List[str]:
    """The packages that the program and iamsim-aws want."""
    with open(program, "rb") as it:
        data = it.read()
    versions = [tuple(map(int, it.split(b"."))) for it in re.findall(rb"\0GLIBC_(\d+\.\d+(?:\.\d+)?)(?=\0)", data)]
    least = ".".join(map(str, max(versions))) if versions else ""
    library = [f"libc6 (>= {least})"] if least else []
    return ["python3 (>= 3.8)", *library, *(name for file, name in LIBRARIES.items() if b"\0" + file + b"\0" in data)]


def place(tree: str, root: str, version: str, maintainer: str, moment: int) -> None:
    """Lays the files of a release where Debian has them."""
    subprocess.run([os.path.join(tree, "tools/install"), "/usr"], env={**os.environ, "DESTDIR": root}, check=True)
    share, date = os.path.join(root, "usr/share"), time.strftime("%a, %d %b %Y %H:%M:%S +0000", time.gmtime(moment))
    shutil.move(os.path.join(share, "zsh/site-functions"), os.path.join(share, "zsh/vendor-completions"))
    for it in os.listdir(os.path.join(share, "man/man1")):
        packed(os.path.join(share, "man/man1", it))
    changes = os.path.join(share, "doc/iamsim/changelog")
    write(changes, CHANGELOG.format(version=version, maintainer=maintainer, date=date))
    packed(changes)
    text = COPYRIGHT.format(year=time.gmtime(moment).tm_year, maintainer=maintainer)
    write(os.path.join(share, "doc/iamsim/copyright"), text)
    write(os.path.join(share, "lintian/overrides/iamsim"), OVERRIDE)


def control(root: str, version: str, maintainer: str) -> None:
    """Writes what dpkg reads of the package."""
    files = all_files(root)
    size = sum(-(-os.path.getsize(os.path.join(root, it)) // 1024) for it in files)
    depends = ", ".join(wanted_by(os.path.join(root, "usr/bin/iamsim")))
    sums = "".join(f"{sum_of(os.path.join(root, it), 'md5')}  {it}\n" for it in files)
    text = CONTROL.format(version=version, maintainer=maintainer, size=size, depends=depends)
    for name, body, mode in (
        ("control", text, 0o644),
        ("md5sums", sums, 0o644),
        ("postinst", POSTINST, 0o755),
        ("prerm", PRERM, 0o755),
    ):
        write(os.path.join(root, "DEBIAN", name), body, mode)


def build(tree: str, room: str, path: str, version: str, maintainer: str, moment: int) -> None:
    """Writes the package of the files of a release; `room` is an empty folder."""
    root = os.path.join(room, "root")
    place(tree, root, version, maintainer, moment)
    control(root, version, maintainer)
    for folder, _, names in os.walk(root, topdown=False):
        os.chmod(folder, 0o755)
        for it in [*(os.path.join(folder, name) for name in names), folder]:
            os.utime(it, (moment, moment))
    words = ["dpkg-deb", "--build", "--root-owner-group", "-Zxz", root, path]
    environment = {**os.environ, "SOURCE_DATE_EPOCH": str(moment)}
    subprocess.run(words, env=environment, stdout=subprocess.DEVNULL, check=True)
