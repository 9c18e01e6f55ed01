"""The files of a release, as the archive has them: those of the repository at their places, and what is made."""

import glob
import os
import shutil
import tarfile
from gzip import GzipFile
from typing import IO, Dict, List, cast

from .commands import of_aws, of_program
from .completions import completions
from .manual import pages
from .proof import Refused, sum_of

DOCUMENTS = ["README.md", "CHANGELOG.md", "CONTRIBUTING.md", "bench/README.md", "docs/*", "examples/*.json", "rules/*"]
DOCUMENTS += [
    f"tools/tests/data/{it}.json" for it in ("account", "draft", "partner", "log", "escalate")
]  # of which docs/ speaks
TOOLS = ["tools/iamsim-aws", "tools/install", "tools/iamsim_aws/**/*"]


def files_of(top: str, patterns: List[str]) -> List[str]:
    found = []
    for pattern in patterns:
        paths = [it for it in glob.glob(os.path.join(top, pattern), recursive=True) if os.path.isfile(it)]
        if not paths:
            raise Refused(f"there is no {pattern}")
        found += [os.path.relpath(it, top) for it in paths if "/__pycache__/" not in it]
    return sorted(found)


def write(path: str, text: str, mode: int = 0o644) -> None:
    os.makedirs(os.path.dirname(path), exist_ok=True)
    with open(path, "w", encoding="utf-8", newline="\n") as it:
        it.write(text)
    os.chmod(path, mode)


def copy(source: str, path: str, mode: int) -> None:
    os.makedirs(os.path.dirname(path), exist_ok=True)
    shutil.copyfile(source, path)
    os.chmod(path, mode)


def made(program: str, version: str, day: str) -> Dict[str, str]:
    """{file: text} of the man pages and completions of both commands."""
    texts = {}
    for command in (of_program(program), of_aws()):
        texts.update({f"man/{name}": text for name, text in pages(command, version, day).items()})
        texts.update({f"completions/{name}": text for name, text in completions(command).items()})
    return texts


def all_files(tree: str) -> List[str]:
    """The files below a folder, by their path from there, in the order of their bytes."""
    found = [os.path.join(folder, name) for folder, _, names in os.walk(tree) for name in names]
    return sorted((os.path.relpath(it, tree) for it in found), key=os.fsencode)


def make(top: str, tree: str, program: str, version: str, day: str, proof: List[str]) -> None:
    """Writes the files of a release into a folder."""
    for path in files_of(top, DOCUMENTS + TOOLS):
        is_run = path in ("tools/iamsim-aws", "tools/install")
        copy(os.path.join(top, path), os.path.join(tree, path), 0o755 if is_run else 0o644)
    copy(program, os.path.join(tree, "iamsim"), 0o755)
    for path, text in made(program, version, day).items():
        write(os.path.join(tree, path), text)
    write(os.path.join(tree, "PROVED"), "\n".join(proof) + "\n")
    sums = [f"{sum_of(os.path.join(tree, it))}  {it}\n" for it in all_files(tree)]
    write(os.path.join(tree, "SHA256SUMS"), "".join(sums))


def archive(tree: str, path: str, moment: int) -> None:
    """Writes a folder as an archive: names in order, one time for all, and root's."""
    name = os.path.basename(tree)

    def plain(it: tarfile.TarInfo) -> tarfile.TarInfo:
        it.mtime, it.uid, it.gid, it.uname, it.gname = moment, 0, 0, "root", "root"
        it.mode = 0o755 if it.isdir() or it.mode & 0o100 else 0o644
        return it

    with open(path, "wb") as raw, GzipFile("", "wb", 9, raw, moment) as packed:
        with tarfile.open(fileobj=cast(IO[bytes], packed), mode="w", format=tarfile.GNU_FORMAT) as it:
            it.add(tree, name, recursive=False, filter=plain)
            folders = {os.path.dirname(one) for one in all_files(tree)} - {""}
            folders |= {os.path.dirname(one) for one in folders} - {""}
            for one in sorted([*folders, *all_files(tree)], key=os.fsencode):
                it.add(os.path.join(tree, one), f"{name}/{one}", recursive=False, filter=plain)
