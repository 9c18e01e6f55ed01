"""Asking iamsim."""

import collections
import os
import shutil
import subprocess
import sys
from subprocess import PIPE
from typing import Any, Deque, Iterable, Iterator, List, Set, Tuple

from .documents import World, bare
from .faults import Fault, Progress
from .files import compact, encoded
from .outsiders import standing

TOP = os.path.dirname(os.path.dirname(os.path.dirname(os.path.realpath(__file__))))


# The status of an answer of 'every' that does not show all.
NOT_SHOWN = 5


class Refused(Fault):
    """The line of a fault of iamsim."""


def program() -> str:
    """The path of iamsim: $IAMSIM, the one at the top of the repository or beside this command, or one on the PATH."""
    beside = os.path.dirname(os.path.realpath(sys.argv[0]))
    built = [os.path.join(it, "iamsim") for it in (TOP, beside)]
    found = os.environ.get("IAMSIM") or next((it for it in built if os.path.exists(it)), None) or shutil.which("iamsim")
    if not found:
        raise Fault("there is no iamsim: 'make build' leaves it at the top of the repository, or $IAMSIM names one")
    return found


class Questions:
    """What is asked of iamsim side by side. Once it is stopped, each that was asked and has not answered ends, and so does each
    that begins later."""

    def __init__(self) -> None:
        self.running: Set["subprocess.Popen[bytes]"] = set()
        self.is_stopped = False

    def ask(self, words: List[str], world: bytes) -> bytes:
        """What iamsim writes, or its fault. Where 'every' does not show all, its rows say so."""
        try:
            ran = subprocess.Popen([program(), *words], stdin=PIPE, stdout=PIPE, stderr=PIPE)
        except OSError as error:
            raise Fault(f"iamsim cannot be run: {error.strerror or error}") from None
        self.running.add(ran)
        try:
            # It may have begun while all were stopped: then it was not among those that were ended.
            if self.is_stopped:
                ran.kill()
            out, said = ran.communicate(world)
        except BaseException:
            ran.kill()
            raise
        finally:
            self.running.discard(ran)
        if ran.returncode not in (0, NOT_SHOWN):
            raise Refused(said.decode(errors="replace").strip() or f"iamsim ended with status {ran.returncode}")
        return out

    def stop(self) -> None:
        self.is_stopped = True
        for it in list(self.running):
            it.kill()


def run(words: List[str], world: bytes) -> bytes:
    """What iamsim writes, or its fault, as `Questions.ask` has it."""
    return Questions().ask(words, world)


def world_bytes(world: World) -> bytes:
    return encoded(compact(bare(standing(world))))


def processors() -> int:
    return min(64, os.cpu_count() or 1)


def side_by_side(words: List[str], worlds: Iterable[bytes], count: int) -> Iterator[bytes]:
    """What iamsim writes of each world, in their order."""
    return each_of(((words, it) for it in worlds), count)


def each_of(jobs: Iterable[Tuple[List[str], bytes]], count: int) -> Iterator[bytes]:
    """What iamsim writes under some words of each world, in their order; each has its share of the processors. No more
    worlds are made than are asked and wait to be."""
    # The jobs of an estate, which are many, do not want it.
    import concurrent.futures

    together = max(1, min(count, processors()))
    share = ["--workers", str(max(1, processors() // together))]
    waiting: Deque[Any] = collections.deque()
    questions = Questions()
    with concurrent.futures.ThreadPoolExecutor(together) as pool, Progress(count) as progress:

        def asked(words: List[str], world: bytes) -> None:
            more = [] if any(it.startswith("--workers") for it in words) else share
            waiting.append(pool.submit(questions.ask, [*words, *more], world))

        def answer() -> bytes:
            while not concurrent.futures.wait([waiting[0]], 1).done:
                progress.tell()
            progress.done += 1
            progress.tell()
            return bytes(waiting.popleft().result())

        try:
            for it in jobs:
                asked(*it)
                if len(waiting) == 2 * together:
                    yield answer()
            while waiting:
                yield answer()
        finally:
            for one in waiting:
                one.cancel()
            questions.stop()
