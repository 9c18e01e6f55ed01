"""Reading the files of a log side by side, in rounds: no more calls are held than one round has."""

import collections
import contextlib
import multiprocessing
import multiprocessing.connection
import signal
from typing import Any, Deque, Dict, Iterator, List, Tuple

from .. import program
from ..faults import Fault, Progress
from .counting import Tally
from .mapping import Mapper
from .reading import Logs, events_of

# The different calls of a round, those of one message of a reader, and the bytes of the files that a reader takes at once.
ROUND, MESSAGE, BATCH = 50_000, 5_000, 1 << 22
# Small logs are read without further processes.
SMALL = 1 << 22


class Part:
    """What a reader has found so far, or the fault that ended it."""

    def __init__(self) -> None:
        self.tally = Tally()
        self.goes_on: List[str] = []
        self.fault = ""


def read(paths: List[str], mapper: Mapper) -> Iterator[Part]:
    """What some files hold, piece by piece."""
    part = Part()
    for path in paths:
        events = events_of(path)
        for it in events:
            part.tally.count(it, mapper)
            if len(part.tally.calls) >= MESSAGE:
                yield part
                part = Part()
        part.tally.doubled += events.doubled
        part.goes_on += [events.what] if events.goes_on else []
    yield part


def batches(files: List[Tuple[str, int]]) -> List[List[str]]:
    """The files in their order, small ones several at once."""
    found: List[List[str]] = []
    size = 0
    for path, of in files:
        if not found or size + of > BATCH:
            found.append([])
            size = 0
        found[-1].append(path)
        size += of
    return found


def serve(pipe: Any, mapper: Mapper) -> None:
    """A reader: takes files from the pipe until there are no more, and sends what it finds."""
    signal.signal(signal.SIGINT, signal.SIG_IGN)
    for it in (signal.SIGTERM, signal.SIGHUP):
        signal.signal(it, signal.SIG_DFL)
    with contextlib.suppress(EOFError, OSError):
        while True:
            paths = pipe.recv()
            try:
                for part in read(paths, mapper):
                    pipe.send((part, False))
                pipe.send((Part(), True))
            except Fault as why:
                pipe.send((failed(str(why)), True))
            except MemoryError:
                pipe.send((failed("the memory of the machine does not suffice"), True))
            except Exception as error:  # noqa: a fault of its own is told in one line too
                pipe.send((failed(f"a log could not be read ({type(error).__name__}: {error})"), True))


def failed(why: str) -> Part:
    made = Part()
    made.fault = why
    return made


class Readers:
    """Processes that read batches of files; each has one at a time, and the pipes hold back who is ahead."""

    def __init__(self, waiting: List[List[str]], mapper: Mapper, count: int):
        self.waiting: Deque[List[str]] = collections.deque(waiting)
        self.done = 0
        context = multiprocessing.get_context("fork")
        self.started: List[Any] = []
        self.busy: Dict[Any, int] = {}
        for _ in range(count):
            ours, theirs = context.Pipe()
            one = context.Process(target=serve, args=(theirs, mapper), daemon=True)
            one.start()
            theirs.close()
            self.started.append(one)
            self.give(ours)

    def give(self, pipe: Any) -> None:
        if self.waiting:
            paths = self.waiting.popleft()
            self.busy[pipe] = len(paths)
            pipe.send(paths)
        else:
            self.busy.pop(pipe, None)
            pipe.close()

    def parts(self, progress: Progress) -> Iterator[Part]:
        while self.busy:
            for pipe in multiprocessing.connection.wait(list(self.busy), 1):
                try:
                    part, is_last = self.taken(pipe)
                except (EOFError, OSError):
                    raise Fault("a process that read the log was ended from outside") from None
                if is_last:
                    progress.done += self.busy[pipe]
                    self.give(pipe)
                yield part
            progress.tell()

    @staticmethod
    def taken(pipe: Any) -> Tuple[Part, bool]:
        found: Tuple[Part, bool] = pipe.recv()
        return found

    def stop(self) -> None:
        for it in self.started:
            it.terminate()
            it.join()


def parts_of(logs: Logs, mapper: Mapper) -> Iterator[Part]:
    """What the files of a log hold, piece by piece."""
    with Progress(len(logs.files), "{done} of {count} files of the log are read") as progress:
        waiting = batches(logs.files)
        count = min(len(waiting), program.processors())
        if count < 2 or sum(size for _, size in logs.files) < SMALL or any(path == "-" for path, _ in logs.files):
            for paths in waiting:
                for part in read(paths, mapper):
                    progress.tell()
                    yield part
                progress.done += len(paths)
            return
        readers = Readers(waiting, mapper, count)
        try:
            for part in readers.parts(progress):
                if part.fault:
                    raise Fault(part.fault)
                yield part
        finally:
            readers.stop()


def rounds(logs: Logs, mapper: Mapper, goes_on: List[str]) -> Iterator[Tally]:
    """The calls of a log, so many of them at once; the names of files whose answer says that more follows are added to a list."""
    found = Tally()
    for part in parts_of(logs, mapper):
        found.join(part.tally)
        goes_on += part.goes_on
        if len(found.calls) >= ROUND:
            yield found
            found = Tally()
    yield found
