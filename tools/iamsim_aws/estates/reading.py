"""The report of a world. Its rows are those of names that are known, so each is compared with the text it has to have."""

import functools
import json
import os
import re
from typing import IO, Iterator, List, Tuple

from .. import files
from ..faults import Fault
from ..program import Refused

COMMAND = ["matrix", "--decision", "allowed", "--allow-empty", "--format", "json"]
# What stands around the names. A quote within a name is escaped, so no name has CELL.
FRONT, CELL, BACK, END = b'},{"action":', b',"cell":', b',"statements":', b"}]\n"
MIDDLE, BEHIND = b',"decision":"allowed","lacks":[],"principal":', b',"resource":'
PLACE = rb'"[a-z]+(?:/\d{1,9})+"'
PLACES = re.compile(rb"\[" + PLACE + rb"(?:," + PLACE + rb")*\]")
PIECE, LONGEST = 1 << 20, 1 << 26
OTHER = "the report is not that of the world, or is cut off: where that comes again, begin anew by --afresh"
# The numbers of a principal and an action within the world, and those of resources with the lists of their statements.
Run = Tuple[int, int, List[int], List[bytes]]


def kept(folder: str, world: object) -> str:
    """Where the report of a world stands that another machine left."""
    return os.path.join(folder, "reports", f"{world}.json.gz")


def quoted(text: str) -> bytes:
    """A text as JSON, as iamsim writes it."""
    return files.compact(text).encode()


@functools.lru_cache(maxsize=None)
def places_of(text: bytes) -> Tuple[str, ...]:
    """The places of a list of statements; an allowed request has one at least."""
    if not PLACES.fullmatch(text):
        raise Fault(OTHER)
    return tuple(json.loads(text))


def begun(stream: IO[bytes]) -> bytes:
    """The first piece of a report, as if it were behind a row; in place of a report may stand the line of a fault."""
    text = stream.read(PIECE)
    if text.startswith(b"[{"):
        return b"}," + text[1:]
    if text == b"[]\n":
        return END
    if text.startswith(b"[") or len(text) == PIECE:
        raise Fault(OTHER)
    raise Refused(text.decode(errors="replace").strip() or "iamsim wrote nothing")


class Reader:
    """Takes the rows of a report in runs of one principal and action."""

    def __init__(self, stream: IO[bytes], axes: List[List[str]]):
        self.stream = stream
        names, actions, resources = ([quoted(it) for it in axis] for axis in axes)
        self.fronts = [FRONT + it + CELL for it in actions]
        self.middles = [MIDDLE + it + BEHIND for it in names]
        self.tails = [it + BACK for it in resources]
        self.text, self.at = begun(stream), 0

    def runs(self) -> Iterator[Run]:
        run = self.run()
        while run[2] or self.more():
            if run[2]:
                yield run
            run = self.run()
        if self.text[self.at :] != END:
            raise Fault(OTHER)

    def run(self) -> Run:
        """The next rows of one principal and action, as far as they are there."""
        text, at, tails = self.text, self.at, self.tails
        some: List[int] = []
        places: List[bytes] = []
        p, a, place = -1, -1, b"[]"
        try:
            number = text.index(CELL, at) + len(CELL)
            cell = int(text[number : text.index(b",", number)])
            if cell < 0:
                raise ValueError
            (p, a), first = divmod(cell // len(tails), len(self.fronts)), cell - cell % len(tails)
            front, middle = self.fronts[a], self.middles[p]
            while text.startswith(front, at):
                number = at + len(front)
                comma = text.index(b",", number)
                r = int(text[number:comma]) - first
                row = middle + tails[r]
                behind = comma + len(row)
                if r < 0 or not text.startswith(row, comma):
                    break
                if not text.startswith(place, behind):
                    place = text[behind : text.index(b"]", behind) + 1]
                some.append(r)
                places.append(place)
                at = behind + len(place)
        except (ValueError, IndexError):
            pass
        self.at = at
        return p, a, some, places

    def more(self) -> bool:
        """Reads on; whether there was more."""
        piece = self.stream.read(PIECE)
        if len(self.text) - self.at > LONGEST:
            raise Fault(OTHER)
        self.text, self.at = self.text[self.at :] + piece, 0
        return bool(piece)
