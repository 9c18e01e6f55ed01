"""One world of an estate: it is asked, and what is allowed is loaded in one transaction."""

import array
import contextlib
import gzip
import hashlib
import os
import sqlite3
import subprocess
import tempfile
import zlib
from itertools import chain, groupby, repeat
from typing import IO, Any, ContextManager, Dict, Iterator, List, Tuple, cast

from .. import files
from ..faults import Fault
from ..program import Refused, program
from . import schema
from .reading import COMMAND, OTHER, Reader, Run, kept, places_of

ROWS = 1 << 20  # so many rows wait in memory before the transaction begins
TOGETHER = 100  # so many are inserted by one statement, which takes a third of the time
MARKS = (1 << 62) - 1
Place = Tuple[Any, int]


class World:
    """A world as the database knows it."""

    def __init__(self, base: sqlite3.Connection, n: int):
        found = base.execute("SELECT * FROM worlds WHERE world = ?", (n,)).fetchone()
        if found is None:
            raise Fault(f"the estate has no world {n}")
        self.base, self.n, self.ended = base, n, str(found[1])
        self.firsts, self.ends = found[5::2], found[6::2]
        self.count = schema.count_of_worlds(base)
        self.principals = self.rows("name, account", "principals", "principal", 0)
        self.actions = self.rows("name", "actions", "action", 1)
        self.resources = self.rows("arn, account, NOT sealed", "resources", "resource", 2)

    def rows(self, what: str, table: str, key: str, axis: int) -> List[Tuple[Any, ...]]:
        command = f"SELECT {what} FROM {table} WHERE {key} >= ? AND {key} < ? ORDER BY {key}"
        return self.base.execute(command, (self.firsts[axis], self.ends[axis])).fetchall()

    def axes(self) -> List[List[str]]:
        return [[it[0] for it in axis] for axis in (self.principals, self.actions, self.resources)]

    def holdings(self, axis: str, first: int, end: int) -> Iterator[Tuple[int, str, int, str]]:
        command = "SELECT holder, place, policy, name FROM holdings JOIN policies USING (policy) WHERE kind = ? AND holder >= ? AND holder < ?"
        yield from self.base.execute(command, (axis, first, end))

    def names(self, value: Dict[str, Any]) -> Dict[str, str]:
        """The policies' names by their paths in the world's file."""
        found: Dict[str, str] = {}
        members = {"resource/0": "policy", "boundary/0": "boundary"}
        for axis, at in (("principals", 0), ("resources", 2)):
            for holder, place, _, name in self.holdings(axis, self.firsts[at], self.ends[at]):
                path = members.get(place, place.replace("session/", "sessionPolicies/"))
                found[f"{axis}/{holder - self.firsts[at]}/{path}"] = name
        ids = {it["id"]: n for n, it in enumerate(value["accounts"])}
        for number, account in self.base.execute("SELECT account, id FROM accounts"):
            if account in ids:
                for _, place, _, name in self.holdings("accounts", number, number + 1):
                    found[f"accounts/{ids[account]}/{place}"] = name
        return found


class Reasons:
    """The statements that allow, as numbers: those of a world are its own, so that no order of the worlds changes them."""

    def __init__(self, world: World):
        self.world = world
        self.places: Dict[Tuple[str, int, str], int] = {}
        for axis, at in (("principals", 0), ("resources", 2)):
            for holder, place, policy, _ in world.holdings(axis, world.firsts[at], world.ends[at]):
                self.places[axis, holder - world.firsts[at], place] = policy
        for account in {it[1] for it in world.principals}:
            for _, place, policy, _ in world.holdings("accounts", account, account + 1):
                self.places["accounts", account, place] = policy
        self.statements: Dict[Place, int] = {}
        self.known: Dict[Tuple[Place, ...], int] = {}
        # By their text: what hangs on no resource, of the principal that was asked for last; and what does.
        self.last, self.quick = -1, cast(Dict[bytes, int], {})
        self.of_pairs: Dict[Tuple[int, int, bytes], int] = {}

    def of(self, p: int, some: List[int], texts: List[bytes]) -> List[int]:
        """The numbers of what allows a principal on each of some resources."""
        if p != self.last:
            self.last, self.quick = p, {}
        found = list(map(self.quick.get, texts))
        if None not in found:
            return cast(List[int], found)
        return [self.one(p, r, text) if n is None else n for n, r, text in zip(found, some, texts)]

    def one(self, p: int, r: int, text: bytes) -> int:
        found = self.quick.get(text, self.of_pairs.get((p, r, text)))
        if found is None:
            places = places_of(text)
            statements = tuple(dict.fromkeys(self.statement(p, r, it) for it in places))
            found = self.known.setdefault(statements, len(self.known) * self.world.count + self.world.n)
            if any(it.startswith(("resource", "control")) for it in places):
                self.of_pairs[p, r, text] = found
            else:
                self.quick[text] = found
        return found

    def statement(self, p: int, r: int, place: str) -> Place:
        way, _, number = place.rpartition("/")
        layer = way.partition("/")[0]
        if layer == "org":
            holder = "accounts", self.world.principals[p][1]
        else:
            holder = ("resources", r) if layer in ("resource", "control") else ("principals", p)
        key = self.places.get((*holder, way)), int(number)
        if key not in self.statements:
            command = "SELECT statement FROM statements WHERE policy = ? AND number = ?"
            found = self.world.base.execute(command, key).fetchone()
            if found is None:
                raise Fault(OTHER)
            self.statements[key] = found[0]
        return layer, self.statements[key]

    def rows(self) -> Iterator[Tuple[int, int, str, int]]:
        for some, n in self.known.items():
            for at, (layer, statement) in enumerate(some):
                yield n, at, layer, statement


class Loader:
    """Takes the rows of a report, and writes them within one transaction, which begins late."""

    def __init__(self, world: World):
        self.world, self.base = world, world.base
        self.reasons = Reasons(world)
        self.rows, self.allowed = array.array("Q"), 0
        self.totals: Dict[Tuple[int, int, int], List[int]] = {}
        self.owners, self.unsealed = [it[1] for it in world.resources], [it[2] for it in world.resources]
        self.marks = [int.from_bytes(hashlib.sha256(it[0].encode()).digest()[:7], "big") for it in world.resources]

    def take(self, runs: Iterator[Run]) -> None:
        first_p, first_a, first_r = self.world.firsts
        owner_of, is_unsealed, mark_of = self.owners.__getitem__, self.unsealed.__getitem__, self.marks.__getitem__
        for p, a, some, texts in runs:
            reasons = self.reasons.of(p, some, texts)
            rows = zip(repeat(first_p + p), repeat(first_a + a), map(first_r.__add__, some), reasons)
            self.rows.extend(chain.from_iterable(rows))
            for owner, its in groupby(some, owner_of):
                total, mine = self.totals.setdefault((p, a, owner), [0, 0, 0]), list(its)
                total[0] += len(mine)
                total[1] += sum(map(is_unsealed, mine))
                total[2] += sum(map(mark_of, mine))
            if len(self.rows) >= 4 * ROWS:
                self.write()

    def write(self) -> None:
        if not self.base.in_transaction:
            self.base.execute("BEGIN IMMEDIATE")
        self.allowed += len(self.rows) // 4
        whole = len(self.rows) - len(self.rows) % (4 * TOGETHER)
        for some, count in ((self.rows[:whole], TOGETHER), (self.rows[whole:], 1)):
            values = ", ".join(["(?, ?, ?, ?)"] * count)
            self.base.executemany(f"INSERT INTO access VALUES {values}", zip(*[iter(some)] * (4 * count)))
        self.rows = array.array("Q")

    def end(self) -> None:
        """Ends the transaction; the world is loaded whole, or not at all."""
        self.write()
        self.base.executemany("INSERT INTO reasons VALUES (?, ?, ?, ?)", self.reasons.rows())
        first_p, first_a, _ = self.world.firsts
        rows = ((first_p + p, first_a + a, of, *it[:2], it[2] & MARKS) for (p, a, of), it in self.totals.items())
        add = "SET allowed = allowed + excluded.allowed, unsealed = unsealed + excluded.unsealed, mark = (mark + excluded.mark) & ?"
        command = (
            f"INSERT INTO totals VALUES (?, ?, ?, ?, ?, ?) ON CONFLICT (principal, action, account) DO UPDATE {add}"
        )
        self.base.executemany(command, ((*it, MARKS) for it in rows))
        done = "UPDATE worlds SET ended = 'done', fault = NULL, allowed = ? WHERE world = ?"
        self.base.execute(done, (self.allowed, self.world.n))
        self.base.execute("COMMIT")


@contextlib.contextmanager
def kept_report(path: str, n: int) -> Iterator[IO[bytes]]:
    """The report that another machine left."""
    try:
        with gzip.open(path) as it:
            yield cast(IO[bytes], it)
    except (EOFError, zlib.error, gzip.BadGzipFile) as error:
        raise Fault(f"the report of world {n} cannot be read: {error}") from None


@contextlib.contextmanager
def new_report(path: str, workers: int) -> Iterator[IO[bytes]]:
    """The report of iamsim as it comes. Where iamsim does not end well, that is the fault, whatever its report is."""
    words = [program(), *COMMAND, "--workers", str(workers), path]
    with tempfile.TemporaryFile() as said:
        try:
            ran = subprocess.Popen(words, stdout=subprocess.PIPE, stderr=said)
        except OSError as error:
            raise Fault(f"iamsim cannot be run: {error.strerror or error}") from None
        try:
            with cast(IO[bytes], ran.stdout) as it:
                try:
                    yield it
                except Fault:
                    # A report that goes on was not cut off.
                    if it.read(1) or ran.wait() == 0:
                        raise
            if ran.wait() != 0:
                said.seek(0)
                line = said.read().decode(errors="replace").strip()
                raise Refused(line or f"iamsim ended with status {ran.returncode}")
        finally:
            ran.kill()
            ran.wait()


def report_of(folder: str, n: int, workers: int) -> ContextManager[IO[bytes]]:
    """The report that another machine left, or that of iamsim as it comes."""
    path = kept(folder, n)
    if os.path.exists(path):
        return kept_report(path, n)
    return new_report(os.path.join(folder, "worlds", f"{n}.json"), workers)


def ask(folder: str, world: World, workers: int) -> None:
    """Loads a world, or raises Refused with the line of iamsim."""
    loader = Loader(world)
    with report_of(folder, world.n, workers) as stream:
        loader.take(Reader(stream, world.axes()).runs())
    loader.end()


def in_words(folder: str, world: World, refused: Refused) -> str:
    """The fault of a world by its policy and account."""
    # Most jobs have no fault, and want none of what this takes.
    from ..asking import explained
    from ..documents import dressed

    try:
        value = files.read_json(os.path.join(folder, "worlds", f"{world.n}.json"))
        return str(explained(dressed(value, world.names(value)), refused))
    except (Fault, KeyError, TypeError, IndexError, ValueError):
        return str(refused)


def forget(folder: str, n: int) -> None:
    """Removes a report that another machine left; one that is at fault is asked for again."""
    path = kept(folder, n)
    if os.path.exists(path):
        os.remove(path)


def load(folder: str, n: int, workers: int) -> None:
    """Asks for one world, and keeps what is allowed, or how it failed."""
    base = schema.opened(os.path.join(folder, "access.db"), 3600.0)
    try:
        world = World(base, n)
        if world.ended == "waiting":
            try:
                ask(folder, world, workers)
            except Refused as refused:
                if base.in_transaction:
                    base.execute("ROLLBACK")
                fault = in_words(folder, world, refused)
                base.execute("UPDATE worlds SET ended = 'failed', fault = ? WHERE world = ?", (fault, n))
        forget(folder, n)
    except sqlite3.Error as error:
        raise Fault(f"world {n} is not loaded: {error}") from None
    except Fault as fault:
        forget(folder, n)
        raise Fault(f"world {n} is not loaded: {fault}") from None
    finally:
        base.close()
