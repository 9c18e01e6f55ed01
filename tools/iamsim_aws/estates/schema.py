"""The tables of an estate's database, and opening it."""

import os
import sqlite3
from typing import Any, List, Sequence, Tuple

from ..faults import Fault

# What tells the file of an estate from other SQLite files, and the version of these tables.
APPLICATION, VERSION = 0x69616D73, 1

TABLES = """
CREATE TABLE asked (name TEXT PRIMARY KEY, value TEXT NOT NULL) WITHOUT ROWID;
CREATE TABLE files (file TEXT NOT NULL, kind TEXT NOT NULL, sha256 TEXT NOT NULL, account TEXT);
CREATE TABLE worlds (world INTEGER PRIMARY KEY, ended TEXT NOT NULL, fault TEXT, allowed INTEGER NOT NULL, cells INTEGER NOT NULL,
  first_principal INTEGER NOT NULL, end_principal INTEGER NOT NULL, first_action INTEGER NOT NULL, end_action INTEGER NOT NULL,
  first_resource INTEGER NOT NULL, end_resource INTEGER NOT NULL);
CREATE TABLE accounts (account INTEGER PRIMARY KEY, id TEXT NOT NULL UNIQUE, management INTEGER NOT NULL, has_export INTEGER NOT NULL);
CREATE TABLE principals (principal INTEGER PRIMARY KEY, name TEXT NOT NULL UNIQUE, arn TEXT NOT NULL, account INTEGER NOT NULL);
CREATE TABLE actions (action INTEGER PRIMARY KEY, name TEXT NOT NULL UNIQUE);
CREATE TABLE resources (resource INTEGER PRIMARY KEY, arn TEXT NOT NULL, account INTEGER NOT NULL, sealed INTEGER NOT NULL);
CREATE INDEX resources_by_arn ON resources (arn);
CREATE INDEX resources_by_account ON resources (account);
CREATE TABLE policies (policy INTEGER PRIMARY KEY, name TEXT NOT NULL, version TEXT);
CREATE INDEX policies_by_name ON policies (name);
CREATE TABLE statements (statement INTEGER PRIMARY KEY, policy INTEGER NOT NULL, number INTEGER NOT NULL, sid TEXT, effect TEXT,
  json TEXT NOT NULL, UNIQUE (policy, number));
CREATE TABLE holdings (kind TEXT NOT NULL, holder INTEGER NOT NULL, place TEXT NOT NULL, policy INTEGER NOT NULL,
  PRIMARY KEY (kind, holder, place)) WITHOUT ROWID;
CREATE INDEX holdings_by_policy ON holdings (policy);
CREATE TABLE reasons (reason INTEGER NOT NULL, number INTEGER NOT NULL, layer TEXT NOT NULL, statement INTEGER NOT NULL,
  PRIMARY KEY (reason, number)) WITHOUT ROWID;
CREATE TABLE access (principal INTEGER NOT NULL, action INTEGER NOT NULL, resource INTEGER NOT NULL, reason INTEGER NOT NULL,
  PRIMARY KEY (principal, action, resource)) WITHOUT ROWID;
CREATE TABLE totals (principal INTEGER NOT NULL, action INTEGER NOT NULL, account INTEGER NOT NULL, allowed INTEGER NOT NULL,
  unsealed INTEGER NOT NULL, mark INTEGER NOT NULL, PRIMARY KEY (principal, action, account)) WITHOUT ROWID;
CREATE VIEW causes AS SELECT reason, reasons.number AS number, layer, policies.name AS policy, statements.number AS statement, sid, json
  FROM reasons JOIN statements USING (statement) JOIN policies USING (policy);
CREATE VIEW allowed AS SELECT principals.name AS principal, actions.name AS action, resources.arn AS resource, reason
  FROM access JOIN principals USING (principal) JOIN actions USING (action) JOIN resources USING (resource);
"""
INDEX = "CREATE INDEX IF NOT EXISTS access_by_resource ON access (resource, action, principal)"


def connect(path: str, wait: float = 600.0) -> sqlite3.Connection:
    """The database; each statement stands alone unless a transaction is begun by name."""
    # What SQLite sorts beside the file needs the disk of the file, and not that of /tmp.
    os.environ.setdefault("SQLITE_TMPDIR", os.path.dirname(os.path.abspath(path)))
    return sqlite3.connect(path, timeout=wait, isolation_level=None)


def number(base: sqlite3.Connection, pragma: str) -> int:
    return int(base.execute(f"PRAGMA {pragma}").fetchone()[0])


def is_empty(base: sqlite3.Connection) -> bool:
    """Whether nothing was ever written, or the run that began it was killed."""
    return base.execute("SELECT count(*) FROM sqlite_master").fetchone()[0] == 0


def refuse_other(base: sqlite3.Connection, path: str) -> None:
    """A file that is none of an estate, or of another version of the tables."""
    try:
        application, version = number(base, "application_id"), number(base, "user_version")
    except sqlite3.DatabaseError as error:
        raise Fault(f"{path}: it is no database of an estate: {error}") from None
    if application != APPLICATION:
        raise Fault(f"{path}: it is no database of an estate")
    if version != VERSION:
        raise Fault(
            f"{path}: its tables are of version {version}, and this command has version {VERSION}: make the estate anew"
        )


def opened(path: str, wait: float = 60.0) -> sqlite3.Connection:
    """A database that is there, to be read."""
    if not os.path.isfile(path):
        raise Fault(f"{path}: there is no such file")
    base = connect(path, wait)
    refuse_other(base, path)
    return base


def create(base: sqlite3.Connection) -> None:
    """The tables, within a transaction that was begun."""
    for statement in TABLES.strip().rstrip(";").split(";\n"):
        base.execute(statement)
    base.execute(f"PRAGMA application_id = {APPLICATION}")
    base.execute(f"PRAGMA user_version = {VERSION}")


def asked(base: sqlite3.Connection, name: str) -> str:
    found = base.execute("SELECT value FROM asked WHERE name = ?", (name,)).fetchone()
    return str(found[0]) if found else ""


def fill(base: sqlite3.Connection, table: str, rows: Sequence[Tuple[Any, ...]]) -> None:
    if rows:
        base.executemany(f"INSERT INTO {table} VALUES ({', '.join('?' * len(rows[0]))})", rows)


def count_of_worlds(base: sqlite3.Connection) -> int:
    return int(base.execute("SELECT count(*) FROM worlds").fetchone()[0])


def unfinished(base: sqlite3.Connection) -> List[str]:
    """What is to be told at each question: worlds that failed, and worlds that are not loaded."""
    lines = []
    worlds = count_of_worlds(base)
    for fault, count in base.execute(
        "SELECT fault, count(*) FROM worlds WHERE ended = 'failed' GROUP BY fault ORDER BY min(world)"
    ):
        lines.append(f"{count} of {worlds} worlds of the estate failed, and what they would allow is missing: {fault}")
    waiting = base.execute("SELECT count(*) FROM worlds WHERE ended = 'waiting'").fetchone()[0]
    if waiting:
        lines.append(f"{waiting} of {worlds} worlds of the estate are not loaded: run 'iamsim-aws estate' again")
    return lines


def left_out(base: sqlite3.Connection) -> List[str]:
    """Who is not in the database, since a policy was refused."""
    found = [it for it in asked(base, "left out").splitlines() if it]
    some = ", ".join(found[:3]) + (f" and {len(found) - 3} more" if len(found) > 3 else "")
    return [f"left out, since a policy is refused: {some}"] if found else []
