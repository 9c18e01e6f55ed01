"""can and who-can of the database of an estate."""

import argparse
import sqlite3
from typing import Iterator, Set

from .. import files
from ..estates import schema
from ..estates.asking import NOTE, Database, Request
from ..faults import Fault, tell
from ..reports import csv_text

HEADER = ["principal", "action", "resource", "decision", "policies"]
OTHERS = ["exports", "world", "names", "actions", "resources", "organization", "context", "moment", "services"]
OTHERS += [
    "kinds",
    "policy",
    "sealed",
    "account",
    "outside",
    "chains",
    "put",
    "attach",
    "terraform",
    "configuration",
    "cloudformation",
    "parameters",
    "stack",
]


def opened(options: argparse.Namespace) -> Database:
    """The database; it answers alone, and each answer says what is missing in it."""
    for it in OTHERS:
        if getattr(options, it, None):
            raise Fault(f"--database answers alone: leave {'exports' if it == 'exports' else f'--{it}'} out")
    found = Database(options.database)
    for line in [*schema.unfinished(found.base), *schema.left_out(found.base)]:
        tell(line)
    return found


def write(options: argparse.Namespace, base: Database, some: Iterator[Request], is_long: bool) -> None:
    """Answers as they come, since there may be millions."""
    if options.format == "text":
        for it in some:
            files.write("".join(f"{line}\n" for line in base.told(it, is_long)))
        files.write(f"{NOTE}\n")
        return
    tell(NOTE)
    if options.format == "csv":
        files.write(csv_text(HEADER, (base.as_fields(it) for it in some)))
        return
    files.write("[")
    for n, it in enumerate(some):
        files.write(("," if n else "") + files.compact(base.as_json(it)))
    files.write("]\n")


STATUSES = {"allowed": 0, "notAllowed": 3, "unknown": 6}


def can(options: argparse.Namespace) -> int:
    decisions: Set[str] = set()

    def noted(some: Iterator[Request]) -> Iterator[Request]:
        for it in some:
            decisions.add(it.decision)
            yield it

    try:
        base = opened(options)
        base.choice(options.principal, options.action, options.resource)
        write(options, base, noted(base.every()), True)
    except sqlite3.Error as error:
        raise Fault(f"{options.database}: {error}") from None
    return max(STATUSES[it] for it in decisions)


def who_can(options: argparse.Namespace) -> int:
    try:
        base = opened(options)
        people, actions, resources = base.choice("*", options.action, options.resource)
        cells, unknown = people * actions * resources, base.unknown()
        why = "their worlds are not loaded or they were not asked for"
        missing = f"of {unknown} of {cells} requests nothing is known: {why}"
        if options.format == "text":
            who, count = base.counted()
            more = f"; {missing}" if unknown else ""
            files.write(f"{who} of {people} principals are allowed, by {count} of {cells} requests{more}\n")
        elif unknown:
            tell(missing)
        write(options, base, base.allowed(), False)
    except sqlite3.Error as error:
        raise Fault(f"{options.database}: {error}") from None
    return STATUSES["unknown"] if unknown else 0
