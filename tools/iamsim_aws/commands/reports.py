"""pairs, split and matrices: reports, and worlds past the limits."""

import argparse
import csv
import io
import re
from typing import Any, Iterator

from .. import files
from ..faults import Fault
from ..program import side_by_side, world_bytes
from ..references import References
from ..reports import csv_text, rows_of
from ..sources import read_world
from ..splitting import CELLS, parts
from .parsers import add, whole
from .worlds import add_world

# A row of a report, whose first field is the number of its cell; quoted fields may hold line feeds.
ROW = re.compile(rb'(?:\d+|cell),((?:[^"\n]+|"[^"]*")*\n)')


def add_all(commands: Any) -> None:
    example = "iamsim matrix < world.json | iamsim-aws pairs s3.json kms.json > fewer.csv"
    parser = add(
        commands, "pairs", "take the rows off a report whose action no service has for such a resource", example, pairs
    )
    parser.add_argument("services", nargs="+", metavar="FILE", help="of AWS's service reference, or a folder of them")

    example = "iamsim-aws split world.json | iamsim-aws matrices --brief > matrix.csv"
    parser = add(commands, "split", "make several worlds, a line each, of one that is past the limits", example, split)
    add_world(parser)
    parser.add_argument("--cells", type=whole, default=CELLS, metavar="N", help="let none have over N cells")

    parser = add(
        commands,
        "matrices",
        "write one CSV of the matrices of several worlds, which come a line each",
        example,
        matrices,
    )
    parser.add_argument("--brief", action="store_true", help="without statements and lacks")
    parser.add_argument("--workers", type=whole, metavar="N", help="of each world")
    parser.add_argument("--tile", type=whole, metavar="N", help="of each world")


def pairs(options: argparse.Namespace) -> int:
    kept, report = References(options.services), files.read_text("-")
    if report.startswith("["):
        rows = [files.compact(it) for it in rows_of(report) if kept.keeps(*texts(it))]
        files.write("[" + ",".join(rows) + "]\n")
    elif report:
        files.write(csv_text(*few(kept, csv.reader(io.StringIO(report, newline="")))))
    else:
        raise Fault("standard input is empty: was there a fault?")
    return 0


def texts(row: Any) -> Any:
    try:
        return row["action"], row["resource"]
    except (KeyError, TypeError):
        raise Fault("standard input: a row has no action and resource") from None


def few(kept: References, rows: Iterator[Any]) -> Any:
    header = next(rows)
    if "action" not in header or "resource" not in header:
        raise Fault("standard input is no report: its header has no action and resource")
    action, resource = header.index("action"), header.index("resource")
    try:
        return header, [row for row in rows if kept.keeps(row[action], row[resource])]
    except (IndexError, csv.Error):
        raise Fault("standard input: a row is shorter than the header, or is cut off") from None


def split(options: argparse.Namespace) -> int:
    for it in parts(read_world(options.world), options.cells):
        files.write_bytes(world_bytes(it.world) + b"\n")
    return 0


def matrices(options: argparse.Namespace) -> int:
    words = ["matrix", *(["--brief"] if options.brief else [])]
    words += [
        word
        for name in ("workers", "tile")
        if getattr(options, name)
        for word in (f"--{name}", str(getattr(options, name)))
    ]
    worlds = [it for it in files.read_bytes("-").splitlines() if it.strip()]
    if not worlds:
        raise Fault("standard input is empty: was there a fault?")
    answers = side_by_side(words, worlds, len(worlds))
    for number in range(len(worlds)):
        try:
            report = ROW.sub(rb"\1", next(answers))
        except Fault as fault:
            raise Fault(f"world {number}: {fault}") from None
        files.write_bytes(report if number == 0 else report[report.index(b"\n") + 1 :])
    return 0
