"""page."""

import argparse
from typing import Any, List

from .. import files
from ..asking import ask_all
from ..documents import World
from ..faults import Fault, tell
from ..joining import joined, joined_turns
from ..making import refuse_empty
from ..paging import data, page
from ..reports import is_brief, read_report
from ..sources import ASSUME, Source, add_source, source_of
from ..turning import hanging
from .parsers import add


def add_all(commands: Any) -> None:
    example = "iamsim-aws page export.json > matrix.html\n  iamsim-aws page --world world.json --names names.json > matrix.html"
    parser = add(commands, "page", "make one HTML page of a matrix", example, run)
    add_source(parser)
    parser.add_argument("--report", metavar="FILE", help="of 'iamsim matrix --format json'; without it iamsim is asked")
    parser.add_argument("--hanging", action="store_true", help="also ask what each answer hangs on")


def worlds_for(source: Source) -> List[World]:
    """The worlds of the source; of exports by default who may assume which role."""
    if source.estate is None:
        return [source.world(source.actions)]
    return source.worlds(source.actions or [ASSUME]) or [source.world([])]


def run(options: argparse.Namespace) -> int:
    source = source_of(options)
    worlds, brief = worlds_for(source), False
    if options.report is None:
        for it in worlds:
            refuse_empty(it)
        found = ask_all(worlds)
    elif len(worlds) > 1:
        raise Fault("a report is of one world, and sts: and iam: actions want one each: leave --report out")
    else:
        text = files.read_text(options.report)
        found, brief = [read_report(worlds[0], text)], is_brief(text)
    hung = hanging(found) if options.hanging else []
    for line in (line for it in hung for line in [*(f"open: {one}" for one in it.opens), *it.notes]):
        tell(line)
    turned = [it.turns for it in hung] or [{} for _ in found]
    if found[1:]:
        answers = joined(found, source.actions)
        turns = joined_turns(answers, list(zip(found, turned)))
    else:
        answers, turns = found[0], turned[0]
    files.write(page(data(answers, brief, turns, has_commands=len(found) == 1)))
    return 0
