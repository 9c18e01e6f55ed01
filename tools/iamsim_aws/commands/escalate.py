"""escalate."""

import argparse
from typing import Any

from .. import files
from ..escalation import reporting
from ..escalation.drawing import drawing
from ..escalation.search import Found, Search
from ..covering import tell_strangers
from ..faults import Fault
from ..patterns import near
from ..sources import add_options, add_outside, add_sessions, inputs, source_of
from .parsers import add

WRITE = {"text": reporting.as_text, "json": reporting.as_json, "markdown": reporting.as_markdown}


def add_all(commands: Any) -> None:
    example = "iamsim-aws escalate export.json --organization organization.json"
    parser = add(commands, "escalate", "tell who can come to be an administrator, and how", example, run)
    parser.add_argument("exports", nargs="+", metavar="EXPORT", help="of 'aws iam get-account-authorization-details'")
    add_options(parser)
    add_sessions(parser)
    add_outside(parser)
    parser.set_defaults(world=None, names=None, actions=None)
    help_of_to = "who can come to be this one: a name, an ARN, or a pattern of these"
    parser.add_argument("--to", metavar="PRINCIPAL", help=help_of_to)
    parser.add_argument("--svg", metavar="FILE", help="also draws the ways, as a picture with nothing from outside")
    parser.add_argument("--format", choices=list(WRITE), default="text")


def run(options: argparse.Namespace) -> int:
    files.refuse_taken([options.svg], inputs(options))
    source = source_of(options)
    search = Search(source, options.to)
    if not search.people.own:
        return 4
    found = search.found()
    end = options.to or "an administrator"
    if options.to is not None and not found.ends:
        raise Fault(f"no principal matches {options.to}{near(options.to, list(search.people.numbers))}")
    if options.svg:
        files.write_file(options.svg, drawing(found, reporting.summary(found, end), reporting.notes(found, end)))
    files.write(WRITE[options.format](found, end))
    tell_strangers(source, [search.things.trusting], asks_all=False)
    return status(found)


def status(found: Found) -> int:
    if found.ways:
        return 3
    return 5 if found.open or found.unshown or found.maybe or found.unasked else 0
