"""replay."""

import argparse
from typing import Any, List, Optional, Tuple

from .. import drafts, files
from ..faults import tell
from ..sources import Source, add_options, source_of
from ..trails import reporting
from ..trails.mapping import Mapper
from ..trails.notes import is_unread, notes, untold_by_change
from ..trails.reading import Logs, logs_of
from ..trails.replaying import HERE, LOGGED, NEW, OLD, Replay
from ..trails.reporting import Report
from ..trails.rounds import rounds
from ..trails.sides import Side, asked_keys, known_of, tells_sessions
from .parsers import add

WRITE = {
    "text": reporting.as_text,
    "csv": reporting.as_csv,
    "json": reporting.as_json,
    "markdown": reporting.as_markdown,
    "page": reporting.as_page,
}


def add_all(commands: Any) -> None:
    example = "iamsim-aws replay AWSLogs/ --export export.json --put Homes=draft.json"
    what = "tell which calls of a log of CloudTrail a draft would refuse"
    parser = add(commands, "replay", what, example, run)
    help_of_logs = "files of CloudTrail, folders of them, answers of 'aws cloudtrail lookup-events', or lines of events"
    parser.add_argument("logs", nargs="+", metavar="LOG", help=help_of_logs)
    help_of_export = "of 'aws iam get-account-authorization-details'"
    parser.add_argument(
        "--export", dest="exports", action="extend", nargs="+", default=[], metavar="EXPORT", help=help_of_export
    )
    parser.add_argument("--world", metavar="FILE", help="a world in place of exports")
    parser.add_argument("--names", metavar="FILE", help="the policies' names of that world, by 'world --names FILE'")
    add_options(parser, has_session=False)
    parser.set_defaults(session="session", actions=None)
    drafts.add_options(parser)
    parser.add_argument("--before", nargs="+", metavar="FILE", help="exports, or a world")
    parser.add_argument("--after", nargs="+", metavar="FILE", help="exports, or a world")
    help_of_unused = "also list the statements that decided nothing, and the principals without an event"
    parser.add_argument("--unused", action="store_true", help=help_of_unused)
    parser.add_argument(
        "--strict", action="store_true", help="status 5 where anything of the log was not asked or not judged"
    )
    parser.add_argument("--format", choices=list(WRITE), default="text")


def run(options: argparse.Namespace) -> int:
    before, after = sources(options)
    sides = [Side(it) for it in (before, after) if it]
    mapper = Mapper(before.references, known_of(sides[0]), frozenset(asked_keys(sides)), tells_sessions(sides))
    replay = Replay(sides[0], sides[1] if after else None, options.account, options.unused)
    logs, goes_on = logs_of(options.logs), []  # type: Tuple[Logs, List[str]]
    for it in rounds(logs, mapper, goes_on):
        replay.take(it)
    report = Report(replay, len(logs.files), list(notes(replay, logs, goes_on, sides)), *reporting.unused(replay))
    files.write(WRITE[options.format](report))
    if options.format == "csv":
        for line in [*reporting.missed_lines(report, reporting.FEW), *report.notes]:
            tell(line)
    return status(replay, options.strict, is_unread(logs, goes_on) or bool(untold_by_change(sides)))


def sources(options: argparse.Namespace) -> Tuple[Source, Optional[Source]]:
    """The sources before and after a change, or the only one."""
    if options.before or options.after or drafts.is_changed(options):
        return drafts.both(options)
    return source_of(options), None


def status(replay: Replay, is_strict: bool, is_untold: bool) -> int:
    if not replay.calls:
        return 4
    if replay.count(NEW, HERE, LOGGED):
        return 3
    is_open = replay.missed() or replay.count(OLD) or replay.failed or is_untold
    return 5 if is_strict and is_open else 0
