"""changes."""

import argparse
from typing import Any, List, Tuple

from .. import drafts, files, reviews
from ..arns import owner_of, service_of
from ..asking import ask_all
from ..changing import Changes, Comparison, compare, compared, paged
from ..covering import is_open, tell_actions, tell_strangers, unasked
from ..differences import differing, said_newly
from ..documents import World, bare
from ..faults import TOLD, Fault, tell
from ..joining import joined
from ..names import is_named, patterns_of
from ..paging import data, page, request_of
from ..patterns import common, of_given
from ..questions import Question, Scope
from ..slips import slips
from ..sources import ASSUME, Source, add_outside, add_source
from .parsers import add, add_verbose


def add_all(commands: Any) -> None:
    example = "iamsim-aws changes export.json --put Homes=draft.json"
    parser = add(
        commands, "changes", "tell which requests a draft allows no longer, and which it allows newly", example, run
    )
    add_source(parser)
    add_outside(parser)
    drafts.add_options(parser)
    parser.add_argument("--before", nargs="+", metavar="FILE", help="exports, or a world")
    parser.add_argument("--after", nargs="+", metavar="FILE", help="exports, or a world")
    help_of_action = "only actions that match (default: all whose answers may change)"
    parser.add_argument("--action", action="append", default=[], metavar="PATTERN", help=help_of_action)
    help_of_resource = "only resources whose ARN matches; an ARN that nothing names is asked for all the same"
    parser.add_argument("--resource", default="*", metavar="PATTERN", help=help_of_resource)
    parser.add_argument("--format", choices=["text", "csv", "markdown", "page"], default="text")
    add_verbose(parser)
    help_of_status = "as --fail-on any"
    parser.add_argument("--exit-status", action="store_true", help=help_of_status)
    help_of_fail_on = (
        "status 3 where such a request is told, 5 where something is open, 4 where nothing is of the choice"
    )
    parser.add_argument("--fail-on", choices=["gained", "lost", "any"], help=help_of_fail_on)


def run(options: argparse.Namespace) -> int:
    before, after = drafts.both(options)
    patterns = options.action or ["*"]
    found = compare(before, after, patterns, options.resource, options.account)
    if found.worlds:
        tell_actions(after, patterns)
    both = chosen(before, after, patterns, options.resource)
    tell_strangers(after, list(differing(*both))[::-1], every=both)
    lines = [line for it in found.changes for line in reviews.lines_of(it, options.verbose)]
    if found.left:
        tell(f"{found.left} requests that change are left out, since no service has them (--services)")
    if not lines:
        tell_slips((before, after), patterns, options.resource)
    is_nothing = not found.people and not found.requests
    if is_nothing and options.format != "page":
        tell("no request was compared: the two sides differ in no policy, or no resource matches")
    for it in found.opens:
        tell(f"open: {it}")
    write = {"text": reviews.as_text, "csv": reviews.as_csv, "markdown": reviews.as_markdown}
    scope = found.scope + (f", and {len(found.opens)} open" if found.opens else "")
    files.write(page_of(found, before, after) if options.format == "page" else write[options.format](lines, scope))
    asked = "any" if options.exit_status else options.fail_on
    if not asked:
        return 0
    if any(asked in ("any", it.change) for it in lines):
        return 3
    if found.opens or after.left or is_unasked(before, after, options, asked):
        return 5
    is_choice = bool(options.action) or options.resource != "*"
    return 4 if is_nothing and is_choice and is_different(before, after) else 0


def is_unasked(before: Source, after: Source, options: argparse.Namespace, asked: str) -> bool:
    """Whether a statement that comes, or goes, lets in somebody for whom nobody is asked."""
    worlds = chosen(before, after, options.action or ["*"], options.resource)
    ways = {"gained": [worlds], "lost": [worlds[::-1]]}.get(asked, [worlds, worlds[::-1]])
    lines = (line for of in ways for line in unasked(after, [said_newly(*of)], every=worlds))
    return any(map(is_open, lines))


def chosen(before: Source, after: Source, patterns: List[str], resource: str) -> List[World]:
    """Both worlds, with what is chosen, and with what has the policy of it."""
    worlds: List[World] = [{**it.world([ASSUME]), "actions": list(patterns)} for it in (before, after)]
    return [{**it, "resources": [one for one in it["resources"] if is_chosen(resource, one["arn"])]} for it in worlds]


def is_chosen(resource: str, arn: str) -> bool:
    """Whether a pattern of resources means one, or something that has its policy."""
    inside = f"{of_given(owner_of(arn))}/*" if service_of(arn) == "s3" else ""
    return is_named(Question("*", "*", resource), arn) or any(common(it, inside) for it in patterns_of(resource))


def is_different(before: Source, after: Source) -> bool:
    """Whether a policy, or anything that decides, is another after."""
    first, second = (it.world([ASSUME]) for it in (before, after))
    return bare({**first, "actions": []}) != bare({**second, "actions": []})


def tell_slips(sources: Tuple[Source, Source], patterns: List[str], resource: str) -> None:
    """Names that are likely a slip before and after."""
    for pattern in patterns:
        before, after = (slips(Scope(it), Question("*", pattern, resource)) for it in sources)
        for line in before:
            if line in after and line not in TOLD:
                tell(line)


def assuming(first: Source, second: Source) -> Changes:
    """Who may assume which role before and after."""
    before, after = ask_all([it.world([ASSUME]) for it in (first, second)])
    return compared(before, after)


def page_of(found: Comparison, first: Source, second: Source) -> str:
    """The page of the matrix before and after, with what changes with a key alone; where nothing changes of who may assume what."""
    if not found.people and not found.requests:
        raise Fault("the two sides differ in no policy, so there is no page")
    whole = paged(found) or [assuming(first, second)]
    sides = [[it.before for it in whole], [it.after for it in whole]]
    actions = list(dict.fromkeys(action for it in whole for action in it.after.world["actions"]))
    before, after = (joined(of, actions) if of[1:] else of[0] for of in sides)
    requests = [
        (kind, request_of(answers, cell), it.given)
        for it in found.changes
        for kind, answers, cells in (("gained", it.after, it.gained), ("lost", it.before, it.lost))
        for cell in (cells if it.given else ())
    ]
    stand = {text: origin for it in found.changes for of in it.stand.values() for text, origin in of.items()}
    return page(data(after, False, before=before, stand=stand, keyed=requests))
