"""The source after a change: drafts of policies, a plan of Terraform, templates of CloudFormation, or other exports."""

import argparse
from typing import List, Optional, Set, Tuple

from . import cloudformation, files, putting, terraform
from .documents import World
from .faults import Fault, tell
from .making import Estate
from .reports import axes_of
from .sources import ASSUME, Source, source_of
from .unknowns import Applied


def add_options(parser: argparse.ArgumentParser) -> None:
    add = parser.add_argument
    add("--put", action="append", default=[], metavar="NAME=FILE", help="a draft for the policy of that name or ARN")
    help_of_attach = "a policy that a user, group or role is given besides, inline or by its ARN"
    add("--attach", action="append", default=[], metavar="NAME=FILE@PRINCIPAL", help=help_of_attach)
    add("--terraform", metavar="PLAN", help="a plan, by 'terraform show -json'")
    help_of_configuration = "the folder with the configuration of the plan, for what jsonencode is given"
    add("--configuration", metavar="FOLDER", help=help_of_configuration)
    help_of_templates = "templates of CloudFormation, JSON or YAML"
    add("--cloudformation", nargs="+", default=[], metavar="TEMPLATE", help=help_of_templates)
    help_of_parameters = (
        "the values of their parameters; NAME=FILE is for the one of several templates that is called so"
    )
    add("--parameters", action="append", default=[], metavar="FILE", help=help_of_parameters)
    help_of_stack = "what a stack has, by describe-stack-resources, describe-stacks and get-template; or NAME=FILE"
    add("--stack", action="append", default=[], metavar="FILE", help=help_of_stack)
    add("--allow-unknown", action="store_true", help="leave out what plan or templates tell only after the apply")
    add("--account", metavar="ID", help="the account of plan or templates, or of a resource whose ARN names none")


def inputs(options: argparse.Namespace) -> List[str]:
    """The files that these options name."""
    found = [it.rpartition("=")[2] for it in [*options.put, *options.parameters, *options.stack]]
    found += [it.partition("=")[2].partition("@")[0] for it in options.attach]
    return [*found, *options.cloudformation, *filter(None, [options.terraform])]


def before_and_after(source: Source, options: argparse.Namespace) -> Tuple[Source, Source]:
    """The source without and with the drafts and the plan of the options."""
    first = estate = source.estate
    lines: List[str] = []
    left: List[str] = []
    narrow: Optional[Estate] = None
    if options.terraform or options.configuration or options.cloudformation or options.parameters or options.stack:
        first, estate, lines, left, narrow = applied(estate, options)
    if options.attach and estate is None:
        raise Fault("--attach: a policy is attached in exports, and not in a world")
    attached = [putting.read_attachment(it) for it in options.attach]
    drafts = [putting.read_draft(it) for it in options.put]
    estate, narrow = (
        putting.with_drafts(putting.with_attachments(it, attached), drafts) if it else None for it in (estate, narrow)
    )
    aliases = estate.organization.names() if estate else {}
    if first and estate and (options.terraform or options.cloudformation):
        refuse_unheld(first, estate, "plan" if options.terraform else "template")
    for line in lines:
        tell(line)
    plain = source.like(estate, lambda world: world).world([ASSUME])
    meant = putting.resolved(plain, drafts, aliases, estate)

    def change(world: World) -> World:
        return putting.put(world, meant)

    after = source.like(estate, change)
    after.left, after.narrow = left, source.like(narrow, change) if narrow else None
    return source.like(first, lambda world: world), after


def applied(estate: Optional[Estate], options: argparse.Namespace) -> Applied:
    """What the plan, or the templates, make of the estate."""
    if options.configuration and not options.terraform:
        raise Fault("--configuration belongs to --terraform")
    if options.terraform and (options.cloudformation or options.parameters or options.stack):
        raise Fault("give a plan by --terraform, or templates by --cloudformation, and not both")
    if options.terraform:
        if estate is None:
            raise Fault("--terraform: a plan is put into effect on exports, and not on a world")
        of_plan = options.terraform, options.account, options.allow_unknown, options.configuration
        return terraform.applied(estate, *of_plan)
    if not options.cloudformation:
        raise Fault("--parameters and --stack belong to --cloudformation")
    if estate is None:
        raise Fault("--cloudformation: templates are put into effect on exports, and not on a world")
    of = options.cloudformation, options.parameters, options.stack
    return cloudformation.applied(estate, cloudformation.Given(*of, options.account, options.allow_unknown))


def refuse_unheld(before: Estate, after: Estate, word: str) -> None:
    """What a plan or template (`word`) attaches has to be in the exports, or among the drafts."""
    known = {it for account in before.accounts for it in account.lacking()}
    for holder, arn in (it for account in after.accounts for it in account.lacking()):
        if (holder, arn) not in known:
            why = f"the {word} attaches {arn}, which the export does not hold"
            raise Fault(f"{holder}: {why}: give its document by --put {arn}=FILE")


def is_changed(options: argparse.Namespace) -> bool:
    some = options.put, options.attach, options.terraform, options.configuration
    return any([*some, options.cloudformation, options.parameters, options.stack])


def is_world(path: str) -> bool:
    given = files.read_json(path)
    return isinstance(given, dict) and "principals" in given


def side(options: argparse.Namespace, paths: List[str], word: str) -> Source:
    """The source of exports, or of one world."""
    worlds = [it for it in paths if is_world(it)]
    if worlds and len(paths) > 1:
        raise Fault("one world is compared with one world, and exports with exports")
    world, exports = (worlds[0], []) if worlds else (None, paths)
    source = source_of(argparse.Namespace(**{**vars(options), "world": world, "exports": exports}))
    if source.given is not None:
        refuse_twice(source.given, word)
    return source


def refuse_twice(world: World, word: str) -> None:
    """Of two that have one name nobody sees which is compared; iamsim refuses them too, by this line."""
    for axis, texts in zip(("principals", "actions", "resources"), axes_of(world)):
        seen: Set[str] = set()
        for n, text in enumerate(texts):
            if text in seen:
                raise Fault(f"fault 8 Twice: {word} at {axis}/{n} ({text})")
            seen.add(text)


def put_moment(sides: Tuple[Source, Source], asked: Optional[int]) -> None:
    """Both are asked at the given moment, or at the later of theirs; a world whose moment is none is left for iamsim to refuse."""
    theirs = [it.moment for it in sides]
    if not all(type(it) is int for it in theirs):
        return
    latest = max(theirs) if asked is None else asked
    if asked is None and len(set(theirs)) > 1 and any(it.given for it in sides):
        tell(f"before and after are of two moments: both are asked at the later one, {latest} (--moment)")
    for it in sides:
        it.put_moment(latest)


def both(options: argparse.Namespace) -> Tuple[Source, Source]:
    """The sources before and after; both have the same moment."""
    before: Optional[List[str]] = options.before
    after: Optional[List[str]] = options.after
    if bool(before) != bool(after):
        raise Fault("--before and --after belong together")
    if before and after:
        if is_changed(options) or options.exports or options.world:
            raise Fault(
                "compare --before with --after, or exports with --put, --terraform and --cloudformation, and not both"
            )
        sides = side(options, before, "before"), side(options, after, "after")
        put_moment(sides, options.moment)
        for it in sides:
            it.has_trust = any(one.has_trust for one in sides)
        return sides
    if not is_changed(options):
        ways = "--put NAME=FILE, --attach NAME=FILE@PRINCIPAL, --terraform PLAN, --cloudformation TEMPLATE, or --before and --after"
        raise Fault(f"say what changes: {ways}")
    return before_and_after(source_of(options), options)
