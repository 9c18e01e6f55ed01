"""world, check, decimals, keys and actions."""

import argparse
import json
from typing import Any, List

from .. import decimals, drafts, files, keys
from ..collecting import collected
from ..checking import lines, other_faults, refused_documents
from ..documents import World, bare, dressed, names_of
from ..faults import Fault, line_of, tell
from ..making import refuse_empty, unmatched, world_of
from ..points import tell_points
from ..program import run
from ..references import References
from ..sources import (
    ASSUME, Source, add_options, add_sessions, estate_of, inputs, read_actions, read_object, read_world, refuse_unknown,
)
from ..splitting import limits
from .parsers import add


def add_all(commands: Any) -> None:
    add_maker(commands)
    parser = add(commands, "check", "tell every fault of a world", "iamsim-aws check world.json", check)
    add_world(parser)
    parser.add_argument("--names", metavar="FILE", help="the policies' names, by 'world --names FILE'")
    parser.add_argument("--leave-out", action="store_true", help="writes the world without who has a refused document")

    add_world(
        add(commands, "decimals", "make a world without decimals", "iamsim-aws decimals world.json > whole.json", whole)
    )
    what = "list the keys that policies ask for and requests lack"
    add_world(add(commands, "keys", what, "iamsim-aws keys world.json", missing))

    example = "iamsim-aws organization 111122223333 444455556666 > organization.json"
    what = "collect the organisation's policies by the command line of AWS, which only reads"
    parser = add(commands, "organization", what, example, organization)
    parser.add_argument("accounts", nargs="+", metavar="ACCOUNT", help="an account's id")

    parser = add(commands, "actions", "list the actions of services", "iamsim-aws actions s3.json kms.json", actions)
    parser.add_argument("services", nargs="+", metavar="FILE", help="of AWS's service reference, or a folder of them")


def add_maker(commands: Any) -> None:
    """The subcommand world."""
    example = "iamsim-aws world export.json --actions actions > world.json"
    parser = add(commands, "world", "make a world of exports", example, world)
    parser.add_argument("exports", nargs="+", metavar="EXPORT", help="of 'aws iam get-account-authorization-details'")
    help_of_actions = "the actions, one a line ('#' begins a comment); without it " + ASSUME
    parser.add_argument("--actions", metavar="FILE", help=help_of_actions)
    add_options(parser)
    add_sessions(parser)
    drafts.add_options(parser)
    for name, what in (("principal", "principals"), ("resource", "resources")):
        help_of_pattern = f"only {what} that match; '*' and '?' are wild; may stand several times"
        parser.add_argument(f"--{name}", action="append", default=[], metavar="PATTERN", help=help_of_pattern)
    parser.add_argument("--names", metavar="FILE", help="writes there the name of each policy")
    parser.set_defaults(world=None)


def add_world(parser: argparse.ArgumentParser) -> None:
    parser.add_argument("world", nargs="?", default="-", metavar="WORLD", help="a file (default: standard input)")


def write_world(value: World) -> None:
    files.write(files.compact(bare(value)) + "\n")


def world(options: argparse.Namespace) -> int:
    files.refuse_taken([options.names], [*inputs(options), *drafts.inputs(options)])
    chosen = read_actions(options.actions) if options.actions else [ASSUME]
    refuse_unknown(References(options.services), chosen)
    made = chosen_of(options, chosen)
    refuse_empty(made)
    tell_points(made)
    asked = keys.lacking(made)
    if asked:
        tell(
            f"no context gives these keys to all requests, for which policies ask (iamsim-aws keys tells where): {', '.join(asked)}"
        )
    for line in [*unmatched(made, options.principal, options.resource), *limits(made)]:
        tell(line)
    if options.names:
        files.write_file(options.names, files.compact(names_of(made)) + "\n")
    write_world(made)
    return 0


def chosen_of(options: argparse.Namespace, actions: List[str]) -> World:
    """The world of the exports, or of them with drafts and a plan put into effect."""
    source = Source(estate_of(options, options.exports), None, actions, References([]))
    if drafts.is_changed(options):
        source = drafts.before_and_after(source, options)[1]
    assert source.estate is not None
    return source.change(world_of(source.estate, actions, options.principal, options.resource))


def check(options: argparse.Namespace) -> int:
    data, what = files.read_bytes(options.world), files.name_of(options.world)
    text = files.text_of(data, what)
    given = files.parsed(text, what)
    if not isinstance(given, dict):
        raise Fault(f"{what}: it is no object")
    value = dressed(given, read_object(options.names) or {})
    try:
        found = refused_documents(value)
        others = other_faults(value, found)
        told = lines(value, found)
    except (KeyError, TypeError, AttributeError, IndexError):
        found, others, told = [], [], []
    for line in [*told, *(it.fault for it in others)]:
        tell(line)
    if options.leave_out:
        write_world(without(value, [it.path for it in found]))
        return 1 if others else 0
    if not told and not others:
        run(["check"], files.encoded(text))
    return 1 if told or others else 0


def without(value: World, paths: List[str]) -> World:
    """The world without the principals and resources that have a document at one of the paths."""
    if any(path.startswith("accounts/") for path in paths):
        raise Fault("an organisation policy is refused, and binds all principals of its account: nothing was written")
    made = dict(value)
    for axis in ("principals", "resources"):
        out = {int(path.split("/")[1]) for path in paths if path.startswith(f"{axis}/")}
        for n in sorted(out):
            it = value[axis][n]
            tell(f"left out: {it.get('arn') or it.get('user') or it.get('role')}")
        made[axis] = [it for n, it in enumerate(value[axis]) if n not in out]
    return made


def whole(options: argparse.Namespace) -> int:
    write_world(decimals.whole(read_world(options.world)))
    return 0


def missing(options: argparse.Namespace) -> int:
    for key, places in keys.lacking(read_world(options.world)).items():
        files.write(f"{line_of(key)}\t{', '.join(places)}\n")
    return 0


def organization(options: argparse.Namespace) -> int:
    files.write(json.dumps(collected(options.accounts), ensure_ascii=False, indent=2) + "\n")
    return 0


def actions(options: argparse.Namespace) -> int:
    files.write("".join(f"{line_of(it)}\n" for it in References(options.services).actions()))
    return 0
