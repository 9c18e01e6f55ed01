"""can and who-can."""

import argparse
from typing import Any, Dict, List, NamedTuple, Set

from .. import chains, drafts, files
from ..asking import ask_all
from ..covering import is_open, tell_lacked, tell_strangers, unasked
from ..everything import is_meant
from ..exports import policy
from ..faults import Fault, line_of, tell
from ..speaking import made_up, stand_words
from ..patterns import is_pattern
from ..points import is_half_known
from ..never import worlds_of_kinds
from ..questions import Asked, Question, Scope, account_words, lacked, missing, worlds
from ..reports import Answers, csv_text
from ..sources import add_outside, add_source, source_of
from ..strangers import is_stranger
from ..telling import HEADER, as_fields, as_json, told
from ..turning import Turn, hanging
from . import databases, everything
from .parsers import add, add_chains, add_verbose


ALL_NAMES = "all names were asked for, of those that one pattern allows the shortest is shown; what is not named has no policy but its bucket's"


class Found(NamedTuple):
    """The answers of one world, what they hang on, and what is told of that besides."""

    asked: Asked
    answers: Answers
    turns: Dict[int, Turn]
    notes: List[str]


def add_all(commands: Any) -> None:
    example = "iamsim-aws can alice s3:GetObject arn:aws:s3:::homes/alice/x export.json"
    example += "\n\nall that alice may do:\n  iamsim-aws can alice '*' '*' export.json"
    parser = add(commands, "can", "answer whether a principal may do this, and why", example, can)
    parser.add_argument("principal", metavar="PRINCIPAL", help="a name, an ARN, or a pattern of these")
    add_question(parser)

    example = "iamsim-aws who-can s3:GetObject arn:aws:s3:::homes/alice/x export.json"
    parser = add(
        commands, "who-can", "list the principals that may do this, and who lacks a key alone", example, who_can
    )
    add_question(parser)
    add_outside(parser)
    add_chains(parser, "also who may come to it by assuming roles")


def add_question(parser: argparse.ArgumentParser) -> None:
    parser.add_argument("action", metavar="ACTION", help="as s3:GetObject, or a pattern")
    parser.add_argument("resource", metavar="RESOURCE", help="an ARN, a name, or a pattern of what the world has")
    add_source(parser)
    parser.add_argument("--kinds", action="store_true", help="a pattern means every name, and not only what is named")
    parser.add_argument("--policy", metavar="FILE", help="the policy of the resource, as a bucket's")
    parser.add_argument(
        "--sealed", action="store_true", help="that policy must grant in the same account too, as a KMS key's"
    )
    drafts.add_options(parser)
    add_verbose(parser)
    parser.add_argument("--format", choices=["text", "json", "csv"], default="text")
    parser.add_argument("--database", metavar="FILE", help="ask the database of 'iamsim-aws estate', and nothing else")


def scope_of(options: argparse.Namespace) -> Scope:
    path = options.policy
    own = policy(files.name_of(path), files.read_json(path)) if path else None
    source = source_of(options)
    if drafts.is_changed(options):
        source = drafts.before_and_after(source, options)[1]
    return Scope(source, options.kinds, own, options.account, options.sealed)


def answered(scope: Scope, question: Question) -> List[Found]:
    asked = worlds_of_kinds(scope, question) if scope.kinds else worlds(scope, question)
    if not asked:
        raise Fault(missing(scope, question))
    tell_lacked(lacked(scope.source, dict.fromkeys(action for it in asked for action in it.world["actions"])))
    every = ask_all([it.world for it in asked])
    return [
        Found(it._replace(opens=list(dict.fromkeys([*it.opens, *of.opens]))), answers, of.turns, of.notes)
        for it, answers, of in zip(asked, every, hanging(every))
    ]


def notes(options: argparse.Namespace, found: List[Found]) -> List[str]:
    """What the answers cover, and which keys could turn them."""
    lines = [] if options.kinds else named_lines(options, found)
    for asked, answers, turns, more in found:
        for arn in asked.added:
            whose = account_words(asked.world, arn)
            lines.append(f"{arn} is not in the world: it is asked for {policy_words(asked, arn)}{whose}")
        lines += stand_lines(asked, answers, turns)
        lines += [*more, *(f"open: {it}" for it in asked.opens)]
    if any(it.asked.stand for it in found):
        lines.append(ALL_NAMES)
    return [line_of(it) for it in lines]


def named_lines(options: argparse.Namespace, found: List[Found]) -> List[str]:
    """How many actions and resources the patterns mean; what has a file of the service reference has no further actions."""
    worlds = [it.asked.world for it in found]
    actions = {action for it in worlds for action in it["actions"]}
    some = [(options.action, "action", actions)] if not options.services else []
    some.append((options.resource, "resource", {one["arn"] for it in worlds for one in it["resources"]}))
    every = ((pattern, kind if len(of) == 1 else f"{kind}s", len(of)) for pattern, kind, of in some if is_pattern(pattern))
    return [f"{it} is taken for {count} named {kind}: with --kinds it means every name" for it, kind, count in every]


def stand_lines(asked: Asked, answers: Answers, turns: Dict[int, Turn]) -> List[str]:
    """What the texts stand for by which something is allowed, or would be; by the others nothing is."""
    rows = [answers.row(cell) for cell in {*answers.allowed(), *turns}]
    told_of = {text for row in rows for text in (row.action, row.resource)}
    return stand_words(asked.stand, *(it for it in asked.stand if it in told_of))


def policy_words(asked: Asked, arn: str) -> str:
    own = [it["policy"].name for it in asked.world["resources"] if it["arn"] == arn and "policy" in it]
    return f"with the policy {own[0]}" if own else "without a policy of its own"


def write(options: argparse.Namespace, found: List[Found], text: List[str]) -> None:
    if options.format == "text":
        files.write("".join(f"{line}\n" for line in [*text, *notes(options, found)]))
        return
    for line in notes(options, found):
        tell(line)
    values: List[Dict[str, Any]] = []
    fields: List[List[str]] = []
    for asked, answers, turns, _ in found:
        made = made_up(asked.stand)
        for cell in range(len(answers.numbers)):
            if options.format == "json":
                values.append(as_json(answers, cell, turns.get(cell), made))
            else:
                fields.append(as_fields(answers, cell, turns.get(cell)))
    files.write(files.compact(values) + "\n" if options.format == "json" else csv_text(HEADER, fields))


def can(options: argparse.Namespace) -> int:
    if options.database:
        return databases.can(options)
    question = Question(options.principal, options.action, options.resource)
    if is_meant(question) and not options.kinds and options.policy is None:
        return everything.answer(options, scope_of(options), question)
    found = answered(scope_of(options), question)
    lines = []
    for it in found:
        for cell in range(len(it.answers.numbers)):
            lines += told(it.answers, cell, it.turns.get(cell), True, options.verbose)
    write(options, found, lines)
    if not all(it.decision == "allowed" for of in found for it in of.answers.table):
        return 3
    if has_opens(found):
        return 5
    return 6 if any(is_half_known(it) for of in found for it in of.answers.world["resources"]) else 0


def who_can(options: argparse.Namespace) -> int:
    if options.database:
        return databases.who_can(options)
    scope = scope_of(options)._replace(outside=True)
    found = answered(scope, Question("*", options.action, options.resource))
    lines: List[str] = []
    for it in found:
        lines += who_lines(it, options.verbose)
    if options.chains:
        lines += chain_lines(scope, found, options.depth)
    write(options, found, lines)
    asked = [it.asked.world for it in found]
    tell_strangers(scope.source, asked)
    return 5 if has_opens(found) or any(map(is_open, unasked(scope.source, asked))) else 0


def has_opens(found: List[Found]) -> bool:
    return any(it.asked.opens for it in found)


def who_lines(found: Found, is_verbose: bool) -> List[str]:
    """Who is allowed, and who would be with keys that nothing gives; then the same of who is outside."""
    answers = found.answers
    outside = [is_stranger(it) for it in answers.world["principals"]]
    people = len(outside) - sum(outside)
    some = [it for it in answers.allowed() if not outside[answers.place(it)[0]]]
    who, cells = len({answers.place(it)[0] for it in some}), people * answers.shape[1] * answers.shape[2]
    lines = [f"{who} of {people} principals are allowed, by {len(some)} of {cells} requests"]
    lines += lines_for(found, some, [it for it in sorted(found.turns) if not outside[answers.place(it)[0]]], is_verbose)
    if any(outside):
        some = [it for it in answers.allowed() if outside[answers.place(it)[0]]]
        who = len({answers.place(it)[0] for it in some})
        what = "stand-ins for who is outside the exports are allowed, where their own accounts let them"
        lines.append(f"{who} of {sum(outside)} {what}")
        lines += lines_for(found, some, [it for it in sorted(found.turns) if outside[answers.place(it)[0]]], is_verbose)
    return lines


def lines_for(found: Found, allowed: List[int], turned: List[int], is_verbose: bool) -> List[str]:
    _, answers, turns, _ = found
    some = set(allowed)
    lines = [line for it in allowed for line in told(answers, it, turns.get(it), False, is_verbose)]
    more = [it for it in turned if it not in some]
    if more:
        lines.append(f"{len(more)} more would be, with a key that nothing gives:")
    return lines + [line for it in more for line in told(answers, it, turns[it], False, is_verbose)]


def chain_lines(scope: Scope, found: List[Found], depth: int) -> List[str]:
    allowed: Set[str] = {it.answers.row(cell).principal for it in found for cell in it.answers.allowed()}
    lacking = {
        it.answers.row(cell).principal: turn.given()
        for it in found
        for cell, turn in it.turns.items()
        if turn.decision == "allowed"
    }
    steps = chains.steps_of(scope.source, [it.asked.world for it in found])
    ways, keyed = chains.chains(steps, allowed, lacking, depth)
    lines = [] if ways or keyed else [f"nobody else may come to it by assuming at most {depth} roles"]
    if ways:
        lines = [f"{len(ways)} more may come to it by assuming at most {depth} roles one after the other:"]
        lines += [f"  {way.words()}" for way in ways]
    if keyed:
        lines.append(f"{len(keyed)} more may come to it by assuming roles, with keys that nothing gives:")
        lines += [f"  {way.words()}" for way in keyed]
    tell(chains.SERVICES)
    return [line_of(it) for it in lines]
