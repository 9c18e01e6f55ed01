"""rules."""

import argparse
from typing import Any, List, Sequence, Set, Tuple

from .. import drafts, files
from ..coming import with_chains
from ..covering import tell_lacked, tell_strangers
from ..faults import TOLD, Fault, line_of, tell
from ..speaking import stand_words
from ..pipelines import Case, fault, junit, sarif
from ..questions import Scope, account_words, actions, lacked
from ..never import Break
from ..ruling import Outcome, check, read_rules
from ..slips import slips
from ..sources import add_outside, add_source, inputs, source_of
from ..telling import BY, LACKS, deciding
from ..unknowns import ANY_RESOURCE
from .parsers import add, add_chains, add_verbose, whole

STATUSES = {"kept": 0, "broken": 3, "empty": 4, "open": 5}


def add_all(commands: Any) -> None:
    example = "iamsim-aws rules rules.txt export.json --junit rules.xml\n\na rule a line:\n  never  *             iam:*         *                             except *:role/admin/*\n  always *:role/deploy s3:PutObject  arn:aws:s3:::releases/app.zip"
    parser = add(commands, "rules", "check the rules that a team keeps", example, run)
    parser.add_argument("rules", metavar="RULES", help="a file of rules, one a line")
    add_source(parser)
    add_outside(parser)
    drafts.add_options(parser)
    parser.add_argument("--allow-empty", action="store_true", help="let a rule pass that meets no request")
    help_of_open = "let a rule pass of which something could not be asked"
    parser.add_argument("--allow-open", action="store_true", help=help_of_open)
    help_of_given = "take keys that nothing gives as absent; without it 'never' means with any values of them too"
    parser.add_argument("--as-given", action="store_true", help=help_of_given)
    parser.add_argument(
        "--most", type=whole, default=20, metavar="N", help="tell so many requests of a broken rule (default: 20)"
    )
    add_chains(parser, "'never' also means who may come to it by assuming roles")
    add_verbose(parser)
    parser.add_argument("--junit", metavar="FILE", help="writes a report for a pipeline")
    parser.add_argument("--sarif", metavar="FILE", help="writes a report for code scanning")


def run(options: argparse.Namespace) -> int:
    """The status; where there is no answer, the reports for pipelines say so and none of an earlier run is left."""
    read = [options.rules, options.names, *inputs(options), *drafts.inputs(options)]
    files.refuse_taken([options.junit, options.sarif], read)
    report(options, [fault(files.name_of(options.rules), "it came to no answer")])
    try:
        return checked(options)
    except Fault as why:
        report(options, [fault(files.name_of(options.rules), str(why))])
        raise


def report(options: argparse.Namespace, cases: List[Case], notes: Sequence[str] = ()) -> None:
    for path, write in ((options.junit, junit), (options.sarif, sarif)):
        if path:
            files.write_file(path, write(cases, notes))


def cases_of(options: argparse.Namespace, outcomes: List[Outcome], fails: Set[str]) -> Tuple[List[Case], List[str]]:
    """The outcomes as reports for pipelines have them, and what was told that is of no rule. What was not asked fails there."""
    every = list(dict.fromkeys(TOLD))
    of_rules = {it.rule.name: [line for line in every if line.startswith(f"{it.rule.name}: ")] for it in outcomes}
    cases = [case_of(it, options, fails, of_rules[it.rule.name]) for it in outcomes]
    rest = [line for line in every if not any(line in of for of in of_rules.values())]
    file = files.name_of(options.rules)
    opens = {line_of(line) for it in outcomes for line in it.opens}
    unasked = [it for it in rest if is_unasked(it) and it not in opens]
    cases += [Case(file, 1, "what was not asked", "unasked", [it], [it]) for it in unasked]
    return cases, [it for it in rest if not is_unasked(it)]


def is_unasked(line: str) -> bool:
    unasked = ("not asked", "nobody is asked", "no text stands", "is left out", ANY_RESOURCE)
    return any(it in line for it in unasked)


def checked(options: argparse.Namespace) -> int:
    rules = read_rules(options.rules)
    source, before = source_of(options), None
    if drafts.is_changed(options):
        first, source = drafts.before_and_after(source, options)
        before = Scope(first, account=options.account)
    scope = Scope(source, account=options.account)
    outcomes = check(scope, rules, options.as_given, before)
    if options.chains:
        outcomes = with_chains(scope, outcomes, options.as_given, options.depth)
    if options.allow_empty:
        # What was left out may be what such a rule means.
        outcomes = [it._replace(empty="") if it.opens else it for it in outcomes]
    notes(scope, outcomes)
    files.write("".join(f"{line_of(line)}\n" for it in outcomes for line in lines_of(it, options)))
    counts = {state: sum(it.state == state for it in outcomes) for state in STATUSES}
    files.write(f"{len(outcomes)} rules: " + ", ".join(f"{n} {state}" for state, n in counts.items()) + "\n")
    passing = {"kept", *(["empty"] if options.allow_empty else []), *(["open"] if options.allow_open else [])}
    fails = set(STATUSES) - passing
    report(options, *cases_of(options, outcomes, fails))
    found = [STATUSES[state] for state in STATUSES if counts[state] and state in fails]
    return found[0] if found else 0


def notes(scope: Scope, outcomes: List[Outcome]) -> None:
    """What the outcomes cover."""
    named = dict.fromkeys(it for of in outcomes if of.asked for it in actions(scope, of.rule.question.action))
    tell_lacked(lacked(scope.source, named))
    tell_strangers(scope.source, [asked.world for it in outcomes for asked in it.asked])
    for it in outcomes:
        for line in slips(scope, it.rule.question) if it.rule.kind == "never" and it.state == "kept" else ():
            tell(f"{it.rule.name}: {line}")
    added = {arn: asked.world for it in outcomes for asked in it.asked for arn in asked.added}
    for arn, world in sorted(added.items(), key=lambda it: it[0]):
        whose = account_words(world, arn)
        tell(f"{arn} is not in the world: it is asked for without a policy of its own, but its bucket's{whose}")


def message(broken: Break, giver: str, is_verbose: bool) -> str:
    """Why a request is decided as it is."""
    row, turn = broken.answers.row(broken.cell), broken.turn
    why = [f"{BY[row.answer.decision]} {it.words()}" for it in deciding(broken.answers, broken.cell, is_verbose)]
    why += [f"lacks {it}: {LACKS[it]}" for it in row.answer.lacks]
    before = deciding(*broken.before, is_verbose) if broken.before else []
    why += [f"was {BY['allowed']} {it.words()}" for it in before]
    why += stand_words(broken.stand(), row.action, row.resource)
    may = "may" if row.answer.decision == "allowed" else "may not"
    what = f"which nothing gives ({giver} gives it)" if turn and turn.keys else "which comes later"
    given = f" if {turn.words()}, {what}" if turn else ""
    because = "; ".join(why) or "no statement speaks of it"
    if broken.way:
        who, way = broken.way.steps[0].principal, broken.way.words()
        return f"{who} may come to {row.action} {row.resource} by assuming roles, {way}: {because}"
    return f"{row.principal} {may} {row.action} {row.resource}{given}: {because}"


def messages(outcome: Outcome, options: argparse.Namespace) -> List[str]:
    return [message(it, outcome.giver, options.verbose) for it in outcome.broken[: options.most]]


def lines_of(outcome: Outcome, options: argparse.Namespace) -> List[str]:
    rule = outcome.rule
    if outcome.state == "empty":
        return [f"empty: {rule.name}: {rule.text}: {outcome.empty}"]
    lines = [f"{outcome.state}: {rule.name}: {rule.text} ({outcome.scope})"]
    outside, more = outcome.outside[: options.most], len(outcome.outside) - options.most
    stand_ins = ", ".join(outside) + (f" and {more} more" if more > 0 else "")
    lines += [f"  for who is outside: {stand_ins}"] if outside and not outcome.broken else []
    lines += [f"  {it}" for it in messages(outcome, options)]
    more = len(outcome.broken) - options.most
    lines += [f"  and {more} more"] if more > 0 else []
    return lines + [f"  open: {it}" for it in opens_of(outcome, options)]


def opens_of(outcome: Outcome, options: argparse.Namespace) -> List[str]:
    """What the answer hangs on that was not asked."""
    more = len(outcome.opens) - options.most
    return outcome.opens[: options.most] + ([f"and {more} more"] if more > 0 else [])


def case_of(outcome: Outcome, options: argparse.Namespace, fails: Set[str], notes: List[str]) -> Case:
    """An outcome as reports for pipelines have it, with what was told of it."""
    rule = outcome.rule
    if outcome.state not in fails:
        return Case(rule.file, rule.line, rule.text, outcome.state, [], [], notes)
    empty = [outcome.empty] if outcome.state == "empty" else []
    reasons = [*messages(outcome, options), *empty, *opens_of(outcome, options)]
    return Case(rule.file, rule.line, rule.text, outcome.state, lines_of(outcome, options), reasons, notes)
