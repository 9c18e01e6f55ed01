"""Rules that a team keeps: which requests are never allowed, and which always."""

import functools
import re
from typing import Dict, List, NamedTuple, Optional

from . import files
from .arns import principal_arn, principal_text
from .asking import ask_all
from .dates import later
from .documents import World
from .documents import cells_of as count_of
from .faults import Fault, tell
from .names import answers_of, cells_in, is_named, nearest, settled
from .never import Break, Finding, Never, asked_by, cells_of, findings, joined, kind_of_row, never
from .patterns import is_pattern, near, of_given
from .points import is_half_known
from .questions import Asked, Question, Scope, missing, worlds
from .reports import Answers
from .roles import with_named
from .slips import is_unnamed, unnamed
from .sources import ASSUME
from .strangers import everyone_outside, is_excepted, is_stranger, shown

# Texts of broken rules for which it is asked what allowed them before a draft.
MOST = 100
WORD = re.compile(r"(?:\\.|\S)+")
KINDS = ("never", "always")
NOTHING_SPEAKS = "nothing that is named, and no pattern of a policy, is meant by it (--actions, --services and --resources name more)"
HALF_KNOWN = "the requests by an access point fall under the policy of its bucket too, which is not asked here"


class Rule(NamedTuple):
    """A line of a file of rules."""

    file: str
    line: int
    text: str
    kind: str
    question: Question

    @property
    def name(self) -> str:
        return f"{self.file}:{self.line}"


class Outcome(NamedTuple):
    """How a rule fares: how many requests it meets, or principals that it means with every name; those that break it, what its
    answer hangs on that was not asked, why it meets none, what gives keys, which stand-ins were asked, whether with every value of
    the keys that nothing gives, and by which roles, in words."""

    rule: Rule
    requests: int
    is_of_names: bool
    broken: List[Break]
    opens: List[str]
    asked: List[Asked]
    empty: str
    giver: str
    outside: List[str]
    has_values: bool
    by_roles: str = ""

    @property
    def state(self) -> str:
        return "broken" if self.broken else "empty" if self.empty else "open" if self.opens else "kept"

    @property
    def scope(self) -> str:
        """What the answer is for, in words."""
        question = self.rule.question
        both = (("action", question.action), ("resource", question.resource))
        names = " and ".join(name for name, it in both if is_pattern(it))
        stand_ins = f"{len(self.outside)} stand-ins for who is outside" if self.outside else ""
        found = [f"{self.requests} principals{stand_ins and f' and {stand_ins}'}"]
        if not self.is_of_names:
            found = [f"{self.requests} requests{stand_ins and f', also of {stand_ins}'}"]
        found += [f"every name of {names}"] if self.is_of_names else []
        found += ["every value of each key"] if self.has_values else []
        return ", ".join([*found, *filter(None, [self.by_roles])])


def words_of(line: str) -> List[str]:
    """The words of a line; '#' begins a comment. A backslash keeps a space and '#', and is of the word before others."""
    found = []
    for it in WORD.findall(line):
        if it.startswith("#"):
            break
        found.append(re.sub(r"\\([\s#])|\\.", lambda kept: kept[1] or kept[0], it))
    return found


def read_rules(path: str) -> List[Rule]:
    what, rules = files.name_of(path), []
    for n, line in enumerate(files.read_text(path).splitlines(), 1):
        words = words_of(line)
        if words:
            rules.append(Rule(what, n, line.strip(), words[0], question_of(words, f"{what}:{n}")))
    if not rules:
        raise Fault(f"{what}: it has no rules")
    return rules


def question_of(words: List[str], where: str) -> Question:
    if words[0] not in KINDS:
        raise Fault(f"{where}: a rule begins with 'never' or 'always', and not with {words[0]}")
    if len(words) < 4:
        raise Fault(f"{where}: a rule is '{words[0]} PRINCIPAL ACTION RESOURCE', and may end with 'except PRINCIPAL..'")
    if len(words) > 4 and (words[4] != "except" or len(words) == 5):
        raise Fault(
            f"{where}: behind the resource stands nothing, or 'except' and principals, and not {' '.join(words[4:])}"
        )
    return Question(words[1], words[2], words[3], words[5:])


def exceptions(scope: Scope, rule: Rule) -> Dict[str, List[str]]:
    """The principals that each exception of a rule means. A name alone has to mean one, so that none is excepted unseen."""
    world, found = with_named(scope.source, scope.source.world([ASSUME])), {}
    people = world["principals"] + (everyone_outside(scope.source, [world]) if rule.question.exceptions else [])
    for it in rule.question.exceptions:
        some = [one for one in people if is_excepted(one, [it])]
        found[it] = [principal_text(one) for one in some]
        if len(set(map(principal_arn, some))) > 1 and ":" not in it and not is_pattern(it):
            raise Fault(f"{rule.name}: several principals are called {it}, name one by its ARN: {', '.join(found[it])}")
    return found


def of_rule(scope: Scope, rule: Rule) -> Never:
    """What a rule asks: what must never be is asked of who is outside too, and of every name that its patterns mean."""
    for it, people in exceptions(scope, rule).items():
        if not people:
            names = map(principal_arn, scope.source.world([ASSUME])["principals"])
            tell(f"{rule.name}: the exception {it} matches no principal{near(it, names)}")
    try:
        return never(scope, rule.question) if rule.kind == "never" else asked_by(scope, rule.question)
    except Fault as fault:
        raise Fault(f"{rule.name}: {fault}") from None


def check(scope: Scope, rules: List[Rule], as_given: bool = False, before: Optional[Scope] = None) -> List[Outcome]:
    """The outcome of each rule, all asked side by side; over a draft with what was allowed before it."""
    some = [of_rule(scope, rule) for rule in rules]
    of_never = [it for rule, it in zip(rules, some) if rule.kind == "never"]
    found = {id(it): one for it, one in zip(of_never, findings(scope, of_never, as_given))}
    tell_later([it.world for rule, of in zip(rules, some) for it in of.asked if as_given or rule.kind == "always"])
    return [
        outcome(scope, rule, of, found.get(id(of)) or lacking(scope, rule, of, before), as_given)
        for rule, of in zip(rules, some)
    ]


def in_doubt(scope: Scope, rule: Rule, broken: List[Break]) -> List[str]:
    """The requests that have to be allowed and are, but for what only the apply of a plan tells."""
    if scope.source.narrow is None:
        return []
    narrow, known = scope._replace(source=scope.source.narrow), {it.answers.row(it.cell)[:3] for it in broken}
    rows = [it.answers.row(it.cell)[:3] for it in refused(narrow, asked_by(narrow, rule.question)).broken]
    return [f"{' '.join(it)} may be refused by what is known only after the apply" for it in rows if it not in known]


def reason(scope: Scope, question: Question, of: Never) -> str:
    """Why a rule meets no request. A role that is not there is asked for by none."""
    resources = [it for one in of.asked for it in one.world["resources"]]
    is_absent = question.action.lower().startswith("sts:") and not any(
        is_named(question, it["arn"]) for it in resources
    )
    return missing(scope, question) if is_absent or not of.asked else NOTHING_SPEAKS


def outcome(scope: Scope, rule: Rule, of: Never, found: Finding, as_given: bool) -> Outcome:
    """How a rule fares by what is found."""
    why = "" if of.is_met else reason(scope, rule.question, of)
    asked = [it for one in of.names for it in one.people] or [it for one in of.asked for it in one.world["principals"]]
    outside = list(dict.fromkeys(shown(it) for it in asked if is_stranger(it)))
    requests = len({principal_text(it) for it in asked if not is_stranger(it)})
    if not of.names:
        requests = sum(len(cells_of(scope, Answers(it.world, count_of(it.world)))) for it in of.asked)
        why = why or ("" if requests or of.opens else NOTHING_SPEAKS)
    if not why and not found.broken and is_unnamed(scope, rule.question):
        why = unnamed(scope, rule.question.action)
    opens = [*found.opens, *scope.source.left]
    if rule.kind == "always" and any(is_half_known(one) for it in of.asked for one in it.world["resources"]):
        opens.append(HALF_KNOWN)
    broken = sorted(found.broken, key=Break.is_mixed)
    has_values = rule.kind == "never" and not as_given
    giver = scope.source.giver
    return Outcome(rule, requests, bool(of.names), broken, opens, of.asked, why, giver, outside, has_values)


def lacking(scope: Scope, rule: Rule, of: Never, before: Optional[Scope]) -> Finding:
    """The requests that have to be allowed and are not."""
    found = refused(scope, of)
    broken = since(before, rule, found.broken) if before else found.broken
    return Finding(broken, found.opens + in_doubt(scope, rule, broken))


def refused(scope: Scope, of: Never) -> Finding:
    """The requests that are not allowed; of all names those that a service is likely to have, if there are such."""
    found = Finding([], list(of.opens))
    for names, rows in (it for some in settled(scope, of.names, len(of.names), []) for it in some):
        lacked = [it for it in rows.rows if it["decision"] != "allowed"]
        told = nearest(names, lacked, functools.partial(kind_of_row, names), True)
        [answers] = answers_of(names, told)
        found = joined(found, Finding([Break(answers, it, None, dict) for it in cells_in(answers, told)], rows.opens))
    flat = of.asked if not of.names else []
    for answers in ask_all([it.world for it in flat]):
        flags = answers.flags()
        cells = [cell for cell in cells_of(scope, answers) if not flags[cell]]
        found = joined(found, Finding([Break(answers, it, None, dict) for it in cells], []))
    return found


def tell_later(some: List[World]) -> None:
    """Says that policies ask for dates that come after the moment of the requests."""
    dates = sorted({it for world in some for it in later(world)})
    if dates:
        tell(f"policies ask for dates after the moment of the requests: {', '.join(dates)}")


def since(before: Scope, rule: Rule, broken: List[Break]) -> List[Break]:
    """The requests that have to be allowed and are not, with those answers before a draft that allowed them."""
    some = dict.fromkeys(it.answers.row(it.cell)[1:3] for it in broken)
    asked = [rule.question._replace(action=action, resource=of_given(resource)) for action, resource in some]
    answers = ask_all([it.world for one in asked[:MOST] for it in worlds(before, one)])
    allowed = {found.row(cell)[:3]: (found, cell) for found in answers for cell in found.allowed()}
    return [it._replace(before=allowed.get(it.answers.row(it.cell)[:3])) for it in broken]
