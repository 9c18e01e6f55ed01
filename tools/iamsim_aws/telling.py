"""Answers in words: statements by their policies' names, what lacks, and what an answer hangs on."""

import json
from typing import Any, Callable, Dict, List, NamedTuple, Optional, Tuple

from .arns import account_of, principal_arn
from .documents import THROUGH, Policy, World, each, statements_of
from .faults import line_of
from .speaking import Origins, speaks_of, texts_of
from .patterns import any_matches, opened
from .reports import Answers
from .strangers import is_stranger
from .turning import Turn

LAYERS = {
    "org": "organisation policy",
    "control": "resource control policy",
    "resource": "the resource's policy",
    "identity": "identity policy",
    "boundary": "permissions boundary",
    "session": "session policy",
    "bucket": "the bucket's policy",
    "bucket-control": "resource control policy on the bucket",
}
LACKS = {
    "org": "a level of the organisation above the principal's account has no statement that allows this",
    "control": "a level of the resource control policies has no statement that allows this",
    "resource": "the resource's own policy does not grant this, and it has to: the accounts differ, or it is sealed",
    "identity": "no identity policy of the principal allows this",
    "boundary": "the principal's permissions boundary does not allow this",
    "session": "no session policy of the session allows this",
}
# What lacks of a request by an access point where it is one on the bucket.
LACKS.update({f"bucket-{it}": f"on the bucket, by which the request goes: {words}" for it, words in LACKS.items()})
# The layers that keep back what others allow.
LIMITS = ("org", "control", "boundary", "bucket-control")
BY = {"allowed": "allowed by", "explicitDeny": "denied by", "implicitDeny": "allowed, which does not suffice, by"}


class Cause(NamedTuple):
    """A statement that decides."""

    place: str
    layer: str
    policy: str
    number: int
    statement: Any

    @property
    def sid(self) -> str:
        return str(self.statement.get("Sid", "")) if isinstance(self.statement, dict) else ""

    def words(self) -> str:
        sid = f" {self.sid}" if self.sid else ""
        return f"{self.policy}, statement {self.number}{sid} ({LAYERS[self.layer]})"


def policies_of(world: World, p: int, r: int, layer: str) -> Any:
    """The policies of a layer that apply to a principal and a resource."""
    principal, resource = world["principals"][p], world["resources"][r]
    if layer.startswith("bucket"):
        return [resource[THROUGH]["policy"]] if layer == "bucket" else resource[THROUGH]["control"]
    if layer == "org":
        account = account_of(principal_arn(principal))
        return next(it for it in world["accounts"] if it["id"] == account)["org"]
    if layer in ("control", "resource"):
        return resource["control"] if layer == "control" else [resource["policy"]]
    if layer == "boundary":
        return [principal["boundary"]]
    return principal["identity" if layer == "identity" else "sessionPolicies"]


def document_at(world: World, p: int, r: int, place: str) -> Tuple[Policy, int]:
    """The policy at a place of a report, and the number of the statement there."""
    layer, *numbers = place.split("/")
    *ways, statement = map(int, numbers)
    found: Any = policies_of(world, p, r, layer)
    for n in ways:
        found = found[n]
    return found, statement


def cause_of(world: World, p: int, r: int, place: str) -> Cause:
    """The statement at a place of a report."""
    policy, statement = document_at(world, p, r, place)
    return Cause(place, place.partition("/")[0], policy.name, statement, statements_of(policy.document)[statement])


def causes(answers: Answers, cell: int) -> List[Cause]:
    """The statements that decide; one that stands at several levels once."""
    p, _, r = answers.place(cell)
    found: Dict[Tuple[str, str, int], Cause] = {}
    for it in answers.at(cell).statements:
        cause = cause_of(answers.world, p, r, it)
        found.setdefault((cause.layer, cause.policy, cause.number), cause)
    return list(found.values())


def is_everything(statement: Any) -> bool:
    """Whether a statement allows all to all, as FullAWSAccess does."""
    plain = isinstance(statement, dict) and statement.get("Effect") == "Allow" and not statement.get("Condition")
    return plain and all(each(statement.get(name)) == ["*"] for name in ("Action", "Resource"))


def deciding(answers: Answers, cell: int, is_verbose: bool = False) -> List[Cause]:
    """The statements that decide, those of the organisation last; without limits that keep nothing, unless they are wanted."""
    every = causes(answers, cell)
    some = [it for it in every if it.layer not in LIMITS or not is_everything(it.statement)] or every
    return every if is_verbose else sorted(some, key=lambda it: it.layer in ("org", "control", "bucket-control"))


def nearest(answers: Answers, cell: int) -> List[str]:
    """A line on the identity statement that allows the action, but not there or not so."""
    row = answers.row(cell)
    principal = answers.world["principals"][answers.place(cell)[0]]
    every = (
        Cause("", "identity", policy.name, n, it)
        for policy in principal.get("identity") or []
        for n, it in enumerate(statements_of(policy.document))
        if isinstance(it, dict) and it.get("Effect") == "Allow"
    )
    found: Dict[bool, str] = {}
    for it in every:
        if any_matches(texts_of(it.statement, "Action"), [row.action], True):
            patterns = texts_of(it.statement, "Resource")
            is_there = any_matches((opened(text) for text in patterns), [row.resource])
            of = f"it is of {', '.join(patterns) or 'other resources'}"
            why = "its condition or variables do not hold" if is_there else of
            found.setdefault(is_there, f"    nearest is {it.words()}: {why}")
    return [found[max(found)]] if found else []


def silent_levels(layer: str) -> Callable[[Answers, int], List[str]]:
    """A line on each level of which no policy speaks of a request, from the root down."""

    def told_of(answers: Answers, cell: int) -> List[str]:
        (p, _, r), row, lines = answers.place(cell), answers.row(cell), []
        for n, level in enumerate(policies_of(answers.world, p, r, layer)):
            every = [it for policy in level for it in statements_of(policy.document) if it.get("Effect") == "Allow"]
            own = [it for it in every if speaks_of(it, (row.action,))]
            texts = [opened(text) for it in own for text in texts_of(it, "Resource")]
            if not any("NotResource" in it for it in own) and not any_matches(texts, [row.resource]):
                lines.append(f"    level {n} from the root does not: {', '.join(policy.name for policy in level)}")
        return lines

    return told_of


# What is told besides of a layer that lacks.
HINTS = {"identity": nearest, "org": silent_levels("org"), "control": silent_levels("control")}


def request_words(answers: Answers, cell: int) -> str:
    row = answers.row(cell)
    return f"{row.principal} {row.action} {row.resource}"


def told(answers: Answers, cell: int, turn: Optional[Turn], is_long: bool, is_verbose: bool = False) -> List[str]:
    """An answer in lines."""
    answer = answers.at(cell)
    lines = [f"{answer.decision}: {request_words(answers, cell)}"]
    for it in deciding(answers, cell, is_verbose):
        lines.append(f"  {BY[answer.decision]} {it.words()}")
        lines += (
            [f"    {line_of(it)}" for it in json.dumps(it.statement, indent=2, ensure_ascii=False).split("\n")]
            if is_long
            else []
        )
    for layer in answer.lacks:
        lines += [f"  lacks {layer}: {LACKS[layer]}", *(HINTS[layer](answers, cell) if layer in HINTS else [])]
    lines += [f"  {turn.words()}"] if turn else []
    return [line_of(it) for it in lines]


def hangs_on(turn: Turn) -> Dict[str, Any]:
    """What an answer hangs on; further keys that it wants at once stand under `besides`, each with its values."""
    (key, values), *more = turn.keys
    own = {"key": key, "value": values[0], "decision": turn.decision, "values": values}
    return {**own, **({"besides": dict(more)} if more else {})}


def as_json(answers: Answers, cell: int, turn: Optional[Turn], made_up: Origins) -> Dict[str, Any]:
    """An answer, with what its texts stand for that are made up."""
    row = answers.row(cell)
    statements = [
        {"place": it.place, "policy": it.policy, "statement": it.number, "sid": it.sid, "json": it.statement}
        for it in causes(answers, cell)
    ]
    return {
        "principal": row.principal,
        "outside": is_stranger(answers.world["principals"][answers.place(cell)[0]]),
        "action": row.action,
        "resource": row.resource,
        "decision": row.answer.decision,
        "statements": statements,
        "lacks": list(row.answer.lacks),
        "hangsOn": [hangs_on(turn)] if turn else [],
        "standsFor": [{"text": it, **made_up[it]._asdict()} for it in (row.action, row.resource) if it in made_up],
    }


HEADER = ["principal", "action", "resource", "decision", "policies", "lacks", "hangs on"]


def as_fields(answers: Answers, cell: int, turn: Optional[Turn]) -> List[str]:
    row = answers.row(cell)
    names = list(dict.fromkeys(it.words() for it in causes(answers, cell)))
    lacks = " ".join(row.answer.lacks)
    return [
        row.principal,
        row.action,
        row.resource,
        row.answer.decision,
        "; ".join(names),
        lacks,
        turn.words() if turn else "",
    ]
