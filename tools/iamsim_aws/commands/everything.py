"""can PRINCIPAL '*' '*': what a principal may do at all."""

import argparse
from typing import Any, Dict, List

from .. import files
from ..every import NOT_SHOWN
from ..everything import REST, Found, Kinds, Turned, everything, listed, statement_words, turned
from ..faults import line_of, tell
from ..questions import Question, Scope
from ..reports import csv_text
from ..telling import hangs_on

NOTES = [
    "of actions and resources that are decided alike one is shown, where x stands for a letter that no policy names; the statements say what else is meant",
    "keys that nothing gives are absent, and what the world does not name has no policy but its bucket's",
]
HEADER = ["principal", "decision", "service", "actions", "resources", "others", "policies", "hangs on"]


def answer(options: argparse.Namespace, scope: Scope, question: Question) -> int:
    found = everything(scope, question)
    hangs, opens, more = turned(found)
    notes = [*NOTES, *more, *(f"open: {it}" for it in opens)]
    if options.format == "text":
        files.write("".join(f"{line_of(it)}\n" for it in [*text(found, hangs), *notes]))
    else:
        for it in notes:
            tell(it)
        is_json = options.format == "json"
        made = as_json(found, hangs)
        files.write(files.compact(made) + "\n" if is_json else csv_text(HEADER, as_fields(made)))
    return 5 if found.hidden or opens else 0 if found.kinds else 3


def text(found: Found, hangs: List[Turned]) -> List[str]:
    lines = []
    for who in found.people:
        own = [it for it in found.kinds if it.principal == who]
        some = [it for it in hangs if it.principal == who]
        lines.append(f"{who} may" if own else f"{who} may do nothing of this")
        services = {it.service for it in own} | {it.service for it in some}
        for service in sorted(services, key=lambda it: (it == REST, it)):
            lines.append(
                "  of any other service, for which the first letters stand" if service == REST else f"  of {service}"
            )
            lines += [line for it in own if it.service == service for line in told(it)]
            lines += [f"    {listed(it.actions)}: {it.turn.words()}" for it in some if it.service == service]
        hidden = [f"{action} on {pattern}" for principal, action, pattern in found.hidden if principal == who]
        lines += [f"  not shown, since it has too many kinds: {it}" for it in hidden]
    return lines


def told(kinds: Kinds) -> List[str]:
    lines = [f"    {', '.join(kinds.actions)} on {kinds.where}"]
    return lines + [f"      by {it.words()}: {statement_words(it, kinds.service)}" for it in kinds.causes]


def turned_json(it: Turned) -> Dict[str, Any]:
    """What turns, as the requests that are allowed stand there; which statements allow then is not told."""
    decision = f"{it.turn.words().partition(' ')[0]} if"
    own = {"principal": it.principal, "decision": decision, "service": it.service, "actions": it.actions}
    return {**own, "resources": it.resources, "others": [], "statements": [], "hangsOn": [hangs_on(it.turn)]}


def as_json(found: Found, hangs: List[Turned]) -> List[Dict[str, Any]]:
    every: List[Dict[str, Any]] = []
    for it in found.kinds:
        statements = [
            {"policy": one.policy, "statement": one.number, "sid": one.sid, "json": one.statement} for one in it.causes
        ]
        own = {"principal": it.principal, "decision": "allowed", "service": it.service, "actions": it.actions}
        every.append({**own, "resources": it.resources, "others": it.others, "statements": statements, "hangsOn": []})
    every += map(turned_json, hangs)
    for principal, action, pattern in found.hidden:
        own = {"principal": principal, "decision": NOT_SHOWN, "service": action.partition(":")[0], "actions": [action]}
        every.append({**own, "resources": [pattern], "others": [], "statements": [], "hangsOn": []})
    return every


def as_fields(made: List[Dict[str, Any]]) -> List[List[str]]:
    rows = []
    for it in made:
        policies = "; ".join(dict.fromkeys(one["policy"] for one in it["statements"]))
        lists = [" ".join(it[name]) for name in ("actions", "resources", "others")]
        hangs = "; ".join(f"{one['key']} is {' or '.join(one['values'])}" for one in it["hangsOn"])
        rows.append([it["principal"], it["decision"], it["service"], *lists, policies, hangs])
    return rows
