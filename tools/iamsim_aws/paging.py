"""One HTML page of a matrix, or of what changes, with nothing from outside."""

import array
import base64
import hashlib
import json
import os
import sys
from typing import Any, Dict, List, Optional, Tuple

from .arns import account_of, principal_arn, principal_text
from .documents import THROUGH, Policy, World, statements_of
from .files import compact
from .joining import ABSENT
from .speaking import Origins, stands
from .reports import DECISIONS, Answers, Numbers, keys_of
from .strangers import shown
from .turning import Turn

# A request by the keys of its axes.
Request = Tuple[Any, ...]
PARTS = os.path.join(os.path.dirname(os.path.realpath(__file__)), "parts")


class Layers:
    """Of each principal and each resource the policies that apply to it, by layer, level and number; a policy is the
    number of its name and those of its statements."""

    def __init__(self, statements: Numbers, names: Numbers):
        self.statements, self.names = statements, names
        self.known: Dict[int, Tuple[Any, Any]] = {}
        self.seen: Dict[str, int] = {}

    def policy(self, policy: Policy) -> Any:
        key = id(policy.document)
        if key not in self.known or self.known[key][0] is not policy.document:
            self.known[key] = policy.document, [self.statement(it) for it in statements_of(policy.document)]
        return [self.names[policy.name], self.known[key][1]]

    def statement(self, it: Any) -> int:
        text = compact(it)
        if text not in self.seen:
            sid = it.get("Sid", "") if isinstance(it, dict) else ""
            self.seen[text] = self.statements[str(sid), json.dumps(it, indent=2, ensure_ascii=False)]
        return self.seen[text]

    def policies(self, some: List[Policy]) -> List[Any]:
        return [self.policy(it) for it in some]

    def principal(self, it: Dict[str, Any]) -> Dict[str, Any]:
        boundary = [[self.policy(it["boundary"])]] if "boundary" in it else []
        identity, session = ([self.policies(it.get(name, []))] for name in ("identity", "sessionPolicies"))
        account = account_of(principal_arn(it))
        return {"account": account, "identity": identity, "boundary": boundary, "session": session}

    def resource(self, it: Dict[str, Any]) -> Dict[str, Any]:
        control = [self.policies(level) for level in it.get("control", [])]
        made = {"control": control, "resource": [[self.policy(it["policy"])]] if "policy" in it else []}
        inside = self.resource(it[THROUGH]) if THROUGH in it else {}
        own = {"resource": "bucket", "control": "bucket-control"}
        return {**made, **{own[layer]: of for layer, of in inside.items()}}

    def all_of(self, world: World, principals: List[Any], resources: List[Any]) -> Dict[str, Any]:
        """The layers of a world, in the order of these principals and resources; null for those that it has not."""
        levels = {
            it["id"]: [] if it.get("management") else [self.policies(level) for level in it.get("org", [])]
            for it in world["accounts"]
        }
        people = {principal_text(it): it for it in world["principals"]}
        things = {(it["arn"], it["account"]): it for it in world["resources"]}
        return {
            "org": levels,
            "principals": [self.principal(people[it]) if it in people else None for it in principals],
            "resources": [self.resource(things[it]) if it in things else None for it in resources],
        }


def packed(numbers: Any, count: int) -> Tuple[int, str]:
    """The numbers in as many bytes each as `count` of them need, lowest byte first, in base64."""
    width = 1 if count <= 1 << 8 else 2 if count <= 1 << 16 else 4
    few = array.array({1: "B", 2: "H", 4: "I"}[width], numbers)
    if sys.byteorder == "big":
        few.byteswap()
    return width, base64.b64encode(few.tobytes()).decode()


def spread(answers: Answers, axes: List[List[Any]], table: Numbers) -> Any:
    """The numbers of a world's answers on wider axes."""
    own = keys_of(answers.world)
    new = [table[it] for it in answers.table]
    if own == axes:
        return array.array("I", map(new.__getitem__, answers.numbers))
    absent = table[ABSENT]
    numbers = [{key: n for n, key in enumerate(axis)} for axis in own]
    places = [[numbers[axis].get(key) for key in axes[axis]] for axis in range(3)]
    made = array.array("I")
    for p in places[0]:
        for a in places[1]:
            first = None if p is None or a is None else answers.cell(p, a, 0)
            for r in places[2]:
                made.append(absent if first is None or r is None else new[answers.numbers[first + r]])
    return made


def side(answers: Answers, axes: List[List[Any]], table: Numbers, layers: Layers) -> Tuple[Any, Any]:
    return spread(answers, axes, table), layers.all_of(answers.world, axes[0], axes[2])


def data(
    answers: Answers,
    is_brief: bool,
    turns: Optional[Dict[int, Turn]] = None,
    before: Optional[Answers] = None,
    stand: Optional[Origins] = None,
    keyed: Optional[List[Tuple[str, Request, str]]] = None,
    has_commands: bool = True,
) -> Dict[str, Any]:
    """What the page shows; `keyed` are the requests that change with a key alone, with that key in words."""
    axes = [list(axis) for axis in keys_of(answers.world)]
    for axis, more in enumerate(keys_of(before.world)) if before else ():
        there = set(axes[axis])
        axes[axis] += [it for it in more if it not in there]
    statements, names, table = Numbers(), Numbers(), Numbers()
    layers = Layers(statements, names)
    numbers, own = side(answers, axes, table, layers)
    old = side(before, axes, table, layers) if before else None
    every = list(table)
    width, cells = packed(numbers, len(every))
    words = [*DECISIONS, "absent"]
    return {
        "moment": answers.world["moment"],
        "axes": [shown_people(answers, before, axes[0]), axes[1], [arn for arn, _ in axes[2]]],
        "answers": [[words.index(it.decision), " ".join(it.statements), " ".join(it.lacks)] for it in every],
        "isBrief": is_brief,
        "layers": own,
        "before": old and {"cells": packed(old[0], len(every))[1], "layers": old[1]},
        "turns": {str(cell): [it.decision, it.keys] for cell, it in (turns or {}).items()},
        "keyed": keyed_cells(axes, keyed or []),
        "hasCommands": has_commands and before is None,
        "stand": list(stands(stand or {}).items()),
        "statements": list(statements),
        "names": list(names),
        "width": width,
        "cells": cells,
    }


def request_of(answers: Answers, cell: int) -> Request:
    return tuple(axis[n] for axis, n in zip(keys_of(answers.world), answers.place(cell)))


def keyed_cells(axes: List[List[Any]], keyed: List[Tuple[str, Request, str]]) -> Dict[str, Tuple[str, str]]:
    """The cells that change with a key alone, each with how and with which."""
    numbers = [{key: n for n, key in enumerate(axis)} for axis in axes]
    found: Dict[str, Tuple[str, str]] = {}
    for kind, request, given in keyed:
        p, a, r = (of[key] for of, key in zip(numbers, request))
        found.setdefault(str((p * len(axes[1]) + a) * len(axes[2]) + r), (kind, given))
    return found


def shown_people(answers: Answers, before: Optional[Answers], texts: List[str]) -> List[str]:
    """The principals as answers name them."""
    people = [it for of in (answers, before) if of for it in of.world["principals"]]
    names = {principal_text(it): shown(it) for it in people}
    return [names[it] for it in texts]


def escaped(value: Any) -> str:
    """JSON that stays data inside a script element, whatever its texts hold."""
    text = json.dumps(value, ensure_ascii=True, separators=(",", ":"))
    return text.replace("<", "\\u003c").replace(">", "\\u003e").replace("&", "\\u0026")


def part(name: str) -> str:
    with open(os.path.join(PARTS, name), encoding="utf-8") as it:
        return it.read()


def page(value: Dict[str, Any]) -> str:
    script, style = part("page.js"), part("page.css")
    hashes = [base64.b64encode(hashlib.sha256(it.encode()).digest()).decode() for it in (script, style)]
    pieces = {"SCRIPT-HASH": hashes[0], "STYLE-HASH": hashes[1], "STYLE": style, "SCRIPT": script}
    text = part("page.html")
    for name, piece in pieces.items():
        text = text.replace(f"<!--{name}-->", piece)
    return text.replace("<!--DATA-->", escaped(value))
