"""The ways as a text, as JSON and as Markdown."""

from typing import Any, Dict, Iterable, List, Optional, Tuple

from ..faults import line_of
from ..files import compact
from ..reports import Row
from ..speaking import Origin
from ..telling import causes, deciding
from .nodes import Node
from .requests import Request
from .search import Found
from .steps import Open, Part, Step, words
from .table import OWN

# The principals and resources that a line names.
FEW = 5


def few(names: List[str]) -> str:
    names = list(dict.fromkeys(names))
    more = f" and {len(names) - FEW} more" if len(names) > FEW else ""
    return ", ".join(names[:FEW]) + more


def changes_words(node: Node) -> str:
    return "".join(f", {words(it)}" for it in node.changes)


def target_words(found: Found, step: Step) -> str:
    """What a step comes to."""
    return found.people.called(step.target) + changes_words(step.target)


def origin_of(it: Request) -> Optional[Origin]:
    """What the text of a request's resource stands for that is made up."""
    origin = it.origin()
    return None if origin is None or origin.pattern == row_of(it).resource else origin


def row_of(it: Request) -> Row:
    assert it.answers is not None
    return it.answers.row(it.cell)


def if_words(it: Request) -> str:
    """What a request needs besides."""
    return f" if {it.turn.words()}" if it.turn else ""


def needed(some: Iterable[Request]) -> str:
    """What several requests need besides, each once."""
    return " and".join(dict.fromkeys(filter(None, map(if_words, some))))


def request_lines(it: Request) -> List[str]:
    assert it.answers is not None
    row = row_of(it)
    keys = ", ".join(f"{key} {value}" for key, value in it.ask.keys if value != OWN)
    first = f"{row.action} {row.resource}{f' ({keys})' if keys else ''}{if_words(it)}"
    stand = origin_of(it)
    return [
        first,
        *([f"  stands for {stand.words()}"] if stand else []),
        *(f"  allowed by {one.words()}" for one in deciding(it.answers, it.cell)),
    ]


def way_lines(found: Found, steps: List[Step]) -> List[str]:
    lines: List[str] = []
    for n, step in enumerate(steps, 1):
        told = " and ".join(f"{part.words()} ({part.way.name})" for part in step.parts)
        lines.append(f"  {n}. {told}: it is then {target_words(found, step)}")
        lines += [f"     {it}" for part in step.parts for one in part.requests for it in request_lines(one)]
    return lines


def counted(count: int, word: str) -> str:
    return f"{count} {word}{'' if count == 1 else 's'}"


def summary(found: Found, end: str) -> str:
    own = [it for it in found.ends if not it.changes]
    one = "1 is" if len(own) == 1 else f"{len(own)} are"
    who = sum(it.number < found.people.own for it in found.ways)
    outside = len(found.ways) - who
    keyed = sum(any(it.rank for it in steps) for steps in found.ways.values())
    more = f", and {outside} of those outside" if outside else ""
    more += f" ({keyed} of these with keys that nothing gives)" if keyed else ""
    return f"{who} of {counted(found.people.asked, 'principal')} can come to be {end}{more}; {one} already"


def open_name(found: Found, it: Open) -> str:
    return found.name(it.node) + changes_words(it.node)


def notes(found: Found, end: str) -> List[str]:
    """What was not asked, or not shown."""
    lines = [f"it is not shown who of these is an administrator: {few(list(map(found.name, found.unshown)))}"]
    lines = lines if found.unshown else []
    by_way: Dict[Tuple[str, str], List[Open]] = {}
    for it in found.open:
        by_way.setdefault((it.part.way.name, it.why), []).append(it)
    for (name, why), some in by_way.items():
        actions = " and ".join(ask.action for ask in some[0].part.way.asks)
        who = few([open_name(found, it) + needed(it.part.requests) for it in some])
        lines.append(f"not asked: where {actions} leads ({name}), since {why}: allowed to {who}")
    lines += [f"not asked: who comes to be {end} so: {it}" for it in found.unasked]
    if found.maybe:
        why = "with keys that nothing gives, or on some of too many kinds of names"
        lines.append(f"not shown, since it may be so {why}: {few(list(map(found.name, found.maybe)))}")
    if found.keys:
        lines.append(f"all values were asked of keys for which policies ask and that nothing gives: {', '.join(found.keys)}")
    return lines


def as_text(found: Found, end: str) -> str:
    lines = [summary(found, end)]
    already = [found.name(it) for it in found.ends if not it.changes]
    lines += [f"already: {', '.join(already)}"] if already else []
    for node, steps in found.ways.items():
        lines += [f"{found.name(node)}, in {counted(len(steps), 'step')}:", *way_lines(found, steps)]
    return "".join(f"{line_of(it)}\n" for it in [*lines, *notes(found, end)])


def code(text: str) -> str:
    return f"`{line_of(text)}`"


def as_markdown(found: Found, end: str) -> str:
    lines = [f"**{summary(found, end)}**", ""]
    for node, steps in found.ways.items():
        lines += [f"- {code(found.name(node))}, in {counted(len(steps), 'step')}:"]
        for n, step in enumerate(steps, 1):
            for part in step.parts:
                asked = ", ".join(code(row_of(it).action) + if_words(it) for it in part.requests)
                lines.append(f"  {n}. {code(part.words())} ({part.way.name}: {asked})")
    more = [f"- {code(it)}" for it in notes(found, end)]
    return "\n".join([*lines, *(["", "Not asked or not shown:", "", *more] if more else [])]) + "\n"


def request_json(it: Request) -> Dict[str, Any]:
    assert it.answers is not None
    row = row_of(it)
    statements = [
        {"policy": one.policy, "layer": one.layer, "statement": one.number, "sid": one.sid, "json": one.statement}
        for one in causes(it.answers, it.cell)
    ]
    keys = {key: value for key, value in it.ask.keys if value != OWN}
    stand = origin_of(it)
    stands = [{"text": row.resource, **stand._asdict()}] if stand else []
    given = {key: list(values) for key, values in it.turn.keys} if it.turn else {}
    moment = it.turn.moment if it.turn else None
    request = {"action": row.action, "resource": row.resource, "keys": keys, "if": given, "ifMoment": moment}
    return {**request, "statements": statements, "standsFor": stands}


def part_json(part: Part) -> Dict[str, Any]:
    requests = [request_json(it) for it in part.requests]
    return {"way": part.way.name, "words": part.words(), "requests": requests}


def changes_json(node: Node) -> List[Dict[str, Any]]:
    return [it._asdict() for it in node.changes]


def open_json(found: Found, it: Open) -> Dict[str, Any]:
    own = {"principal": found.name(it.node), "changes": changes_json(it.node), "why": it.why}
    return {**own, **part_json(it.part)}


def step_json(found: Found, step: Step) -> Dict[str, Any]:
    return {
        "from": found.name(step.source),
        "to": found.name(step.target),
        "changes": changes_json(step.target),
        "parts": [part_json(it) for it in step.parts],
    }


def as_json(found: Found, end: str) -> str:
    own = [it for it in found.ends if not it.changes]
    made = {
        "to": end,
        "principals": found.people.asked,
        "already": [found.name(it) for it in own],
        "found": [
            {
                "principal": found.name(node),
                "outside": node.number >= found.people.own,
                "steps": [step_json(found, it) for it in steps],
            }
            for node, steps in found.ways.items()
        ],
        "open": [open_json(found, it) for it in found.open],
        "notAsked": found.unasked,
        "notShown": [found.name(it) for it in found.unshown],
        "maybe": [found.name(it) for it in found.maybe],
        "absentKeys": found.keys,
    }
    return compact(made) + "\n"
