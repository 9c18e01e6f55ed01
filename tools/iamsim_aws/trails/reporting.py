"""What a replay tells: as a text, as CSV, JSON and Markdown, and as a page."""

import base64
import hashlib
import html
from typing import Any, Dict, Iterator, List, NamedTuple, Tuple

from ..arns import principal_arn, session_arn
from ..documents import each, places, statements_of
from ..faults import line_of
from ..files import compact
from ..parties import named_by
from ..reports import csv_text
from ..reviews import LIMIT, code, fitting
from .counting import SESSIONS, counted
from .mapping import DOING, EVENT, EXPORT, THING, WHO
from .replaying import HERE, LOGGED, NEW, OLD, Replay, Row

TITLES = {
    NEW: "refused then, and not before",
    HERE: "made by the log, and refused here",
    LOGGED: "refused by the log, and allowed here",
    OLD: "refused before too, though the log has them: what the change does to them is not known",
}
REASONS = {
    EVENT: "no call of an API",
    WHO: "made by who is in no world",
    EXPORT: "made by a principal that no export has",
    DOING: "an action that is not known",
    THING: "a resource that nothing names",
}
# The names of a reason that a text has.
FEW = 20
LIST = "a list of what this log did not use, and no proof that nobody needs it"


class Report(NamedTuple):
    """A replay, what is told of it, and what no event used: statements, and principals without an event."""

    replay: Replay
    files: int
    notes: List[str]
    statements: List[Dict[str, Any]]
    people: List[str]

    @property
    def wanted(self) -> Tuple[str, ...]:
        return (NEW,) if self.replay.after else (HERE, LOGGED)

    def summary(self) -> str:
        count, replay = self.replay.count(*self.wanted), self.replay
        what = "would be refused then and not before" if replay.after else "would be answered otherwise here"
        return f"{count} of {counted(replay.calls, 'call')} of the log {what}"

    def asked(self) -> str:
        it = self.replay
        return (
            f"{counted(it.total.events, 'event')} of {counted(self.files, 'file')}, {it.total.mapped} asked for in whole: "
            f"{counted(it.calls, 'call')}, {counted(it.requests, 'different request')}, {counted(it.worlds, 'world')}"
        )


def unused(replay: Replay) -> Tuple[List[Dict[str, Any]], List[str]]:
    """The statements by which identity policies and those of resources allow, and that decided nothing; and who has no event."""
    if replay.unused is None:
        return [], []
    found: Dict[Tuple[str, int], Dict[str, Any]] = {}
    for world in replay.last.every():
        for it in places(world):
            is_own = it.path.split("/")[2] in ("identity", "policy")
            for n, statement in enumerate(statements_of(it.policy.document) if is_own else ()):
                if may_decide(it.kind, statement) and (it.policy.name, n) not in replay.unused.statements:
                    made = {
                        "policy": it.policy.name,
                        "statement": n,
                        "sid": str(statement.get("Sid", "")),
                        "json": statement,
                    }
                    found.setdefault((it.policy.name, n), made)
    everybody = {principal_arn(it) for it in replay.last.every()[0]["principals"]}
    return list(found.values()), sorted(everybody - replay.unused.people)


def may_decide(kind: str, statement: Any) -> bool:
    """Whether a statement allows something to somebody whom a world may hold: those for services alone do not."""
    is_allow = isinstance(statement, dict) and statement.get("Effect") == "Allow"
    return is_allow and (kind != "resource" or bool(named_by(statement)) or "NotPrincipal" in statement)


def statement_words(it: Dict[str, Any]) -> str:
    def texts(name: str) -> str:
        found = it["json"].get(name)
        if found is None and f"Not{name}" in it["json"]:
            return f"all but {texts(f'Not{name}')}"
        return ", ".join(map(str, each(found))) if found is not None else "its resource"

    sid = f" {it['sid']}" if it["sid"] else ""
    return f"{it['policy']}, statement {it['statement']}{sid}: {texts('Action')} on {texts('Resource')}"


def sessions_of(row: Row) -> str:
    some = row.made.sessions
    more = " and others" if len(some) == SESSIONS else ""
    return ", ".join(some[: SESSIONS - 1]) + more


def times(row: Row) -> str:
    first, last = (it or "an unknown time" for it in (row.made.first, row.made.last))
    return first if first == last else f"{first} to {last}"


def example_of(row: Row) -> str:
    it = row.made.example
    who = f" by session {it.session}" if it.session else ""
    return f"as {row.resource}{who}, event {it.event or 'without an id'} (found by {row.found})"


def head_of(row: Row) -> str:
    count = row.made.times
    denied = f", {row.denied} of them refused by the log" if row.denied else ""
    return f"{row.principal} {row.action}: {counted(count, 'call')}{denied}, {times(row)}"


def lines_of(row: Row) -> List[str]:
    sessions = f"sessions: {sessions_of(row)}"
    return [example_of(row), *([sessions] if row.made.sessions else []), *row.why, *row.before]


def missed_lines(report: Report, most: int) -> Iterator[str]:
    """What was not mapped, by reason and name."""
    every = report.replay.missed()
    for reason, words in REASONS.items():
        of = [(name, count) for it, name, count in every if it == reason]
        if of:
            yield f"{words}: {sum(count for _, count in of)}"
            yield from (f"  {count} {name}" for name, count in of[:most])
            if of[most:]:
                yield f"  {sum(count for _, count in of[most:])} of {len(of) - most} further names: --format json has them"


def as_text(report: Report) -> str:
    found = [report.summary()]
    for change, title in TITLES.items():
        rows = [it for it in report.replay.told() if it.change == change]
        if rows:
            found.append(f"{title}:")
        for it in rows:
            found += [f"- {head_of(it)}", *(f"    {line}" for line in lines_of(it))]
    found.append(report.asked())
    missed = list(missed_lines(report, FEW))
    found += ["not asked for:", *(f"  {it}" for it in missed)] if missed else []
    if report.replay.unused is not None:
        found.append(f"unused, {LIST}:")
        found += [f"  no call was decided by {statement_words(it)}" for it in report.statements]
        found += [f"  no event is of {it}" for it in report.people]
    return "".join(f"{line_of(it)}\n" for it in [*found, *report.notes])


HEADER = ["change", "principal", "action", "calls", "first", "last", "refused by the log", "why", "example", "resource"]
HEADER += ["found by", "session", "sessions", "before"]


def as_csv(report: Report) -> str:
    rows = []
    for it in report.replay.told():
        made = it.made
        row = [it.change, it.principal, it.action, made.times, made.first, made.last, it.denied, "; ".join(it.why)]
        row += [made.example.event, it.resource, it.found, made.example.session, sessions_of(it), "; ".join(it.before)]
        rows.append(row)
    for one in report.statements:
        rows.append(["unused statement", "", "", 0, "", "", 0, statement_words(one), *[""] * 6])
    rows += [["without a call", it, "", 0, "", "", 0, *[""] * 7] for it in report.people]
    return csv_text(HEADER, rows)


def as_json(report: Report) -> str:
    replay, total = report.replay, report.replay.total
    made: Dict[str, Any] = {
        "compares": "a change" if replay.after else "the log",
        "events": total.events,
        "mapped": total.mapped,
        "calls": replay.calls,
        "requests": replay.requests,
        "worlds": replay.worlds,
        "files": report.files,
        "rows": [row_json(it) for it in replay.told()],
        "notMapped": [{"reason": reason, "name": name, "count": n} for reason, name, n in replay.missed()],
        "notes": report.notes,
    }
    if replay.unused is not None:
        made["unused"] = {"statements": report.statements, "principals": report.people, "is": LIST}
    return compact(made) + "\n"


def row_json(row: Row) -> Dict[str, Any]:
    example = row.made.example
    who = session_arn(row.principal, example.session) if example.session else row.principal
    return {
        "change": row.change,
        "principal": row.principal,
        "action": row.action,
        "calls": row.made.times,
        "first": row.made.first,
        "last": row.made.last,
        "refusedByTheLog": row.denied,
        "sessions": list(row.made.sessions[: SESSIONS - 1]),
        "hasFurtherSessions": len(row.made.sessions) == SESSIONS,
        "why": list(row.why),
        "before": list(row.before),
        "example": {
            "event": example.event,
            "time": example.time,
            "principal": who,
            "resource": row.resource,
            "foundBy": row.found,
        },
    }


def cells(row: Row) -> List[str]:
    reasons = "; ".join([*row.why, *row.before])
    return [row.principal, row.action, str(row.made.times), times(row), reasons, example_of(row)]


COLUMNS = ["Principal", "Action", "Calls", "When", "Why", "Example"]


def as_markdown(report: Report) -> str:
    """For a comment on GitHub; its last line says what it has no room for."""
    head = f"**{report.summary()}**\n\n{report.asked()}"
    pieces: List[Tuple[str, int]] = []
    for change, title in TITLES.items():
        rows = [it for it in report.replay.told() if it.change == change]
        for n, it in enumerate(rows):
            top = [
                "",
                f"### {title[0].upper()}{title[1:]}",
                "",
                f"| {' | '.join(COLUMNS)} |",
                "|---" * len(COLUMNS) + "|",
            ]
            row = f"| {' | '.join(map(code, cells(it)))} |"
            pieces.append(("\n".join([*(top if n == 0 else []), row]), 1))
    for title, lines in sections(report):
        for n, line in enumerate(lines):
            pieces.append(("\n".join([*(["", f"### {title}", ""] if n == 0 else []), f"- {code(line)}"]), 1))
    kept, left = fitting(pieces, LIMIT - len(head) - 200)
    last = ["", f"{left} lines are left out, for which a comment has no room: --format json has all"] if left else []
    return "\n".join([head, *kept, *last]) + "\n"


def sections(report: Report) -> List[Tuple[str, List[str]]]:
    """What stands behind the rows, each with its title."""
    lines = [f"no call was decided by {statement_words(it)}" for it in report.statements]
    lines += [f"no event is of {it}" for it in report.people]
    found = [
        ("Not asked for", [it.strip() for it in missed_lines(report, FEW)]),
        (f"Unused, {LIST}", lines),
        ("Notes", report.notes),
    ]
    return [it for it in found if it[1]]


STYLE = """body{font:15px/1.45 system-ui,sans-serif;margin:2em auto;max-width:75em;padding:0 1em;color:#1c1c1c;background:#fff}
table{border-collapse:collapse;width:100%}th,td{border:1px solid #bbb;padding:.35em .5em;text-align:left;vertical-align:top}
th{background:#eee}td{overflow-wrap:anywhere}@media(prefers-color-scheme:dark){body{color:#eee;background:#161616}th{background:#333}}"""


def shown(text: str) -> str:
    return html.escape(line_of(text))


def as_page(report: Report) -> str:
    """One HTML page without a script, and with nothing from outside."""
    digest = base64.b64encode(hashlib.sha256(STYLE.encode()).digest()).decode()
    policy = f"default-src 'none'; style-src 'sha256-{digest}'"
    out = ['<!DOCTYPE html>\n<html lang="en"><head><meta charset="utf-8">']
    out.append(f'<meta http-equiv="Content-Security-Policy" content="{policy}"><title>Calls of a log</title>')
    out.append(f"<style>{STYLE}</style></head><body><h1>{shown(report.summary())}</h1><p>{shown(report.asked())}</p>")
    for change, title in TITLES.items():
        rows = [it for it in report.replay.told() if it.change == change]
        if rows:
            heads = "".join(f"<th>{it}</th>" for it in COLUMNS)
            out.append(f"<h2>{shown(title[0].upper() + title[1:])}</h2><table><thead><tr>{heads}</tr></thead><tbody>")
            out += [f"<tr>{''.join(f'<td>{shown(it)}</td>' for it in cells(row))}</tr>" for row in rows]
            out.append("</tbody></table>")
    for title, lines in sections(report):
        out.append(f"<h2>{shown(title)}</h2><ul>{''.join(f'<li>{shown(it)}</li>' for it in lines)}</ul>")
    return "\n".join(out) + "\n</body></html>\n"
