"""Questions to the database of an estate: what is allowed, and by which statements."""

import bisect
import json
from typing import Any, Dict, Iterator, List, NamedTuple, Tuple

from ..arns import names_of_resource, resource_part
from ..faults import Fault, line_of
from ..patterns import any_matches, matcher
from ..telling import LAYERS
from . import schema

NOTE = (
    "the database has what is allowed alone: not who is outside the exports, nor what hangs on keys that nothing gives"
)
WORDS = {
    "allowed": "allowed",
    "notAllowed": "not allowed",
    "unknown": "unknown, since its world is not loaded or it was not asked for",
}


class Request(NamedTuple):
    """A request, and the number of what allows it; none where it is not allowed, or not known, as of a world that is not
    loaded."""

    principal: str
    action: str
    resource: str
    reason: Any
    is_known: bool = True

    @property
    def decision(self) -> str:
        return "allowed" if self.reason is not None else "notAllowed" if self.is_known else "unknown"


class World(NamedTuple):
    """A world that is loaded: the first and the end of its principals, actions and resources."""

    p: int
    end_p: int
    a: int
    end_a: int
    r: int
    end_r: int


class Cause(NamedTuple):
    layer: str
    policy: str
    number: int
    sid: str
    json: Any

    def words(self) -> str:
        sid = f" {self.sid}" if self.sid else ""
        return f"{self.policy}, statement {self.number}{sid} ({LAYERS[self.layer]})"


class Database:
    def __init__(self, path: str):
        self.base = schema.opened(path)
        self.base.execute("PRAGMA temp_store = MEMORY")
        self.known: Dict[int, List[Cause]] = {}
        ranges = "first_principal, end_principal, first_action, end_action, first_resource, end_resource"
        self.done = [World(*it) for it in self.base.execute(f"SELECT {ranges} FROM worlds WHERE ended = 'done'")]

    def choose(self, table: str, rows: List[int]) -> None:
        self.base.execute(f"CREATE TEMP TABLE {table} (n INTEGER PRIMARY KEY)")
        self.base.executemany(f"INSERT INTO {table} VALUES (?)", ((it,) for it in rows))

    def choice(self, principal: str, action: str, resource: str) -> Tuple[int, int, int]:
        """Chooses by three patterns; how many principals, actions and resources they mean."""
        people = self.base.execute("SELECT principal, name, arn FROM principals")
        names = ((n, [name, arn, resource_part(arn), resource_part(arn).split("/")[-1]]) for n, name, arn in people)
        some = [n for n, it in names if principal == "*" or any_matches([principal], it)]
        is_action = matcher(action, True)
        actions = [n for n, name in self.base.execute("SELECT action, name FROM actions") if is_action(name)]
        every = self.base.execute("SELECT resource, arn FROM resources")
        of = [n for n, arn in every if any_matches([resource], names_of_resource(arn))]
        for what, pattern, found in (
            ("principal", principal, some),
            ("action", action, actions),
            ("resource", resource, of),
        ):
            if not found:
                raise Fault(f"no {what} of the database matches {pattern}")
            self.choose(f"some_{what}s", found)
        return len(some), len(actions), len(of)

    def allowed(self) -> Iterator[Request]:
        """The chosen requests that are allowed, in order."""
        command = """SELECT p.name, a.name, r.arn, x.reason FROM some_resources sr CROSS JOIN some_actions sa
          CROSS JOIN access x ON x.resource = sr.n AND x.action = sa.n AND x.principal IN (SELECT n FROM some_principals)
          JOIN principals p ON p.principal = x.principal JOIN actions a ON a.action = sa.n JOIN resources r ON r.resource = sr.n
          ORDER BY x.principal, x.action, x.resource"""
        return (Request(*it) for it in self.base.execute(command))

    def counted(self) -> Tuple[int, int]:
        """How many principals are allowed, and by how many of the chosen requests, of all principals."""
        command = """SELECT count(DISTINCT x.principal), count(*) FROM some_resources sr CROSS JOIN some_actions sa
          CROSS JOIN access x ON x.resource = sr.n AND x.action = sa.n"""
        who, count = self.base.execute(command).fetchone()
        return int(who), int(count)

    def every(self) -> Iterator[Request]:
        """All chosen requests, in order."""
        command = """SELECT p.name, a.name, r.arn, x.reason, sp.n, sa.n, sr.n
          FROM some_principals sp CROSS JOIN some_actions sa CROSS JOIN some_resources sr
          LEFT JOIN access x ON x.principal = sp.n AND x.action = sa.n AND x.resource = sr.n
          JOIN principals p ON p.principal = sp.n JOIN actions a ON a.action = sa.n JOIN resources r ON r.resource = sr.n
          ORDER BY sp.n, sa.n, sr.n"""
        last: Tuple[int, int] = (-1, -1)
        asked: List[World] = []
        for *request, p, a, r in self.base.execute(command):
            if (p, a) != last:
                last, asked = (p, a), [it for it in self.done if it.p <= p < it.end_p and it.a <= a < it.end_a]
            yield Request._make([*request, any(it.r <= r < it.end_r for it in asked)])

    def unknown(self) -> int:
        """How many of the chosen requests of all principals no world that is loaded has asked for."""
        people, actions, resources = map(self.rows_of, ("principals", "actions", "resources"))

        def within(rows: List[int], first: int, end: int) -> int:
            return bisect.bisect_left(rows, end) - bisect.bisect_left(rows, first)

        known = sum(
            within(people, it.p, it.end_p) * within(actions, it.a, it.end_a) * within(resources, it.r, it.end_r)
            for it in self.done
        )
        return len(people) * len(actions) * len(resources) - known

    def rows_of(self, name: str) -> List[int]:
        return [it[0] for it in self.base.execute(f"SELECT n FROM some_{name} ORDER BY n")]

    def causes(self, it: Request) -> List[Cause]:
        """The statements that allow a request, none where it is not allowed; one that stands at several levels once."""
        if it.reason is None:
            return []
        if it.reason not in self.known:
            command = "SELECT layer, policy, statement, sid, json FROM causes WHERE reason = ? ORDER BY number"
            rows = self.base.execute(command, (it.reason,)).fetchall()
            self.known[it.reason] = [
                Cause(layer, name, n, sid or "", json.loads(of)) for layer, name, n, sid, of in rows
            ]
        return self.known[it.reason]

    def told(self, it: Request, is_long: bool) -> List[str]:
        """An answer in lines."""
        lines = [f"{WORDS[it.decision]}: {it.principal} {it.action} {it.resource}"]
        for cause in self.causes(it):
            lines.append(f"  allowed by {cause.words()}")
            if is_long:
                lines += [f"    {one}" for one in json.dumps(cause.json, indent=2, ensure_ascii=False).split("\n")]
        return [line_of(one) for one in lines]

    def as_json(self, it: Request) -> Dict[str, Any]:
        statements = [
            {"layer": c.layer, "policy": c.policy, "statement": c.number, "sid": c.sid, "json": c.json}
            for c in self.causes(it)
        ]
        head = {"principal": it.principal, "action": it.action, "resource": it.resource}
        return {**head, "decision": it.decision, "statements": statements}

    def as_fields(self, it: Request) -> List[str]:
        names = [cause.words() for cause in self.causes(it)]
        return [it.principal, it.action, it.resource, it.decision, "; ".join(names)]
