"""The worlds of an estate, made an account at a time, and what the database knows before they are asked."""

import hashlib
import os
import sqlite3
from typing import Any, Dict, Iterable, Iterator, List, NamedTuple, Sequence, Set, Tuple

from .. import decimals, files
from ..arns import principal_arn, principal_text
from ..asking import whole
from ..checking import holder_of, lines, refused_documents
from ..documents import MEMBERS, TAGS, Policy, bare, changed, statements_of
from ..exports import Account, account_in, read_exports
from ..faults import Fault, tell
from ..making import Estate, has_service, outside, principals_of, refuse_doubles, resources_of
from ..points import alone, tell_points
from ..splitting import BYTES, STATEMENTS
from . import schema

# So many principals of a world are wanted where resources are cut into runs.
ACROSS = 256
LAYERS = {"policy": "resource", "sessionPolicies": "session"}


class Item(NamedTuple):
    """A principal, resource or account as a world has it: its JSON, and how many statements and bytes it brings."""

    value: Dict[str, Any]
    text: str
    statements: int
    size: int
    is_numeric: bool


def joined(items: Iterable[Item]) -> Tuple[str, bool]:
    """The JSON of items in a row, and whether numbers are compared in it."""
    every = list(items)
    return ",".join(it.text for it in every), any(it.is_numeric for it in every)


class Run(NamedTuple):
    """Actions and resources for which all principals are asked: their numbers, and what they bring to a world."""

    actions: Tuple[int, int]
    resources: Tuple[int, int]
    items: List[Item]
    text: Tuple[str, bool]
    accounts: Set[str]
    statements: int
    size: int

    @property
    def wide(self) -> int:
        return (self.actions[1] - self.actions[0]) * len(self.items)


def item_of(axis: str, value: Dict[str, Any]) -> Item:
    counts: List[int] = []

    def take(_kind: str, _path: str, policy: Policy) -> Any:
        counts.append(len(statements_of(policy.document)))
        return policy.document

    own = {name: it for name, it in value.items() if (axis, name) != ("principals", TAGS)}
    text = files.compact(changed(own, axis, MEMBERS[axis], take))
    return Item(value, text, sum(counts), len(files.encoded(text)) + 1, "Numeric" in text)


def cut(items: List[Item], most: int) -> Iterator[Tuple[int, int]]:
    """Runs of at most so many resources, about alike, and of at most half of what a world may hold."""
    most = -(-len(items) // -(-len(items) // most))
    at, statements, size = 0, 0, 0
    for n, it in enumerate(items):
        if it.statements > STATEMENTS // 2 or it.size > BYTES // 2:
            raise Fault(f"one resource alone is too large for a world: {it.value['arn']}")
        if n - at == most or statements + it.statements > STATEMENTS // 2 or size + it.size > BYTES // 2:
            yield at, n
            at, statements, size = n, 0, 0
        statements, size = statements + it.statements, size + it.size
    yield at, len(items)


class Plan:
    """Makes the worlds of an estate's files, and fills the database within a transaction that was begun."""

    def __init__(self, base: sqlite3.Connection, folder: str, estate: Estate, actions: List[str], cells: int):
        self.base, self.folder, self.estate, self.cells = base, folder, estate, cells
        of_iam = [it for it in actions if has_service([it], "iam")]
        self.groups = [[it for it in actions if it not in of_iam], of_iam]
        self.accounts: Dict[str, int] = {}
        self.policies: Dict[Tuple[str, str], int] = {}
        self.seen: Dict[Tuple[str, int], Tuple[Any, int]] = {}  # by the object, which is kept so that it is one
        self.parts: Dict[str, List[str]] = {}
        self.rows: Dict[str, List[Tuple[Any, ...]]] = {}  # of tables, which the database has after each account
        self.people = self.known = self.worlds = 0
        self.runs: List[Run] = []
        self.waiting: List[Item] = []
        self.refused: Dict[str, None] = {}  # a line for each policy that iamsim refuses, and who has it
        self.left_out: Dict[str, None] = {}
        self.owners: Dict[str, Item] = {}
        self.room = 200 + len(files.encoded(files.compact([estate.context or {}, self.groups])))
        self.statements, self.size = 0, self.room

    def make(self, paths: List[str]) -> None:
        self.keep("actions", list(enumerate(self.groups[0] + self.groups[1])))
        self.take_resources(self.read(paths))
        for account in sorted(self.parts):
            one = self.estate._replace(accounts=read_exports(self.parts[account]))
            self.seen = {}
            if self.refused_in("accounts", [self.estate.organization.account(account)]):
                continue
            people = principals_of(one, [])
            out = self.refused_in("principals", people)
            for value in (it for n, it in enumerate(people) if n not in out):
                self.take_principal(account, value)
            self.flush()
        self.write_worlds()
        if not self.known:
            raise Fault("the estate has no principals")
        rows = [
            (n, it, int(self.estate.organization.is_managing(it)), int(it in self.parts))
            for it, n in self.accounts.items()
        ]
        self.keep("accounts", rows)
        self.flush()

    def refused_in(self, axis: str, values: List[Dict[str, Any]]) -> Set[int]:
        """The numbers of those that have a policy which iamsim refuses; each such policy is kept in a line, with its holders."""
        world = whole({"accounts": [], "principals": [], "resources": [], axis: values})
        found = refused_documents(world)
        self.refused.update(dict.fromkeys(lines(world, found)))
        self.left_out.update((holder_of(world, it.path), None) for it in found)
        return {int(it.path.split("/")[1]) for it in found}

    def keep(self, table: str, rows: Sequence[Tuple[Any, ...]]) -> None:
        self.rows.setdefault(table, []).extend(rows)

    def flush(self) -> None:
        for table, rows in self.rows.items():
            schema.fill(self.base, table, rows)
        self.rows = {}

    def read(self, paths: List[str]) -> Estate:
        """The estate with its roles alone, as resources; each account is read again for its principals."""
        found: Dict[str, Account] = {}
        for path in paths:
            export, file = files.read_json(path), files.name_of(path)
            account = found.setdefault(account_in(export, file), Account(account_in(export, file)))
            account.add(export, file)
            self.people += len(account.users) + len(account.roles)
            self.parts.setdefault(account.account, []).append(path)
            account.users, account.groups, account.policies = [], {}, {}
        whole = self.estate._replace(accounts=[found[it] for it in sorted(found)])
        for line in outside(whole._replace(further=[])):
            tell(line)
        return whole

    def take_resources(self, every_role: Estate) -> None:
        """Roles have their trust policy for sts: alone; they stand first, so that each resource has one number."""
        assumed, passed = has_service(self.groups[0], "sts"), bool(self.groups[1])
        kinds = [["sts:AssumeRole"] if assumed else [], ["iam:PassRole"] if passed else []]
        every = [{"resources": resources_of(every_role, kind, [])} for kind in kinds]
        for it in every:
            tell_points(it)
        given = [alone(it)["resources"] for it in every]
        # Who is left out for one kind of actions is so for the other, so that each resource keeps one number.
        out = {of[n]["arn"] for of in given for n in self.refused_in("resources", of)}
        lists = [[item_of("resources", it) for it in of if it["arn"] not in out] for of in given]
        further = sum(it["arn"] not in out for it in every_role.further)
        longest = lists[0] if len(lists[0]) >= len(lists[1]) else lists[1]
        if not longest:
            raise Fault("the estate has no resources: see --resources, or ask for sts:AssumeRole")
        refuse_doubles([it.value["arn"] for it in longest[: len(longest) - further]])
        for n, value in enumerate(it.value for it in longest):
            fields = (n, value["arn"], self.account(value["account"]), int(value.get("sealed") is True))
            self.keep("resources", [fields])
            self.hold("resources", n, value)
        first = 0
        for group, items in zip(self.groups, lists):
            if group and items:
                self.cut_resources((first, first + len(group)), items, len(longest) - len(items))
            first += len(group)

    def cut_resources(self, actions: Tuple[int, int], items: List[Item], shift: int) -> None:
        wide = (actions[1] - actions[0]) * max(1, min(ACROSS, self.people))
        for at, end in cut(items, max(1, self.cells // wide)):
            some = items[at:end]
            accounts = {it.value["account"] for it in some}
            statements, size = sum(it.statements for it in some), sum(it.size for it in some) + 60 * len(accounts)
            self.runs.append(Run(actions, (at + shift, end + shift), some, joined(some), accounts, statements, size))

    def account(self, account: str) -> int:
        return self.accounts.setdefault(account, len(self.accounts))

    def hold(self, axis: str, holder: int, value: Dict[str, Any]) -> None:
        """Keeps which policies stand where in a holder."""
        found: List[Tuple[str, int, str, int]] = []

        def take(_kind: str, path: str, policy: Policy) -> Any:
            _, name, *numbers = path.split("/")
            place = "/".join([LAYERS.get(name, name), *(numbers or ["0"])])
            found.append((axis, holder, place, self.policy(policy)))
            return policy

        changed(value, axis, MEMBERS[axis], take)
        self.keep("holdings", found)

    def policy(self, policy: Policy) -> int:
        """The number of a policy, which is kept once; most stand with many holders."""
        key = policy.name, id(policy.document)
        if key not in self.seen:
            self.seen[key] = policy.document, self.new_policy(policy)
        return self.seen[key][1]

    def new_policy(self, policy: Policy) -> int:
        key = policy.name, hashlib.sha256(files.encoded(files.compact(policy.document))).hexdigest()
        if key in self.policies:
            return self.policies[key]
        n = self.policies[key] = len(self.policies)
        given = policy.document.get("Version") if isinstance(policy.document, dict) else None
        self.keep("policies", [(n, policy.name, given if isinstance(given, str) else None)])
        rows: List[Tuple[Any, ...]] = []
        for at, it in enumerate(statements_of(policy.document)):
            sid, effect = (it.get(name) if isinstance(it, dict) else None for name in ("Sid", "Effect"))
            texts = (one if isinstance(one, str) else None for one in (sid, effect))
            rows.append((None, n, at, *texts, files.compact(it)))
        self.keep("statements", rows)
        return n

    def take_principal(self, account: str, value: Dict[str, Any]) -> None:
        item, owner = item_of("principals", value), self.owners.get(account)
        if owner is None:
            owner = item_of("accounts", self.estate.organization.account(account))
            self.hold("accounts", self.account(account), owner.value)
        if self.waiting and not self.fits([item] if account in self.owners else [item, owner]):
            self.write_worlds()
        if not self.waiting and not self.fits([item, owner]):
            raise Fault(f"one principal alone is too large for a world: {principal_text(value)}")
        for it in [item] if account in self.owners else [item, owner]:
            self.statements, self.size = self.statements + it.statements, self.size + it.size
        self.owners[account] = owner
        self.waiting.append(item)
        fields = (self.known, principal_text(value), principal_arn(value), self.account(account))
        self.keep("principals", [fields])
        self.hold("principals", self.known, value)
        self.known += 1

    def fits(self, more: List[Item]) -> bool:
        """Whether what waits, with more and with any run of resources, is within the limits of a world."""
        statements, size = self.statements + more[0].statements, self.size + more[0].size
        if len(more) > 1:
            statements, size = statements + more[1].statements, size + more[1].size
        people = len(self.waiting) + 1
        return all(
            statements + it.statements <= STATEMENTS
            and size + it.size <= BYTES
            and (people * it.wide <= self.cells or people == 1)
            for it in self.runs
        )

    def write_worlds(self) -> None:
        """The worlds of the principals that wait, one for each run of resources."""
        first, people = self.known - len(self.waiting), joined(self.waiting)
        for run in self.runs if self.waiting else ():
            ids = run.accounts - set(self.owners)
            bare_ones = [item_of("accounts", {"id": it, **self.managing(it)}) for it in sorted(ids)]
            text = self.text_of(run, [*self.owners.values(), *bare_ones], people)
            files.write_file(os.path.join(self.folder, "worlds", f"{self.worlds}.json"), text + "\n")
            cells = len(self.waiting) * run.wide
            schema.fill(
                self.base,
                "worlds",
                [(self.worlds, "waiting", None, 0, cells, first, self.known, *run.actions, *run.resources)],
            )
            self.worlds += 1
        self.waiting, self.owners = [], {}
        self.statements, self.size = 0, self.room

    def managing(self, account: str) -> Dict[str, Any]:
        """What binds a principal binds no resource, so an account without principals wants this alone."""
        return {"management": True} if self.estate.organization.is_managing(account) else {}

    def text_of(self, run: Run, accounts: List[Item], people: Tuple[str, bool]) -> str:
        head: Dict[str, Any] = {"moment": self.estate.moment}
        if self.estate.context is not None:
            head["context"] = self.estate.context
        head["actions"] = (self.groups[0] + self.groups[1])[slice(*run.actions)]
        texts = {"accounts": joined(accounts), "principals": people, "resources": run.text}
        if any(is_numeric for _, is_numeric in texts.values()):
            axes = {"accounts": accounts, "principals": self.waiting, "resources": run.items}
            try:
                return files.compact(
                    bare(decimals.whole({**head, **{axis: [it.value for it in of] for axis, of in axes.items()}}))
                )
            except Fault:
                pass
        lists = (f'"{axis}":[{text}]' for axis, (text, _) in texts.items())
        return files.compact(head)[:-1] + "," + ",".join(lists) + "}"
