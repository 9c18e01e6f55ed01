"""What changes, told in lines: as a text, as CSV, and as Markdown for a review."""

from typing import Any, Dict, Iterable, Iterator, List, NamedTuple, Tuple

from .changing import Changes, same_cell
from .documents import statements_of
from .faults import TOLD, line_of
from .speaking import Origins, stand_words
from .references import is_mixed
from .reports import csv_text
from .strangers import is_stranger
from .telling import BY, LACKS, deciding, is_everything

KINDS = ("gained", "lost")
MIXED = "of an action of one service on a resource of another (--services FOLDER leaves out those that no service has)"
# The characters that a comment on GitHub may have, and those that are kept for its last line.
LIMIT, LAST = 65_536, 200
# The resources of a row in Markdown; the others are counted.
FEW = 3


class Line(NamedTuple):
    """A request that is lost or gained, why, and what its texts stand for that are made up."""

    change: str
    principal: str
    action: str
    resource: str
    before: str
    after: str
    given: str
    why: List[str]
    stand: Origins
    is_administrator: bool

    def is_mixed(self) -> bool:
        return is_mixed(self.action, self.resource)

    def shown(self, text: str) -> str:
        """The action or the resource, with what it stands for."""
        return next(iter(stand_words(self.stand, text)), text)


def lines_of(changes: Changes, is_verbose: bool = False) -> List[Line]:
    cells = [(it, True) for it in changes.lost] + [(it, False) for it in changes.gained]
    return [line_for(changes, it, is_lost, is_verbose) for it, is_lost in cells]


def line_for(changes: Changes, cell: int, is_lost: bool, is_verbose: bool) -> Line:
    """A request that changes, and why it is decided now as it is; where it is no longer there, as it was."""
    one, other = (changes.before, changes.after) if is_lost else (changes.after, changes.before)
    there = same_cell(changes, cell, is_lost)
    row = one.row(cell)
    elsewhere = "absent" if there is None else other.at(there).decision
    decisions = (row.answer.decision, elsewhere) if is_lost else (elsewhere, row.answer.decision)
    answers, at = (other, there) if is_lost and there is not None else (one, cell)
    answer = answers.at(at)
    before = "was " if is_lost and there is None else ""
    why = [f"{before}{BY[answer.decision]} {it.words()}" for it in deciding(answers, at, is_verbose)] + [
        f"lacks {it}: {LACKS[it]}" for it in answer.lacks
    ]
    if is_lost and there is not None:
        why += [f"was {BY['allowed']} {it.words()}" for it in deciding(one, cell, is_verbose)]
    request = row.principal, row.action, row.resource
    is_administrator = may_everything(one.world["principals"][one.place(cell)[0]])
    change, stand = "lost" if is_lost else "gained", changes.stand.get((is_lost, cell), {})
    return Line(change, *request, *decisions, changes.given, why, stand, is_administrator)


def parted(lines: List[Line]) -> List[Tuple[str, List[Line]]]:
    """What is gained and what is lost, and last what hardly any service has."""
    plain = [it for it in lines if not it.is_mixed()]
    kinds = [(kind, [it for it in plain if it.change == kind]) for kind in KINDS]
    mixed = sorted((it for it in lines if it.is_mixed()), key=lambda it: KINDS.index(it.change))
    return [(title, of) for title, of in [*kinds, (f"{len(mixed)} {MIXED}", mixed)] if of]


def may_everything(principal: Dict[str, Any]) -> bool:
    """Whether an identity policy allows a principal everything."""
    every = (statement for it in principal.get("identity") or [] for statement in statements_of(it.document))
    return not is_stranger(principal) and any(map(is_everything, every))


def verdict(lines: List[Line], scope: str) -> str:
    """What is gained and lost, and by how many."""
    told = []
    for kind in KINDS:
        of = [it for it in lines if it.change == kind]
        who = len({it.principal for it in of})
        by = f" by {who} principal{'s' if who > 1 else ''}" if of else ""
        is_grave = kind == "gained" and any(it.is_administrator for it in of)
        told.append(f"{len(of)} {kind}{by}{', among them an administrator,' if is_grave else ''}")
    return f"{' and '.join(told)}, of {scope}"


def summary(lines: List[Line], scope: str) -> str:
    counts: Dict[str, int] = {kind: sum(it.change == kind for it in lines) for kind in KINDS}
    return f"{counts['lost']} lost and {counts['gained']} gained, of {scope}"


def as_text(lines: List[Line], scope: str) -> str:
    found = [summary(lines, scope)]
    for title, of in parted(lines):
        found.append(f"{title}:")
        for it in of:
            given = f", if {it.given}" if it.given else ""
            found.append(f"{'-' if it.change == 'lost' else '+'} {it.principal} {it.action} {it.resource}{given}")
            found += [f"    {line}" for line in [*stand_words(it.stand, it.action, it.resource), *it.why]]
    return "".join(f"{line_of(it)}\n" for it in found)


def as_csv(lines: List[Line], _scope: str) -> str:
    header = ["change", "principal", "action", "resource", "before", "after", "if", "why", "stands for"]
    rows = sorted(lines, key=Line.is_mixed)
    stands = ["; ".join(stand_words(it.stand, it.action, it.resource)) for it in rows]
    return csv_text(header, [[*it[:7], "; ".join(it.why), stand] for it, stand in zip(rows, stands)])


SIGNS = {ord(it): f"&#{ord(it)};" for it in "&<>|`*_[]\\~@#"}


def code(text: str) -> str:
    """A text as code in a table of Markdown, whatever it holds."""
    return f"<code>{line_of(text).translate(SIGNS)}</code>"


def grouped(lines: Iterable[Any], key: Any) -> Iterator[Tuple[Any, List[Any]]]:
    """The lines that are alike by a key, in the order of the first of each."""
    found: Dict[Any, List[Any]] = {}
    for it in lines:
        found.setdefault(key(it), []).append(it)
    yield from found.items()


# What a principal gains or loses for one reason, in a line for each kind of request, with how many they are.
Rows = Tuple[Tuple[str, int], ...]
Block = Tuple[Tuple[str, Rows], ...]


def rows_of(lines: List[Line]) -> Iterator[Tuple[str, int]]:
    """Lines on the requests of one principal: all actions on the same resources in one, of which the first are named."""
    of_action = {action: tuple(it.shown(it.resource) for it in of) for action, of in grouped(lines, by_action)}
    for resources, actions in grouped(of_action, of_action.__getitem__):
        more = f" and {len(resources) - FEW} more" if len(resources) > FEW else ""
        names = (", ".join(map(code, of)) for of in (actions, resources[:FEW]))
        yield " on ".join(names) + more, len(actions) * len(resources)


def by_action(line: Line) -> str:
    return line.shown(line.action)


def reason_of(line: Line) -> str:
    given = [f"if {line.given}"] if line.given else []
    return "; ".join([f"{line.before}, now {line.after}", *given, *line.why])


def block_of(lines: List[Line]) -> Block:
    """What one principal gains or loses, by reasons."""
    return tuple((reason, tuple(rows_of(of))) for reason, of in grouped(lines, reason_of))


def blocks_of(lines: List[Line]) -> Iterator[Tuple[Tuple[Block, bool], List[str]]]:
    """The blocks, each with whether it is of administrators, and of whom it is."""
    own = {
        who: (block_of(of), any(it.is_administrator for it in of))
        for who, of in grouped(lines, lambda it: it.principal)
    }
    yield from grouped(own, own.__getitem__)


def pieces_of(lines: List[Line]) -> Iterator[Tuple[str, int]]:
    """The lines in Markdown, in blocks by principal; the first of a block with what stands above it. Of several principals
    for whom the same holds there is one block, which they end."""
    for title, of in parted(lines):
        head = ["", f"### {title[0].upper()}{title[1:]}"]
        for (block, is_administrator), people in blocks_of(of):
            who = f"{len(people)} principals" if people[1:] else code(people[0])
            what = "administrators" if people[1:] else "an administrator"
            head += ["", f"#### {who}{f', {what}' if is_administrator else ''}", ""]
            for reason, rows in block:
                head.append(f"- {code(reason)}")
                for row, count in rows:
                    yield "\n".join([*head, f"  - {row}"]), 0 if people[1:] else count
                    head = []
            head = ["", "Each of:", ""]
            for it in people if people[1:] else ():
                yield "\n".join([*head, f"- {code(it)}"]), sum(count for _, rows in block for _, count in rows)
                head = []
            head = []


def fitting(pieces: Iterable[Tuple[str, int]], room: int) -> Tuple[List[str], int]:
    """The pieces that there is room for, and the count of the others."""
    kept: List[str] = []
    left = 0
    for text, count in pieces:
        room -= len(text) + 1
        if room < 0:
            left += count
        else:
            kept.append(text)
    return kept, left


def as_markdown(lines: List[Line], scope: str) -> str:
    """For a comment on GitHub, with what was told on standard error; its last line says what it has no room for."""
    head = f"**{verdict(lines, scope)}**"
    notes, untold = fitting(((f"- {code(it)}", 1) for it in TOLD), LIMIT // 4)
    notes = ["", "### Notes", "", *notes] if notes else []
    rows, left = fitting(pieces_of(lines), LIMIT - LAST - len("\n".join([head, *notes])))
    last = f"{left} requests and {untold} notes are left out, for which a comment has no room: --format csv has all"
    return "\n".join([head, *rows, *notes, *(["", last] if left or untold else [])]) + "\n"
