"""The reports of 'iamsim matrix --format json', and the answers to all requests of a world."""

import array
import csv
import io
import json
import re
from typing import Any, Dict, Iterator, List, NamedTuple, Tuple

from .arns import principal_text
from .documents import World, cells_of
from .faults import Fault
from .strangers import shown

DECISIONS = ["allowed", "explicitDeny", "implicitDeny"]

# What a row says besides its request. In JSON a quote inside a text is escaped, so no text holds these.
HEAD = re.compile(r'"decision":"(\w+)"(?:,"lacks":\[([^\]]*)\])?,"principal":')
TAIL = re.compile(r'"statements":\[([^\]]*)\]\}')


class Answer(NamedTuple):
    decision: str
    statements: Tuple[str, ...]
    lacks: Tuple[str, ...]


# The answer to what is not allowed, where nobody asks why.
REFUSED = Answer("implicitDeny", (), ())


class Row(NamedTuple):
    principal: str
    action: str
    resource: str
    answer: Answer


def rows_of(text: str) -> Iterator[Dict[str, Any]]:
    """The objects of a report, one after another; spaces may stand between them."""
    decoder, between = json.JSONDecoder(), re.compile(r"[\s,]*")
    try:
        at = between.match(text, text.index("[") + 1).end()  # type: ignore[union-attr]
        while text[at] != "]":
            row, at = decoder.raw_decode(text, at)
            yield row
            at = between.match(text, at).end()  # type: ignore[union-attr]
    except (IndexError, ValueError):
        raise Fault("the report is no list of JSON objects, or is cut off") from None


class Answers:
    """The answer to each cell of a world."""

    def __init__(self, world: World, cells: int = 0):
        self.world = world
        self.shape = len(world["principals"]), len(world["actions"]), len(world["resources"])
        self.numbers = array.array("I", bytes(4 * cells))
        self.table: List[Answer] = []
        self.known: Dict[Any, int] = {}

    def number(self, key: Any, make: Any) -> int:
        if key not in self.known:
            self.known[key] = len(self.table)
            self.table.append(make())
        return self.known[key]

    def at(self, cell: int) -> Answer:
        return self.table[self.numbers[cell]]

    def place(self, cell: int) -> Tuple[int, int, int]:
        _, actions, resources = self.shape
        return cell // (actions * resources), cell // resources % actions, cell % resources

    def cell(self, principal: int, action: int, resource: int) -> int:
        """The cell at a place."""
        return (principal * self.shape[1] + action) * self.shape[2] + resource

    def row(self, cell: int) -> Row:
        p, a, r = self.place(cell)
        world = self.world
        return Row(shown(world["principals"][p]), world["actions"][a], world["resources"][r]["arn"], self.at(cell))

    def texts(self, cell: int) -> Tuple[str, str, str]:
        """The texts of a request as the program has them."""
        p, a, r = (axis[n] for axis, n in zip(axes_of(self.world), self.place(cell)))
        return p, a, r

    def flags(self) -> bytes:
        """1 for each cell that is allowed, in order, else 0."""
        allowed = [it.decision == "allowed" for it in self.table]
        if len(allowed) <= 256:
            return array.array("B", self.numbers).tobytes().translate(bytes(allowed).ljust(256, b"\0"))
        return bytes(map(allowed.__getitem__, self.numbers))

    def allowed(self) -> List[int]:
        """The cells that are allowed, in order."""
        flags, found = self.flags(), []
        at = flags.find(1)
        while at >= 0:
            found.append(at)
            at = flags.find(1, at + 1)
        return found


def axes_of(world: World) -> Tuple[List[str], List[str], List[str]]:
    return (
        [principal_text(it) for it in world["principals"]],
        world["actions"],
        [it["arn"] for it in world["resources"]],
    )


def keys_of(world: World) -> List[List[Any]]:
    """What tells the principals, actions and resources of a world apart; of texts that stand for patterns an ARN may be of
    several accounts."""
    principals, actions, resources = axes_of(world)
    return [principals, actions, list(zip(resources, (it["account"] for it in world["resources"])))]


def quoted(text: str) -> str:
    return json.dumps(text, ensure_ascii=False)


def words(text: str) -> Tuple[str, ...]:
    return tuple(text[1:-1].split('","')) if text else ()


class Numbers(Dict[Any, int]):
    """The number of each value, in the order in which they come."""

    def __missing__(self, key: Any) -> int:
        self[key] = len(self)
        return self[key]


def written(world: World, numbers: Any, keys: List[Any], brief: bool) -> Iterator[str]:
    """The rows of a report as the program writes it."""
    principals, actions, resources = ([quoted(it) for it in axis] for axis in axes_of(world))
    lacks = ["" if brief else f',"lacks":[{it[0][1]}]' for it in keys]
    firsts = [f',"decision":"{it[0][0]}"{lack},"principal":' for it, lack in zip(keys, lacks)]
    lasts = ["}" if brief else f',"statements":[{it[1]}]}}' for it in keys]
    at = 0
    for principal in principals:
        for action in actions:
            head, middle = f'{{"action":{action},"cell":', f'{principal},"resource":'
            for resource in resources:
                n = numbers[at]
                yield f"{head}{at}{firsts[n]}{middle}{resource}{lasts[n]}"
                at += 1


def read_program(answers: Answers, text: str) -> bool:
    """Reads a report as the program writes it; whether it is of that form and of this world."""
    heads, tails = HEAD.findall(text), TAIL.findall(text)
    p, a, r = answers.shape
    if len(heads) != p * a * r or len(tails) not in (0, len(heads)):
        return False
    known = Numbers()
    answers.numbers = array.array("I", map(known.__getitem__, zip(heads, tails or [""] * len(heads))))
    answers.table = [Answer(decision, words(of), words(lacks)) for (decision, lacks), of in known]
    return "[" + ",".join(written(answers.world, answers.numbers, list(known), not tails)) + "]\n" == text


def read_rows(answers: Answers, text: str) -> None:
    """Reads a report with spaces or another order of its members."""
    principals, actions, resources = axes_of(answers.world)
    wanted = ((p, a, r) for p in principals for a in actions for r in resources)
    answers.numbers = array.array("I")
    for row in rows_of(text):
        try:
            key = row["decision"], tuple(row.get("statements", ())), tuple(row.get("lacks", ()))
            place = row["principal"], row["action"], row["resource"]
        except (AttributeError, KeyError, TypeError):
            raise Fault("the report is none of 'iamsim matrix --format json'") from None
        if place != next(wanted, None) or key[0] not in DECISIONS:
            raise Fault(f"cell {row.get('cell')} of the report is not that of the world: make both of the same world")
        answers.numbers.append(answers.number(key, lambda: Answer(*key)))


def read_report(world: World, text: str) -> Answers:
    """The answers of a report of the world."""
    if not text.startswith("["):
        raise Fault("the report is none of 'iamsim matrix --format json'")
    answers = Answers(world)
    if not read_program(answers, text):
        answers = Answers(world)
        read_rows(answers, text)
    if len(answers.numbers) != cells_of(world):
        raise Fault("the report has fewer cells than the world: make both of the same world")
    return answers


def read_allowed(world: World, text: str) -> Answers:
    """The answers of a report of what is allowed in the world; of the rest it does not say why."""
    answers = Answers(world, cells_of(world))
    answers.number(REFUSED, lambda: REFUSED)
    for row in rows_of(text):
        it = Answer(row["decision"], tuple(row.get("statements", ())), ())
        answers.numbers[row["cell"]] = answers.number(it, lambda it=it: it)
    return answers


def is_brief(text: str) -> bool:
    """Whether a report names no statements; a list without rows names none either."""
    return '"statements":[' not in text[:65536].replace(" ", "")


class Lines(io.StringIO):
    """Takes rows that end with both signs of a line's end, so that a field with either is quoted, and keeps the last."""

    def write(self, text: str) -> int:
        return super().write(text[:-2] + "\n")


def csv_text(header: List[str], rows: Any) -> str:
    out = Lines(newline="")
    writer = csv.writer(out, lineterminator="\r\n")
    writer.writerow(header)
    writer.writerows(rows)
    return out.getvalue()
