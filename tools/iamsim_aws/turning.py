"""What answers hang on: values of keys that nothing gives, or a later moment, with which an answer is another.

What allows is an example of 'iamsim matrix --any-key' (docs/LOGIC.md, 13.11). What denies is a loss of 'changes --any-key' (13.12) from a world
in which everything is allowed.
"""

from typing import Dict, Iterator, List, NamedTuple, Tuple

from . import points
from .arns import principal_text
from .asking import ask_all
from .bounds import hanging_keys, hangs
from .documents import FOREIGN, Policy, World, cells_of, conditions_of, each
from .examples import Example, ask_any_key, ask_pairs
from .patterns import is_pattern, variables_of
from .reports import Answers
from .speaking import statements

# Values of keys that are asked besides those of examples at most, and requests with them.
MOST, MOST_REQUESTS = 100, 20_000_000
ALL = {"Effect": "Allow", "Action": "*", "Resource": "*"}
TO_ALL = Policy("", {"Version": "2012-10-17", "Statement": {**ALL, "Principal": "*"}})
MAY_ALL = Policy("", {"Version": "2012-10-17", "Statement": ALL})
SILENT = "no values of these keys, which policies ask for and nothing gives, turn an answer"


class Turn(NamedTuple):
    """The decision in an example, and, where that is of one key, further values of it with which it is so too."""

    decision: str
    example: Example
    others: Tuple[str, ...] = ()

    @property
    def keys(self) -> List[Tuple[str, List[str]]]:
        """Each key with its values: of one those with any of which it is so, of several those that it has at once."""
        found = {key: [value] for key, value in self.example.pairs[:1]}
        for key, value in self.example.pairs[1:]:
            found.setdefault(key, []).append(value)
        return [(key, [*values, *self.others]) for key, values in found.items()]

    def given(self) -> str:
        return " or ".join([self.example.words(), *(f"`{it}`" for it in self.others)])

    def words(self) -> str:
        return f"{'allowed' if self.decision == 'allowed' else 'denied'} if {self.given()}"


class Hanging(NamedTuple):
    """What the answers of a world hang on, by their cells; what is not shown of those that are not allowed, and of those that are, in words."""

    turns: Dict[int, Turn]
    opens: List[str]
    notes: List[str]


def hanging(several: List[Answers]) -> List[Hanging]:
    """What the answers of each world hang on."""
    denied, found = denials(several), []
    for answers, turned, (losses, notes) in zip(several, ask_any_key([it.world for it in several]), denied):
        flags = answers.flags()
        turns = {cell: Turn("allowed", it) for cell, it in turned.examples.items() if not flags[cell]}
        opens = [turned.open_words(it) for it in turned.opens if not flags[it]]
        keys = hanging_keys(answers.world, answers.world["actions"]) if not (turns or losses or opens or notes) else []
        silent = [f"{SILENT}: {', '.join(keys)}"] if keys else []
        found.append(Hanging(with_others(answers, {**turns, **losses}), opens, notes + silent))
    return found


def with_others(answers: Answers, turns: Dict[int, Turn]) -> Dict[int, Turn]:
    """The same, where an example is of one value of a key with the others that policies name and that turn the answer too."""
    lone = {cell: it for cell, it in turns.items() if len(it.example.pairs) == 1 and it.example.moment is None}
    named = values_in(answers.world) if lone else {}
    keys = dict.fromkeys(key for it in lone.values() for key, _ in it.example.pairs)
    asked = [(key, value) for key in keys for value in named.get(key.lower(), ())]
    asked = asked[: min(MOST, MOST_REQUESTS // max(1, cells_of(answers.world)))]
    made = dict(turns)
    given = (Example(((key, (value,)),), None).given_to(answers.world) for key, value in asked)
    for (key, value), other in zip(asked, ask_all(list(given), True)):
        for cell, it in lone.items():
            is_so = (other.at(cell).decision == "allowed") == (it.decision == "allowed")
            if it.example.pairs[0][0] == key and it.example.pairs[0][1] != value and is_so:
                made[cell] = made[cell]._replace(others=(*made[cell].others, value))
    return made


def values_in(world: World) -> Dict[str, Dict[str, None]]:
    """The values for which statements on the world's actions ask of each key, by its lower case; no patterns and no variables."""
    found: Dict[str, Dict[str, None]] = {}
    for _, statement, _ in statements(world, world["actions"]):
        for _, key, values in (it for it in conditions_of(statement) if it[0] != "Null"):
            texts = (str(it).lower() if isinstance(it, bool) else str(it) for it in each(values))
            some = (it for it in texts if not is_pattern(it) and not variables_of(it))
            found.setdefault(key.lower(), {}).update(dict.fromkeys(some))
    return found


# --- what denies ------------------------------------------------------------------------------------------------------


def denials(several: List[Answers]) -> List[Tuple[Dict[int, Turn], List[str]]]:
    """What denies what is allowed, by cells, and of which it is not shown. By an access point each of both policies may."""
    found: List[Tuple[Dict[int, Turn], List[str]]] = [({}, []) for _ in several]
    asked = [(n, *it) for n, answers in enumerate(several) for it in allowed_in(answers)]
    for (n, cells, world), rows in zip(asked, ask_pairs([[allowing_all(it), it] for _, _, it in asked])):
        turns, notes = found[n]
        for row in (it for it in rows if (it["principal"], it["action"], it["resource"]) in cells):
            cell = cells[row["principal"], row["action"], row["resource"]]
            if row["change"] == "lost" and row["example"]:
                turns.setdefault(cell, Turn(row["after"], row["example"]))
            elif row["change"] == "open":
                one = {**world, "resources": [it for it in world["resources"] if it["arn"] == row["resource"]]}
                keys = ", ".join(hanging_keys(one, [row["action"]]))
                request = " ".join(several[n].row(cell)[:3])
                notes.append(f"{request}: whether any values of {keys} deny it is not shown")
    return found


def allowed_in(answers: Answers) -> Iterator[Tuple[Dict[Tuple[str, str, str], int], World]]:
    """Worlds with what is allowed, in each of which a text stands for one principal and one resource, with the cells of its requests."""
    world, flags = answers.world, answers.flags()
    for numbers, it in [(list(range(answers.shape[2])), points.alone(world)), *points.buckets(world)]:
        if not any(flags) or not hangs(it, it["actions"]):
            continue
        for people in occurrences([principal_text(one) for one in it["principals"]]):
            for things in occurrences([one["arn"] for one in it["resources"]]):
                cells = {
                    (principal_text(it["principals"][p]), action, it["resources"][r]["arn"]): cell
                    for p in people
                    for a, action in enumerate(it["actions"])
                    for r in things
                    for cell in [answers.cell(p, a, numbers[r])]
                    if flags[cell]
                }
                who, what, where = ({texts[n] for texts in cells} for n in range(3))
                own = {
                    "principals": [it["principals"][p] for p in people if principal_text(it["principals"][p]) in who],
                    "actions": [one for one in it["actions"] if one in what],
                    "resources": [it["resources"][r] for r in things if it["resources"][r]["arn"] in where],
                }
                if cells:
                    yield cells, {**it, **own}


def occurrences(texts: List[str]) -> List[List[int]]:
    """The numbers of texts, in lists in which none stands twice."""
    found: List[List[int]] = []
    seen: Dict[str, int] = {}
    for n, it in enumerate(texts):
        seen[it] = seen.get(it, -1) + 1
        found += [[]] if seen[it] == len(found) else []
        found[seen[it]].append(n)
    return found


def allowing_all(world: World) -> World:
    """The world in which everything is allowed."""
    kept = ("user", "role", "session", "context", FOREIGN)
    people = [{name: one for name, one in it.items() if name in kept} for it in world["principals"]]
    things = [
        {name: one for name, one in it.items() if name in ("arn", "account", "context")} for it in world["resources"]
    ]
    return {
        **world,
        "accounts": [{"id": it["id"]} for it in world["accounts"]],
        "principals": [{**it, "identity": [MAY_ALL]} for it in people],
        "resources": [{**it, "policy": TO_ALL} for it in things],
    }
