"""Random contexts of keys that worlds leave open."""

import collections
import datetime
import json
import random
import re

# So many moments of each world, and so many contexts of each request at one.
MOMENTS, CONTEXTS = 4, 50
LAST = 253402300799
DERIVED = {
    f"aws:{it}".lower()
    for it in "PrincipalArn username PrincipalType PrincipalAccount ResourceAccount CurrentTime EpochTime".split()
}
VALUES = ["", "x", "true", "false", "0", "7", "-1", "10.0.0.1", "2001:db8::1", "2030-01-01T00:00:00Z", "QUJD", "arn:aws:s3:::b"]
VARIABLE = re.compile(r"\$\{([^},?*$]+)")


def listed(value):
    return value if isinstance(value, list) else [value]


def conditions(value):
    """The keys that entries within a value ask for, each with whether it asks for several values, and its own."""
    if isinstance(value, list):
        for it in value:
            yield from conditions(it)
    elif isinstance(value, dict):
        for name, it in value.items():
            if name == "Condition" and isinstance(it, dict):
                for operator, entries in it.items():
                    for key, values in entries.items():
                        yield key, operator.startswith("For"), [str(one) for one in listed(values)]
            else:
                yield from conditions(it)


def variables(value):
    return set(VARIABLE.findall(json.dumps(value, ensure_ascii=False)))


def seconds(value):
    """The second that a value names, if it does."""
    if re.fullmatch(r"\d{1,12}", value):
        yield int(value)
    else:
        try:
            then = datetime.datetime.fromisoformat(value.replace("Z", "+00:00"))
        except ValueError:
            return
        yield int((then if then.tzinfo else then.replace(tzinfo=datetime.timezone.utc)).timestamp())


def moments(dice, first, values):
    """Some moments from the first one on: itself, and those beside what policies name."""
    found = {second + more for it in values for second in seconds(it) for more in (-1, 0, 1)}
    found = [it for it in found | {first + 1, LAST} if first <= it <= LAST]
    return [first, *dice.sample(sorted(found), min(MOMENTS - 1, len(found)))]


class Keys:
    """The keys that worlds ask for, with values that tell something apart, and some moments from the later of theirs on."""

    def __init__(self, dice, *worlds):
        self.dice = dice
        self.values, self.several = collections.defaultdict(list), set()
        for key, several, values in conditions([*worlds]):
            self.values[key.lower()] += values
            self.several |= {key.lower()} if several else set()
        for key in variables([*worlds]):
            self.values[key.split(",")[0].strip().lower()] += []
        self.moments = moments(dice, max(it["moment"] for it in worlds), [it for values in self.values.values() for it in values])

    def open_beside(self, *parts):
        """The keys that none of these parts of worlds gives, and that follow from nothing."""
        return sorted(set(self.values) - DERIVED - {key.lower() for it in parts for key in it.get("context", {})})

    def value(self, key):
        said = self.dice.choice(self.values[key] or VALUES) if self.dice.random() < 0.7 else self.dice.choice(VALUES)
        return said.replace("*", self.dice.choice(["", "x", "1"])).replace("?", "x")

    def context(self, keys):
        chosen = [it for it in keys if self.dice.random() < 0.6]
        return {
            it: [self.value(it) for _ in range(self.dice.randint(0, 3))] if it in self.several else self.value(it)
            for it in chosen
        }


def with_open_keys(seed, world):
    """The world, which gives one in four of its keys and leaves the others open."""
    dice = random.Random(f"open keys {seed}")
    for part in (world, *world["principals"], *world["resources"]):
        if "context" in part:
            part["context"] = {key: it for key, it in part["context"].items() if dice.random() < 0.25}
    return world
