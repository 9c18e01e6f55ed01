"""Random lines for all names in random worlds, and names that they match."""

import json
import os
import random
import re
import subprocess
import sys
import tempfile

sys.path.insert(0, os.path.join(os.path.dirname(os.path.dirname(os.path.abspath(__file__))), "tools"))
from iamsim_aws.patterns import common, is_given, matcher, of_given, opened, signs_of, with_variables
from programs import iamsim
from random_worlds import ACTION_PATTERNS, ACTIONS, RESOURCE_PATTERNS, RESOURCES, requester

# So many texts are tried of each line, and so many actions of a pattern.
TEXTS, ALL_ACTIONS = 50, 8
IS_ARN = re.compile(r"\*|arn(:[^:]*){4}:.*", re.DOTALL).fullmatch
IS_ACTION = re.compile(r"[A-Za-z0-9-]+:[A-Za-z0-9_.-]+", re.ASCII).fullmatch
LETTERS = ["a", "b", "k", "x", "é", "1", "/", ":", "*", "?", "\\", "$", "{", "\n", '"']
PIECES = LETTERS + [
    "ann",
    "team/bob",
    "home",
    "b/k",
    "key/1",
    "role/build",
    "arn:aws:s3:::",
    "arn:aws:kms:eu:",
    "arn:",
    "dev",
]
ACTION_PIECES = ["", "x", "s3", "S3:", ":", "Get", "object", "Object", "Put", "List_", "kms", "sts:Assume", "-", ".v2"]


def asked(words, world):
    ran = subprocess.run([iamsim(), *words], input=world, capture_output=True, timeout=300)
    return ran.returncode, ran.stdout, ran.stderr


def elements(value):
    """The texts of all resource elements within a value."""
    if isinstance(value, list):
        for it in value:
            yield from elements(it)
    elif isinstance(value, dict):
        for name, it in value.items():
            if name in ("Resource", "NotResource"):
                yield from [it] if isinstance(it, str) else it
            else:
                yield from elements(it)


def without_doubles(world):
    """The world in which no principal and no action stands twice, so that a row tells its own."""
    principals = {requester(it): it for it in world["principals"]}
    return {**world, "principals": list(principals.values()), "actions": list(dict.fromkeys(world["actions"]))}


def numbers(texts):
    return {it: number for number, it in enumerate(texts)}


class Question:
    """Lines on a world, and on another one if there are two; maybe a pattern of actions, and names that these match."""

    def __init__(self, seed, world, *others):
        self.dice = random.Random(f"names {seed}")
        self.world = world
        texts, *further = [[it["arn"] for it in one["resources"]] for one in (world, *others)]
        self.named = texts + [it for more in further for it in more if it not in texts]
        # The numbers of the world's resources that each world has.
        self.known = [number for number, it in enumerate(texts) if all(it in more for more in further)]
        self.named_actions = list(dict.fromkeys(it for one in (world, *others) for it in one["actions"]))
        self.patterns = [*elements([world, *others]), *self.dice.sample(RESOURCE_PATTERNS, 3)]
        self.lines = [self.line() for _ in range(self.dice.randint(1, 3))]
        self.matchers = [matcher(it["pattern"]) for it in self.lines]
        self.action = self.dice.choice(ACTION_PATTERNS) if self.dice.random() < 0.4 else None

    def of_policy(self, text):
        """The pattern of a policy's text, in which variables are any text, or one."""
        if self.dice.random() < 0.5:
            return opened(text)
        return with_variables(text, lambda *_: of_given(self.dice.choice(PIECES)))

    def line(self):
        own = [of_given(it) for it in self.named + RESOURCES[:3]]
        pattern = self.widened(self.dice.choice([*own, *map(self.of_policy, self.patterns)]))
        if self.known and self.dice.random() < 0.7:
            return {"pattern": pattern, "like": self.dice.choice(self.known)}
        return {"pattern": pattern, "account": self.dice.choice(self.world["accounts"])["id"]}

    def widened(self, pattern):
        signs = [of_given(it[1]) if is_given(it) else it for it in signs_of(pattern)]
        at, how = self.dice.randrange(len(signs) + 1), self.dice.randrange(5)
        if how == 0:
            return pattern
        if how == 1:
            return "".join([*signs[:at], "?", *signs[at + 1 :]])
        if how == 2:
            return "".join(["*", *signs[at : at + 5], "*"])
        return "".join([*signs[:at], "*"])

    def filled(self, pattern, pieces):
        """A text that the pattern matches."""
        several = {
            "?": lambda: self.dice.choice(LETTERS),
            "*": lambda: "".join(self.dice.choices(pieces, k=self.dice.randrange(4))),
        }
        return "".join(it[1] if is_given(it) else several[it]() for it in signs_of(pattern))

    def text(self, line):
        """A text that a line may match: its own, that of a policy's pattern, one of both, or one that is spoiled."""
        own, other = line["pattern"], self.of_policy(self.dice.choice(self.patterns))
        text = self.filled(own if self.dice.random() < 0.4 else other, PIECES)
        if self.dice.random() < 0.3:
            text = common(own, other) or text
        if self.dice.random() < 0.3:
            at = self.dice.randrange(len(text) + 1)
            text = text[:at] + self.dice.choice(PIECES) + text[at + self.dice.randrange(2) :]
        return text

    def texts_of(self, number):
        """Texts that can be a resource's and that a line is the first to match, which no world names."""
        made = (self.text(self.lines[number]) for _ in range(4 * TEXTS))
        return list(
            dict.fromkeys(it for it in made if IS_ARN(it) and it not in self.named and self.first(it) == number)
        )[:TEXTS]

    def actions(self):
        """The actions that are asked about, or some of them."""
        if self.action is None:
            return self.named_actions
        made = [*ACTIONS, *(self.filled(self.action, ACTION_PIECES) for _ in range(6 * ALL_ACTIONS))]
        self.dice.shuffle(made)
        return list(dict.fromkeys(it for it in made if IS_ACTION(it) and matcher(self.action, True)(it)))[:ALL_ACTIONS]

    def first(self, text):
        """The number of the first line that matches; None where none does."""
        return next((number for number, it in enumerate(self.matchers) if it(text)), None)

    def has(self, text):
        """Whether a text can be a resource's and a line matches it."""
        return IS_ARN(text) and self.first(text) is not None

    def meant(self):
        """The numbers of the named texts that are asked about."""
        return [number for number, it in enumerate(self.named) if self.first(it) is not None]

    def resource(self, text):
        """A resource of a text that the world does not name."""
        said = self.lines[self.first(text)]
        return (
            {**self.world["resources"][said["like"]], "arn": text}
            if "like" in said
            else {"arn": text, "account": said["account"]}
        )

    def place(self, text):
        """What a row and the names that it stands for have in common, but for principal and action."""
        return text if text == "*" else self.first(text)


class Extended:
    """A world with more actions and resources behind its own, as many as it may have, and its matrix. What is said of a text tells who
    asks, a question or one side of it."""

    def __init__(self, question, actions, texts):
        self.question = question
        self.actions = list(dict.fromkeys([*question.world["actions"], *actions]))
        self.texts = list(dict.fromkeys(texts))
        status, out, said = self.matrix()
        while said == b"fault 2 World: 9 TooLarge\n":
            self.texts = self.texts[: len(self.texts) // 2]
            status, out, said = self.matrix()
        self.fault = said.decode()
        self.rows = [] if status else json.loads(out)
        self.count = len(question.world["resources"])
        self.width = self.count + len(self.texts)
        self.at = {"action": numbers(self.actions), "text": numbers(self.texts)}

    def matrix(self):
        world = self.question.world
        resources = world["resources"] + [self.question.resource(it) for it in self.texts]
        made = {**world, "actions": self.actions, "resources": resources}
        return asked(["matrix", "--format", "json", "--allow-empty"], json.dumps(made).encode())

    def cell(self, principal, action, resource):
        """The row of the numbers of a principal and a resource of the world, and of an action."""
        return self.rows[(principal * len(self.actions) + self.at["action"][action]) * self.width + resource]

    def number(self, text):
        """The number of the resource of a further text, if it has one."""
        return self.count + self.at["text"][text] if text in self.at["text"] else None


def least(found):
    """The least length of a text of each place and decision."""
    made = {}
    for place, decision, text in found:
        made[place, decision] = min(len(text), made.get((place, decision), len(text)))
    return made


def answers(said, hidden, found):
    """Whether what rows say answers for all that is found: with the same decision, and with texts of which none is longer."""
    return all(it[0] in hidden or it in said and said[it] <= found[it] for it in found)


def kept(name, text):
    """The path of a file with the text, for who looks at a contradiction."""
    path = os.path.join(tempfile.gettempdir(), name)
    with open(path, "wb") as it:
        it.write(text)
    return path
