"""Random worlds that differ from others in a few places."""

import copy

from random_lines import without_doubles
from random_worlds import ACTION_PATTERNS, ACTIONS, Maker, RESOURCE_PATTERNS


def apart(world):
    """The world in which no text stands twice, so that requests can be told apart."""
    resources = {it["arn"]: it for it in world["resources"]}
    return {**without_doubles(world), "resources": list(resources.values())}


def documents(world):
    """Each document of a world, with its kind."""
    for one in world["accounts"]:
        yield from (("org", it) for level in one.get("org", []) for it in level)
    for one in world["resources"]:
        yield from (("control", it) for level in one.get("control", []) for it in level)
        yield from (("resource", it) for it in [one.get("policy")] if it)
    for one in world["principals"]:
        yield from (("identity", it) for it in [*one.get("identity", []), *one.get("sessionPolicies", [])])
        yield from (("identity", it) for it in [one.get("boundary")] if it)


class Changer:
    """Changes worlds by its dice."""

    def __init__(self, seed):
        self.maker = Maker(f"changed {seed}")
        self.dice = self.maker.dice

    def freed(self, world):
        """The world in which most principals may do more, so that there is access to gain and to lose."""
        for it in world["accounts"]:
            if self.maker.often(0.5):
                it.pop("org", None)
        for it in world["principals"]:
            if self.maker.often(0.5):
                it.pop("boundary", None)
            if self.maker.often(0.8):
                allow = {
                    "Effect": "Allow",
                    "Action": self.maker.texts(ACTION_PATTERNS),
                    "Resource": self.maker.texts(RESOURCE_PATTERNS),
                }
                it["identity"] = [*it.get("identity", []), {"Version": "2012-10-17", "Statement": allow}]
        return world

    def changed(self, world):
        """The world with some changes."""
        world = copy.deepcopy(world)
        several = [*[self.document] * 3, self.principal, self.member, self.resource, self.rest]
        for _ in range(self.dice.randint(2, 6)):
            self.dice.choice(several)(world)
        for name in ("principals", "actions", "resources"):
            if self.maker.often(0.3):
                self.dice.shuffle(world[name])
        return apart(world)

    def document(self, world):
        """A statement comes, goes, or says something else, mostly one of a principal's."""
        found = list(documents(world))
        own = [it for it in found if it[0] == "identity"]
        found = own if own and self.maker.often(0.6) else found
        if not found:
            return
        kind, it = self.dice.choice(found)
        own = it["Statement"] if isinstance(it["Statement"], list) else [it["Statement"]]
        it["Statement"] = own
        how = self.dice.randrange(4)
        if how == 0 or not own:
            own.insert(self.dice.randrange(len(own) + 1), self.maker.statement(kind, 9))
        elif how == 1:
            own.pop(self.dice.randrange(len(own)))
        else:
            self.statement(self.dice.choice(own))

    def statement(self, it):
        """A statement loses its condition, or its actions or resources are others, or wider."""
        names = ("Action", "NotAction", "Resource", "NotResource", "Condition")
        name = self.dice.choice([name for name in it if name in names])
        patterns = ACTION_PATTERNS if name.endswith("Action") else RESOURCE_PATTERNS
        if name == "Condition":
            del it[name]
        elif self.maker.often(0.5):
            it[name] = self.maker.texts(patterns)
        else:
            texts = [it[name]] if isinstance(it[name], str) else it[name]
            it[name] = [self.wider(one) for one in texts]

    def wider(self, text):
        """A policy's text with `*` behind it, or in place of its end, where the grammar has it."""
        if ":" not in text or text.endswith("*"):
            return text
        cut = text.rindex(":") + 1
        return text[: self.dice.randrange(cut, len(text) + 1)].split("${")[0] + "*"

    def principal(self, world):
        """A policy or a boundary of a principal comes or goes, or other keys."""
        if not world["principals"]:
            return
        it = self.dice.choice(world["principals"])
        how = self.dice.randrange(4)
        if how == 0:
            it["identity"] = [*it.get("identity", []), self.maker.document("identity")]
        elif how == 1:
            it["identity"] = it.get("identity", [])[1:]
        elif how == 2 and "boundary" in it:
            del it["boundary"]
        elif how == 2:
            it["boundary"] = self.maker.document("identity")
        else:
            it["context"] = self.maker.context(["tag", "n", "many"])

    def member(self, world):
        """A principal, an action or a resource comes or goes."""
        name, make = self.dice.choice(
            [
                ("principals", self.maker.requester),
                ("actions", lambda: self.dice.choice(ACTIONS)),
                ("resources", self.maker.resource),
            ]
        )
        if world[name] and self.maker.often(0.5):
            world[name].pop(self.dice.randrange(len(world[name])))
        else:
            world[name].insert(self.dice.randrange(len(world[name]) + 1), make())

    def resource(self, world):
        """What a world says of a resource is said otherwise."""
        if world["resources"]:
            at = self.dice.randrange(len(world["resources"]))
            world["resources"][at] = {**self.maker.resource(), "arn": world["resources"][at]["arn"]}

    def rest(self, world):
        """The moment, the policies of an account, or the keys of all."""
        how = self.dice.randrange(3)
        if how == 0:
            world["moment"] = self.dice.choice([0, 1767225600, 253402300799])
        elif how == 1:
            self.dice.choice(world["accounts"])["org"] = self.maker.levels("org")
        else:
            world["context"] = self.maker.context(["k", "List", "aws:SourceIp", "when"])
