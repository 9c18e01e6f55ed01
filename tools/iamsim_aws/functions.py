"""What the functions of a template give, as far as the template, its parameters and the export tell it."""

import re
from typing import Any, Callable, Dict, List, NamedTuple, Optional

from .faults import Fault
from .partial import unclear_in
from .templates import SAM, Template
from .yamls import Unclear

# How long a text may become, in characters: names that name one another could double it with each step.
LONGEST = 1 << 16
HOLE = re.compile(r"\$\{([^}]*)\}")
SUFFIXES = {"aws-cn": "amazonaws.com.cn"}
CONDITIONS = ("Fn::And", "Fn::Or", "Fn::Not", "Fn::Equals", "Condition")


class Nothing:
    """AWS::NoValue: what has it is left out."""


NOTHING = Nothing()


class Scope(NamedTuple):
    """What pseudo parameters give; an empty text is not known."""

    account: str
    partition: str
    region: str = ""
    stack: str = ""
    arn: str = ""

    def pseudo(self, name: str) -> Any:
        """The value of a pseudo parameter; None where there is none of that name."""
        suffix = SUFFIXES.get(self.partition, "amazonaws.com")
        known = {"AccountId": self.account, "Partition": self.partition, "Region": self.region, "URLSuffix": suffix}
        known.update(StackName=self.stack, StackId=self.arn, NotificationARNs="")
        if name == "AWS::NoValue":
            return NOTHING
        found = known.get(name[len("AWS::") :]) if name.startswith("AWS::") else None
        return Unclear(name) if found == "" else found


def text_of(value: Any) -> Optional[str]:
    """A value as a text, as CloudFormation writes numbers and Booleans; None where it is no text."""
    if isinstance(value, bool):
        return str(value).lower()
    return str(value) if isinstance(value, (str, int, float)) else None


class Functions:
    """Gives values of a template. `resource(name, attribute)` gives what a resource's Ref is, without an attribute, or one of
    its attributes."""

    def __init__(self, template: Template, given: Dict[str, Any], scope: Scope):
        self.template, self.given, self.scope = template, given, scope
        self.resource: Callable[[str, Optional[str]], Any] = lambda name, _: Unclear(f"the resource {name}")
        self.place = ""
        self.conditions: Dict[str, Any] = {}
        self.calls: Dict[str, Callable[[Any], Any]] = {
            "Ref": self.ref,
            "Fn::GetAtt": self.attribute,
            "Fn::Sub": self.substituted,
            "Fn::Join": self.joined,
            "Fn::If": self.chosen,
            "Fn::Select": self.selected,
            "Fn::Split": self.split,
            "Fn::FindInMap": self.mapped,
        }

    def fault(self, why: str) -> Fault:
        return Fault(f"{self.template.path}: {self.place}{': ' if self.place else ''}{why}")

    def value(self, given: Any) -> Any:
        """A value with what its functions give; parts that nobody knows are Unclear."""
        if given is None:
            raise self.fault("a value is null, which no template may have")
        if isinstance(given, str):
            return Unclear("a dynamic reference") if "{{resolve:" in given else given
        if isinstance(given, list):
            return [it for it in map(self.value, given) if it is not NOTHING]
        if not isinstance(given, dict):
            return given
        name = self.function_in(given)
        if name is not None:
            return self.call(name, given[name])
        made = {key: self.value(it) for key, it in given.items()}
        return {key: it for key, it in made.items() if it is not NOTHING}

    def bare(self, given: Any) -> Any:
        """What is written in the branch that Fn::If chooses; NOTHING where that is AWS::NoValue."""
        while isinstance(given, dict) and list(given) == ["Fn::If"]:
            name, one, other = self.arguments("Fn::If", given["Fn::If"], 3)
            found = self.condition(name)
            if isinstance(found, Unclear):
                return given
            given = one if found else other
        return NOTHING if given == {"Ref": "AWS::NoValue"} else given

    def function_in(self, given: Dict[str, Any]) -> Optional[str]:
        names = [it for it in given if it.startswith("Fn::") or it == "Ref" and len(given) == 1]
        if names and len(given) > 1:
            raise self.fault(f"{names[0]} stands beside other keys")
        return names[0] if names else None

    def call(self, name: str, given: Any) -> Any:
        if name in self.calls:
            return self.calls[name](given)
        return Unclear(name)

    def arguments(self, name: str, given: Any, *counts: int) -> List[Any]:
        if not isinstance(given, list) or len(given) not in counts:
            raise self.fault(f"{name} takes a list of {' or '.join(map(str, counts))}")
        return given

    def text(self, name: str, value: Any) -> Any:
        """A text that a function takes, or Unclear."""
        found = value if isinstance(value, Unclear) else text_of(value)
        if found is None:
            raise self.fault(f"{name} takes a text, and has {kind_of(value)}")
        return found

    def bounded(self, name: str, texts: List[str], more: int = 0) -> None:
        if sum(map(len, texts)) + more > LONGEST:
            raise self.fault(f"{name} gives a text of over {LONGEST:,} characters")

    def ref(self, given: Any) -> Any:
        if not isinstance(given, str):
            raise self.fault(f"Ref takes a name, and has {kind_of(given)}")
        pseudo = self.scope_of(given)
        if pseudo is not None:
            return pseudo
        if given in self.template.parameters:
            return self.parameter(given)
        if given in self.template.resources:
            return self.resource(given, None)
        return self.strange("Ref", given)

    def strange(self, function: str, name: str) -> Any:
        """A name that the template does not have; SAM makes more than is followed here."""
        if SAM in self.template.transforms() and not name.startswith("AWS::"):
            return Unclear(f"{name[:80]}, which SAM may make")
        raise self.fault(f"{function} names {name[:80]}, which the template does not have")

    def scope_of(self, name: str) -> Any:
        return self.given.get(name) if name.startswith("AWS::") and name in self.given else self.scope.pseudo(name)

    def parameter(self, name: str) -> Any:
        """The value of a parameter, given or by default."""
        of = self.template.parameters[name]
        kind, value = str(of.get("Type", "String")), self.given.get(name, of.get("Default"))
        if value is None:
            return Unclear(f"no value of the parameter {name}")
        if kind.startswith("AWS::SSM::Parameter::Value"):
            return Unclear(f"the parameter {name}, whose value SSM has")
        if isinstance(value, list):
            value = ",".join(str(text_of(it)) for it in value)
        if isinstance(value, Unclear):
            return value
        found = self.text(f"the parameter {name}", value)
        allowed = of.get("AllowedValues")
        if isinstance(allowed, list) and found not in map(text_of, allowed):
            raise self.fault(f"the parameter {name} may not be {found[:80]} (AllowedValues)")
        if kind.startswith("List<") or kind == "CommaDelimitedList":
            return [it.strip() for it in found.split(",")] if found else []
        return "{{resolve:" in found and Unclear("a dynamic reference") or found

    def attribute(self, given: Any) -> Any:
        two = list(given.partition(".")[::2]) if isinstance(given, str) else given
        name, attribute = self.arguments("Fn::GetAtt", two, 2)
        attribute = self.value(attribute)
        if isinstance(attribute, Unclear):
            return attribute
        if not isinstance(name, str) or not isinstance(attribute, str):
            raise self.fault("Fn::GetAtt takes the name of a resource and of an attribute")
        if name not in self.template.resources:
            return self.strange("Fn::GetAtt", name)
        return self.resource(name, attribute)

    def substituted(self, given: Any) -> Any:
        """Fn::Sub: `${!x}` is written `${x}`."""
        two = [given, {}] if isinstance(given, str) else self.arguments("Fn::Sub", given, 2)
        if not isinstance(two[0], str) or not isinstance(two[1], dict):
            raise self.fault("Fn::Sub takes a text, and maybe an object of values")
        found: Dict[str, Any] = {}
        for name in dict.fromkeys(HOLE.findall(two[0])):
            if not name.startswith("!"):
                found[name] = self.text("Fn::Sub", self.named(name, two[1]))
        unclear = unclear_in(found)
        if unclear or "{{resolve:" in two[0]:
            return unclear or Unclear("a dynamic reference")
        parts = HOLE.split(two[0])
        texts = [
            f"${{{it[1:]}}}" if n % 2 and it[:1] == "!" else found[it] if n % 2 else it for n, it in enumerate(parts)
        ]
        self.bounded("Fn::Sub", texts)
        return "".join(texts)

    def named(self, name: str, values: Dict[str, Any]) -> Any:
        if name in values:
            return self.value(values[name])
        resource, dot, _ = name.partition(".")
        return self.attribute(name) if dot and resource in self.template.resources else self.ref(name)

    def joined(self, given: Any) -> Any:
        between, items = self.arguments("Fn::Join", given, 2)
        items = self.value(items)
        if isinstance(items, Unclear):
            return items
        if not isinstance(between, str) or not isinstance(items, list):
            raise self.fault("Fn::Join takes a text and a list")
        texts = [self.text("Fn::Join", it) for it in items]
        unclear = unclear_in(texts)
        if unclear:
            return unclear
        self.bounded("Fn::Join", texts, len(between) * len(texts))
        return between.join(texts)

    def selected(self, given: Any) -> Any:
        index, items = map(self.value, self.arguments("Fn::Select", given, 2))
        if isinstance(index, Unclear) or isinstance(items, Unclear):
            return unclear_in([index, items])
        number = text_of(index) or ""
        if not isinstance(items, list) or not (number.isascii() and number.isdigit() and len(number) < 9):
            raise self.fault("Fn::Select takes a number and a list")
        if int(number) >= len(items):
            raise self.fault(f"Fn::Select takes the member {number} of a list of {len(items)}")
        return items[int(number)]

    def split(self, given: Any) -> Any:
        between, source = self.arguments("Fn::Split", given, 2)
        found = self.text("Fn::Split", self.value(source))
        if isinstance(found, Unclear):
            return found
        if not isinstance(between, str) or not between:
            raise self.fault("Fn::Split takes a text that separates, and a text")
        return found.split(between)

    def mapped(self, given: Any) -> Any:
        """Fn::FindInMap; with a value by default it is unknown."""
        keys = [self.value(it) for it in self.arguments("Fn::FindInMap", given, 3, 4)]
        unclear = unclear_in(keys)
        if unclear or len(keys) > 3:
            return unclear or Unclear("Fn::FindInMap")
        found: Any = self.template.mappings
        for it in keys:
            key = text_of(it)
            if not isinstance(found, dict) or key is None or key not in found:
                raise self.fault(f"Fn::FindInMap names {str(it)[:80]}, which the mappings do not have")
            found = found[key]
        return self.value(found)

    def chosen(self, given: Any) -> Any:
        name, one, other = self.arguments("Fn::If", given, 3)
        found = self.condition(name)
        if not isinstance(found, Unclear):
            return self.value(one if found else other)
        return self.value(one) if one == other else found

    def condition(self, name: Any) -> Any:
        """Whether a condition of the template is met, or Unclear."""
        if not isinstance(name, str) or name not in self.template.conditions:
            raise self.fault(f"no condition is called {str(name)[:80]}")
        if name not in self.conditions:
            self.conditions[name] = RuntimeError
            self.conditions[name] = self.is_met(self.template.conditions[name])
        if self.conditions[name] is RuntimeError:
            raise self.fault(f"the condition {name} hangs on itself")
        return self.conditions[name]

    def is_met(self, given: Any) -> Any:
        name = next(iter(given)) if isinstance(given, dict) and len(given) == 1 else ""
        if name not in CONDITIONS:
            return Unclear(name) if name.startswith("Fn::") else self.refuse_condition(given)
        of = given[name]
        if name == "Condition":
            return self.condition(of)
        if name == "Fn::Equals":
            one, other = map(self.value, self.arguments(name, of, 2))
            return unclear_in([one, other]) or same(one, other)
        if name == "Fn::Not":
            found = self.is_met(self.arguments(name, of, 1)[0])
            return found if isinstance(found, Unclear) else not found
        some = [self.is_met(it) for it in self.arguments(name, of, *range(1, 11))]
        decides = name == "Fn::Or"
        if any(it is decides for it in some):
            return decides
        return next((it for it in some if isinstance(it, Unclear)), not decides)

    def refuse_condition(self, given: Any) -> Any:
        raise self.fault(f"a condition is {kind_of(given)}, and no function of conditions")


def same(one: Any, other: Any) -> bool:
    """Numbers and Booleans are compared as texts."""
    if isinstance(one, list) and isinstance(other, list):
        return len(one) == len(other) and all(map(same, one, other))
    first, second = text_of(one), text_of(other)
    return first == second if first is not None and second is not None else bool(one == other)


def kind_of(value: Any) -> str:
    kinds = {dict: "an object", list: "a list", str: "a text", bool: "a Boolean", Nothing: "AWS::NoValue"}
    return "null" if value is None else kinds.get(type(value), "a number")
