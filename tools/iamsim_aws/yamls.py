"""Templates in YAML, with the short forms of CloudFormation's functions, read by python3-yaml's safe loader."""

from typing import Any, Dict, List, Optional, Tuple

from .faults import Fault

# How deep values may lie, and how many there may be when each alias is written out.
DEEPEST, MOST = 100, 200_000
FUNCTIONS = [
    "Base64",
    "Cidr",
    "FindInMap",
    "ForEach",
    "GetAtt",
    "GetAZs",
    "ImportValue",
    "Join",
    "Length",
    "Select",
    "Split",
]
FUNCTIONS += ["Sub", "ToJsonString", "Transform", "And", "Equals", "If", "Not", "Or", "Contains", "EachMemberEquals"]
FUNCTIONS += ["EachMemberIn", "RefAll", "ValueOf", "ValueOfAll"]
PLAIN, SCALARS = "tag:yaml.org,2002:", ("str", "null", "bool", "int", "float")
# What is longer is no number that a template has a use for.
LONGEST = 64


class Unclear:
    """What stands for a value that nobody knows, and why."""

    def __init__(self, why: str):
        self.why = why


class Part:
    """A list or object that is being read: its tag, its anchor, and a key whose value is awaited."""

    def __init__(self, value: Any, tag: Optional[str], anchor: Optional[str], line: int):
        self.value, self.tag, self.anchor, self.line = value, tag, anchor, line
        self.key: Optional[str] = None
        self.count = 1


class Reader:
    """Builds a value of a YAML text, event by event, so that no text takes it deep or long."""

    def __init__(self, text: str, what: str, yaml: Any):
        self.what, self.yaml = what, yaml
        base = getattr(yaml, "CSafeLoader", yaml.SafeLoader)
        self.loader = base(text)
        self.parts: List[Part] = []
        self.anchors: Dict[str, Tuple[Any, int]] = {}
        self.count = 0
        self.found: List[Any] = []

    def fault(self, line: int, why: str) -> Fault:
        return Fault(f"{self.what}: line {line}: {why}")

    def read(self) -> Any:
        yaml = self.yaml
        while self.loader.check_event():
            event = self.loader.get_event()
            line = event.start_mark.line + 1
            if isinstance(event, (yaml.SequenceStartEvent, yaml.MappingStartEvent)):
                if len(self.parts) >= DEEPEST:
                    raise self.fault(line, f"it is nested deeper than {DEEPEST}")
                start: Any = [] if isinstance(event, yaml.SequenceStartEvent) else {}
                if self.awaits_key():
                    raise self.fault(line, "a key is a list or an object")
                self.parts.append(Part(start, event.tag, event.anchor, line))
            elif isinstance(event, yaml.ScalarEvent):
                is_plain_key = self.awaits_key() and not event.tag
                self.add(event.value if is_plain_key else self.scalar(event, line), event.anchor, 1, line)
            elif isinstance(event, yaml.AliasEvent):
                self.alias(event.anchor, line)
            elif isinstance(event, (yaml.SequenceEndEvent, yaml.MappingEndEvent)):
                part = self.parts.pop()
                self.count -= part.count - 1
                self.add(self.tagged(part.tag, part.value, part.line), part.anchor, part.count, line)
        if len(self.found) != 1:
            raise Fault(f"{self.what}: it has {len(self.found)} documents of YAML, and a template is one")
        return self.found[0]

    def awaits_key(self) -> bool:
        """Whether what comes is a key, which is a text as it is written."""
        part = self.parts[-1] if self.parts else None
        return part is not None and isinstance(part.value, dict) and part.key is None

    def alias(self, name: str, line: int) -> None:
        if name not in self.anchors:
            raise self.fault(line, f"the alias *{name} stands before the end of its anchor")
        value, count = self.anchors[name]
        self.add(value, None, count, line)

    def add(self, value: Any, anchor: Optional[str], count: int, line: int) -> None:
        """Puts a value where it belongs, as a key, a value or an item."""
        self.count += count
        if self.count > MOST:
            raise self.fault(line, f"with its aliases written out it has over {MOST:,} values")
        if anchor is not None:
            self.anchors[anchor] = (value, count)
        if not self.parts:
            self.found.append(value)
            return
        part = self.parts[-1]
        part.count += count
        if isinstance(part.value, list):
            part.value.append(value)
        elif part.key is None:
            part.key = self.key(value, part.value, line)
        else:
            part.value[part.key] = value
            part.key = None

    def key(self, value: Any, holder: Dict[str, Any], line: int) -> str:
        if not isinstance(value, str):
            raise self.fault(line, "a key is no text")
        if value == "<<":
            raise self.fault(line, "a template holds no merges (<<)")
        if value in holder:
            raise self.fault(line, f"the key {value[:80]} comes twice in one object")
        return value

    def scalar(self, event: Any, line: int) -> Any:
        if event.tag is not None and event.tag != "!":
            return self.tagged(event.tag, event.value, line)
        tag = self.loader.resolve(self.yaml.ScalarNode, event.value, event.implicit)
        return self.plain(tag, event.value, line)

    def plain(self, tag: str, text: str, line: int) -> Any:
        """A scalar without a short form; dates are texts, as in CloudFormation, and so is whatever has no other meaning."""
        kind = tag[len(PLAIN) :]
        if kind not in SCALARS[1:] or len(text) > LONGEST:
            return text
        try:
            value = self.loader.construct_object(self.yaml.ScalarNode(tag, text))
        except (ValueError, self.yaml.YAMLError):
            raise self.fault(line, f"{text[:40]} is no {kind}") from None
        if kind in ("int", "float") and str(value) != text:
            return Unclear(f"the number {text[:40]} without quotes")
        return value

    def tagged(self, tag: Optional[str], value: Any, line: int) -> Any:
        """The value of a short form as the whole one, which JSON has."""
        if tag is None or tag == "!" or tag in (f"{PLAIN}map", f"{PLAIN}seq"):
            return value
        if tag.startswith(PLAIN) and isinstance(value, str) and tag[len(PLAIN) :] in SCALARS:
            return self.plain(tag, value, line)
        name = tag[1:]
        if name in ("Ref", "Condition"):
            return {name: value}
        if not tag.startswith("!") or name not in FUNCTIONS:
            raise self.fault(line, f"{tag[:40]} is no short form of a function")
        if name == "GetAtt" and isinstance(value, str):
            value = list(value.partition(".")[::2])
        return {f"Fn::{name}": value}


def read_yaml(text: str, what: str) -> Any:
    try:
        import yaml  # type: ignore[import]
    except ImportError:
        why = "it is YAML, which python3-yaml reads (apt-get install python3-yaml): install it, or give the template as JSON"
        raise Fault(f"{what}: {why}") from None
    try:
        return Reader(text, what, yaml).read()
    except yaml.YAMLError as error:
        mark = getattr(error, "problem_mark", None)
        place = f" at line {mark.line + 1}" if mark else ""
        why = getattr(error, "problem", None) or getattr(error, "reason", None) or str(error)
        raise Fault(f"{what}: it is no YAML: {why}{place}") from None
