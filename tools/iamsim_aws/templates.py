"""Templates of CloudFormation, the values of their parameters, and what a stack has before them."""

import os
from typing import Any, Dict, List, NamedTuple, Optional, Tuple

from . import files
from .arns import account_of
from .faults import Fault
from .yamls import DEEPEST, Unclear, read_yaml

# What CloudFormation takes at most, in bytes.
LARGEST = 1 << 20
SECTIONS = ("Parameters", "Mappings", "Conditions", "Resources")
SAM = "AWS::Serverless-2016-10-31"
# Transforms whose work is seen here: SAM's own, and one that makes functions possible which are unknown wherever they stand.
TRANSFORMS = (SAM, "AWS::LanguageExtensions")
# A resource that is no more, or that an earlier change of the stack has left alone.
GONE = ("DELETE_COMPLETE", "DELETE_SKIPPED")

Objects = Dict[str, Dict[str, Any]]


class Template(NamedTuple):
    """A template: its sections are objects, and so are its resources, parameters and mappings."""

    path: str
    parameters: Objects
    mappings: Objects
    conditions: Dict[str, Any]
    resources: Objects
    further: Dict[str, Any]

    def transforms(self) -> List[Any]:
        given = self.further.get("Transform", [])
        return given if isinstance(given, list) else [given]

    def strange_transforms(self) -> List[str]:
        """Macros that may change anything."""
        names = [
            it if isinstance(it, str) else it.get("Name") if isinstance(it, dict) else None for it in self.transforms()
        ]
        return [str(it) for it in names if it not in TRANSFORMS]

    def names(self) -> Tuple[str, ...]:
        """What options may call it: its path, its file's name, and this without its endings."""
        base = os.path.basename(self.path)
        return self.path, base, base.split(".")[0]


class Stack(NamedTuple):
    """What is known of a stack before its template changes: the type and physical id of each resource, and the template
    that is deployed, each None where it is not given."""

    name: str = ""
    arn: str = ""
    physical: Optional[Dict[str, Tuple[str, str]]] = None
    template: Optional[Template] = None
    parameters: Optional[Dict[str, Any]] = None

    @property
    def is_known(self) -> bool:
        return self.physical is not None or self.template is not None


def refuse_deep(value: Any, what: str) -> None:
    layer, depth = [value], 0
    while layer:
        depth += 1
        if depth > DEEPEST:
            raise Fault(f"{what}: it is nested deeper than {DEEPEST}")
        lists = (it.values() if isinstance(it, dict) else it for it in layer if isinstance(it, (dict, list)))
        layer = [it for of in lists for it in of if isinstance(it, (dict, list))]


def value_of(text: str, what: str) -> Any:
    """The value of a template's text, JSON or YAML."""
    if len(text.encode("utf-8", "surrogatepass")) > LARGEST:
        raise Fault(f"{what}: it has over {LARGEST >> 20} MiB, which no template may have")
    is_json = text.lstrip()[:1] == "{" and not what.endswith((".yaml", ".yml"))
    if not is_json:
        return read_yaml(text, what)
    found = files.parsed(text, what, refuses_equal=True)
    refuse_deep(found, what)
    return found


def template_of(value: Any, what: str) -> Template:
    if not isinstance(value, dict) or not isinstance(value.get("Resources"), dict):
        raise Fault(f"{what}: it is no template of CloudFormation: it has no object Resources")
    for name in SECTIONS:
        if not isinstance(value.get(name, {}), dict):
            raise Fault(f"{what}: {name} is no object")
    # A condition may be anything, and what stands for several resources is none.
    for name in ("Parameters", "Mappings", "Resources"):
        for key, it in value.get(name, {}).items():
            if not isinstance(it, dict) and not key.startswith("Fn::"):
                raise Fault(f"{what}: {name}.{key} is no object")
    parameters, mappings, conditions, resources = (dict(value.get(it, {})) for it in SECTIONS)
    return Template(what, parameters, mappings, conditions, resources, value)


def read_template(path: str) -> Template:
    what = files.name_of(path)
    return template_of(value_of(files.read_text(path), what), what)


def read_parameters(path: str) -> Dict[str, Any]:
    """Values of parameters: an object, or a list as the calls of CloudFormation take it."""
    what, given = files.name_of(path), files.parsed(files.read_text(path), files.name_of(path), refuses_equal=True)
    if isinstance(given, dict) and isinstance(given.get("Parameters"), (dict, list)):
        given = given["Parameters"]
    found = given if isinstance(given, dict) else from_list(given, what)
    for name, it in found.items():
        items = it if isinstance(it, list) else [it]
        if not all(isinstance(one, (str, int, float, Unclear)) for one in items):
            raise Fault(f"{what}: the value of the parameter {name} is no text")
    return found


def from_list(given: Any, what: str) -> Dict[str, Any]:
    """Of {ParameterKey, ParameterValue}, or of NAME=VALUE."""
    found: Dict[str, Any] = {}
    for it in given if isinstance(given, list) else [None]:
        name, equals, text = it.partition("=") if isinstance(it, str) else ("", "", "")
        value: Any = text
        if isinstance(it, dict) and isinstance(it.get("ParameterKey"), str):
            name, equals = it["ParameterKey"], "="
            value = it.get("ParameterValue")
            if it.get("UsePreviousValue") is True or value is None:
                value = Unclear(f"the previous value of the parameter {name}")
        if not equals:
            raise Fault(f"{what}: it is no object of parameters, and no list of ParameterKey and ParameterValue")
        if name in found:
            raise Fault(f"{what}: the parameter {name} comes twice")
        found[name] = value
    return found


def read_stack(path: str) -> Stack:
    """The answer of describe-stack-resources, list-stack-resources, describe-stacks or get-template."""
    what, given = files.name_of(path), files.read_json(path)
    if isinstance(given, dict) and "TemplateBody" in given:
        body = given["TemplateBody"]
        value = value_of(body, f"{what}: its TemplateBody") if isinstance(body, str) else body
        refuse_deep(value, what)
        return Stack(template=template_of(value, f"{what}: its TemplateBody"))
    for member in ("StackResources", "StackResourceSummaries", "Stacks"):
        items = given.get(member) if isinstance(given, dict) else None
        if isinstance(items, list) and all(isinstance(it, dict) for it in items):
            return described(items, what) if member == "Stacks" else physical(items, what)
    calls = "'aws cloudformation describe-stack-resources', describe-stacks or get-template"
    raise Fault(f"{what}: it is no output of {calls}")


def described(items: List[Dict[str, Any]], what: str) -> Stack:
    if len(items) != 1:
        raise Fault(f"{what}: it describes {len(items)} stacks, and a template is of one")
    name, arn = (str(items[0].get(it) or "") for it in ("StackName", "StackId"))
    had = from_list(items[0].get("Parameters") or [], what)
    masked = {
        key: Unclear(f"the value of the parameter {key}, which AWS does not tell") for key in had if had[key] == "****"
    }
    return Stack(name, arn, parameters={**had, **masked})


def physical(items: List[Dict[str, Any]], what: str) -> Stack:
    found: Dict[str, Tuple[str, str]] = {}
    arns = {(str(it.get("StackName") or ""), str(it.get("StackId") or "")) for it in items} or {("", "")}
    if len(arns) > 1:
        raise Fault(f"{what}: it has resources of {len(arns)} stacks, and a template is of one")
    for n, it in enumerate(items):
        three = [it.get(member) for member in ("LogicalResourceId", "ResourceType", "PhysicalResourceId")]
        if it.get("ResourceStatus") in GONE or three[2] is None and isinstance(three[0], str):
            continue
        if not all(isinstance(one, str) for one in three):
            raise Fault(f"{what}: resource {n} has no LogicalResourceId, ResourceType and PhysicalResourceId")
        logical, kind, own = map(str, three)
        if logical in found:
            raise Fault(f"{what}: the resource {logical} comes twice")
        found[logical] = kind, own
    return Stack(*arns.pop(), physical=found)


def joined(one: Stack, other: Stack, what: str) -> Stack:
    """What two answers tell of a stack."""
    made = {}
    for name in Stack._fields:
        mine, its = getattr(one, name), getattr(other, name)
        if mine and its and mine != its:
            raise Fault(f"{what}: two answers tell different things of one stack ({name})")
        made[name] = its if mine is None or mine == "" else mine
    return Stack(**made)


def stacks_of(templates: List[Template], texts: List[str]) -> List[Stack]:
    """The stack of each template, by arguments [NAME=]FILE."""
    found = [Stack() for _ in templates]
    for text in texts:
        n, name, path = chosen(templates, text, "--stack")
        read = read_stack(path)
        if name and name not in templates[n].names():
            if read.name not in ("", name):
                raise Fault(f"--stack {text}: the answer is of the stack {read.name}")
            read = read._replace(name=name)
        found[n] = joined(found[n], read, files.name_of(path))
    return found


def parameters_of(templates: List[Template], texts: List[str]) -> List[Dict[str, Any]]:
    """The values of each template's parameters, by arguments [NAME=]FILE; a file without a name is for all templates."""
    found: List[Dict[str, Any]] = [{} for _ in templates]
    for text in texts:
        is_for_all = "=" not in text
        some = range(len(templates)) if is_for_all else [chosen(templates, text, "--parameters")[0]]
        given = read_parameters(text.rpartition("=")[2])
        for key, value in given.items():
            of = [n for n in some if key in templates[n].parameters or key.startswith("AWS::")]
            if not of:
                raise Fault(f"--parameters {text}: no template has the parameter {key}")
            for n in of:
                if key in found[n]:
                    raise Fault(f"--parameters {text}: the parameter {key} is given twice")
                found[n][key] = value
    return found


def with_previous(given: Dict[str, Any], template: Template, stack: Stack) -> Dict[str, Any]:
    """The values of parameters with those that they had, where these are asked for or nothing else is given."""
    made, had = dict(given), stack.parameters or {}
    for name, of in template.parameters.items():
        if name not in had or name in given and not isinstance(given[name], Unclear):
            continue
        by_default = of.get("Default", had[name])
        if name in given or isinstance(by_default, (str, int, float)) and str(by_default) == had[name]:
            made[name] = had[name]
        else:
            made[name] = Unclear(f"whether the parameter {name} keeps its previous value")
    return made


def chosen(templates: List[Template], text: str, option: str) -> Tuple[int, str, str]:
    """The number of the template that an argument [NAME=]FILE is for, the name, and the file."""
    name, _, path = text.rpartition("=")
    some = [n for n, it in enumerate(templates) if name in it.names()] if name else list(range(len(templates)))
    if not some and len(templates) == 1:
        some = [0]
    if len(some) != 1:
        why = f"no template is called {name}" if name and not some else f"say for which template: {option} NAME=FILE"
        raise Fault(f"{option} {text}: {why}")
    return some[0], name, path


def account_in(stack: Stack, parameters: Dict[str, Any]) -> str:
    """The account of a stack, where something names it."""
    given = parameters.get("AWS::AccountId")
    return given if isinstance(given, str) else account_of(stack.arn)
