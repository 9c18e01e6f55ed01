"""Files of AWS's service reference, one JSON a service: its actions, and which resources they are for."""

import functools
import os
import re
from typing import Any, Callable, Dict, Iterable, List, Set, Tuple

from . import files
from .arns import service_of
from .documents import World
from .faults import Fault, tell
from .patterns import of_given

FORM = re.compile(r"\$\{[^}]*\}")


def in_part(part: str, free: str) -> str:
    return free.join(map(re.escape, FORM.split(part)))


def expression(form: str) -> Tuple[Any, int]:
    """An ARN format as a regular expression, and how many of its characters are given."""
    *head, last = form.split(":", 5)
    written = ":".join([*(in_part(it, "[^:]*") for it in head), in_part(last, ".*")])
    return re.compile(written, re.DOTALL), sum(map(len, FORM.split(form)))


def is_mixed(action: str, resource: str) -> bool:
    """Whether an action is of one service and a resource of another, as kms:Decrypt and an object. Few services have such
    requests, as ssm:StartSession on an instance; of texts that leave a service open nothing is known."""
    services = action.lower().partition(":")[0], service_of(resource)
    return services[0] != services[1] and services != ("sts", "iam") and not {"any", "x", ""} & set(services)


class Service:
    def __init__(self, reference: Dict[str, Any]):
        self.name, self.reference = reference["Name"], reference
        self.names = [it["Name"] for it in reference["Actions"]]
        self.types = {
            it["Name"]: [expression(form) for form in it.get("ARNFormats", [])] for it in reference.get("Resources", [])
        }
        self.actions = {
            it["Name"].lower(): {of["Name"] for of in it.get("Resources", [])} for it in reference["Actions"]
        }
        self.known: Dict[str, Set[str]] = {}

    def types_of(self, resource: str) -> Set[str]:
        """The types whose format fits the resource with the most given characters."""
        if resource not in self.known:
            fits = [
                (given, name) for name, forms in self.types.items() for form, given in forms if form.fullmatch(resource)
            ]
            most = max((given for given, _ in fits), default=0)
            self.known[resource] = {name for given, name in fits if given == most}
        return self.known[resource]

    def formats(self, partition: str, account: str) -> List[Tuple[str, Set[str]]]:
        """The ARN formats as patterns of what an account has, those with the most given characters first, each with the types that
        have one of so many."""
        texts = {(it["Name"], form) for it in self.reference.get("Resources", []) for form in it.get("ARNFormats", [])}
        given = {form: sum(map(len, FORM.split(form))) for _, form in texts}
        types = {form: {name for name, other in texts if given[other] == given[form]} for form in given}
        known = {"${Partition}": partition, "${Account}": account}

        def pattern(form: str) -> str:
            parts = zip(FORM.split(form), [*FORM.findall(form), ""])
            return "".join(of_given(text) + known.get(key, "*" if key else "") for text, key in parts)

        return [(pattern(it), types[it]) for it in sorted(given, key=lambda it: (-given[it], it))]

    def has(self, action: str, resource: str) -> bool:
        if action not in self.actions:
            return False
        wanted = self.actions[action]
        return not wanted or resource == "*" or bool(wanted & self.types_of(resource))


class References:
    """The services of some files; a folder stands for the files in it."""

    def __init__(self, paths: Iterable[str]):
        self.services: Dict[str, Service] = {}
        self.unknown: Set[str] = set()
        for path in [file for it in paths for file in files_in(it)]:
            service = read_service(path)
            self.services[service.name.lower()] = service
        self.keeps: Callable[[str, str], bool] = functools.lru_cache(maxsize=None)(self.is_kept)

    def actions(self) -> List[str]:
        return [f"{it.name}:{name}" for it in self.services.values() for name in it.names]

    def pairs(self, world: World, also: Iterable[str] = ()) -> List[bool]:
        """Whether a service has the request of each action and resource, in the order of cells; of one without a file, yes,
        and of those further actions that the files lack."""
        pairs = ((action, it["arn"]) for action in world["actions"] for it in world["resources"])
        kept = {it for it in also if not self.knows(it)} if self.services else set(world["actions"])
        return [action in kept or self.keeps(action, arn) for action, arn in pairs]

    def has_file(self, action: str) -> bool:
        return action.lower().partition(":")[0] in self.services

    def knows(self, action: str) -> bool:
        """Whether an action is known, or its service has no file here."""
        service, _, name = action.lower().partition(":")
        return service not in self.services or name in self.services[service].actions

    def is_kept(self, action: str, resource: str) -> bool:
        """Whether the service has such a request; where it has no file here, yes."""
        service, _, name = action.lower().partition(":")
        if service in self.services:
            return self.services[service].has(name, resource)
        if service not in self.unknown:
            self.unknown.add(service)
            tell(f"no file of the service {service}: its rows stay")
        return True


def files_in(path: str) -> List[str]:
    if not os.path.isdir(path):
        return [path]
    found = sorted(it for it in os.listdir(path) if it.endswith((".json", ".json.gz")))
    if not found:
        raise Fault(f"{path}: the folder has no file of the service reference (*.json)")
    return [os.path.join(path, it) for it in found]


def read_service(path: str) -> Service:
    given = files.read_json(path)
    try:
        return Service(given)
    except (KeyError, TypeError, AttributeError):
        raise Fault(f"{files.name_of(path)}: it is no file of AWS's service reference") from None
