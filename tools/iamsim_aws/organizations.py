"""The organisation's policies, as iamsim-aws organization collects them."""

import copy
from typing import Any, Dict, List, Optional, Set

from . import files
from .documents import FOREIGN, Policy
from .exports import ACCOUNT, policy
from .faults import Fault
from .files import compact
from .naming import organization_policy

SERVICE, CONTROL = "SERVICE_CONTROL_POLICY", "RESOURCE_CONTROL_POLICY"
MEMBERS = ["id", "management", "parents", "targets", "policies"]


class Organization:
    """An organisation; without one nothing is bound."""

    def __init__(self, given: Optional[Dict[str, Any]] = None):
        self.given = given or {}
        self.is_there = given is not None
        self.parents = self.member("parents", dict)
        self.targets = self.member("targets", dict)
        self.policies = {self.id_of(it): it for it in self.member("policies", list)}

    def copied(self) -> "Organization":
        made = Organization(copy.deepcopy(self.given) if self.is_there else None)
        made.policies = copy.deepcopy(self.policies)
        return made

    def names(self) -> Dict[str, str]:
        """The names that the policies' ARNs have."""
        found = [it["PolicySummary"] for it in self.policies.values()]
        return {organization_policy(it): str(it["Name"]) for it in found if it.get("Name")}

    def member(self, name: str, kind: Any) -> Any:
        found = self.given.get(name, kind())
        if not isinstance(found, kind):
            raise Fault(f"organization: {name} is not of the form that docs/AWS.md shows")
        return found

    @staticmethod
    def id_of(it: Any) -> str:
        try:
            return str(it["PolicySummary"]["Id"])
        except (KeyError, TypeError):
            raise Fault("organization: a policy without PolicySummary and its Id") from None

    def is_managing(self, account: str) -> bool:
        return self.is_there and self.given.get("management") == account

    def is_member(self, account: str) -> bool:
        return self.is_there and (self.is_managing(account) or account in self.parents)

    def members(self, known: Set[str]) -> List[str]:
        """Accounts besides those that are known, one of all that stand at one place and have the same policies."""
        found: Dict[Any, str] = {}
        for it in [self.given.get("management"), *self.parents]:
            if isinstance(it, str) and ACCOUNT.fullmatch(it) and it not in known:
                attached = compact(self.targets.get(it))
                found.setdefault((self.is_managing(it), *self.way(it)[:-1], attached), it)
        return list(found.values())

    def way(self, target: str) -> List[str]:
        """The ids from the root down to an account or unit."""
        way = [target]
        while not way[0].startswith("r-"):
            try:
                parent = self.parents[way[0]][0]["Id"]
                if not isinstance(parent, str):
                    raise TypeError
                way.insert(0, parent)
            except (KeyError, IndexError, TypeError):
                raise Fault(f"organization: no parent of {way[0]}") from None
            if len(way) > 64:
                raise Fault(f"organization: {target} stands below itself")
        return way

    def content(self, policy_id: str) -> Policy:
        if policy_id not in self.policies:
            raise Fault(f"organization: no policy {policy_id}")
        it = self.policies[policy_id]
        return policy(organization_policy(it["PolicySummary"]), it.get("Content"))

    def attached(self, target: str, kind: str) -> List[Policy]:
        if target not in self.targets:
            raise Fault(f"organization: no list of policies for {target}")
        try:
            return [self.content(it["Id"]) for it in self.targets[target] if it["Type"] == kind]
        except (KeyError, TypeError):
            raise Fault(f"organization: the policies of {target} are no list of objects with Id and Type") from None

    def levels(self, account: str, kind: str) -> Optional[List[List[Policy]]]:
        """The policies of one type from the root down; None where that type is not in use."""
        found = [self.attached(it, kind) for it in self.way(account)]
        if not any(found):
            return None
        if not all(found):
            raise Fault(f"organization: {kind} is in use, and some level has none")
        return found

    def account(self, account: str) -> Dict[str, Any]:
        """The account as a world has it."""
        if self.is_managing(account):
            return {"id": account, "management": True}
        org = self.levels(account, SERVICE) if self.is_member(account) else None
        return {"id": account, **({"org": org} if org else {})}

    def control(self, account: str, service: str) -> Dict[str, Any]:
        """The resource control policies of an account's resource, where its service is one that they are for."""
        if self.is_managing(account) or not self.is_member(account):
            return {}
        found = self.levels(account, CONTROL)
        if found is None:
            return {}
        services = self.given.get("controlled")
        if not isinstance(services, list):
            raise Fault(
                'organization: it has resource control policies, so it must say by "controlled" for which services'
            )
        return {"control": found} if service in services else {}

    def keys(self, account: str, before: str) -> Dict[str, Any]:
        name = self.given.get("id")
        if name is None or not self.is_member(account):
            return {}
        path = "/".join([str(name), *self.way(account)[:-1]]) + "/"
        return {f"aws:{before}OrgID": name, f"aws:{before}OrgPaths": [path]}

    def foreign(self, account: str) -> Dict[str, str]:
        """What a principal of an account has that is outside: the id of an organisation that is not its own."""
        is_outside = self.is_there and not self.is_member(account)
        return {FOREIGN: str(self.given["id"])} if is_outside and "id" in self.given else {}


def read_organization(path: Optional[str]) -> Organization:
    if path is None:
        return Organization()
    given = files.read_json(path)
    if not isinstance(given, dict):
        raise Fault(f"{files.name_of(path)}: it is no object")
    lacking = [it for it in MEMBERS if it not in given]
    if lacking:
        raise Fault(f"{files.name_of(path)}: it is no file of 'iamsim-aws organization': it has no {lacking[0]}")
    return Organization(given)
