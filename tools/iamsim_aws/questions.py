"""The requests that a question asks for, as worlds, and which resources there stand for what."""

import re
from typing import Any, Dict, Iterable, List, NamedTuple, Optional

from .arns import account_of, names_of_resource, principal_arn
from .documents import Policy, World
from .faults import Fault
from .making import bound
from .naming import resource_policy
from .patterns import any_matches, is_pattern, matcher, near, plain
from .roles import with_named
from .sources import ASSUME, Source
from .speaking import Origins, beside, is_absent_role, patterns_of_actions
from .strangers import everyone_outside, is_excepted, is_meant, with_strangers

ACTION = re.compile(r"[A-Za-z0-9-]+:[A-Za-z0-9_.-]+")
ARN = re.compile(r"arn:[^:]*:[^:]+:[^:]*:[^:]*:.+", re.DOTALL)


class Scope(NamedTuple):
    """Where questions are asked, and what is added to what stands there."""

    source: Source
    kinds: bool = False
    policy: Optional[Policy] = None
    account: Optional[str] = None
    sealed: bool = False
    outside: bool = False


class Question(NamedTuple):
    """A pattern each; principals that match an exception are not meant."""

    principal: str
    action: str
    resource: str
    exceptions: List[str] = []


class Asked(NamedTuple):
    """A world of a question's requests, what its texts stand for, the resources that the world did not name, and what was not shown,
    in words."""

    world: World
    stand: Origins
    added: List[str]
    opens: List[str]


def principals(some: List[Dict[str, Any]], question: Question) -> List[Dict[str, Any]]:
    return [it for it in some if is_meant(it, question.principal) and not is_excepted(it, question.exceptions)]


def actions(scope: Scope, pattern: str) -> List[str]:
    """The actions that a pattern asks for: those of its service that are known, and those that policies and lists name."""
    if not is_pattern(pattern):
        if not ACTION.fullmatch(pattern):
            raise Fault(f"{pattern or 'an empty text'}: an action is written 'service:Name', and '*' and '?' are wild")
        return [pattern]
    source, references = scope.source, scope.source.references
    named: Dict[str, str] = {}
    for it in [*source.actions, *patterns_of_actions(source.world([ASSUME]))]:
        if not is_pattern(it) and matcher(pattern, True)(it):
            named.setdefault(it.lower(), it)
    # Of a service that has a file all actions are known, but for those that policies name all the same.
    more = {*source.actions, *lacked(source, named.values())}
    rest = [it for it in named.values() if it in more or not references.has_file(it)]
    return list(dict.fromkeys([*(it for it in references.actions() if matcher(pattern, True)(it)), *rest]))


def lacked(source: Source, actions: Iterable[str]) -> List[str]:
    """The actions that policies name, and that the file of their service lacks."""
    if not source.references.services:
        return []
    spoken = {it.lower() for it in patterns_of_actions(source.world([ASSUME]))}
    return [it for it in actions if it.lower() in spoken and not source.references.knows(it)]


def account_for(scope: Scope, world: World, arn: str) -> str:
    """The account of a resource that the world does not have; an object of a bucket that it has is of the bucket's."""
    found = account_of(arn) or beside(world, arn, scope.account or "")["account"]
    ids = [it["id"] for it in world["accounts"]]
    if not found and scope.account is None and len(ids) == 1:
        return str(ids[0])
    if not re.fullmatch(r"[0-9]{12}", found):
        raise Fault(f"{arn}: which account is it of? Say it by --account, or name the resource in --resources")
    return found


def account_words(world: World, arn: str) -> str:
    """Whose a resource is taken to be, where its ARN does not say it."""
    found = "" if account_of(arn) else next((it["account"] for it in world["resources"] if it["arn"] == arn), "")
    return f", as a resource of account {found}" if found else ""


def dressed(scope: Scope, resource: Dict[str, Any]) -> Dict[str, Any]:
    """The resource with the policy that is given beside the question."""
    if scope.policy is None:
        return resource
    own = scope.policy._replace(name=resource_policy(resource["arn"]))
    return {**resource, "policy": own, **({"sealed": True} if scope.sealed else {})}


def with_account(scope: Scope, world: World, resources: List[Dict[str, Any]]) -> List[Dict[str, Any]]:
    """The world's accounts, and those of resources that it did not have."""
    known = {it["id"] for it in world["accounts"]}
    new = sorted({it["account"] for it in resources} - known)
    estate = scope.source.estate
    return world["accounts"] + [estate.organization.account(it) if estate else {"id": it} for it in new]


def asked_in(scope: Scope, world: World, question: Question) -> Asked:
    """The part of a world that a question asks for."""
    pattern = question.resource
    found = [it for it in world["resources"] if any_matches([pattern], names_of_resource(it["arn"]))]
    added = []
    arn = plain(pattern)
    is_one = not is_pattern(pattern) and (arn == "*" or ARN.fullmatch(arn))
    if not found and is_one and not is_absent_role(world, arn):
        found, added = [beside(world, arn, account_for(scope, world, arn))], [arn]
    estate = scope.source.estate
    resources = [bound(estate, dressed(scope, it)) if estate else dressed(scope, it) for it in found]
    narrow = with_named(scope.source, {**world, "resources": resources})
    narrow["principals"] = principals(narrow["principals"], question)
    narrow["accounts"] = with_account(scope, world, resources)
    some = everyone_outside(scope.source, [narrow], question.principal) if scope.outside else []
    narrow = with_strangers(scope.source, narrow, principals(some, question))
    return Asked(narrow, {}, added, [])


def worlds(scope: Scope, question: Question) -> List[Asked]:
    """The worlds of a question's requests; none of them where it asks for none."""
    found = [asked_in(scope, it, question) for it in scope.source.worlds(actions(scope, question.action))]
    return [it for it in found if it.world["principals"] and it.world["resources"]]


def missing(scope: Scope, question: Question) -> str:
    """Why a question asks for no request."""
    chosen = actions(scope, question.action)
    if not chosen:
        return f"no action matches {question.action}: name actions by --actions, or their services by --services"
    found = scope.source.worlds(chosen)
    if not any(principals(it["principals"], question) for it in found):
        people = [principal_arn(one) for it in found for one in it["principals"]]
        return f"no principal matches {question.principal}{near(question.principal, people)}"
    if any(is_absent_role(it, plain(question.resource)) for it in found):
        return f"no export has the role {question.resource}, so nobody may assume it"
    hint = near(question.resource, [one["arn"] for it in found for one in it["resources"]])
    more = ", resources by --resources," if scope.source.estate else ""
    return f"no resource matches {question.resource}{hint}: name its ARN{more} or ask with --kinds"
