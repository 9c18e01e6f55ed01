"""How policies are named, alike in each answer; and what else a draft may call them."""

from typing import Any, Dict, Set

from .arns import owner_of, resource_part

INLINE, TRUST = " inline ", " trust policy"


def inline_policy(holder: str, name: str) -> str:
    """An inline policy of a user, group or role; a managed one is named by its ARN."""
    return f"{holder}{INLINE}{name}"


def trust_policy(role: str) -> str:
    return f"{role}{TRUST}"


def session_policy(session: str) -> str:
    """A policy that a session was given, by the session's ARN."""
    return f"{session} session policy"


def resource_policy(arn: str) -> str:
    """The policy of a resource; an object has that of its bucket."""
    return f"{owner_of(arn)} policy"


def control_policy(arn: str) -> str:
    """A resource control policy that stands with its resource, and has no ARN there."""
    return f"{arn} control"


def organization_policy(summary: Dict[str, Any]) -> str:
    """A policy of the organisation, by its `PolicySummary`."""
    return str(summary.get("Arn") or summary["Id"])


def called(name: str) -> Set[str]:
    """What a policy of that name may be called."""
    for middle in (INLINE, TRUST):
        holder, found, own = name.partition(middle)
        if found:
            short = resource_part(holder)
            last = short.split("/")[-1]
            if own:
                return {name, own, inline_policy(short, own), inline_policy(last, own)}
            return {name, holder, short, last, trust_policy(short), trust_policy(last)}
    return {name, resource_part(name), resource_part(name).split("/")[-1]}
