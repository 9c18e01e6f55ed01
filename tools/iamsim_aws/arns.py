"""The parts of ARNs, and the texts of principals."""

from typing import Any, Dict, List


def resource_part(arn: str) -> str:
    """What stands behind the fifth colon; the whole text where there are fewer."""
    return arn.split(":", 5)[-1]


def account_of(arn: str) -> str:
    parts = arn.split(":", 5)
    return parts[4] if len(parts) > 4 else ""


def service_of(arn: str) -> str:
    parts = arn.split(":", 3)
    return parts[2] if len(parts) > 2 else ""


def is_access_point(arn: str) -> bool:
    """Whether it is an access point of S3, or an object by one."""
    return service_of(arn) == "s3" and account_of(arn) != "" and resource_part(arn).startswith("accesspoint/")


def owner_of(arn: str) -> str:
    """The resource whose policy a resource has: an object has that of its bucket or access point."""
    part = resource_part(arn)
    names = part.split("/")[: 2 if is_access_point(arn) else 1]
    return arn[: len(arn) - len(part)] + "/".join(names) if service_of(arn) == "s3" else arn


def keys_of_point(arn: str) -> Dict[str, str]:
    """The condition keys of a request by an access point."""
    point = owner_of(arn)
    return {"s3:DataAccessPointArn": point, "s3:DataAccessPointAccount": account_of(point)}


def in_bucket(arn: str, name: str) -> str:
    """What an access point, or an object by it, is in a bucket of that name."""
    rest = arn[len(owner_of(arn)) :]
    rest = rest[len("/object") :] if rest.startswith("/object/") else rest
    return f"arn:{arn.split(':')[1]}:s3:::{name}{rest}"


def bucket_of(arn: str) -> str:
    return resource_part(owner_of(arn)) if service_of(arn) == "s3" and not is_access_point(arn) else ""


def session_arn(role: str, session: str) -> str:
    head, _, path = role.partition(":role/")
    return f"{head.replace(':iam:', ':sts:', 1)}:assumed-role/{path.split('/')[-1]}/{session}"


def principal_text(principal: Dict[str, Any]) -> str:
    """The principal's text in reports."""
    if "user" in principal:
        return str(principal["user"])
    return session_arn(str(principal.get("role", "")), str(principal.get("session", "")))


def principal_arn(principal: Dict[str, Any]) -> str:
    """The ARN of the user or role."""
    return str(principal["user"] if "user" in principal else principal.get("role", ""))


def names_of_principal(principal: Dict[str, Any]) -> List[str]:
    """The texts that a pattern of principals is compared with."""
    arn = principal_arn(principal)
    part = resource_part(arn)
    return [principal_text(principal), arn, part, part.split("/")[-1]]


def names_of_resource(arn: str) -> List[str]:
    return [arn, resource_part(arn), resource_part(arn).split("/")[-1]]


def name_of(axis: str, it: Dict[str, Any]) -> str:
    """The text of an account, a principal or a resource."""
    return principal_text(it) if axis == "principals" else str(it["id"] if axis == "accounts" else it["arn"])
