"""The resources that an event names: by `resources[].ARN`, or by what its parameters have."""

import functools
import re
from typing import Any, Dict, Iterator, List, NamedTuple, Optional, Tuple

from ..arns import account_of, service_of
from . import tables

PLACE = re.compile(r"\{([^}=]+)(?:=([^}]*))?\}")
ACCOUNT = re.compile(r"[0-9]{12}")
QUEUE = re.compile(r"https?://[^/]+/([0-9]{12})/([^/]+)")
# Of one event no more resources are asked for, whatever its lists hold.
MOST = 1000
# What was worked out of so many characters is kept for events of the same.
SHORT = 1024


# The ARN of a resource, the account that the event gives it, and by what both were found.
Found = Tuple[str, str, str]


def found_in(event: Dict[str, Any], who: Any, rule: Optional[str]) -> List[Found]:
    """(ARN, account, by what both were found) by a rule of the table, or, without one, of the one that `resources` has."""

    if rule == "*":
        return [("*", who.account, "no resource: the action has none")]
    if rule is None:
        every = {arn: account for _, arn, account in listed(event)}
        return (
            [(arn, *hinted(event, arn, account, "resources[].ARN")) for arn, account in every.items()]
            if len(every) == 1
            else []
        )
    for choice in rule.split("|") if rule else ():
        parts = [of_kind(event, who, it) for it in choice.split("&")]
        if all(parts):
            return [it for of in parts for it in of][:MOST]
    return []


def listed(event: Dict[str, Any]) -> Iterator[Found]:
    """(type, ARN, account) of each of an event's resources that has an ARN."""
    given = event.get("resources")
    for it in given[:MOST] if isinstance(given, list) else ():
        arn = it.get("ARN") if isinstance(it, dict) else None
        if isinstance(arn, str) and arn:
            kind = str(it.get("type"))
            yield kind, arn, account_in(it, "accountId") or owner(event, kind)


def owner(event: Dict[str, Any], kind: str) -> str:
    """The account of an object's bucket, which `resources` may tell beside it."""
    if kind == "AWS::S3::Object":
        for it in event["resources"][:MOST]:
            if isinstance(it, dict) and it.get("type") == "AWS::S3::Bucket":
                account = account_in(it, "accountId")
                if account:
                    return account
    return ""


def account_in(holder: Dict[str, Any], name: str) -> str:
    """The account that a member of an object is; an empty text where it is none."""
    found = holder.get(name)
    return found if isinstance(found, str) and len(found) == 12 and ACCOUNT.fullmatch(found) else ""


def of_kind(event: Dict[str, Any], who: Any, kind: str) -> List[Found]:
    """(ARN, account, by what it was found) of the resources of a kind."""
    called = tables.TYPES[kind][0]
    named = [it for it in listed(event) if it[0] == called] if called else []
    if named:
        return [(arn, *hinted(event, arn, account, "resources[].ARN")) for _, arn, account in named]
    if kind == "caller":
        return [] if who.session else [(who.arn, who.account, "userIdentity.arn")]
    template, place = template_of(kind), region(event)
    values = tuple([values_of(event, it) for it in template.members])
    is_short = len(place) + sum([len(one) for of in values for one in of]) <= SHORT
    given = kind, who.partition, place, who.account, values
    texts = known_texts(*given) if is_short else filled(*given)
    return [(arn, *hinted(event, arn, "", template.found)) for arn in texts]


def by_ids(texts: List[str], given: Dict[str, str]) -> List[str]:
    """The ARNs of what has these ids of EC2; none where the type of one of them is not known."""
    found = []
    for it in texts:
        kind = tables.IDS.get(it.partition("-")[0])
        if not kind:
            return []
        found.append(f"arn:{given['p']}:ec2:{given['r']}:{kind.replace('{a}', given['a'])}/{it}")
    return found


def hinted(event: Dict[str, Any], arn: str, account: str, found: str) -> Tuple[str, str]:
    """The account that an event gives a resource whose ARN does not say it, and how it was found."""
    if arn[:1] in "?*" or account_of(arn):
        return "", found
    if account:
        return account, with_account(found, "resources[].accountId")
    of = recipient(event)
    return of, with_account(found, "recipientAccountId") if of else found


@functools.lru_cache(maxsize=None)
def with_account(found: str, by: str) -> str:
    return f"{found}, its account by {by}"


def recipient(event: Dict[str, Any]) -> str:
    return account_in(event, "recipientAccountId")


def region(event: Dict[str, Any]) -> str:
    given = event.get("awsRegion")
    return given if isinstance(given, str) else ""


class Template(NamedTuple):
    """The places of a template, each with the text before it, its name and its default; what stands behind the last; the members
    of the parameters among them, and how what is found by them is called."""

    places: List[Tuple[str, str, Optional[str]]]
    rest: str
    members: List[str]
    found: str


@functools.lru_cache(maxsize=None)
def template_of(kind: str) -> Template:
    template, at = tables.TYPES[kind][1], 0
    places = []
    for place in PLACE.finditer(template):
        places.append((template[at : place.start()], place[1], place[2]))
        at = place.end()
    members = [name for _, name, _ in places if name not in ("p", "r", "a")]
    found = "responseElements.arn" if kind == "made-secret" else "requestParameters." + " and .".join(members)
    return Template(places, template[at:], members, found)


def filled(kind: str, partition: str, place: str, account: str, values: Tuple[Tuple[str, ...], ...]) -> List[str]:
    """The texts that the template of a kind stands for, with the values of its members; none where one is missing."""
    template, given = template_of(kind), {"p": partition, "r": place, "a": account}
    texts, left = [""], list(values)
    for before, name, default in template.places:
        if name in given:
            texts = [f"{it}{before}{given[name]}" for it in texts]
            continue
        some = left.pop(0) or ([default] if default is not None else [])
        texts = [joined(it + before, name, value, given) for it in texts for value in some][:MOST]
    found = [it + template.rest for it in texts if "\0" not in it]
    return by_ids(found, given) if kind == "by-id" else found


known_texts = functools.lru_cache(maxsize=4096)(filled)


def joined(before: str, name: str, value: str, given: Dict[str, str]) -> str:
    """A text with one value more; "\\0" in it says that the value is none that names the resource."""
    if name == "queueUrl":
        found = QUEUE.fullmatch(value)
        return f"arn:{given['p']}:sqs:{given['r']}:{found[1]}:{found[2]}" if found else "\0"
    known = tables.VALUES.get(name)
    if known and not re.fullmatch(known, value, re.DOTALL):
        return "\0"
    if value.startswith("arn:"):
        return value if service_of(value) == service_of(before) or before in ("arn:", "") or before[0] == "?" else "\0"
    if before == "arn:":
        return "\0"
    if name in ("name", "names", "path") and before.endswith("/"):
        return before + value.lstrip("/")
    return before + value


def values_of(event: Dict[str, Any], name: str) -> Tuple[str, ...]:
    """The texts of a member of the parameters, whose parts are joined by '.'; of lists of each item, of objects in the place
    of a text their keys. With '<' before it the member is of the answer."""
    given = event.get("responseElements" if name[0] == "<" else "requestParameters")
    one = given.get(name) if isinstance(given, dict) else None
    if isinstance(one, str) and "." not in name:
        return (one,) if one and "\0" not in one else ()
    found: List[Any] = [given]
    for part in name.lstrip("<").split("."):
        found = [it.get(part) for it in found if isinstance(it, dict)]
        found = [one for it in found for one in (it[:MOST] if isinstance(it, list) else [it])]
    texts = [one for it in found for one in (list(it)[:MOST] if isinstance(it, dict) else [it])]
    return tuple([it for it in texts if isinstance(it, str) and it and "\0" not in it])
