"""What an event of CloudTrail asks for: who, which action, on what, and with which keys; or why that is not told."""

import functools
import re
import urllib.parse
from typing import Any, Callable, Dict, FrozenSet, List, NamedTuple, Optional, Set, Tuple

from ..arns import account_of
from ..parties import SEGMENT
from ..patterns import matcher
from ..questions import ACTION, ARN
from ..references import References
from . import tables
from .finding import Found, found_in, recipient

USER = re.compile(r"arn:[A-Za-z0-9-]+:iam::[0-9]{12}:user/.+")
ROLE = re.compile(r"arn:[A-Za-z0-9-]+:iam::[0-9]{12}:role/.+")
SESSION = re.compile(rf"arn:([A-Za-z0-9-]+):sts::([0-9]{{12}}):assumed-role/([^/]+)/({SEGMENT})")
NAME = re.compile(SEGMENT)
ADDRESS = re.compile(r"[0-9]{1,3}(\.[0-9]{1,3}){3}|[0-9A-Fa-f:]*:[0-9A-Fa-f:.]*")
TIME = re.compile(r"[0-9]{4}-[0-9]{2}-[0-9]{2}T[0-9]{2}:[0-9]{2}:[0-9]{2}Z")
SOURCE = re.compile(r"([a-z0-9-]+)\.amazonaws\.com(?:\.cn)?")
VERSION = re.compile(r"(?:_?20[0-9]{2}_?[0-9]{2}_?[0-9]{2}(?:v[0-9]+)?)$")
# The characters of an ARN; a name of S3 has at most 1,024 bytes.
LONGEST = 4096
# Why an event is not asked for; the last is no lack.
EVENT, WHO, EXPORT, DOING, THING, FREE = "event", "principal", "export", "action", "resource", "permission"


class Missed(Exception):
    """What an event does not tell, or no world can hold: the reason, and the name by which it is counted."""

    def __init__(self, reason: str, name: str):
        super().__init__(reason, name)
        self.reason, self.name = reason, name


class Who(NamedTuple):
    """A user's ARN, or a role's and the name of its session; of a role whose path is not told '?ACCOUNT:NAME'."""

    arn: str
    session: str
    partition: str
    account: str


class Call(NamedTuple):
    """A request that an event stands for. `outcome` is nothing, 'denied', or 'failed' for another reason than access."""

    who: str
    session: str
    action: str
    resource: str
    account: str
    keys: Tuple[Tuple[str, str], ...]
    found: str
    outcome: str


def text(holder: Any, name: str) -> str:
    """A text that an object of an event has; an empty one where there is none."""
    found = holder.get(name) if isinstance(holder, dict) else None
    return found if isinstance(found, str) else ""


def inside(holder: Any, *way: str) -> Any:
    """What stands inside an object of an event."""
    for name in way:
        holder = holder.get(name) if isinstance(holder, dict) else None
    return holder


def user_of(arn: str) -> Who:
    if not USER.fullmatch(arn):
        raise Missed(WHO, who_words({}, "IAMUser"))
    return Who(arn, "", arn.split(":")[1], account_of(arn))


def session_of(arn: str, issuer: str, principal: str) -> Who:
    """The session of a role by its ARN, the role's ARN, and the id of both."""
    found = SESSION.fullmatch(arn)
    session = found[4] if found else principal.partition(":")[2]
    if "/aws-service-role/" in issuer:
        raise Missed(WHO, f"service-linked role {issuer}")
    if not NAME.fullmatch(session):
        raise Missed(WHO, "AssumedRole without the name of its session")
    if ROLE.fullmatch(issuer):
        return Who(issuer, session, issuer.split(":")[1], account_of(issuer))
    if not found or issuer:
        raise Missed(WHO, "AssumedRole without its role")
    return Who(f"?{found[2]}:{found[3]}", session, found[1], found[2])


def who_words(given: Any, kind: str) -> str:
    if not isinstance(given, dict):
        return "no userIdentity"
    more = (
        text(given, "invokedBy") if kind == "AWSService" else text(given, "accountId") if kind == "AWSAccount" else ""
    )
    without = " without its ARN" if kind == "IAMUser" else ""
    return f"{kind or 'no type'}{without} {more}".strip()


@functools.lru_cache(maxsize=4096)
def actions_of(source: str, name: str) -> Tuple[str, Tuple[str, ...]]:
    """The prefix of a service's actions, and the names of those that an event wants."""
    label = SOURCE.fullmatch(source)
    if not label or len(source) > LONGEST:
        raise Missed(DOING, f"{source} {name}")
    service = tables.PREFIXES.get(label[1], label[1])
    if any(matcher(it)(name) for it in tables.UNTOLD.get(service, ())):
        raise Missed(DOING, f"{service}:{name} (the event does not tell what it is of)")
    plain = VERSION.sub("", name) if service in tables.DATED else name
    found = tables.ACTIONS.get(service, {}).get(plain)
    if found == []:
        raise Missed(FREE, f"{service}:{plain}")
    return service, tuple(found or [plain])


def rule_of(service: str, name: str) -> Optional[str]:
    """What the table says an action is on; None where it has no such service."""
    for patterns, rule in tables.RULES.get(service, ()):
        if any(matcher(it)(name) for it in patterns.split("|")):
            return rule
    return None


def outcome_of(event: Dict[str, Any]) -> str:
    given = event.get("errorCode")
    if given is None:
        return ""
    code = given if isinstance(given, str) else ""
    return "denied" if code.rpartition("Client.")[2] in tables.DENIED else "failed"


class Known(NamedTuple):
    """What exports tell of names: the ARNs of principals; the ARN of each user, role, group and instance profile, by its account
    and by its kind and name; and those of secrets, by the beginning that their names give."""

    people: FrozenSet[str]
    names: Dict[Tuple[str, str], str]
    secrets: Dict[str, List[str]]


# What tells a key of an event: its name and its value, which is empty where the event has none.
Teller = Callable[[Dict[str, Any]], Tuple[str, str]]


class Doing(NamedTuple):
    """An action, the rule of what it is on, the parameter with which it is of more than the table has, whether the service
    reference gives it no resource, and what tells its keys."""

    action: str
    rule: Optional[str]
    unless: Optional[str]
    has_none: bool
    tellers: Tuple[Teller, ...]


class Mapper:
    """Makes calls of events. Of their keys those are kept that policies ask for, by their lower case; and the names of sessions
    where policies tell them apart. What many events have alike is worked out once."""

    def __init__(self, references: References, known: Known, asked: FrozenSet[str], has_sessions: bool):
        self.references, self.known, self.asked, self.has_sessions = references, known, asked, has_sessions
        self.known_who = functools.lru_cache(maxsize=16384)(self.principal)
        self.known_doing = functools.lru_cache(maxsize=4096)(self.doing)
        self.known_actions = functools.lru_cache(maxsize=4096)(self.actions)

    def calls(self, event: Any, seen: Set[str]) -> Tuple[str, List[Call], List[Missed]]:
        """The name of the session, the calls, and what is missing for others that the event wants too; the principal is added
        to those that are seen."""
        if not isinstance(event, dict):
            raise Missed(EVENT, "no object")
        kind, source, name = text(event, "eventType"), text(event, "eventSource"), text(event, "eventName")
        if kind not in ("AwsApiCall", ""):
            raise Missed(EVENT, kind)
        if not source or not name or len(name) > LONGEST:
            raise Missed(EVENT, "no eventSource or no eventName")
        who = self.who(event)
        seen.add(who.arn)
        service, names = actions_of(source, name)
        is_copy = service == "s3" and name in tables.COPIES
        found: List[Call] = []
        lacking: List[Missed] = []
        for it in self.wanted(event, service, ("PutObject",) if is_copy else names):
            try:
                found += self.of_action(event, who, it, is_copy)
            except Missed as why:
                # Its traceback leads back here, and so to itself: nothing would ever free the event.
                lacking.append(why.with_traceback(None))
        try:
            found += [self.source_of(event, who)] if is_copy else []
        except Missed as why:
            lacking.append(why.with_traceback(None))
        return who.session, found, lacking

    def who(self, event: Dict[str, Any]) -> Who:
        """Who made the call, whom an export has to have."""
        given = event.get("userIdentity")
        kind, arn, of = text(given, "type"), text(given, "arn"), text(given, "principalId")
        if kind not in ("IAMUser", "AssumedRole"):
            raise Missed(WHO, who_words(given, kind))
        issuer = text(inside(given, "sessionContext", "sessionIssuer"), "arn")
        if len(arn) + len(issuer) + len(of) > LONGEST:
            return self.principal(kind, arn, issuer, of)
        return self.known_who(kind, arn, issuer, of)

    def principal(self, kind: str, arn: str, issuer: str, of: str) -> Who:
        who = user_of(arn) if kind == "IAMUser" else session_of(arn, issuer, of)
        if who.arn[:1] == "?":
            account, _, name = who.arn[1:].partition(":")
            untold = f"arn:{who.partition}:sts::{account}:assumed-role/{name}"
            who = who._replace(arn=self.known.names.get((account, f"role/{name}"), untold))
        if who.arn not in self.known.people:
            raise Missed(EXPORT, who.arn)
        return who

    def of_action(self, event: Dict[str, Any], who: Who, doing: Doing, is_copy: bool) -> List[Call]:
        keys, outcome = self.keys(event, doing), outcome_of(event)
        session = who.session if self.has_sessions else ""
        return [
            checked(Call(who.arn, session, doing.action, arn, account, keys, found, outcome))
            for arn, account, found in self.things(event, who, doing, is_copy)
        ]

    def source_of(self, event: Dict[str, Any], who: Who) -> Call:
        """The request for the source of an object that is copied."""
        path, _, version = urllib.parse.unquote(text(event.get("requestParameters"), tables.SOURCE)).partition(
            "?versionId="
        )
        action = tables.OF_VERSION["GetObject"] if version else "GetObject"
        if "/" not in path.lstrip("/") or path.startswith("arn:"):
            raise Missed(THING, f"s3:{action} (the source of a copy)")
        session, keys = who.session if self.has_sessions else "", self.keys(event, self.known_doing(f"s3:{action}"))
        arn = f"arn:{who.partition}:s3:::{path.lstrip('/')}"
        found = f"requestParameters.{tables.SOURCE}"
        return checked(Call(who.arn, session, f"s3:{action}", arn, recipient(event), keys, found, outcome_of(event)))

    def wanted(self, event: Dict[str, Any], service: str, names: Tuple[str, ...]) -> List[Doing]:
        """The actions that an event wants, by the service reference where it has the service."""
        given = event.get("requestParameters")
        parameters: Dict[str, Any] = given if isinstance(given, dict) else {}
        own, further = self.known_actions(service, names, service == "s3" and bool(parameters.get("versionId")))
        return [*own, *(self.known_doing(action) for member, action in further if parameters.get(member))]

    def actions(self, service: str, names: Tuple[str, ...], has_version: bool) -> Any:
        """Some actions, on a version of an object where one is named; and the members with which they want further ones."""
        every = [tables.OF_VERSION.get(it, it) if has_version else it for it in names]
        own = [self.known_doing(self.checked_action(f"{service}:{it}")) for it in every]
        return own, tables.FURTHER.get(f"{service}:{names[0]}", ())

    def checked_action(self, action: str) -> str:
        if not ACTION.fullmatch(action):
            raise Missed(DOING, action)
        if not self.references.knows(action):
            raise Missed(DOING, f"{action} (the service reference lacks it)")
        return action

    def doing(self, action: str) -> Doing:
        service, _, name = action.partition(":")
        told = tellers(action, self.asked)
        return Doing(action, rule_of(service, name), tables.UNLESS.get(action), self.has_none(action), told)

    def things(self, event: Dict[str, Any], who: Who, doing: Doing, is_copy: bool) -> List[Found]:
        """What an action of an event is on."""
        action, rule = doing.action, doing.rule
        found: List[Found] = []
        if not (doing.unless and text(event.get("requestParameters"), doing.unless)):
            found = found_in(event, who, "copy" if is_copy else rule)
        if not found and rule is None and doing.has_none:
            found = [("*", who.account, "no resource: by the service reference the action has none")]
        if not found:
            raise Missed(THING, action)
        return [it if it[0][:1] != "?" else self.resolved(action, it) for it in found]

    def resolved(self, action: str, found: Found) -> Found:
        """A resource by its whole ARN, where the event has a name alone."""
        arn, account, by = found
        kind, _, rest = arn[1:].partition(":")
        if kind == "iam":
            holder, _, name = rest.partition(":")
            whole = self.known.names.get((holder, name))
            if not whole:
                raise Missed(THING, f"{action} ({name}, which no export has)")
            return whole, account, f"{by} and the export"
        several = self.known.secrets.get("arn:{}:secretsmanager:{}:{}:secret:{}".format(*rest.split(":", 3)), [])
        if len(several) != 1:
            raise Missed(THING, f"{action} (a secret by its name, and --resources has no one ARN of it)")
        return several[0], account, f"{by} and --resources"

    def has_none(self, action: str) -> bool:
        service, _, name = action.lower().partition(":")
        known = self.references.services.get(service)
        return known is not None and name in known.actions and not known.actions[name]

    def keys(self, event: Dict[str, Any], doing: Doing) -> Tuple[Tuple[str, str], ...]:
        """The condition keys that an event tells, of those that are asked for."""
        if not doing.tellers:
            return ()
        told = [of(event) for of in doing.tellers]
        return tuple([it for it in told if it[1] and it[0].lower() in self.asked])


def address_of(event: Dict[str, Any]) -> Tuple[str, str]:
    """Where a service called for somebody, its own address and program are none of theirs."""
    address = text(event, "sourceIPAddress")
    if not ADDRESS.fullmatch(address) or is_of_service(event):
        return "", ""
    return ("aws:VpcSourceIp" if text(event, "vpcEndpointId") else "aws:SourceIp"), address


def agent_of(event: Dict[str, Any]) -> Tuple[str, str]:
    return "aws:UserAgent", "" if is_of_service(event) else text(event, "userAgent")


def framed_agent_of(event: Dict[str, Any]) -> Tuple[str, str]:
    """S3 has it in brackets."""
    key, agent = agent_of(event)
    return key, agent[1:-1] if agent[:1] == "[" and agent[-1:] == "]" else agent


def mfa_of(event: Dict[str, Any]) -> Tuple[str, str]:
    mfa = text(inside(event, "userIdentity", "sessionContext", "attributes"), "mfaAuthenticated")
    return "aws:MultiFactorAuthPresent", mfa if mfa in ("true", "false") else ""


def transport_of(event: Dict[str, Any]) -> Tuple[str, str]:
    return "aws:SecureTransport", "true" if isinstance(event.get("tlsDetails"), dict) else ""


def version_of(event: Dict[str, Any]) -> Tuple[str, str]:
    version = text(event.get("tlsDetails"), "tlsVersion")
    return "s3:TlsVersion", version[4:] if version.startswith("TLSv") else ""


def parameter_of(key: str, member: str, event: Dict[str, Any]) -> Tuple[str, str]:
    return key, text(event.get("requestParameters"), member)


def tellers(action: str, asked: FrozenSet[str]) -> Tuple[Teller, ...]:
    """What tells the keys of an action, of those that are asked for."""
    is_of_s3 = action.startswith("s3:")
    every: List[Tuple[Set[str], Teller]] = [
        ({"aws:sourceip", "aws:vpcsourceip"}, address_of),
        ({"aws:useragent"}, framed_agent_of if is_of_s3 else agent_of),
        ({"aws:multifactorauthpresent"}, mfa_of),
        ({"aws:securetransport"}, transport_of),
        ({"s3:tlsversion"} if is_of_s3 else set(), version_of),
        ({"aws:sourcevpce"}, lambda event: ("aws:SourceVpce", text(event, "vpcEndpointId"))),
        ({"aws:requestedregion"}, lambda event: ("aws:RequestedRegion", text(event, "awsRegion"))),
    ]
    for key, member in tables.PARAMETERS.get(action, {}).items():
        every.append(({key.lower()}, functools.partial(parameter_of, key, member)))
    return tuple(of for names, of in every if names & asked)


def is_of_service(event: Dict[str, Any]) -> bool:
    """Whether a service made the call for somebody."""
    address = text(event, "sourceIPAddress")
    is_named = address[-14:] == ".amazonaws.com" or address == "AWS Internal"
    return is_named or bool(text(event.get("userIdentity"), "invokedBy"))


def checked(call: Call) -> Call:
    """A call that a world may hold."""
    arn, is_ascii = call.resource, call.resource.isascii()
    if arn != "*" and not (len(arn) <= LONGEST and ARN.fullmatch(arn)):
        raise Missed(THING, f"{call.action} (what it names is no ARN)")
    for _, value in call.keys:
        if len(value) > 4 * LONGEST:
            raise Missed(THING, f"{call.action} (a key of over {4 * LONGEST} characters)")
        is_ascii = is_ascii and value.isascii()
    # The name of a session is ASCII.
    if not is_ascii and not is_whole("".join([arn, *(value for _, value in call.keys)])):
        raise Missed(THING, f"{call.action} (half a character)")
    return call


def is_whole(given: str) -> bool:
    try:
        given.encode()
    except UnicodeEncodeError:
        return False
    return True
