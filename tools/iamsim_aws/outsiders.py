"""Who is of no account: web identities, services and canonical users, of whom policies of resources speak.

For the program such a text names nobody. In a world that asks for it a user stands for it, by an ARN of its own in an account that no text
names; the policies that iamsim is given have that ARN in its place.
"""

import re
from typing import Any, Dict, Iterable, Iterator, List, NamedTuple, Optional, Sequence

from .arns import owner_of, principal_arn, resource_part, service_of
from .documents import THROUGH, Place, Policy, World, each, mapped, places, statements_of
from .keys import CALLER, DERIVED, asked_by
from .parties import EVERYBODY, PARTY, texts_in
from .speaking import shares, texts_of
from .unsigned import SIGNED, is_of_everybody, may_be_unsigned, telling_apart

# The name of the policy that lets it ask.
BY_ITSELF = "what it may do by itself (assumed)"
KINDS = ("Federated", "Service", "CanonicalUser")
STANDING = re.compile(r"arn:aws:iam::[0-9]{12}:user/\((Federated|Service|CanonicalUser)\)/(.+)")
# What follows from the ARN that stands for it, and so is not its own.
MADE_UP = {it.lower() for it in (*DERIVED, CALLER) if it.startswith("aws:Principal") or it in ("aws:username", CALLER)}
# Texts of one statement at most.
MOST = 4000
Resource = Dict[str, Any]


class Outsider(NamedTuple):
    """The kind of a principal that is of no account, and the text by which policies name it."""

    kind: str
    text: str

    @property
    def name(self) -> str:
        """Its own name, without whose provider knows it."""
        part = resource_part(self.text)
        return part[len("oidc-provider/") :] if part.startswith("oidc-provider/") else part

    @property
    def said(self) -> str:
        """How policies name it."""
        return REST_WORDS if self == REST else f"{self.kind} {self.text}"

    def words(self) -> str:
        if self == REST:
            return self.name
        if self.kind == "Service":
            return f"service: {self.name}"
        if self.kind == "CanonicalUser":
            return f"canonical user: {self.name}"
        is_saml = self.name.startswith("saml-provider/")
        return f"SAML identity: {self.name[len('saml-provider/') :]}" if is_saml else f"web identity: {self.name}"

    @property
    def names(self) -> List[str]:
        """The texts that patterns are compared with."""
        return [self.words(), self.name]

    def principal(self, account: str, resources: List[str]) -> Dict[str, Any]:
        """The user that stands for it, in an account that no text names. It asks for nothing but these resources."""
        texts = [it for one in resources for it in (one, *([f"{one}/*"] if service_of(one) == "s3" else []))]
        some = [texts[n : n + MOST] for n in range(0, len(texts), MOST)]
        statements = [{"Effect": "Allow", "Action": "*", "Resource": it} for it in some]
        # In a document of this version a text of a resource has no variables.
        document = {"Version": "2008-10-17", "Statement": statements}
        return {"user": self.arn(account), "identity": [Policy(BY_ITSELF, document)]}

    def arn(self, account: str) -> str:
        return f"arn:aws:iam::{account}:user/({self.kind})/{self.text}"

    def can_stand(self) -> bool:
        """Whether some user can have an ARN with its text."""
        return bool(PARTY.fullmatch(self.arn("0" * 12)))


# Whom '*' means besides users and roles.
REST, REST_WORDS = Outsider("*", "anonymous"), "everybody, also who signs nothing or is no user and no role"


def outsider_of(principal: Dict[str, Any]) -> Optional[Outsider]:
    """For whom a principal stands, where it does so for one who is of no account."""
    found = STANDING.fullmatch(principal_arn(principal))
    is_made = any(isinstance(it, Policy) and it.name == BY_ITSELF for it in principal.get("identity") or [])
    return Outsider(found[1], found[2]) if found and is_made else None


def named_by(statement: Any) -> Iterator[Outsider]:
    """Whom a statement of a resource's policy names that is of no account."""
    element: Any = statement.get("Principal") if isinstance(statement, dict) else None
    given: Dict[str, Any] = element if isinstance(element, dict) else {}
    for kind in KINDS:
        yield from (Outsider(kind, it) for it in each(given.get(kind)) if isinstance(it, str))


def let_in_by(resource: Resource) -> Iterator[Any]:
    """(outsider, the statement) of each that the policy of a resource lets in."""
    for it in places({"resources": [resource]}):
        for one in statements_of(it.policy.document) if it.kind == "resource" else ():
            if isinstance(one, dict) and one.get("Effect") == "Allow":
                yield from ((who, one) for who in named_by(one))


def outsiders(worlds: Iterable[World], account: str) -> List[Dict[str, Any]]:
    """Who stands for those whom policies of the worlds' resources let in, each for what these let it do."""
    found: Dict[Outsider, Dict[str, None]] = {}
    for owner, some in by_owner(worlds).items():
        inside = (owner_of(it[THROUGH]["arn"]) for it in some if THROUGH in it)
        arns = dict.fromkeys([owner, *inside])
        for who in (who for who, why in doubts(some).items() if why is None):
            found.setdefault(who, {}).update(arns)
    return [who.principal(account, list(of)) for who, of in found.items()]


def by_owner(worlds: Iterable[World]) -> Dict[str, List[Resource]]:
    """The resources of worlds by those whose policy they have."""
    found: Dict[str, List[Resource]] = {}
    for it in (one for world in worlds for one in world["resources"]):
        found.setdefault(owner_of(it["arn"]), []).append(it)
    return found


def doubts(resources: List[Resource]) -> Dict[Outsider, Optional[str]]:
    """Whom policies of resources let in that is of no account: nothing where somebody stands for it, else why nobody does, which may go
    without saying."""
    found = dict.fromkeys(who for it in resources for who, _ in let_in_by(it))
    of_rest = doubt_of_rest(resources)
    some = {who: (doubt(who, resources) or None) if who.can_stand() else "" for who in found}
    return {**some, REST: of_rest} if of_rest else some


def doubt_of_rest(resources: List[Resource]) -> str:
    """Why it is not known what the policies of resources let everybody do who is no user and no role."""
    signed = any(service_of(it["arn"]) in SIGNED for it in resources)
    every = [] if signed else [(it, *one) for it in places({"resources": resources}) for one in numbered(it)]
    every = [it for it in every if is_of_everybody(it[2])]
    own = [
        action
        for it, _, one in every
        if it.kind == "resource" and one.get("Effect") == "Allow" and may_be_unsigned(one)
        for action in actions_of(one)
    ]
    for it, n, one in every:
        keys = telling_apart(one)
        if keys and any(shares(of, action) for of in actions_of(one) for action in own):
            return f"{it.policy.name}, statement {n}, asks for {keys[0]}"
    return ""


def numbered(it: Place) -> Iterator[Any]:
    """(number, statement) of a document."""
    return enumerate(statements_of(it.policy.document))


def doubt(who: Outsider, resources: List[Resource]) -> str:
    """Why it is not known what the policies of resources let one do who is of no account: a statement that concerns it asks for what
    follows from the ARN of a user or role, or says whom it does not mean."""
    own = [action for it in resources for of, one in let_in_by(it) if of == who for action in actions_of(one)]
    for place in places({"resources": resources}) if own else ():
        policy = place.policy
        version = policy.document.get("Version") if isinstance(policy.document, dict) else None
        for n, one in enumerate(statements_of(policy.document)):
            if concerns(one, who) and any(shares(it, action) for it in actions_of(one) for action in own):
                keys = [key for key in asked_by(one, version) if key.lower() in MADE_UP]
                what = "has NotPrincipal" if "NotPrincipal" in one else f"asks for {keys[0]}" if keys else ""
                if what:
                    return f"{policy.name}, statement {n}, {what}"
    return ""


def actions_of(statement: Any) -> List[str]:
    """The patterns of actions of which a statement may speak."""
    return texts_of(statement, "Action") or ["*"]


def concerns(statement: Any, who: Outsider) -> bool:
    """Whether a statement may be of one who is of no account."""
    if not isinstance(statement, dict):
        return False
    return "NotPrincipal" in statement or EVERYBODY in texts_in(statement, "Principal") or who in named_by(statement)


def standing(world: World) -> World:
    """The world in whose policies of resources those who are of no account are named by the ARNs of who stands for them there."""
    found = {outsider_of(it): principal_arn(it) for it in world["principals"]}
    arns = {who: arn for who, arn in found.items() if who}

    def change(kind: str, _path: str, policy: Any) -> Any:
        some = statements_of(policy.document) if kind == "resource" else []
        if not any(who in arns for one in some for who in named_by(one)):
            return policy
        return policy._replace(document={**policy.document, "Statement": [renamed(it, arns) for it in some]})

    return {**world, **mapped({"resources": world["resources"]}, change)} if arns else world


def renamed(statement: Any, arns: Dict[Outsider, str]) -> Any:
    """The statement that names those who stand for whom it names."""
    own = [who for who in named_by(statement) if who in arns]
    if not own:
        return statement
    given = statement["Principal"]
    left: Dict[str, Sequence[str]] = {
        "AWS": [*(each(given["AWS"]) if "AWS" in given else []), *map(arns.__getitem__, own)]
    }
    for kind in (it for it in given if it != "AWS"):
        rest = [it for it in each(given[kind]) if Outsider(kind, it) not in arns]
        left.update({kind: rest} if rest else {})
    return {**statement, "Principal": left}
