"""What a plan or a template does not tell: it ends the command, or is told and left out."""

import re
from typing import Dict, Iterator, List, NamedTuple, Optional, Tuple

from .faults import Fault
from .making import Estate

LATER, DENY_LEFT = "is known only after the apply", "there this deny is left out"
ANY_RESOURCE = "taken to be any resource"
# How kinds of resources are called that may hold a policy of access, and how those of them that hold none.
MAY_HOLD = re.compile(r"_iam_|::IAM::|_ssoadmin_|::SSO::|polic(y|ies)|permission|grant", re.IGNORECASE)
HOLD_NONE = re.compile(
    "scaling|lifecycle|balanc|_lb_|stickiness|cloudfront|traffic|firewall|data_?protection|password|alias|certificate"
    "|login|access_?key|ssh|mfa|instance_?profile|service_?linked|oidc|saml",
    re.IGNORECASE,
)


class Applied(NamedTuple):
    """The estates before and after a plan or templates; what is to be told; of it what is left out, whatever that would do; and
    the estate after, with what only the apply tells taken to allow nothing and to deny all: None where it is the same.
    """

    before: Estate
    after: Estate
    lines: List[str]
    left: List[str]
    narrow: Optional[Estate]


class Unknowns:
    """What only the apply tells of a plan or a template (`word`), in the order in which it is met. `is_narrow`: what a statement
    is of that is not known yet it does not allow, and denies."""

    def __init__(self, path: str, word: str, is_narrow: bool = False):
        self.path, self.word, self.is_narrow = path, word, is_narrow
        self.lacking: List[str] = []
        # What is taken to be any resource, and denies that are left out though a fault without --allow-unknown.
        self.opened: List[str] = []
        self.denies: List[str] = []
        self.notes: List[str] = []
        self.doubts: List[str] = []
        # How more may be told, in words.
        self.hint = ""
        self.has_guesses = False

    def narrow(self) -> "Unknowns":
        return Unknowns(self.path, self.word, True)

    def lacks(self, place: str) -> None:
        self.lacking.append(place)

    def resources(self, place: str, effect: str, known: List[str], found: Optional[str]) -> Optional[List[str]]:
        """What stands for the resources of a statement of which not all are known; None where the statement is left out. A deny
        is of those that are known: on what nobody knows yet it would hide what others allow. `found` is the ARN to which they
        refer."""
        self.has_guesses = True
        if self.is_narrow:
            return ["*"] if effect != "Allow" else known or None
        if effect != "Allow":
            return known or None
        if found is None:
            self.opened.append(place)
            return ["*"]
        # What stands behind the reference, as in "${aws_s3_bucket.b.arn}-logs/*", is not told.
        self.notes.append(f"{place} {LATER}: taken to be all that begins with {found}")
        return [*known, f"{found}*"]

    def names(self) -> List[str]:
        return list(dict.fromkeys([*self.lacking, *self.opened, *self.denies]))

    def settled(self, notes: List[str], ignored: Dict[str, int], allows: bool) -> Tuple[List[str], List[str]]:
        """Ends the command where something is not told; else what is to be told: what is left out, and how many of each kind are
        not read; and of these lines those of what may do anything."""
        if self.names() and not allows:
            words = ", ".join(self.names())
            raise Fault(
                f"{self.path}: only the apply tells {words}: --allow-unknown leaves these changes out{self.hint}"
            )
        doubts = [f"{self.path}: {why}" for why in self.doubts]
        lacking = [f"{it} {LATER}: the change is left out" for it in dict.fromkeys(self.lacking)]
        unread = {kind: f"{count} changes of {kind} are not read: {end_of(kind)}" for kind, count in ignored.items()}
        left = [*doubts, *lacking, *(line for kind, line in unread.items() if may_hold(kind))]
        return [*doubts, *notes, *dict.fromkeys(self.notes), *lacking, *self.guesses(), *unread.values()], left

    def guesses(self) -> Iterator[str]:
        for places, end in ((self.opened, ANY_RESOURCE), (self.denies, DENY_LEFT)):
            yield from (f"{it} {LATER}: {end}" for it in dict.fromkeys(places))


def may_hold(kind: str) -> bool:
    """Whether a kind of resources that is not read may hold a policy, by its name."""
    is_of_aws = kind.startswith(("aws_", "awscc_", "AWS::"))
    return is_of_aws and MAY_HOLD.search(kind) is not None and HOLD_NONE.search(kind) is None


def end_of(kind: str) -> str:
    return "what they say of policies is left out" if may_hold(kind) else "they are taken to change no policy"
