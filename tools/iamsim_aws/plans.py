"""Reading a plan of Terraform ('terraform show -json PLAN'): what changes, and what follows from references within it."""

import functools
import os
import re
from typing import Any, Dict, Iterator, List, NamedTuple, Optional, Tuple

from . import files
from .configurations import Configuration
from .exports import document
from .faults import Fault
from .partial import known_document
from .planned import Change, Values, Where, any_true, iam_arn
from .unknowns import DENY_LEFT, LATER, Unknowns
from .yamls import Unclear

INDEX = re.compile(r"\[[^\]]*\]")
# What of the settings of a provider says as whom it signs in.
SIGN_IN = (
    "assume_role",
    "assume_role_with_web_identity",
    "profile",
    "access_key",
    "shared_credentials_files",
    "shared_config_files",
)
DATA_DOCUMENT = "aws_iam_policy_document"
# Attributes that are documents, which a document may be taken from as a whole.
DOCUMENTS = ("policy", "json", "assume_role_policy", "content", "inline_policy")

# Whose ARN follows from a name: the service and what stands before it, the attribute that has it, and those that are the ARN.
NAMED: Dict[str, Tuple[Any, ...]] = {
    "aws_cloudwatch_log_group": (("logs", "log-group:"), "name", "arn"),
    "aws_dynamodb_table": (("dynamodb", "table/"), "name", "arn"),
    "aws_ecr_repository": (("ecr", "repository/"), "name", "arn"),
    "aws_iam_openid_connect_provider": (("iam", "oidc-provider/"), "url", "arn", "id"),
    "aws_iam_saml_provider": (("iam", "saml-provider/"), "name", "arn", "id"),
    "aws_kinesis_stream": (("kinesis", "stream/"), "name", "arn", "id"),
    "aws_lambda_function": (("lambda", "function:"), "function_name", "arn"),
    "aws_sns_topic": (("sns", ""), "name", "arn", "id"),
    "aws_sqs_queue": (("sqs", ""), "name", "arn"),
}

# What gets another name only by being made anew.
RENAMED = ("aws_iam_role", "aws_iam_policy")


def object_or_none(value: Any) -> Optional[Values]:
    if value is not None and not isinstance(value, dict):
        raise TypeError
    return value


def change_of(it: Any) -> Change:
    of, unknown = it["change"], it["change"].get("after_unknown")
    before, after = object_or_none(of.get("before")), object_or_none(of.get("after"))
    actions = set(of.get("actions") or [])
    if "forget" in actions:
        # It stays there, and Terraform knows nothing of it any more.
        before, after = (None, after) if "create" in actions else (before, before)
    is_renamed = it["type"] in RENAMED and before and after and before.get("name") != after.get("name")
    is_replaced = bool(is_renamed) or {"delete", "create"} <= actions
    known = unknown if isinstance(unknown, dict) else {}
    return Change(str(it["address"]), str(it["type"]), before, after, known, is_replaced)


class Module(NamedTuple):
    """A module of a configuration: what its addresses begin with, its folder, where that is a part of the configuration's, and
    the values of its variables that are known."""

    path: str
    folder: Optional[str]
    variables: Values
    given: Values

    def modules(self) -> "Iterator[Module]":
        """This one, and those that are called in it."""
        yield self
        for name, call in self.given.get("module_calls", {}).items():
            source, own = call.get("source"), call.get("expressions", {})
            is_near = self.folder is not None and isinstance(source, str) and source.startswith(("./", "../"))
            folder = os.path.normpath(os.path.join(self.folder or "", source)) if is_near else None
            constants = {key: it["constant_value"] for key, it in own.items() if "constant_value" in it}
            yield from Module(f"{self.path}module.{name}.", folder, constants, call.get("module", {})).modules()


def read_before(module: Values) -> Iterator[Tuple[str, Values]]:
    """(address, values) of what a plan has read already."""
    for it in module.get("resources", []):
        if it.get("mode") == "data":
            yield it["address"], object_or_none(it.get("values")) or {}
    for it in module.get("child_modules", []):
        yield from read_before(it)


def doubts(given: Any) -> List[str]:
    """Why a plan does not tell all that will be."""
    found = {
        "it is of a run that failed (errored)": given.get("errored") is True,
        "it is not complete (complete)": given.get("complete") is False,
        "some changes are deferred (deferred_changes)": bool(given.get("deferred_changes")),
    }
    return [why for why, is_so in found.items() if is_so]


class Plan:
    def __init__(self, path: str, configuration: Optional[Configuration] = None):
        self.path, self.configuration = files.name_of(path), configuration
        self.unknowns = Unknowns(self.path, "plan")
        given = files.read_json(path)
        try:
            if "resource_changes" not in given and "format_version" not in given:
                raise TypeError
            every = [(change_of(it), it.get("mode")) for it in given.get("resource_changes", [])]
            planned = given.get("configuration", {})
            given_variables = {key: it.get("value") for key, it in given.get("variables", {}).items()}
            root = Module("", "", given_variables, planned.get("root_module", {}))
            self.modules = {it.path: it for it in root.modules()}
            self.expressions = {
                it.path + of["address"]: (it.path, of.get("expressions", {}))
                for it in self.modules.values()
                for of in it.given.get("resources", [])
            }
            self.had = dict(read_before(given.get("prior_state", {}).get("values", {}).get("root_module", {})))
            self.unknowns.doubts = doubts(given)
            self.providers = {
                it.path + of["address"]: str(of.get("provider_config_key"))
                for it in self.modules.values()
                for of in it.given.get("resources", [])
            }
            self.regions = regions_of(planned)
            strangers = strangers_of(planned)
        except (KeyError, TypeError, AttributeError):
            raise Fault(f"{self.path}: it is no plan of 'terraform show -json'") from None
        # Where one of several providers does not tell its region, no other one's is taken for it.
        self.region = self.regions.get("aws", "") if all(self.regions.values()) else ""
        self.changes = [self.in_region(it) for it, mode in every if mode == "managed"]
        used = {self.provider_of(it) for it in self.changes}
        self.unknowns.doubts += [f"it does not tell the account of {it}" for it in strangers if it in used]
        self.read = [it for it, mode in every if mode == "data" and it.kind == DATA_DOCUMENT]
        # What is read again when the plan is applied.
        for it, mode in every:
            self.had.pop(it.address if mode == "data" else "", None)

    def provider_of(self, change: Change) -> str:
        return self.providers.get(INDEX.sub("", change.address), "")

    def in_region(self, change: Change) -> Change:
        """The change with the region of its provider, where that is another than the first one's."""
        region = self.regions.get(self.provider_of(change), "")
        if region == self.region:
            return change
        before, after = ({"region": region, **it} if it else it for it in (change.before, change.after))
        return change._replace(before=before, after=after)

    def configured(self, change: Change) -> Tuple[str, Values]:
        """The path of the module of a resource, and its expressions."""
        way, of = self.expressions.get(INDEX.sub("", change.address), ("", {}))
        return way, of if isinstance(of, dict) else {}

    def is_configured(self, change: Change, name: str) -> bool:
        """Whether the configuration gives an attribute; one that it does not give is left to AWS."""
        address = INDEX.sub("", change.address)
        return address not in self.expressions or name in self.configured(change)[1]

    def target(self, way: str, expression: Any) -> Optional[Tuple[Change, str]]:
        """The one resource of the plan to which an expression refers, and its attribute. Of several nobody knows which
        counts, as in element([..], 1)."""
        found = full_references(expression)
        name, _, attribute = found[0].rpartition(".") if len(found) == 1 else ("", "", "")
        every = [it for it in [*self.changes, *self.read] if INDEX.sub("", it.address) == way + INDEX.sub("", name)]
        exact = [it for it in every if it.address == way + name] or every
        return (exact[0], attribute) if len(exact) == 1 else None

    def referred(self, change: Change, name: str, where: Where) -> Optional[str]:
        """The value of an attribute that refers to one of another resource of the plan."""
        way, expressions = self.configured(change)
        found = self.target(way, expressions.get(name))
        return derived(*found, where) if found else None

    def text(self, change: Change, name: str, where: Where) -> Optional[str]:
        """A text of the resource after the change; None where there is none, or only the apply tells it."""
        found = (change.after or {}).get(name)
        if found is None and change.unknown.get(name):
            found = self.referred(change, name, where)
            if found is None:
                self.lacks(change, name)
        if found is not None and not isinstance(found, str):
            raise Fault(f"{change.address}: {name} is no text")
        return found

    def lacks(self, change: Change, name: str) -> None:
        self.unknowns.lacks(f"{change.address}.{name}")

    def document(self, change: Change, name: str, where: Where) -> Any:
        """The document of an attribute; None where there is none, or only the apply tells it."""
        found = (change.after or {}).get(name)
        if found:
            return document(found, f"{change.address}.{name}")
        if not change.unknown.get(name):
            return None
        way, expressions = self.configured(change)
        target = self.target(way, expressions.get(name))
        if target and target[0].kind == DATA_DOCUMENT:
            made = self.data_document(target[0], where)
        else:
            text = derived(*target, where) if target and target[1] in DOCUMENTS else None
            made = document(text, f"{change.address}.{name}") if text else None
            count = len(self.unknowns.lacking)
            made = self.written(change, name, where) if made is None else made
            if len(self.unknowns.lacking) > count:
                return None
        if made is None:
            self.lacks(change, name)
        return made

    def written(self, change: Change, name: str, where: Where) -> Any:
        """The document of an attribute as the configuration has it, as far as it is known; None where it is not read."""
        way, expressions = self.configured(change)
        module, of = self.modules.get(way), expressions.get(name)
        references = of.get("references") if isinstance(of, dict) else None
        if module is None or module.folder is None or not isinstance(references, list):
            return None
        if self.configuration is None:
            self.unknowns.hint = "; --configuration FOLDER reads what jsonencode is given"
            return None
        place, own = ".".join(INDEX.sub("", change.address).split(".")[-2:]), f"{change.address}.{name}"
        some = [it for it in references if isinstance(it, str)]
        resolve = functools.partial(self.given, way, where)
        found = self.configuration.document(module.folder, f"{place}.{name}", some, resolve)
        if found is None:
            self.unknowns.hint = f"; {self.configuration.why()}"
            return None
        self.unknowns.notes.append(f"{own} is read from the configuration, which has to be the one of the plan")
        return known_document(self.unknowns, own, found)

    def given(self, way: str, where: Where, reference: str) -> Any:
        """What a reference in a configuration gives: a text, or Unclear."""
        first, _, rest = reference.partition(".")
        name, _, attribute = reference.rpartition(".")
        found: Any = None
        if first == "var":
            found = self.modules[way].variables.get(rest)
        elif way + name in self.had:
            found = self.had[way + name].get(attribute)
        else:
            target = self.target(way, {"references": [reference]})
            own = target[0].values.get(target[1]) if target else None
            found = derived(*target, where) if target and (own is None or isinstance(own, str)) else None
        return found if isinstance(found, str) else Unclear(reference)

    def data_document(self, change: Change, where: Where) -> Any:
        """The document of data.aws_iam_policy_document that is read when the plan is applied."""
        values = change.after or {}
        of, unknown = values.get("statement") or [], change.unknown.get("statement") or []
        others = ("source_policy_documents", "override_policy_documents", "source_json", "override_json")
        is_joined = any(values.get(it) or any_true(change.unknown.get(it)) for it in others)
        if is_joined or not isinstance(of, list) or not isinstance(unknown, list):
            return None
        made = []
        for n, it in enumerate(of):
            one = Statement(self, change, n, it, unknown[n] if n < len(unknown) else {}, where).made()
            if one is None:
                return None
            made += [one] if one else []
        return {"Version": values.get("version") or "2012-10-17", "Statement": made}


def regions_of(configuration: Any) -> Dict[str, str]:
    """The region of each provider of AWS, where the configuration gives it as a text."""
    some = (configuration.get("provider_config") or {}).items()
    given = {key: (it.get("expressions") or {}).get("region") or {} for key, it in some if is_of_aws(key)}
    return {key: str(it.get("constant_value") or "") for key, it in given.items()}


def strangers_of(configuration: Any) -> List[str]:
    """The providers of AWS that do not sign in as the first one does, and so may be of another account."""
    some = (configuration.get("provider_config") or {}).items()
    given = {key: it.get("expressions") or {} for key, it in some if is_of_aws(key)}
    ways = {key: [it.get(name) for name in SIGN_IN] for key, it in given.items()}
    first = ways.get("aws", next(iter(ways.values()), None))
    return [key for key, it in ways.items() if it != first]


def is_of_aws(provider: str) -> bool:
    """Whether a provider is AWS's, by its key: module.m:aws.west."""
    return provider.rpartition(":")[2].partition(".")[0] == "aws"


def full_references(expression: Any) -> List[str]:
    """What an expression refers to; each reference stands there with all that it begins with."""
    given = expression.get("references") if isinstance(expression, dict) else None
    some = list(dict.fromkeys(it for it in given or [] if isinstance(it, str)))
    return [it for it in some if not any(other.startswith((f"{it}.", f"{it}[")) for other in some)]


def derived(change: Change, name: str, where: Where) -> Optional[str]:
    """An attribute of a resource, also where it follows from others."""
    values = change.values
    if values.get(name) is not None:
        return str(values[name])
    own = {"aws_iam_user": "user", "aws_iam_role": "role", "aws_iam_group": "group", "aws_iam_policy": "policy"}
    if change.kind in own and values.get("name"):
        if name in ("arn", "id") and (name == "arn" or change.kind == "aws_iam_policy"):
            return iam_arn(own[change.kind], values, where) if values.get("arn") or where.account else None
        return str(values["name"]) if name == "id" else None
    if change.kind == "aws_s3_bucket" and values.get("bucket") and name in ("id", "arn"):
        return str(values["bucket"]) if name == "id" else f"arn:{where.partition}:s3:::{values['bucket']}"
    if change.kind in NAMED and name in NAMED[change.kind][2:]:
        return arn_by_name(change, where)
    return change.address if change.kind == "aws_organizations_policy" and name == "id" else None


def arn_by_name(change: Change, where: Where) -> Optional[str]:
    """The ARN that follows from the name, the account and the region."""
    (service, before), (own, *_) = NAMED[change.kind][0], NAMED[change.kind][1:]
    text, region = change.values.get(own), change.values.get("region") or where.region
    if not text or not where.account or (service != "iam" and not region):
        return None
    # The ARN of a provider of OpenID Connect has its URL without the scheme.
    text = str(text).split("://")[-1] if own == "url" else text
    return f"arn:{where.partition}:{service}:{'' if service == 'iam' else region}:{where.account}:{before}{text}"


class Statement(NamedTuple):
    """A statement of data.aws_iam_policy_document, of which the apply tells a part."""

    plan: Plan
    change: Change
    number: int
    given: Any
    unknown: Any
    where: Where

    def made(self) -> Optional[Values]:
        """The statement: without what it does not say, empty where it is left out, None where nothing stands for it."""
        if not isinstance(self.given, dict) or not isinstance(self.unknown, dict):
            return None
        whole = ("actions", "not_actions", "not_resources", "condition", "effect", "not_principals")
        people = self.people("principals")
        if people is None or any(any_true(self.unknown.get(it)) for it in whole):
            return None
        effect = self.given.get("effect") or "Allow"
        made: Values = {"Sid": self.given.get("sid"), "Effect": effect}
        made.update({"Action": self.given.get("actions"), "NotAction": self.given.get("not_actions")})
        resources = self.resources(effect)
        if resources is None:
            return {}
        made.update({"Resource": resources, "NotResource": self.given.get("not_resources")})
        made.update({"Principal": people, "NotPrincipal": self.people("not_principals")})
        made["Condition"] = conditions(self.given.get("condition") or [])
        return {key: value for key, value in made.items() if value}

    def resources(self, effect: str) -> Optional[List[str]]:
        """None where the statement is left out, as a deny on what nobody knows yet."""
        known = [it for it in self.given.get("resources") or [] if isinstance(it, str)]
        if not any_true(self.unknown.get("resources")):
            return known
        place, unknowns = f"{self.change.address}.statement.{self.number}.resources", self.plan.unknowns
        if effect != "Allow":
            unknowns.notes.append(f"{place} {LATER}: {DENY_LEFT}")
        return unknowns.resources(place, effect, known, self.referred("resources") if effect == "Allow" else None)

    def referred(self, name: str) -> Optional[str]:
        """The ARN to which an element of the statement refers."""
        return self.arn_of(self.block().get(name))

    def block(self) -> Values:
        """The expressions of the statement."""
        blocks = self.plan.configured(self.change)[1].get("statement")
        block = blocks[self.number] if isinstance(blocks, list) and self.number < len(blocks) else {}
        return block if isinstance(block, dict) else {}

    def arn_of(self, expression: Any) -> Optional[str]:
        """The ARN to which an expression refers."""
        found = self.plan.target(self.plan.configured(self.change)[0], expression)
        text = derived(*found, self.where) if found else None
        return text if text and text.startswith("arn:") else None

    def people(self, name: str) -> Any:
        """None where not all that is named is known."""
        found: Dict[str, List[str]] = {}
        given = self.given.get(name) or []
        for it in given:
            known = [one for one in it.get("identifiers") or [] if isinstance(one, str)]
            found.setdefault(str(it.get("type")), []).extend(known)
        if any_true(self.unknown.get(name)):
            # Of several blocks nobody knows which is which, since a plan has them in an order of its own.
            blocks = self.block().get(name)
            one = blocks[0] if isinstance(blocks, list) and len(blocks) == len(given) == 1 else {}
            text = self.arn_of(one.get("identifiers") if isinstance(one, dict) else None)
            if text is None or not isinstance(given[0].get("type"), str):
                return None
            found[given[0]["type"]].append(text)
        return "*" if found.get("*") == ["*"] else found


def conditions(given: Any) -> Values:
    made: Values = {}
    for it in given:
        made.setdefault(str(it.get("test")), {}).setdefault(str(it.get("variable")), []).extend(it.get("values") or [])
    return made
