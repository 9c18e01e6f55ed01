"""Templates of CloudFormation put into effect on what exports have."""

from typing import Any, Dict, List, NamedTuple, Optional, Set, Tuple

from . import besides
from .documents import statements_of
from .effects import TARGETS, Apply, is_meant
from .exports import Account
from .faults import Fault
from .functions import Functions, Scope, text_of
from .making import BUCKET, Estate
from .pieces import NESTED, READ, Key, Pieces
from .planned import Change, Values
from .sam import expanded, is_made, unfollowed
from .standins import ENTITIES, PATHS, Names, entity_of, plain_name
from .templates import Stack, Template, account_in, parameters_of, read_template, stacks_of, with_previous
from .unknowns import Applied, Unknowns
from .yamls import Unclear

RETAIN = ("Retain", "RetainExceptOnCreate")
DEPLOYED = "--stack with the answers of get-template and describe-stacks tells it"
# Resources that a template always has beside those that count.
PLAIN = ("AWS::CDK::Metadata", "AWS::CloudFormation::WaitConditionHandle")
ENTITY_KINDS = {f"aws_iam_{name}": kind for kind, (name, _) in ENTITIES.items()}
PERMISSION = "aws_lambda_permission"
LINKS = ("AWS::IAM::Policy", "AWS::IAM::UserToGroupAddition")
PARTS = {"AWS::IAM::UserPolicy": "user", "AWS::IAM::GroupPolicy": "group", "AWS::IAM::RolePolicy": "role"}


class Given(NamedTuple):
    """The options of templates."""

    templates: List[str]
    parameters: List[str]
    stacks: List[str]
    account: Optional[str]
    allows_unknown: bool


class Reader:
    """Finds the changes that a template brings to its stack."""

    def __init__(
        self,
        template: Template,
        given: Dict[str, Any],
        stack: Stack,
        estate: Estate,
        option: Optional[str],
        is_narrow: bool = False,
    ):
        self.template, self.stack, self.estate = template, stack, estate
        self.unknowns = Unknowns(template.path, "template", is_narrow)
        self.account = self.account_of(given, option)
        self.changes: List[Change] = []
        region = text_of(given.get("AWS::Region")) or (stack.arn.split(":") + [""] * 4)[3]
        name = text_of(given.get("AWS::StackName")) or stack.name
        scope = Scope(self.account.account, self.account.partition, region, name, stack.arn)
        self.after = self.pieces(template, given, stack, scope, self.unknowns)
        self.deployed: Optional[Pieces] = None
        if stack.template:
            if stack.template.strange_transforms():
                raise Fault(
                    f"{stack.template.path}: it has macros: give it as they leave it (--template-stage Processed)"
                )
            own = stack.parameters if stack.parameters is not None else unknown_values(stack.template)
            silent = Unknowns(stack.template.path, "template")
            self.deployed = self.pieces(stack.template, own, stack, scope, silent)
        self.after.names.tell(self.unknowns)

    def account_of(self, given: Dict[str, Any], option: Optional[str]) -> Account:
        wanted, accounts = account_in(self.stack, given) or option, self.estate.accounts
        found = [it for it in accounts if it.account == wanted or wanted is None and len(accounts) == 1]
        if not found:
            whose = f"its account {wanted}" if wanted else "the account that the template does not name"
            raise Fault(f"{self.template.path}: no export is of {whose}: name the template's account by --account")
        return found[0]

    def pieces(
        self, template: Template, given: Dict[str, Any], stack: Stack, scope: Scope, unknowns: Unknowns
    ) -> Pieces:
        secrets = [it["arn"] for it in self.estate.further]
        functions = Functions(expanded(template), given, scope)
        names = Names(functions, stack, self.account, secrets, template is stack.template)
        made = Pieces(names, unknowns, self.account)
        made.run()
        for it in template.strange_transforms():
            unknowns.lacks(f"Transform ({it})")
        lacking, plain = unfollowed(template)
        for it in lacking:
            unknowns.lacks(it)
        if plain:
            why = "SAM lets services call functions by their events, for whom nobody is asked"
            unknowns.notes.append(f"{template.path}: {why}: {', '.join(plain)}")
        return made

    def type_of(self, logical: str) -> str:
        """The type of a resource that the stack has; an empty text where it has none of that name."""
        if self.stack.physical is not None:
            return self.stack.physical.get(logical, ("", ""))[0]
        of = self.deployed.functions.template.resources if self.deployed else {}
        is_there = self.deployed is not None and logical not in self.deployed.without
        return str(of[logical].get("Type")) if is_there and logical in of else ""

    def run(self, given: Set[Key]) -> None:
        """Finds the changes; `given` are the pieces of all templates of its account."""
        if not self.stack.is_known:
            self.unknowns.notes.append(
                f"{self.template.path}: no --stack tells what its stack has: it is taken to be new, so that nothing goes"
            )
        there = [*(self.stack.physical or {}), *(self.deployed.found if self.deployed else {})]
        for logical in dict.fromkeys([*self.after.found, *there]):
            if logical in self.after.doubted:
                continue
            kind, old = self.after.names.kind(logical) if logical in self.after.found else "", self.type_of(logical)
            if kind and old and kind != old:
                self.unknowns.lacks(f"{logical} (its type was {old})")
            elif kind:
                self.put(logical, kind, bool(old), given)
            elif old and logical not in self.after.unread:
                self.take(logical, old)
            elif old in READ:
                self.unknowns.lacks(f"{logical} (its type was {old})")

    # --- what goes -----------------------------------------------------------------------------------------------------

    def keeps(self, logical: str, policy: str) -> Optional[bool]:
        """Whether a policy of a resource keeps what is taken off the stack; None where nobody knows."""
        for it in (self.deployed, self.after):
            of = it.functions.template.resources.get(logical) if it else None
            if of is not None and it is not None:
                found = it.functions.value(of.get(policy, "Delete"))
                return None if isinstance(found, Unclear) else found in RETAIN
        return None

    def take(self, logical: str, kind: str) -> None:
        """A resource of the stack that the template has no more."""
        if kind in NESTED:
            self.unknowns.lacks(f"{logical} (it goes: {NESTED[kind]})")
        if kind not in READ:
            return
        if is_made(self.template, logical):
            return self.stays(logical, kind)
        keeps = self.keeps(logical, "DeletionPolicy")
        if keeps is None:
            self.unknowns.lacks(f"{logical} (whether it goes, by its DeletionPolicy: {DEPLOYED})")
        elif keeps:
            self.unknowns.notes.append(f"{self.template.path}: {logical} is retained: it stays as it is")
        else:
            before = self.before(logical, kind)
            if before is None:
                self.unknowns.lacks(f"{logical} (what goes with it: {DEPLOYED})")
            for key, values in (before or {}).items():
                self.change(logical, key[0], values, None)

    def stays(self, logical: str, kind: str) -> None:
        """What SAM has made of a resource of the template; permissions are of services, for which nobody asks."""
        if kind == "AWS::Lambda::Permission":
            self.unknowns.notes.append(
                f"{self.template.path}: {logical} is what SAM makes: it is taken to stay as it is"
            )
        else:
            self.unknowns.lacks(f"{logical} (what SAM makes of it)")

    def before(self, logical: str, kind: str) -> Optional[Dict[Key, Optional[Values]]]:
        """What a resource of the stack gave; None where nobody knows."""
        if self.deployed and logical in self.deployed.found:
            found = self.deployed.found[logical]
            is_sure = logical not in self.deployed.unsure and logical not in self.deployed.doubted
            return found if is_sure else None
        own = self.identity(logical, kind)
        if own is not None:
            return {(own[0],): own[1]}
        two = (self.stack.physical or {}).get(logical, ("", ""))[1].split("|")
        if kind in PARTS and len(two) == 2:
            holder = PARTS[kind]
            return {(f"aws_iam_{holder}_policy", two[1], two[0]): {holder: two[1], "name": two[0]}}
        return None

    def identity(self, logical: str, kind: str) -> Optional[Tuple[str, Values]]:
        """A user, group, role or managed policy by the physical id that the stack has of it."""
        own = (self.stack.physical or {}).get(logical, ("", ""))[1]
        if kind not in ENTITIES or not own:
            return None
        name = ENTITIES[kind][0]
        there = entity_of(self.account, name, plain_name(kind, own), own) or {}
        known = {"path": there.get("Path") or "/", "arn": there["Arn"]} if "Arn" in there else {}
        return f"aws_iam_{name}", {"name": plain_name(kind, own), **known}

    # --- what comes or changes -----------------------------------------------------------------------------------------

    def put(self, logical: str, kind: str, is_there: bool, given: Set[Key]) -> None:
        after, before = self.after.found[logical], self.before(logical, kind) if is_there else {}
        is_known = bool(self.deployed and is_there and before is not None) or not is_there and self.stack.is_known
        if kind in ENTITIES:
            self.put_entity(logical, kind, before or {}, after, is_known, given)
        elif is_there and not is_known and (kind in LINKS or kind in PARTS and before is None):
            for why in besides.of_links(self.account, [it for it in after if it[1:]], given):
                self.unknowns.lacks(f"{logical} ({why}: {DEPLOYED})")
        elif is_there and not is_known and before is None:
            before = {key: like(key[0], values) for key, values in after.items()}
            self.others(logical, after)
        self.further(logical, kind, is_known, given)
        self.differing(logical, before or {}, after)

    def others(self, logical: str, after: Dict[Key, Optional[Values]]) -> None:
        """Resources that the physical id of a policy means, and that the template gives none."""
        old = (self.stack.physical or {}).get(logical, ("", ""))[1]
        for kind, *names in after:
            for it in self.estate.further if kind in TARGETS or kind == PERMISSION else ():
                is_old = old and "policy" in it and (is_meant(it["arn"], old, kind) or has_statement(it, kind, old))
                if is_old and not any(is_meant(it["arn"], name, kind) for name in names):
                    self.unknowns.lacks(f"{logical} (whether {it['arn']} keeps its policy: {DEPLOYED})")

    def further(self, logical: str, kind: str, is_known: bool, given: Set[Key]) -> None:
        """What permission sets and policies of the organisation have besides."""
        whys: List[str] = []
        if kind == "AWS::SSO::PermissionSet" and not is_known:
            own = self.after.found[logical].get(("aws_ssoadmin_permission_set",)) or {}
            names = {it[-1] for it in self.after.found[logical]}
            names |= {"AwsSSOInlinePolicy"} if any("inline" in it[0] for it in self.after.found[logical]) else set()
            whys += besides.of_set(self.account, str(own.get("name")), names)
        if kind == "AWS::Organizations::Policy" and not is_known:
            own_id = self.after.names.old(logical)
            whys += besides.of_organization(self.estate, own_id, given) if own_id else []
        for why in whys:
            self.unknowns.lacks(f"{logical} ({why}: {DEPLOYED})")

    def differing(self, logical: str, before: Dict[Key, Optional[Values]], after: Dict[Key, Optional[Values]]) -> None:
        """The changes of pieces; where not all that comes is known, nothing of its kind goes."""
        unsure = self.after.unsure.get(logical, [])
        for key in dict.fromkeys([*before, *after]):
            if key not in after and key[0] not in unsure:
                self.change(logical, key[0], before[key], None)
            elif key in after and after[key] is not None:
                self.change(logical, key[0], before.get(key), after[key])

    def put_entity(
        self,
        logical: str,
        kind: str,
        before: Dict[Key, Optional[Values]],
        after: Dict[Key, Optional[Values]],
        is_known: bool,
        given: Set[Key],
    ) -> None:
        """Makes of what a user, group, role or managed policy gives what changes of it, in place."""
        key = (f"aws_iam_{ENTITIES[kind][0]}",)
        own, made = before.get(key), after.get(key)
        if made is None:
            return
        if own and is_replaced(kind, own, made):
            if own.get("name") == made["name"]:
                why = "its path changes and its name does not, and CloudFormation refuses to make it anew"
                raise Fault(f"{self.template.path}: {logical}: {why}")
            if self.keeps(logical, "UpdateReplacePolicy"):
                self.unknowns.notes.append(f"{self.template.path}: {logical} is made anew, and the old one is retained")
                before.clear()
            return
        there = entity_of(self.account, ENTITIES[kind][0], made["name"], made["arn"])
        if there is None:
            return
        if not is_known:
            self.beside(logical, kind, there, made, given)
        old = own or {}
        if "tags" in made:
            made["tags"] = besides.merged(there, old.get("tags", {}), made["tags"])
        for name in ("permissions_boundary", "assume_role_policy"):
            if name in made and name in old and made[name] == old[name]:
                del made[name]

    def beside(self, logical: str, kind: str, there: Values, made: Values, given: Set[Key]) -> None:
        name = ENTITIES[kind][0]
        if name == "policy":
            found = list(besides.of_policy(self.account, made["arn"], given))
        else:
            found = list(besides.of_entity(name, there, made, given))
        for place, why in found:
            self.unknowns.lacks(f"{logical}.{place} ({why}: {DEPLOYED})")
            if place == "PermissionsBoundary":
                made.pop("permissions_boundary", None)

    def change(self, logical: str, kind: str, before: Optional[Values], after: Optional[Values]) -> None:
        is_anew = bool(before and after and kind in ENTITY_KINDS and is_replaced(ENTITY_KINDS[kind], before, after))
        if before and (after is None or is_anew):
            for of, values in besides.leaving(self.account, kind, before):
                self.changes.append(Change(logical, of, values, None, {}, account=self.account.account))
        self.changes.append(Change(logical, kind, before, after, {}, is_anew, self.account.account))


def unknown_values(template: Template) -> Dict[str, Any]:
    return {it: Unclear(f"the value that the parameter {it} had") for it in template.parameters}


def is_replaced(kind: str, before: Values, after: Values) -> bool:
    """Whether what gets another name, or path, is made anew."""
    moved = kind in PATHS and before.get("path", after.get("path")) != after.get("path")
    return before.get("name") != after.get("name") or moved


def like(kind: str, values: Optional[Values]) -> Optional[Values]:
    """A resource's policy before the template, of which nobody knows what it was."""
    target = TARGETS.get(kind)
    return {it: values[it] for it in (target, BUCKET) if it in values} if target and values else None


def applied(estate: Estate, given: Given) -> Applied:
    """The estate before the templates, with the policies that the deployed ones give, and after them; and what is to be told."""
    templates = [read_template(it) for it in given.templates]
    parameters, stacks = parameters_of(templates, given.parameters), stacks_of(templates, given.stacks)
    values = [with_previous(of, template, stack) for of, template, stack in zip(parameters, templates, stacks)]
    three = list(zip(templates, values, stacks))
    readers = read(three, estate, given)
    unknowns = together(readers)
    apply = Apply([change for it in readers for change in it.changes], estate, given.account, unknowns)
    made = apply.run()
    ignored: Dict[str, int] = {}
    for kind in (kind for it in readers for kind in it.after.unread.values() if kind not in PLAIN):
        ignored[kind] = ignored.get(kind, 0) + 1
    told = unknowns.settled(apply.notes, ignored, given.allows_unknown)
    if not any(it.unknowns.has_guesses for it in readers):
        return Applied(apply.first, made, *told, None)
    narrow = [change for it in read(three, estate, given, True) for change in it.changes]
    return Applied(apply.first, made, *told, Apply(narrow, estate, given.account, unknowns.narrow()).run())


def read(
    three: List[Tuple[Template, Dict[str, Any], Stack]], estate: Estate, given: Given, is_narrow: bool = False
) -> List[Reader]:
    """A reader of each template, with its parameters and its stack, that has found the changes."""
    readers = [guarded(*it, estate, given.account, is_narrow) for it in three]
    refuse_twice(readers)
    for reader in readers:
        some = [it for it in readers if it.account is reader.account]
        reader.run({key for it in some for of in it.after.found.values() for key in of})
    return readers


def has_statement(it: Values, kind: str, old: str) -> bool:
    """Whether a function's policy has the statement of a permission, by the physical id of that."""
    some = statements_of(it["policy"].document) if kind == PERMISSION else []
    return any(isinstance(one, dict) and one.get("Sid") == old.split("|")[-1] for one in some)


def refuse_twice(readers: List[Reader]) -> None:
    """Of two resources that make one user, group, role or policy nobody sees which counts."""
    seen: Dict[Tuple[str, ...], str] = {}
    for reader in readers:
        for logical, of in reader.after.found.items():
            for key, values in of.items():
                own = (
                    reader.account.account,
                    *key,
                    *([str((values or {}).get("arn"))] if key[0] in ENTITY_KINDS else []),
                )
                if key[0].endswith(("_attachment", "_membership", "_permission", "_set")):
                    continue
                if own in seen:
                    raise Fault(
                        f"{reader.template.path}: {seen[own]} and {logical} make the same: {' '.join(own[2:]) or own[1]}"
                    )
                seen[own] = logical


def guarded(
    template: Template, of: Dict[str, Any], stack: Stack, estate: Estate, account: Optional[str], is_narrow: bool
) -> Reader:
    try:
        return Reader(template, of, stack, estate, account, is_narrow)
    except RecursionError:
        raise Fault(f"{template.path}: its functions hang on one another too deep") from None


def together(readers: List[Reader]) -> Unknowns:
    """What is not known of all templates; of several each place names its template."""
    made = Unknowns(", ".join(it.template.path for it in readers), "template")
    for reader in readers:
        before = f"{reader.template.path}: " if len(readers) > 1 else ""
        made.notes += reader.unknowns.notes
        for mine, its in ((made.lacking, reader.unknowns.lacking), (made.opened, reader.unknowns.opened)):
            mine += [f"{before}{it}" for it in its]
        made.denies += [f"{before}{it}" for it in reader.unknowns.denies]
    return made
