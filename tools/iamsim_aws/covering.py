"""What an answer does not cover, in lines on standard error."""

import re
from typing import Any, Callable, Dict, Iterable, Iterator, List, Optional, Sequence, Set, Tuple

from .arns import account_of, owner_of, principal_arn, service_of
from .asking import whole
from .bounds import at_most
from .documents import World, conditions_of, statements_of
from .every import WORLDS, Job, ask_every
from .exports import ACCOUNT
from .faults import tell
from .outsiders import Outsider, by_owner, concerns, doubts
from .outsiders import named_by as outsiders_in
from .speaking import speaks_of
from .splitting import parts
from .parties import EVERYBODY, named_by
from .patterns import is_pattern, of_given
from .roles import LINKED, linked
from .sources import Source
from .strangers import NOT_ASKED, lacking_member, stand_in, with_strangers

OF_MEMBERS = f"grants to members of an organisation: of those that its file lacks {NOT_ASKED}"


def tell_actions(source: Source, patterns: Iterable[str]) -> None:
    """Without the service reference no pattern of actions covers all that a service has."""
    if not source.references.services and any(map(is_pattern, patterns)):
        tell("without --services an action pattern is taken over the actions of the world and of its policies")


def tell_lacked(actions: List[str]) -> None:
    """The actions that policies name and the service reference lacks."""
    if actions:
        tell(f"the service reference lacks these actions, which are asked for all the same: {', '.join(actions)}")


def tell_strangers(source: Source, worlds: List[World], asks_all: bool = True, every: Sequence[World] = ()) -> None:
    """Tells those to whom policies grant and for whom nobody is asked, each once."""
    for line in unasked(source, worlds, asks_all, every):
        tell(line)


def is_open(line: str) -> bool:
    """Whether a line says that somebody is not asked who may be let in."""
    return NOT_ASKED in line


def unasked(
    source: Source,
    worlds: List[World],
    asks_all: bool = True,
    every: Sequence[World] = (),
    means: Callable[[Outsider], bool] = lambda _: True,
) -> Dict[str, Set[str]]:
    """Those to whom policies of the worlds' resources grant and for whom nobody is asked: a line each, with the resources'
    ARNs. `every` has the worlds that are asked, where these have a part of their statements. Who asks users, roles and accounts alone
    asks neither roles that are linked to a service nor who is of no account; of these a question may mean some alone.
    """
    known, asked = source.accounts(), {principal_arn(it) for it in linked(source, worlds) if asks_all}
    owned = {owner: doubts(some) for owner, some in by_owner(every or worlds).items()} if asks_all else {}
    found: Dict[str, Set[str]] = {}
    for world in worlds:
        further = letting_in_members(source, world, every or worlds)
        for it in world["resources"]:
            for statement in statements_of(it["policy"].document) if "policy" in it else ():
                lines = [(text, why_nobody(text, known, asked)) for text in named_by(statement)]
                of_owner = owned.get(owner_of(it["arn"]), {}) if asks_all else None
                lines += ((who.said, why) for who, why in others(statement, world, of_owner) if means(who))
                told = [f"{it['policy'].name} names {text}, {why}" for text, why in lines if why]
                if it["arn"] in further and asks_for_members(statement, world):
                    told.append(f"{it['policy'].name} {OF_MEMBERS}")
                for line in told:
                    found.setdefault(line, set()).add(it["arn"])
    return found


def others(
    statement: Any, world: World, asked: Optional[Dict[Outsider, Optional[str]]]
) -> Iterator[Tuple[Outsider, str]]:
    """Whom a statement on the world's actions lets in that is of no account and for whom nobody is asked, and why; `asked` says it of those
    whom the resource lets in, where they are asked at all."""
    is_grant = isinstance(statement, dict) and statement.get("Effect") == "Allow"
    if not is_grant or not speaks_of(statement, tuple(world["actions"])):
        return
    if asked is None:
        # Most roles trust a service.
        yield from ((it, f"for whom {NOT_ASKED}") for it in outsiders_in(statement) if it.kind != "Service")
        return
    for it, why in asked.items():
        if why is not None and concerns(statement, it):
            yield it, f"for whom {NOT_ASKED}" + (f": {why}" if why else "")


def why_nobody(text: str, known: Set[str], asked: Set[str]) -> str:
    """Why nobody is asked for whom a policy names, or nothing."""
    if re.fullmatch(r"A[A-Z]{3}[A-Z0-9]{12,}", text):
        return "the id of who is deleted: it means nobody"
    if not text.startswith("arn:") and text != EVERYBODY and not ACCOUNT.fullmatch(text):
        return "which is no ARN and no account: it means nobody"
    if ":federated-user/" in text:
        return f"for whom {NOT_ASKED}"
    is_stranger = account_of(text) not in ("", *known)
    if LINKED in text and not is_stranger and text not in asked:
        return f"a service-linked role, for whom {NOT_ASKED}"
    return f"for whom {NOT_ASKED}" if is_stranger and not stand_in(text, "aws", "session") else ""


def asks_for_members(statement: Any, world: World) -> bool:
    """Whether a statement on the world's actions grants to members of an organisation."""
    asks = any(key.lower().startswith("aws:principalorg") for _, key, _ in conditions_of(statement))
    return asks and speaks_of(statement, tuple(world["actions"])) and any(named_by(statement))


def letting_in_members(source: Source, world: World, every: Sequence[World]) -> Set[str]:
    """The resources of a world with a statement for members of an organisation, whose policies, as the worlds that are asked have them,
    may let in one that its file lacks, with some values of keys."""
    said = (it for it in world["resources"] if "policy" in it and any(asks_for_members(one, world) for one in statements_of(it["policy"].document)))
    things = list({it["arn"]: it for it in said}.values())
    full = {it["arn"]: it for one in every for it in one["resources"]}
    things = [full.get(it["arn"], it) for it in things]
    members = lacking_member(source, [{**world, "resources": things}]) if things else []
    if not members:
        return set()
    asked = with_strangers(source, {**world, "principals": [], "actions": [WORLDS[""]], "resources": things}, members)
    jobs = []
    for part in parts(whole(at_most(asked))):
        texts = [{"pattern": form, "like": n} for n, it in enumerate(part.world["resources"]) for form in forms_of(it["arn"])]
        words = (["--decision", "allowed", "--action", it] for it in dict.fromkeys(world["actions"]))
        jobs += [Job(part.world, texts, it) for it in words]
    owners = {owner_of(row["resource"]) for rows in ask_every(jobs, len(jobs)) for row in rows}
    return {it["arn"] for it in things if owner_of(it["arn"]) in owners}


def forms_of(arn: str) -> List[str]:
    """The patterns of what has the policy of a resource."""
    owner = of_given(owner_of(arn))
    return [owner, f"{owner}/*"] if service_of(arn) == "s3" else [owner]
