"""Roles that policies name: sessions besides the one that each role has, and roles that are linked to a service."""

import contextlib
import re
from typing import Any, Dict, Iterator, List, NamedTuple, Sequence, Tuple

from .arns import principal_text, session_arn
from .documents import TAGS, World, conditions_of, each, places, statements_of
from .exports import is_service_linked, role_of
from .faults import Fault
from .keys import TAG, asked, context_of, with_own_keys
from .making import in_organization
from .parties import PARTY, SEGMENT, filled, said_in, texts_in, unused
from .patterns import is_pattern, matcher, opened, overlap
from .sources import Source

USERID, LINKED = "aws:userid", "/aws-service-role/"
ID = re.compile(rf"AROA[A-Z0-9]*:{SEGMENT}")
# The name of a session that sets tags.
TAGGED = "tagged"
Principal = Dict[str, Any]


class Spoken(NamedTuple):
    """The ARNs of sessions that policies name, the patterns of `aws:userid` for which they ask, or that names of resources have, and the
    tags, in lower case."""

    arns: Dict[str, None]
    ids: Dict[str, None]
    tags: Dict[str, None]


# What is spoken of by the policies of lists of principals, which the worlds of many questions share: each with its list.
KNOWN: Dict[int, Tuple[List[Principal], Spoken]] = {}


def spoken_in(world: World) -> Spoken:
    """What the policies of a part of a world speak of."""
    arns: List[str] = []
    ids: List[str] = []
    for statement in (one for it in places(world) for one in statements_of(it.policy.document)):
        arns += [*texts_in(statement, "Principal"), *texts_in(statement, "NotPrincipal")]
        for _, key, value in conditions_of(statement):
            if key.lower() == USERID:
                ids += (opened(str(it)) for it in each(value))
            elif key.lower() == "aws:principalarn":
                arns += map(str, each(value))
    # By '${aws:userid}' a resource may be of the session whose id it names.
    ids += (it for one in world.get("resources", []) for it in ID.findall(one["arn"]))
    sessions = (it for it in arns if ":assumed-role/" in it and PARTY.fullmatch(it))
    tags = (key.lower() for key, _, _ in asked(world) if key.lower().startswith(TAG))
    return Spoken(dict.fromkeys(sessions), dict.fromkeys(ids), dict.fromkeys(tags))


def spoken_of(worlds: Sequence[World]) -> Spoken:
    """What the policies of worlds speak of."""
    found = Spoken({}, {}, {})
    for world in worlds:
        people = world["principals"]
        if id(people) not in KNOWN:
            KNOWN[id(people)] = people, spoken_in({"principals": people})
        for some in (KNOWN[id(people)][1], spoken_in({**world, "principals": []})):
            for known, more in zip(found, some):
                known.update(more)
    return found


def names_of(role: Principal, spoken: Spoken) -> Iterator[str]:
    """The names of sessions of a role that are spoken of, by their ARN or by the role's id."""
    head = session_arn(role["role"], "")
    yield from (it[len(head) :] for it in spoken.arns if it.startswith(head))
    given = next((value for key, value in context_of(role).items() if key.lower() == USERID), "")
    own = f"{str(given).split(':')[0]}:"
    for it in spoken.ids if given else ():
        if not is_pattern(it):
            yield from [it[len(own) :]] if it.lower().startswith(own.lower()) else []
        else:
            some = (one for one in overlap(it, f"{own}*") if one != f"{own}*")
            yield from (filled(one, unused(spoken.ids))[len(own) :] for one in some)


def session_of(role: Principal, name: str) -> Principal:
    """Another session of the role of a principal."""
    context = {
        key: f"{value.split(':')[0]}:{name}" if key.lower() == USERID and isinstance(value, str) else value
        for key, value in context_of(role).items()
    }
    return {**role, "session": name, **({"context": context} if context else {})}


def tagged(role: Principal, spoken: Spoken) -> Principal:
    """A session of a role with tags in place of the role's own that policies ask for, where sessions may set some."""
    is_free = role.get(TAGS) is False
    context = {key: it for key, it in context_of(role).items() if not is_free or key.lower() not in spoken.tags}
    return session_of({**role, "context": context}, TAGGED)


def tagging(world: World, spoken: Spoken) -> Iterator[str]:
    """The roles of a world whose sessions may set other tags than the role's own, of those that policies ask for; or than all requests."""
    for it in world["principals"]:
        given = {key.lower() for key in [*context_of(it), *context_of(world)]}
        if it.get(TAGS) is False and not spoken.tags.keys().isdisjoint(given):
            yield it["role"]


def with_sessions(worlds: Sequence[World], speaking: Sequence[World] = ()) -> List[World]:
    """The worlds with each session of their roles that policies of any of them name, or of further worlds, and with those that may
    set tags for which these ask."""
    spoken = spoken_of([*worlds, *speaking])
    free = {role for it in worlds for role in tagging(it, spoken)}

    def more(world: World) -> List[Principal]:
        roles = {it["role"]: it for it in world["principals"] if "role" in it and not it.get("sessionPolicies")}
        names = ((it, name) for it in roles.values() for name in names_of(it, spoken) if re.fullmatch(SEGMENT, name))
        every = [session_of(*of) for of in names] + [tagged(it, spoken) for role, it in roles.items() if role in free]
        found = {principal_text(it): it for it in every}
        known = {principal_text(it) for it in world["principals"]}
        return [it for text, it in found.items() if text not in known]

    if not any(spoken):
        return list(worlds)
    return [{**world, "principals": [*world["principals"], *more(world)]} for world in worlds]


def linked(source: Source, worlds: Sequence[World]) -> List[Principal]:
    """The service-linked roles of exports that policies on the worlds' resources name. Policies of an organisation do not bind
    them, so that nobody is asked where such are given."""
    estate, found = source.estate, []
    if estate is None or estate.organization.is_there or any("control" in it for it in estate.further):
        return []
    named = [matcher(it) for it in said_in(worlds).patterns if LINKED in it]
    for account in estate.accounts if named else ():
        for it in account.roles:
            if is_service_linked(it) and any(one(str(it.get("Arn"))) for one in named):
                # One whose policies the export does not hold is told as not asked.
                with contextlib.suppress(Fault):
                    found.append(in_organization(estate, account.account, role_of(account, it, estate.session)))
    return found


def with_linked(source: Source, world: World, speaking: Sequence[World] = ()) -> World:
    """The world with the service-linked roles that policies on its resources name, or on those of further worlds."""
    some, known = linked(source, [world, *speaking]), {principal_text(it) for it in world["principals"]}
    new = [it for it in some if principal_text(it) not in known]
    return with_own_keys({**world, "principals": [*world["principals"], *new]}) if new else world


def with_named(source: Source, world: World) -> World:
    """The world with all roles and sessions that its policies name."""
    return with_sessions([with_linked(source, world)])[0]
