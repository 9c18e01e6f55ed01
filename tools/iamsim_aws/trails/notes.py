"""What the answer of a replay does not cover, in lines."""

from typing import Iterable, Iterator, List

from .. import keys
from ..differences import differing
from ..documents import World
from . import tables
from .counting import counted
from .reading import Logs
from .replaying import Replay
from .sides import Side, asked_keys

# The keys that events give, in lower case; those of calls' parameters come to them.
GIVEN = {
    "aws:sourceip",
    "aws:vpcsourceip",
    "aws:useragent",
    "aws:multifactorauthpresent",
    "aws:securetransport",
    "s3:tlsversion",
    "aws:sourcevpce",
    "aws:requestedregion",
    *(key.lower() for of in tables.PARAMETERS.values() for key in of),
}
DATES = {"aws:currenttime", "aws:epochtime"}


def notes(replay: Replay, logs: Logs, goes_on: List[str], sides: List[Side]) -> Iterator[str]:
    """What was not read, what was taken for granted, and which keys nothing tells."""
    yield from of_files(logs, goes_on)
    yield from of_calls(replay)
    asked, changed = asked_keys(sides), untold_by_change(sides)
    rest = [it for it in untold([of for side in sides for of in side.every()]) if it not in changed]
    if changed:
        what = "so what it does by them is not seen"
        yield f"the change asks for these keys, which no event tells, {what}: {', '.join(changed)}"
    if rest:
        yield f"no event tells these keys, for which policies ask; they count as absent: {', '.join(rest)}"
    if asked & DATES:
        yield "policies ask for dates: all calls are asked for one moment, that of --moment, or else now or that of the world"


def untold(worlds: Iterable[World]) -> List[str]:
    """The keys for which documents of some worlds ask, and which neither these nor events tell."""
    missing = {it.lower(): it for of in worlds for it in keys.lacking(of)}
    return sorted(name for key, name in missing.items() if key not in GIVEN)


def untold_by_change(sides: List[Side]) -> List[str]:
    """Those for which documents ask that are not the same before and after."""
    if len(sides) < 2:
        return []
    return untold(of for pair in zip(*(it.every() for it in sides)) for of in differing(*pair))


def of_files(logs: Logs, goes_on: List[str]) -> Iterator[str]:
    if logs.left:
        yield f"not read in folders: {', '.join(f'{count} {what}' for what, count in sorted(logs.left.items()))}"
    for what in goes_on:
        yield f"{what}: NextToken stands there: more events follow that it does not have"


def of_calls(replay: Replay) -> Iterator[str]:
    total = replay.total
    if total.doubled:
        yield f"a key comes twice in {counted(total.doubled, 'object')} of the log: the last one stands"
    if replay.free():
        yield f"{counted(replay.free(), 'call')} that wanted no permission: not asked for"
    if total.served:
        what = "the address and the program are none of theirs, so no aws:SourceIp, no aws:UserAgent and no aws:CalledVia is given"
        yield f"{counted(total.served, 'event')} by a service for somebody: {what}"
    if replay.taken:
        what = "whose policy nothing gives: it is taken to grant what the log has, and only the caller's side is asked"
        yield f"{counted(replay.taken, 'call')} on resources of another account {what}"
    if replay.bare:
        yield f"{counted(replay.bare, 'call')} on resources that have no policy here (--resources gives it)"
    if replay.failed:
        what = "for another reason than access, which says nothing of it: not compared"
        yield f"{counted(replay.failed, 'call')} that failed {what}"


def is_unread(logs: Logs, goes_on: List[str]) -> bool:
    """Whether something that may be of the log was not read; digest files have no events."""
    return bool(goes_on) or any(what != "digest files" for what in logs.left)
