"""Events of CloudTrail as a stream, so that no file has to fit into memory: files, gzip, folders as S3 lays them out, answers of
'aws cloudtrail lookup-events', and lines of events."""

import codecs
import gzip
import json
import os
import re
import stat
import sys
import zlib
from typing import Any, Dict, Iterable, Iterator, List, NamedTuple, Set, Tuple

from .. import files
from ..faults import Fault, line_of

# What is read at once; the characters of one event; the bytes that a gzip file may hold.
PIECE, LARGEST, UNPACKED = 1 << 20, 1 << 22, 1 << 32
ENDINGS = tuple(f".{it}{packed}" for it in ("json", "jsonl", "ndjson") for packed in ("", ".gz"))
DIGEST = "CloudTrail-Digest"
LISTS = ("Records", "Events")
# The members that stand first in an object that has a list of events.
FIRST = (*LISTS, "NextToken", "ResponseMetadata", "$metadata")
SPACE = re.compile(r"[ \t\n\r]*")
KEY = re.compile(r'\{[ \t\n\r]*(?:"([^"\\]*)["\\]|[^" \t\n\r])')


class Logs(NamedTuple):
    """The files of a log with their sizes, and what folders have besides, by what it is."""

    files: List[Tuple[str, int]]
    left: Dict[str, int]


def logs_of(paths: Iterable[str]) -> Logs:
    """The files that some paths name, each once."""
    found: List[Tuple[str, int]] = []
    left: Dict[str, int] = {}
    seen: Set[Any] = set()

    def leave(what: str) -> None:
        left[what] = left.get(what, 0) + 1

    for path in paths:
        for it in [path] if path == "-" or not os.path.isdir(path) else sorted(inside(path, leave)):
            if DIGEST in it.split(os.sep)[-1] and it != "-":
                leave("digest files")
                continue
            key, size = identity(it)
            if key not in seen:
                seen.add(key)
                found.append((it, size))
    return Logs(found, left)


def identity(path: str) -> Tuple[Any, int]:
    """What tells a file from others, and its size."""
    if path == "-":
        return path, 0
    try:
        it = os.stat(path)
    except OSError as error:
        raise Fault(f"{path}: {error.strerror or error}") from None
    return (it.st_dev, it.st_ino), it.st_size


def inside(folder: str, leave: Any) -> Iterator[str]:
    """The files of events in a folder and below it; links to folders are not followed, and nothing but files is read."""

    def refuse(error: OSError) -> None:
        raise Fault(f"{error.filename}: {error.strerror or error}") from None

    for where, folders, names in os.walk(folder, onerror=refuse):
        for it in folders:
            if os.path.islink(os.path.join(where, it)):
                leave("links to folders")
        for name in names:
            path = os.path.join(where, name)
            if f"{os.sep}{DIGEST}" in path[len(folder) :] or DIGEST in name:
                leave("digest files")
            elif not name.endswith(ENDINGS) or not is_file(path):
                leave("other files")
            else:
                yield path


def is_file(path: str) -> bool:
    try:
        return stat.S_ISREG(os.stat(path).st_mode)
    except OSError:
        return False


def pieces(path: str) -> Iterator[str]:
    """The text of a file, piece by piece."""
    what = files.name_of(path)
    try:
        if path == "-":
            yield from decoded(files.stream(sys.stdin, what).buffer, what)
        else:
            with open(path, "rb") as it:
                yield from decoded(it, what)
    except (OSError, EOFError, zlib.error) as error:
        raise Fault(f"{what}: {getattr(error, 'strerror', None) or error}") from None
    except UnicodeError as error:
        raise Fault(f"{what}: it is no text in UTF-8 or UTF-16: {getattr(error, 'reason', error)}") from None


def decoded(raw: Any, what: str) -> Iterator[str]:
    is_packed = raw.peek(2)[:2] == b"\x1f\x8b"
    given, most = (gzip.GzipFile(fileobj=raw), UNPACKED) if is_packed else (raw, None)
    data = given.read(PIECE)
    decoder, total = codecs.getincrementaldecoder(files.encoding_of(data))(), 0
    while data:
        total += len(data)
        if most is not None and total > most:
            raise Fault(f"{what}: unpacked it has over {most >> 30} GiB: give its parts, or what is unpacked")
        yield decoder.decode(data)
        data = given.read(PIECE)
    yield decoder.decode(b"", True)


class Events:
    """The events of a text that comes in pieces. `doubled` counts objects in which a key comes twice, and `goes_on` tells
    whether the answer of a call says that more follows."""

    def __init__(self, given: Iterator[str], what: str):
        self.given, self.what = given, what
        self.text, self.at, self.count = "", 0, 0
        self.doubled, self.goes_on = 0, False
        # No number of an event is wanted, however many digits it has: to look one up in nothing is fastest.
        none: Any = {}.get
        self.decoder = json.JSONDecoder(
            object_pairs_hook=self.members_of, parse_constant=files.no_constant, parse_int=none, parse_float=none
        )

    def members_of(self, pairs: List[Tuple[str, Any]]) -> Dict[str, Any]:
        made = dict(pairs)
        if len(made) < len(pairs):
            self.doubled += 1
        return made

    def fault(self, why: object) -> Fault:
        return Fault(f"{self.what}: it is no log of CloudTrail: {line_of(why)}, behind {self.count} events")

    def fill(self) -> bool:
        """Reads on; nothing at the end."""
        for it in self.given:
            self.text, self.at = self.text[self.at :] + it, 0
            return True
        return False

    def sign(self) -> str:
        """The next sign that is no white space, which stays; nothing at the end."""
        while True:
            found = self.text[self.at : self.at + 1]
            if found and found not in " \t\n\r":
                return found
            self.at = SPACE.match(self.text, self.at).end()  # type: ignore[union-attr]
            if self.at == len(self.text) and not self.fill():
                return ""

    def value(self) -> Any:
        """The JSON value that stands here."""
        is_open = self.sign() in '{["'
        while True:
            why: object = "its JSON is cut off"
            try:
                found, end = self.decoder.raw_decode(self.text, self.at)
                if is_open or end < len(self.text):
                    self.at = end
                    return found
            except RecursionError:
                raise self.fault("its JSON is nested too deep") from None
            except ValueError as error:
                why = getattr(error, "msg", error)
            if len(self.text) - self.at > LARGEST:
                raise self.fault(f"one event has over {LARGEST >> 20} MiB, or {why}")
            if not self.fill():
                raise self.fault(why)

    def take(self, wanted: str) -> str:
        sign = self.sign()
        if not sign or sign not in wanted:
            raise self.fault(f"{sign or 'its end'} stands where one of {wanted} has to")
        self.at += 1
        return sign

    def items(self) -> Iterator[Any]:
        """The values of the list that begins here."""
        self.take("[")
        if self.sign() == "]":
            self.take("]")
            return
        while True:
            found = self.value()
            self.count += 1
            yield found
            if self.take(",]") == "]":
                return

    def members(self) -> Iterator[Any]:
        """The events of an object that has a list of them; its first key is there to be read."""
        while True:
            key = self.value()
            self.take(":")
            if key in LISTS and self.sign() == "[":
                yield from self.items()
            else:
                self.goes_on |= bool(self.value()) and key == "NextToken"
            if self.take(",}") == "}":
                return
            if self.sign() != '"':
                raise self.fault("a member has no name")

    def key(self) -> str:
        """The first key of the object that begins here, which stays."""
        while True:
            found = KEY.match(self.text, self.at)
            if found or len(self.text) - self.at > LARGEST or not self.fill():
                return (found and found[1]) or ""

    def __iter__(self) -> Iterator[Any]:
        while True:
            sign = self.sign()
            if not sign:
                return
            if sign == "[":
                yield from map(event_of(self), self.items())
            elif sign == "{" and self.key() in FIRST:
                self.at += 1
                yield from map(event_of(self), self.members())
            elif sign == "{":
                yield from self.whole()
            else:
                raise self.fault(f"{sign} begins no event")

    def whole(self) -> Iterator[Any]:
        found = self.value()
        lists = [found[it] for it in LISTS if isinstance(found.get(it), list)]
        for it in lists[0] if lists else [found]:
            self.count += 1
            yield event_of(self)(it)


def event_of(events: Events) -> Any:
    """An event; an answer of lookup-events has it as a text."""

    def event(it: Any) -> Any:
        if not isinstance(it, dict) or not isinstance(it.get("CloudTrailEvent"), str):
            return it
        try:
            return events.decoder.decode(it["CloudTrailEvent"])
        except (ValueError, RecursionError):
            return None

    return event


def events_of(path: str) -> Events:
    return Events(pieces(path), files.name_of(path))
