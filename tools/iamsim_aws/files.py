"""Files as people have them: UTF-8 with or without a byte order mark, UTF-16, gzip; '-' is standard input."""

import collections
import gzip
import io
import json
import os
import sys
import zlib
from typing import Any, Dict, Iterable, List, Optional, Tuple

from .faults import Fault, tell

# How the names of files of Terraform end.
CONFIGURATION = (".tf", ".tf.json", ".tfvars", ".tofu", ".tofu.json")
# The bytes that a gzip file may hold: many times an export, and a part of a machine's memory.
MOST = 1 << 28


def name_of(path: str) -> str:
    return "standard input" if path == "-" else path


def read_bytes(path: str) -> bytes:
    try:
        if path == "-":
            data = stream(sys.stdin, "standard input").buffer.read()
        else:
            with open(path, "rb") as it:
                data = it.read()
        return unpacked(data, name_of(path)) if data[:2] == b"\x1f\x8b" else data
    except (OSError, EOFError, zlib.error) as error:
        raise Fault(f"{name_of(path)}: {getattr(error, 'strerror', None) or error}") from None


def unpacked(data: bytes, what: str) -> bytes:
    with gzip.GzipFile(fileobj=io.BytesIO(data)) as it:
        found = it.read(MOST + 1)
    if len(found) > MOST:
        raise Fault(f"{what}: unpacked it has over {MOST >> 20} MiB: give its parts, or what is unpacked")
    return found


def stream(it: Any, name: str) -> Any:
    """A standard stream, which whoever starts the command may have closed."""
    if it is None:
        raise Fault(f"{name} is closed")
    return it


def encoding_of(data: bytes) -> str:
    if data[:2] in (b"\xff\xfe", b"\xfe\xff"):
        return "utf-16"
    if data[1:2] == b"\0":
        return "utf-16-le"
    return "utf-16-be" if data[:1] == b"\0" else "utf-8-sig"


def text_of(data: bytes, what: str) -> str:
    try:
        return data.decode(encoding_of(data))
    except UnicodeDecodeError as error:
        raise Fault(f"{what}: it is no text in UTF-8 or UTF-16: {error.reason} at byte {error.start}") from None


def read_text(path: str) -> str:
    return text_of(read_bytes(path), name_of(path))


def no_constant(name: str) -> None:
    raise ValueError(f"{name} is no JSON")


def parsed(text: str, what: str, refuses_equal: bool = False) -> Any:
    """The JSON value of a text. Of equal keys of an object the last stands, and each is told once, or refused."""
    equal: Dict[str, None] = {}

    def members(pairs: List[Tuple[str, Any]]) -> Dict[str, Any]:
        made = dict(pairs)
        if len(made) < len(pairs):
            counts = collections.Counter(key for key, _ in pairs)
            equal.update((it, None) for it in made if counts[it] > 1)
        return made

    try:
        found = json.loads(text, parse_constant=no_constant, object_pairs_hook=members)
    except RecursionError:
        raise Fault(f"{what}: its JSON is nested too deep") from None
    except ValueError as error:
        raise Fault(f"{what}: it is no JSON: {error}") from None
    for key in equal:
        if refuses_equal:
            raise Fault(f"{what}: the key {key} comes twice in one object")
        tell(f"{what}: the key {key} comes twice in one object: the last one stands")
    return found


def read_json(path: str) -> Any:
    return parsed(read_text(path), name_of(path))


COMPACT = json.JSONEncoder(ensure_ascii=False, separators=(",", ":"))


def compact(value: Any) -> str:
    return COMPACT.encode(value)


def encoded(text: str) -> bytes:
    try:
        return text.encode()
    except UnicodeEncodeError:
        raise Fault("a text holds half a character (a lone surrogate), which no JSON in UTF-8 has") from None


def write(text: str) -> None:
    """Writes to standard output, in UTF-8 whatever the terminal's setting."""
    write_bytes(encoded(text))


def write_bytes(data: bytes) -> None:
    try:
        stream(sys.stdout, "standard output").buffer.write(data)
    except BrokenPipeError:
        raise
    except OSError as error:
        raise unwritten(error) from None


def flush() -> None:
    """Writes what waits; what cannot be written is not tried again when Python ends."""
    try:
        stream(sys.stdout, "standard output").flush()
    except BrokenPipeError:
        raise
    except OSError as error:
        raise unwritten(error) from None


def unwritten(error: OSError) -> Fault:
    os.dup2(os.open(os.devnull, os.O_WRONLY), sys.stdout.fileno())
    return Fault(f"standard output: {error.strerror or error}")


def refuse_taken(written: Iterable[Optional[str]], read: Iterable[Optional[str]]) -> None:
    """No file that a command writes is one that it reads, or writes twice, or a configuration; and the answer has standard
    output."""
    taken = [it for it in read if it and it != "-"]
    for path in (it for it in written if it is not None):
        if path == "-":
            raise Fault("a report cannot be standard output, which has the answer: name a file")
        if any(is_same(path, it) for it in taken):
            raise Fault(f"{path}: it is read or written by this command already: name another file")
        if os.path.realpath(path).endswith(CONFIGURATION):
            raise Fault(f"{path}: it is named as a configuration of Terraform: name another file")
        taken.append(path)


def is_same(one: str, other: str) -> bool:
    try:
        return os.path.samefile(one, other)
    except OSError:
        return os.path.realpath(one) == os.path.realpath(other)


def write_file(path: str, text: str) -> None:
    try:
        with open(path, "wb") as it:
            it.write(encoded(text))
    except OSError as error:
        raise Fault(f"{path}: {error.strerror or error}") from None
