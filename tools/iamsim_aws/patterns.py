"""Patterns with '*' and '?', and texts that are made of them. A backslash before one of these, or before a backslash, gives that
character; elsewhere it stands for itself, and so it always does in a policy."""

import difflib
import functools
import itertools
import re
from typing import Callable, Dict, Iterable, Iterator, List, Optional, Sequence, Tuple

VARIABLE = re.compile(r"\$\{([^${},'*?]+)(?:, *'([^']*)')?\}|\$\{([*?$])\}")
SIGN = re.compile(r"\\[*?\\]|.", re.DOTALL)


@functools.lru_cache(maxsize=None)
def signs_of(pattern: str) -> Tuple[str, ...]:
    """The signs of a pattern: '*' for a run, '?', and each given character behind a backslash."""
    found: List[str] = []
    for it in SIGN.findall(pattern):
        if it not in ("*", "?"):
            found.append("\\" + it[-1])
        elif it == "?" or found[-1:] != ["*"]:
            found.append(it)
    return tuple(found)


def is_given(sign: str) -> bool:
    return sign.startswith("\\")


@functools.lru_cache(maxsize=None)
def matcher(pattern: str, fold: bool = False) -> Callable[[str], object]:
    """Whether a text matches the whole pattern."""
    parts = [""]
    for it in signs_of(pattern):
        if it == "*":
            parts.append("")
        else:
            parts[-1] += re.escape(it[1]) if is_given(it) else "."
    first, *rest = parts
    # What stands between two runs is taken where it comes first, for good: a look ahead is not gone back into.
    middle = "".join(f"(?=(?P<run{n}>.*?{part}))(?P=run{n})" for n, part in enumerate(rest[:-1]))
    expression = first + middle + "".join(f".*{part}" for part in rest[-1:])
    return re.compile(expression, re.DOTALL | (re.IGNORECASE if fold else 0)).fullmatch


@functools.lru_cache(maxsize=None)
def is_pattern(text: str) -> bool:
    return not all(map(is_given, signs_of(text)))


def plain(pattern: str) -> str:
    """A pattern without the backslashes that give characters: the only text that matches one without wildcards."""
    return "".join(it[-1] for it in SIGN.findall(pattern))


def of_policy(text: str) -> str:
    """The pattern of a policy's text without variables."""
    return text.replace("\\", "\\\\")


def of_given(text: str) -> str:
    """The pattern that this text alone matches."""
    return re.sub(r"[*?\\]", r"\\\g<0>", text)


def any_matches(patterns: Iterable[str], texts: List[str], fold: bool = False) -> bool:
    return any(matcher(pattern, fold)(text) for pattern in patterns for text in texts)


def last_of(name: str) -> str:
    return re.split("[/:]", name)[-1]


def near(asked: str, names: Iterable[str]) -> str:
    """A hint for a pattern that no name matches: the names whose last part it means, or nearly."""
    last, parts = last_of(asked), {it: last_of(it) for it in names}
    if not last.strip("*?"):
        return ""
    alike = difflib.get_close_matches(plain(last), parts.values(), cutoff=0.8)
    found = [it for it in parts if matcher(last, True)(parts[it])] or [it for it in parts if parts[it] in alike]
    return f" (near is {', '.join(found[:3])})" if found else ""


def variables_of(text: str) -> List[str]:
    return [it.group(1) for it in VARIABLE.finditer(text) if it.group(1)]


def with_variables(text: str, value_of: Callable[[str, Optional[str]], str]) -> str:
    """The pattern of a policy's text, with patterns in place of its variables, each by its key and its default."""
    made, behind = [], 0
    for it in VARIABLE.finditer(text):
        key, default, sign = it.groups()
        made += [of_policy(text[behind : it.start()]), of_given(sign) if sign else value_of(key, default)]
        behind = it.end()
    return "".join([*made, of_policy(text[behind:])])


def opened(text: str) -> str:
    """The pattern of a policy's text in which each variable may be any text."""
    return with_variables(text, lambda *_: "*")


def pattern_of(text: str, values: Dict[str, str]) -> Optional[str]:
    """The pattern of a policy's text with the variables' values, keys in lower case; None where one has none."""
    lacking: List[str] = []

    def value(key: str, default: Optional[str]) -> str:
        given = values.get(key.lower(), default)
        if given is None:
            lacking.append(key)
        return of_policy(given or "")

    made = with_variables(text, value)
    return None if lacking else made


def resolved(text: str, values: Dict[str, str]) -> Optional[str]:
    """The text with the variables' values, keys in lower case; None where one has none."""
    made = pattern_of(text, values)
    return None if made is None else plain(made)


def filled_runs(signs: Iterable[str]) -> List[str]:
    """The signs, where each run has at least one character."""
    return [one for it in signs for one in (("?", "*") if it == "*" else (it,))]


def steps(signs: Sequence[str], at: int) -> List[int]:
    """The places that are reached without a character: a run may end."""
    found = [at]
    while found[-1] < len(signs) and signs[found[-1]] == "*":
        found.append(found[-1] + 1)
    return found


def taken(signs: Sequence[str], at: int) -> int:
    """The place behind one character."""
    return at if signs[at] == "*" else at + 1


def meeting(first: Sequence[str], second: Sequence[str], fold: bool) -> Optional[str]:
    """A shortest text that matches both lists of signs."""
    seen = {(0, 0): ""}
    queue = [(0, 0)]
    for i, j in queue:
        for a in steps(first, i):
            for b in steps(second, j):
                if a == len(first) and b == len(second):
                    return seen[i, j]
                if a == len(first) or b == len(second):
                    continue
                given = [it[1] for it in (first[a], second[b]) if is_given(it)]
                if len({it.lower() if fold else it for it in given}) == 2:
                    continue
                state = taken(first, a), taken(second, b)
                if state not in seen:
                    seen[state] = seen[i, j] + (given[0] if given else "x")
                    queue.append(state)
    return None


@functools.lru_cache(maxsize=None)
def shortest(first: str, second: str) -> Optional[str]:
    """A shortest text that matches both patterns."""
    return meeting(signs_of(first), signs_of(second), False)


def written(sign: str) -> str:
    """A sign as patterns have it."""
    return of_given(sign[1]) if is_given(sign) else sign


def ones(signs: Sequence[str], at: int, wanted: Optional[str], bars: str) -> Iterator[Tuple[int, str]]:
    """Where one character leads, and the pattern of it: the one that is wanted, or each that is not barred."""
    for n in (it for it in steps(signs, at) if it < len(signs)):
        sign = written(signs[n]) if is_given(signs[n]) else "?"
        if wanted is not None:
            if not is_given(signs[n]) or signs[n][1] == wanted:
                yield taken(signs, n), of_given(wanted)
        elif sign == "?" or signs[n][1] != bars:
            yield taken(signs, n), sign


def runs(signs: Sequence[str], at: int, bars: str) -> Iterator[Tuple[int, str]]:
    """Where a run leads that has no barred character, and the pattern of it; what stands for a run may go on behind it."""
    made = ""
    for n in range(at, len(signs) + 1):
        is_run = n < len(signs) and signs[n] == "*"
        if is_run or n == at or signs[n - 1] != "*":
            yield n, made + ("*" if is_run else "")
        if n < len(signs) and is_given(signs[n]) and signs[n][1] == bars:
            return
        made += written(signs[n]) if n < len(signs) else ""


@functools.lru_cache(maxsize=None)
def overlap(pattern: str, form: str) -> Tuple[str, ...]:
    """Patterns that together match the texts that a pattern and a form match. A form is a pattern of ARNs of which no '*' and no
    '?' stands for a colon, but in the last part; where they would in the patterns, these match more of the first one's texts.
    """
    signs, colons = signs_of(pattern), 0
    found: Dict[Tuple[int, str], None] = {(0, ""): None}
    for it in signs_of(form):
        bars, some = ":" if colons < 5 else "", list(found)
        if it == "*":
            found = {(to, made + more): None for at, made in some for to, more in runs(signs, at, bars)}
        else:
            wanted = it[1] if is_given(it) else None
            found = {(to, made + more): None for at, made in some for to, more in ones(signs, at, wanted, bars)}
        colons += it == "\\:"
    return tuple(dict.fromkeys(made for at, made in found if steps(signs, at)[-1] == len(signs)))


@functools.lru_cache(maxsize=None)
def common(first: str, second: str = "*", fold: bool = False) -> Optional[str]:
    """A text that matches both patterns, with runs of at least one character where that can be; None where none does."""
    signs = [signs_of(it) for it in (first, second)]
    given = ["".join(one[1] for one in itertools.takewhile(is_given, it)) for it in signs]
    one, other = (it.lower() if fold else it for it in given)
    if not one.startswith(other) and not other.startswith(one):
        return None
    full = [filled_runs(it) for it in signs]
    for one_of, other_of in ((full[0], full[1]), (full[0], signs[1]), (signs[0], full[1]), (signs[0], signs[1])):
        found = meeting(one_of, other_of, fold)
        if found is not None:
            return found
    return None
