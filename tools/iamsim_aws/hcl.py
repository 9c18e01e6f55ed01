"""Texts in the language of Terraform's configuration: where attributes stand, and what an expression gives."""

import re
from typing import Any, Callable, Dict, Iterator, List, Optional, Tuple

from .yamls import DEEPEST, Unclear

SPACE = re.compile(r"(?:[ \t\r]|#[^\n]*|//[^\n]*|/\*.*?\*/)+", re.DOTALL)
CALL = re.compile(r"jsonencode[ \t]*\(")
FOR = re.compile(r"for\b")
NAME = re.compile(r"[^\W\d][\w-]*")
NUMBER = re.compile(r"\d+(?![\w.])")
STEP = re.compile(r"\.(?:[^\W\d][\w-]*|\d+)|\[(?:\d+|\"[^\"\\$%\n]*\")\]")
HEREDOC = re.compile(r"<<-?([^\W\d][\w-]*)[ \t\r]*\n(.*?)^[ \t]*\1[ \t\r]*$", re.DOTALL | re.MULTILINE)
LABEL = re.compile(r'"([^"\\$%\n]*)"|([^\W\d][\w-]*)')
ESCAPE = re.compile(r"\\(?:u([0-9a-fA-F]{4})|U([0-9a-fA-F]{8})|([nrt\"\\]))")
ESCAPES = {"n": "\n", "r": "\r", "t": "\t", '"': '"', "\\": "\\"}
WORDS: Dict[str, Any] = {"true": True, "false": False, "null": None}
CLOSES = {"(": ")", "[": "]", "{": "}"}

# What a reference, as it is written, gives.
Resolve = Callable[[str], Any]


class Odd(Exception):
    """A text that is not of the language, or of a part of it that is not followed."""


class Reader:
    """Reads a text from a place on."""

    def __init__(self, text: str, at: int, resolve: Resolve = Unclear):
        self.text, self.at, self.resolve = text, at, resolve
        self.depth, self.is_past = 0, False

    def peek(self, text: str) -> bool:
        return self.text.startswith(text, self.at)

    def take(self, text: str) -> bool:
        found = self.peek(text)
        self.at += len(text) if found else 0
        return found

    def want(self, text: str) -> None:
        if not self.take(text):
            raise Odd

    def match(self, form: Any) -> Any:
        found = form.match(self.text, self.at)
        self.at = found.end() if found else self.at
        return found

    def blank(self, lines: bool = True) -> None:
        """Over spaces and comments, and the ends of lines."""
        while self.match(SPACE) or (lines and self.take("\n")):
            pass
        if self.peek("/*"):
            raise Odd

    def skip(self, ends: str) -> None:
        """To the first of these characters that stands outside brackets, texts and comments, or to the end."""
        was, self.is_past = self.is_past, True
        self.past(ends)
        self.is_past = was

    def past(self, ends: str) -> None:
        opened: List[str] = []
        while self.at < len(self.text):
            self.blank(False)
            it = self.text[self.at : self.at + 1]
            if not opened and it in ends:
                return
            if it == '"':
                self.quoted()
            elif self.peek("<<"):
                self.heredoc()
            else:
                if it in CLOSES:
                    opened.append(CLOSES[it])
                elif it in ")]}" and (not opened or opened.pop() != it):
                    raise Odd
                self.at += 1
        if opened:
            raise Odd

    # --- blocks --------------------------------------------------------------------------------------------------------

    def blocks(self) -> Iterator[Tuple[str, ...]]:
        """The words before each block of a file; whoever asks is then at its first bracket, or behind the block."""
        self.blank()
        while self.at < len(self.text):
            labels: List[str] = []
            while not self.peek("{"):
                label = self.match(LABEL)
                if label is None:
                    raise Odd
                labels.append(label[1] or label[2] or "")
                self.blank(False)
            begin = self.at
            yield tuple(labels)
            self.at = begin
            self.past_block()
            self.blank()

    def past_block(self) -> None:
        self.want("{")
        self.skip("}")
        self.want("}")

    def attributes(self) -> Dict[str, int]:
        """Where the expression of each attribute of a block begins; not of the blocks in it."""
        found: Dict[str, int] = {}
        self.want("{")
        self.blank()
        while not self.take("}"):
            name = self.match(NAME)
            self.blank(False)
            if name is None or self.peek("=="):
                raise Odd
            if self.take("="):
                found[name[0]] = self.at
                self.skip("\n}")
            else:
                while not self.peek("{"):
                    if self.match(LABEL) is None:
                        raise Odd
                    self.blank(False)
                self.past_block()
            self.blank()
        return found

    # --- values --------------------------------------------------------------------------------------------------------

    def value(self, ends: str) -> Any:
        """What an expression gives, up to one of these characters; one that is not followed is Unclear."""
        self.blank("\n" not in ends)
        begin, depth = self.at, self.depth
        self.depth += 1
        if self.depth > DEEPEST:
            raise Odd
        found = self.whole(ends)
        if found is None:
            self.at, self.depth = begin, depth + 1
            self.skip(ends)
            found = [Unclear(" ".join(self.text[begin : self.at].split())[:80])]
        self.depth = depth
        return found[0]

    def whole(self, ends: str) -> Optional[List[Any]]:
        """A list of what a term gives that is all of an expression; None where it is not, or is only to be passed."""
        was = self.is_past
        try:
            found = None if was else [self.term()]
            self.blank("\n" not in ends)
        except Odd:
            self.is_past = was
            return None
        return found if self.text[self.at : self.at + 1] in [*ends] else None

    def term(self) -> Any:
        """A text, a list, an object, a number or a name; what stands behind it is for whoever asks."""
        if self.peek('"'):
            return self.quoted()
        if self.take("["):
            return self.items()
        if self.take("{"):
            return self.members()
        if self.take("("):
            found = self.value(")")
            self.want(")")
            return found
        number = self.match(NUMBER)
        if number:
            return int(number[0])
        begin, name = self.at, self.match(NAME)
        if name is None:
            raise Odd
        while self.match(STEP):
            pass
        text = self.text[begin : self.at]
        self.blank(False)
        if self.peek("("):
            raise Odd
        return WORDS[text] if text in WORDS else self.resolve(text)

    def document(self) -> Any:
        """What jsonencode is given, or a text: the whole expression of an attribute."""
        self.blank(False)
        found: Any = None
        if self.match(CALL):
            found = self.value(")")
            self.want(")")
        else:
            found = self.heredoc() if self.peek("<<") else self.quoted()
        self.blank(False)
        if not self.peek("\n") and not self.peek("}"):
            raise Odd
        return found

    def items(self) -> List[Any]:
        made: List[Any] = []
        self.blank()
        while not self.take("]"):
            if self.match(FOR):
                raise Odd
            made.append(self.value(",]"))
            if not self.take(","):
                self.want("]")
                return made
            self.blank()
        return made

    def members(self) -> Dict[str, Any]:
        made: Dict[str, Any] = {}
        self.blank()
        while not self.take("}"):
            name = self.quoted() if self.peek('"') else (self.match(NAME) or [None])[0]
            self.blank(False)
            if not isinstance(name, str) or name in made or not (self.take("=") or self.take(":")):
                raise Odd
            made[name] = self.value(",\n}")
            if not self.take(",") and not self.peek("}"):
                self.want("\n")
            self.blank()
        return made

    # --- texts ---------------------------------------------------------------------------------------------------------

    def quoted(self) -> Any:
        """A text in quotes; Unclear where a part of it is."""
        self.want('"')
        parts: List[Any] = []
        while not self.take('"'):
            if self.at >= len(self.text) or self.peek("\n"):
                raise Odd
            if self.peek("\\"):
                found = self.match(ESCAPE)
                if found is None:
                    raise Odd
                parts.append(ESCAPES[found[3]] if found[3] else character(found[1] or found[2]))
            else:
                parts.append(self.part())
        return joined(parts)

    def heredoc(self) -> Any:
        found = self.match(HEREDOC)
        if found is None:
            raise Odd
        inner, parts = Reader(found[2], 0, self.resolve), []  # type: Reader, List[Any]
        inner.depth, inner.is_past = self.depth, self.is_past
        while inner.at < len(inner.text):
            parts.append(inner.part())
        return joined(parts)

    def part(self) -> Any:
        """A character of a template, or what an expression in it gives."""
        for sign in "$%":
            if self.take(f"{sign}{sign}{{"):
                return f"{sign}{{"
        begin = self.at
        if self.peek("${") or self.peek("%{"):
            is_value = self.peek("${")
            self.at += 2
            found = self.value("}")
            self.want("}")
            is_text = isinstance(found, (str, int)) and not isinstance(found, bool)
            return str(found) if is_value and is_text else Unclear(self.text[begin : self.at][:80])
        self.at += 1
        return self.text[begin]


def character(number: str) -> str:
    if int(number, 16) > 0x10FFFF:
        raise Odd
    return chr(int(number, 16))


def joined(parts: List[Any]) -> Any:
    unclear: Optional[Unclear] = next((it for it in parts if isinstance(it, Unclear)), None)
    return unclear or "".join(parts)
