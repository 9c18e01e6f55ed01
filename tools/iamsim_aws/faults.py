"""What ends the command, and lines beside the answer."""

import sys
import time
from typing import Any, List

# The lines that were told, which a report may hold too.
TOLD: List[str] = []


class Fault(Exception):
    """Ends the command with status 1 and this line."""


def line_of(text: object) -> str:
    """A text in one line, whatever it holds."""
    return "".join(
        it if it.isprintable() else it.encode("unicode_escape", "surrogatepass").decode() for it in str(text)
    )


def tell(text: object) -> None:
    """A line on standard error."""
    TOLD.append(line_of(text))
    if sys.stderr is not None:
        print(f"iamsim-aws: {TOLD[-1]}", file=sys.stderr)


class Progress:
    """How far a long task is, in one line of a terminal that is written again and again, and goes at the end."""

    AFTER = 2.0

    def __init__(self, count: int, words: str = "iamsim has answered {done} of {count} questions"):
        self.count, self.done, self.wide = count, 0, 0
        self.words = words
        self.began = self.told = time.monotonic()

    def __enter__(self) -> "Progress":
        return self

    def __exit__(self, *_: Any) -> None:
        self.show("")

    def tell(self) -> None:
        now = time.monotonic()
        if now - self.began > self.AFTER and now - self.told >= 1:
            self.told = now
            self.show(f"{self.words.format(done=self.done, count=self.count)}, {now - self.began:.0f} s")

    def show(self, text: str) -> None:
        if sys.stderr is not None and sys.stderr.isatty() and (text or self.wide):
            sys.stderr.write(f"\r{text.ljust(self.wide)}" + ("" if text else "\r"))
            sys.stderr.flush()
            self.wide = len(text)
