"""How subcommands are added."""

import argparse
from typing import Any, Callable


class Once(argparse.Action):
    """Stores the value of an option, which stands once: of two nobody sees which counts."""

    is_seen = False

    def __call__(self, parser: Any, options: argparse.Namespace, value: Any, name: Any = None) -> None:
        if name is not None and self.is_seen:
            raise argparse.ArgumentError(self, "it stands twice")
        self.is_seen = True
        setattr(options, self.dest, value)


def add(
    commands: Any, name: str, what: str, example: str, run: Callable[[argparse.Namespace], int]
) -> argparse.ArgumentParser:
    """A subcommand, whose help ends with an example."""
    parser = commands.add_parser(
        name,
        help=what,
        description=what[0].upper() + what[1:] + ".",
        epilog=f"example:\n  {example}",
        formatter_class=argparse.RawDescriptionHelpFormatter,
        allow_abbrev=False,
    )
    parser.register("action", None, Once)
    parser.set_defaults(run=run)
    return parser


def add_verbose(parser: argparse.ArgumentParser) -> None:
    what = "also tell the policies of limits that allow everything, as FullAWSAccess"
    parser.add_argument("--verbose", action="store_true", help=what)


def add_chains(parser: argparse.ArgumentParser, what: str) -> None:
    parser.add_argument("--chains", action="store_true", help=what)
    help_of_depth = "at most so many roles one after the other (default: 3)"
    parser.add_argument("--depth", type=whole, default=3, metavar="N", help=help_of_depth)


def whole(text: str) -> int:
    """A whole number of at least 1."""
    if not text.isascii() or not text.isdigit() or int(text) < 1:
        raise argparse.ArgumentTypeError("it takes a whole number of at least 1")
    return int(text)
