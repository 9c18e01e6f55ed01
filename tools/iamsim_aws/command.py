"""The command line."""

import argparse
import contextlib
import gc
import os
import signal
from typing import Any, List, Optional

from . import files
from .commands import changes, escalate, estates, page, questions, replay, reports, rules, worlds
from .faults import TOLD, Fault, tell

DESCRIPTION = """Questions to iamsim about what AWS gives: who can, what changes, and the rules that a team keeps.
Only 'organization' calls AWS; iamsim decides. docs/AWS.md explains it."""

STATUSES = """statuses: 0 done; 1 a fault, told in one line; 2 the command line is refused; 3 'can': not all is allowed,
'rules': a rule is broken, 'changes --fail-on': such a change is found, 'replay': a call is refused then, or answered otherwise,
'escalate': somebody can come there; 4 'rules': a rule meets no request, 'changes --fail-on': what differs is nothing of --action
and --resource, 'replay': no call is asked for, 'escalate': there is nobody to ask; 5 something is open, as it was not asked or is
not shown. 'who-can': always, 'can': and nothing is refused, or '*' '*' was asked, 'rules', 'changes --fail-on' and 'escalate': and
there is nothing of 3 and 4, 'replay --strict': something of the log was not asked; 6 'can' and 'who-can --database': of some
requests nothing is known, 'can': nor of what an access point's bucket allows"""


def parser() -> argparse.ArgumentParser:
    made = argparse.ArgumentParser(
        prog="iamsim-aws",
        description=DESCRIPTION,
        epilog=STATUSES,
        formatter_class=argparse.RawDescriptionHelpFormatter,
        allow_abbrev=False,
    )
    commands = made.add_subparsers(title="commands", metavar="COMMAND", required=True)
    for group in (questions, changes, replay, rules, escalate, page, worlds, reports, estates):
        group.add_all(commands)
    return made


def parsed(words: Optional[List[str]]) -> argparse.Namespace:
    """The options of a line; logs, or else exports, may stand before options and behind them."""
    made = parser()
    options, rest = made.parse_known_args(words)
    name = next((it for it in ("logs", "exports") if hasattr(options, it)), None)
    if rest and (name is None or any(it.startswith("-") and it != "-" for it in rest)):
        made.error(f"unrecognized arguments: {' '.join(rest)}")
    if rest and name:
        setattr(options, name, [*getattr(options, name), *rest])
    return options


def stopped(_number: int, _frame: Any) -> None:
    raise KeyboardInterrupt


def heed_signals() -> None:
    """Whatever ends the command ends what it has started too; what is ignored stays so, as under nohup."""
    for it in (signal.SIGTERM, signal.SIGHUP):
        if signal.getsignal(it) == signal.SIG_DFL:
            signal.signal(it, stopped)


def main(words: Optional[List[str]] = None) -> int:
    """Runs the command of these words, or of the process; every fault is told in one line."""
    options = parsed(words)
    if words is None:
        heed_signals()
    # What a command reads it keeps to its end: looking for garbage among it would take a third of the time.
    gc.disable()
    TOLD.clear()
    try:
        status = options.run(options)
        files.flush()
        return int(status)
    except Fault as fault:
        tell(fault)
    except BrokenPipeError:
        # A reader that has seen enough, as `head`, ends it without a word.
        os.dup2(os.open(os.devnull, os.O_WRONLY), 1)
    except KeyboardInterrupt:
        tell("stopped")
    except (OSError, MemoryError) as error:
        tell(f"{type(error).__name__}: {error}")
    except Exception as error:  # noqa: a fault of its own is told in one line too
        tell(
            f"it could not go on, most likely for an input of another form than docs/AWS.md shows ({type(error).__name__}: {error})"
        )
    # What was written before a fault is written, or nothing more is said of it.
    with contextlib.suppress(Fault, OSError):
        files.flush()
    return 1
