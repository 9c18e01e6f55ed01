"""What iamsim and iamsim-aws say of themselves, in one form."""

import argparse
import re
import subprocess
from typing import Any, Dict, List, NamedTuple, Tuple

from iamsim_aws.command import parser as parser_of_aws

from .proof import Refused

# What stands behind an option or as an argument and is no file; any other name is completed as one.
NO_FILES = set("ACCOUNT ACTION ID LOGIN N NAME NUMBER PATTERN PRINCIPAL RESOURCE SECONDS WORD P A R".split())


class Parameter(NamedTuple):
    """An option with its flags, or an argument, which has none; `value` is the name of what it takes."""

    flags: List[str]
    value: str
    help: str
    choices: List[str]
    # An argument as a usage has it, `[WORLD]`; of an option, whether it may be given again.
    shape: str = ""
    again: bool = False

    @property
    def files(self) -> bool:
        return bool(self.value) and not self.choices and self.value not in NO_FILES


class Command(NamedTuple):
    """A command; `name` is its words."""

    name: str
    what: str
    about: str
    parameters: List[Parameter]
    notes: List[str]
    commands: List[Any]

    @property
    def options(self) -> List[Parameter]:
        return [it for it in self.parameters if it.flags]

    @property
    def arguments(self) -> List[Parameter]:
        return [it for it in self.parameters if not it.flags]

    @property
    def page(self) -> str:
        """The name of its man page."""
        return self.name.replace(" ", "-")


def sections_of(text: str) -> Tuple[str, Dict[str, List[Tuple[str, str]]], List[str]]:
    """Of a help of iamsim: what stands before the usage, the entries below each heading, and the paragraphs at the end."""
    about, _, rest = text.partition("\n\nUsage: ")
    sections: Dict[str, List[Tuple[str, str]]] = {}
    notes = []
    for part in rest.strip("\n").split("\n\n")[1:]:
        heading, *lines = part.split("\n")
        if not re.fullmatch(r"[A-Z]\w*:", heading):
            notes.append(part)
            continue
        entries = [re.fullmatch(r" {2,6}(\S+(?: \S+)*)(?: {2,}(\S.*))?", it) for it in lines]
        if not entries or None in entries:
            raise Refused(f"the help of iamsim has a line of an unknown form: {part}")
        sections[heading[:-1]] = [(it.group(1), it.group(2) or "") for it in entries if it]
    return about, sections, notes


def parameter(entry: str, what: str) -> Parameter:
    """Of an entry as `--format <FORMAT>`, `[WORLD]` or `-h, --help`."""
    flags = re.findall(r"(?:^|, )(--?[\w-]+)", entry)
    value = re.search(r"[<\[](\w+)[>\]]", entry)
    choices = re.search(r"\[possible values: ([^\]]*)\]", what)
    words = choices.group(1).split(", ") if choices else []
    shape = "" if flags else entry.replace("<", "").replace(">", "")
    return Parameter(flags, value.group(1) if value else "", what, words, shape)


def of_program(program: str) -> Command:
    """iamsim, from its help and that of each of its commands."""
    names = sections_of(help_of(program))[1]["Commands"]
    commands = [command_of(help_of(program, name), f"iamsim {name}", what, names) for name, what in names]
    return command_of(help_of(program), "iamsim", "", [])._replace(commands=commands)


def help_of(program: str, *words: str) -> str:
    ran = subprocess.run([program, "help", *words], stdout=subprocess.PIPE, encoding="utf-8", check=True)
    return ran.stdout


def command_of(text: str, name: str, what: str, names: List[Tuple[str, str]]) -> Command:
    """A command of iamsim, from its help; an argument COMMAND is one of these names."""
    about, sections, notes = sections_of(text)
    parameters = [parameter(*it) for heading in ("Arguments", "Options") for it in sections.get(heading, [])]
    several = re.findall(r"[A-Z]+", "".join(re.findall(r"An option with (.*) may be given several times", text)))
    for n, it in enumerate(parameters):
        choices = [one for one, _ in names] if it.value == "COMMAND" else it.choices
        parameters[n] = it._replace(choices=choices, again=bool(it.flags) and it.value in several)
    return Command(name, what, about, parameters, notes, [])


def argument(made: argparse.ArgumentParser, action: argparse.Action) -> Parameter:
    """Of an option or an argument of argparse."""
    said = made._get_formatter()._expand_help(action) if action.help else ""
    choices = [str(it) for it in action.choices or ()]
    value = "" if action.nargs == 0 else str(action.metavar or ("WORD" if choices else action.dest.upper()))
    shapes = {"*": f"[{value} ...]", "+": f"{value} [{value} ...]", "?": f"[{value}]"}
    shape = "" if action.option_strings else shapes.get(str(action.nargs), value)
    again = bool(action.option_strings) and type(action).__name__ in ("_AppendAction", "_ExtendAction")
    return Parameter(list(action.option_strings), value, said, choices, shape, again)


def of_parser(made: argparse.ArgumentParser, what: str = "") -> Command:
    """A command of argparse, with those below it."""
    own = [it for it in made._actions if not isinstance(it, argparse._SubParsersAction)]
    below = [it for it in made._actions if isinstance(it, argparse._SubParsersAction)]
    parameters = [argument(made, it) for it in own if it.help != argparse.SUPPRESS]
    said = {it.dest: it.help or "" for group in below for it in group._choices_actions}
    commands = [of_parser(group.choices[name], said[name]) for group in below for name in said if name in group.choices]
    notes = made.epilog.split("\n\n") if made.epilog else []
    return Command(made.prog, what, made.description or "", parameters, notes, commands)


def of_aws() -> Command:
    return of_parser(parser_of_aws())


def all_of(command: Command) -> List[Command]:
    """A command and those below it."""
    return [command, *(it for one in command.commands for it in all_of(one))]
