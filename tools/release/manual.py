"""Man pages, a page a command."""

import re
from typing import List

from .commands import Command, Parameter, all_of

BOLD, ITALIC, ROMAN = r"\fB", r"\fI", r"\fR"


def escaped(text: str) -> str:
    """A text as roff takes it, on lines that are no requests."""
    text = (
        text.replace("\\", r"\e").replace("-", r"\-").replace("'", r"\(aq").replace("^", r"\(ha").replace("~", r"\(ti")
    )
    return re.sub(r"^(?=\.)", r"\\&", text, flags=re.M)


def first_sentence(text: str) -> str:
    """As a line of `apropos` has it."""
    sentence = re.split(r"\.(?:\s|$)", text)[0].replace("\n", " ")
    return sentence[0].lower() + sentence[1:]


def item(label: str, text: str) -> List[str]:
    return [".TP", label, escaped(text) or r"\&"]


def option(it: Parameter) -> List[str]:
    value = f" {ITALIC}{escaped(it.value)}{ROMAN}" if it.value else ""
    label = ", ".join(f"{BOLD}{escaped(flag)}{ROMAN}{value}" for flag in it.flags)
    return item(label, told(it))


def told(it: Parameter) -> str:
    """What is said of an option or an argument, with its words where that does not say them."""
    missing = [word for word in it.choices if word not in it.help]
    return "; ".join(filter(None, [it.help, f"one of: {', '.join(it.choices)}" if missing else ""]))


def literal(lines: List[str]) -> List[str]:
    return [".PP", ".RS 4", ".nf", *(escaped(it) for it in lines), ".fi", ".RE"]


def paragraph(text: str) -> List[str]:
    """Of a text whose lines are set off by two blanks, or begin with a capital, those begin a line of their own."""
    plain = [it for it in text.split("\n") if not it.startswith("  ")]
    quoted = [it[2:] for it in text.split("\n") if it.startswith("  ")]
    made = [".PP"]
    for it in plain:
        made += ([".br"] if len(made) > 1 and it[:1].isupper() else []) + [escaped(it)]
    return made + (literal(quoted) if quoted else [])


def statuses(text: str) -> List[str]:
    """Of '0 done; 1 a fault'."""
    made = [it.partition(" ") for it in re.split(r"; (?=\d+ )", text.replace("\n", " "))]
    return [line for number, _, what in made for line in item(f"{BOLD}{escaped(number)}{ROMAN}", what)]


def synopsis(command: Command) -> str:
    words = ["[OPTION ...]"] if command.options else []
    words += ["COMMAND ..."] if command.commands else [it.shape for it in command.arguments]
    return f"{BOLD}{escaped(command.name)}{ROMAN} {escaped(' '.join(words))}"


def description(command: Command) -> List[str]:
    about = [".PP", escaped(command.about if command.about.endswith((".", "?")) else command.about + ".")]
    return about + [
        line for it in command.notes if not it.startswith(("example:", "statuses:")) for line in paragraph(it)
    ]


def below(command: Command) -> List[str]:
    return [line for it in command.commands for line in item(f"{BOLD}{escaped(it.name.split()[-1])}{ROMAN}", it.what)]


def noted(command: Command, word: str) -> List[str]:
    """The texts of the notes that begin with a word and a colon."""
    return [it[len(word) + 1 :] for it in command.notes if it.startswith(f"{word}:")]


def examples(command: Command) -> List[str]:
    lines = [line[2:] for it in noted(command, "example") for line in it.strip("\n").split("\n")]
    return literal(lines) if lines else []


def see_also(command: Command, pages: List[str]) -> List[str]:
    others = [f"{BOLD}{escaped(it)}{ROMAN}(1)" for it in pages if it != command.page]
    documents = (
        "README.md, docs/guide.md, docs/reference.md and docs/AWS.md; share/doc/iamsim has them where it is installed."
    )
    return [".PP", ",\n".join(others) + ".", ".PP", escaped(documents)]


def page(command: Command, pages: List[str], version: str, day: str) -> str:
    """The page of a command, which names these others."""
    sections = {
        "SYNOPSIS": [".PP", synopsis(command)],
        "DESCRIPTION": description(command),
        "COMMANDS": below(command),
        "ARGUMENTS": [
            line for it in command.arguments for line in item(f"{ITALIC}{escaped(it.value)}{ROMAN}", told(it))
        ],
        "OPTIONS": [line for it in command.options for line in option(it)],
        "EXIT STATUS": [line for it in noted(command, "statuses") for line in statuses(it.strip())],
        "EXAMPLES": examples(command),
        "SEE ALSO": see_also(command, pages),
    }
    head = f'.TH {escaped(command.page.upper())} 1 {day} "iamsim {version}" "iamsim"'
    lines = [head, ".nh", ".ad l", ".SH NAME", f"{escaped(command.page)} \\- {escaped(first_sentence(command.about))}"]
    for heading, body in sections.items():
        lines += [f".SH {heading}", *body[body[0] == ".PP" :]] if body else []
    return "\n".join(lines) + "\n"


def pages(command: Command, version: str, day: str) -> dict:
    """{file: page} of a command and those below it: the first names all, the others the first."""
    commands = all_of(command)
    below_it = [it.page for it in commands]
    return {f"{it.page}.1": page(it, below_it if it is command else [command.page], version, day) for it in commands}
