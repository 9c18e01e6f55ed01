"""Completions for bash and zsh."""

from typing import Dict, List

from .commands import Command, Parameter, all_of

BASH = """# Completion of {name} for bash, made of what it says of itself.
{function}() {{
    local current=${{COMP_WORDS[COMP_CWORD]}} before=${{COMP_WORDS[COMP_CWORD - 1]}} command= options= words= files= word
    for word in "${{COMP_WORDS[@]:1:COMP_CWORD - 1}}"; do
        case $word in -*) ;; *) command=$word && break ;; esac
    done
    # Bash takes the sign of --format=csv for a word of its own.
    if [ "$current" = = ]; then current=; elif [ "$before" = = ]; then before=${{COMP_WORDS[COMP_CWORD - 2]}}; fi
    case $command in
{commands}
    esac
    case "$command $before" in
{values}
    esac
    case $current in -*) words=$options files= ;; esac
    local - IFS=$'\\n'
    set -f
    COMPREPLY=($(IFS=' ' && compgen -W "$words" -- "$current"))
    if [ -n "$files" ]; then
        compopt -o filenames 2> /dev/null
        COMPREPLY+=($(compgen -f -- "$current"))
    fi
}}
complete -F {function} {name}
"""

ZSH = """#compdef {name}
# Completion of {name} for zsh, made of what it says of itself.
_{name}() {{
    local context state state_descr line
    typeset -A opt_args
    local -a commands=(
{commands}
    )
    _arguments -C \\
{own}
        '1:command:->command' \\
        '*::argument:->argument'
    case $state in
    command) _describe command commands ;;
    argument)
        case $line[1] in
{below}
        esac ;;
    esac
}}
if [ "$funcstack[1]" = _{name} ]; then _{name} "$@"; else compdef _{name} {name}; fi
"""


def function(command: Command) -> str:
    return "_" + command.name.replace("-", "_")


def short(command: Command) -> str:
    """The word of a command below another."""
    return command.name.split()[-1]


def flags(command: Command) -> str:
    return " ".join(flag for it in command.options for flag in it.flags)


def bash_command(command: Command, word: str, words: List[str]) -> str:
    """The options of a command, and the words and files that it takes."""
    words = words + [choice for it in command.arguments for choice in it.choices]
    files = any(it.files for it in command.arguments)
    return f"    {word}) options='{flags(command)}' words='{' '.join(words)}' files={'yes' if files else ''} ;;"


def bash_value(command: Command, it: Parameter) -> str:
    """What stands behind an option."""
    when = " | ".join(f"'{short(command)} {flag}'" for flag in it.flags)
    return f"    {when}) options= words='{' '.join(it.choices)}' files={'yes' if it.files else ''} ;;"


def bash(command: Command) -> str:
    names = [short(it) for it in command.commands]
    lines = [bash_command(command, "''", names), *(bash_command(it, short(it), []) for it in command.commands)]
    values = [bash_value(it, one) for it in command.commands for one in it.options if one.value]
    return BASH.format(
        name=command.name, function=function(command), commands="\n".join(lines), values="\n".join(values)
    )


def quoted(text: str) -> str:
    return "'" + text.replace("'", "'\\''") + "'"


def without(text: str, signs: str) -> str:
    """A text with a backslash before each of these signs."""
    return "".join(f"\\{it}" if it in signs else it for it in text)


def zsh_action(it: Parameter) -> str:
    return f"({' '.join(it.choices)})" if it.choices else "_files" if it.files else ""


def zsh_option(it: Parameter) -> List[str]:
    value = f":{it.value}:{zsh_action(it)}" if it.value else ""
    before = "*" if it.again else f"({' '.join(it.flags)})"
    said = without(it.help, "[]\\")
    return [
        quoted(f"{before}{flag}{'=' if value and flag.startswith('--') else ''}[{said}]{value}") for flag in it.flags
    ]


def zsh_argument(number: int, it: Parameter) -> str:
    place = "*" if "..." in it.shape else f"{number}:" if it.shape.startswith("[") else str(number)
    return quoted(f"{place}:{without(it.value, ':')}:{zsh_action(it)}")


def zsh_below(command: Command) -> str:
    specs = [spec for it in command.options for spec in zsh_option(it)]
    specs += [zsh_argument(number, it) for number, it in enumerate(command.arguments, 1)]
    return (
        f"        {short(command)})\n            _arguments \\\n"
        + " \\\n".join(f"                {it}" for it in specs)
        + " ;;"
    )


def zsh(command: Command) -> str:
    commands = [f"        {quoted(short(it) + ':' + without(it.what, ':'))}" for it in command.commands]
    own = [f"        {spec} \\" for it in command.options for spec in zsh_option(it)]
    return ZSH.format(
        name=command.name,
        commands="\n".join(commands),
        own="\n".join(own),
        below="\n".join(map(zsh_below, command.commands)),
    )


def completions(command: Command) -> Dict[str, str]:
    """{file: text}, by the folder of each shell."""
    assert all(len(it.name.split()) <= 2 for it in all_of(command)), "a command below a command below a command"
    return {f"bash/{command.name}": bash(command), f"zsh/_{command.name}": zsh(command)}
