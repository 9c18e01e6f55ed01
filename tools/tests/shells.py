"""What bash and zsh complete, by the files of the release."""

import os
import pty
import re
import select
import signal
import subprocess
import time

BASH = """source "$1/$2"
complete -p "$2" > /dev/null || exit 1
while read -r -a COMP_WORDS; do
    COMP_WORDS=("${COMP_WORDS[@]//<>/}") COMP_CWORD=$((${#COMP_WORDS[@]} - 1)) COMPREPLY=()
    "_${2//-/_}"
    echo "${COMPREPLY[*]}"
done"""

# Control-X prints the line and empties it, so that what was completed is seen.
ZSH = """PS2=
stty -echo cols 300 rows 500
fpath=("$COMPLETIONS" $fpath)
autoload -U compinit; compinit -D -u
LISTMAX=0
zstyle ':completion:*' verbose no
show() { zle -I; print -r -- "<<$BUFFER>>"; BUFFER= }
zle -N show; bindkey '^X' show
PS1='the pro''mpt '
"""
PROMPT = "the prompt "


def bash_words(folder, name, asked, cwd):
    """What bash offers for the last word of each of these lines."""
    lines = "".join(" ".join(it or "<>" for it in words) + "\n" for words in asked)
    ran = subprocess.run(
        ["bash", "--norc", "-c", BASH, "bash", folder, name],
        input=lines,
        capture_output=True,
        encoding="utf-8",
        cwd=cwd,
    )
    assert (ran.returncode, ran.stderr) == (0, ""), ran.stderr
    return [it.split() for it in ran.stdout.splitlines()]


class Zsh:
    """A zsh in a terminal of its own."""

    def __init__(self, folder, cwd):
        more = {"TERM": "dumb", "HOME": "/nonexistent", "COMPLETIONS": folder, "LC_ALL": "C.UTF-8"}
        self.process, self.file = pty.fork()
        if self.process == 0:
            os.chdir(cwd)
            os.execvpe("zsh", ["zsh", "-f", "-i"], {"PATH": os.environ["PATH"], **more})
        self.said = ""
        self.send(ZSH, PROMPT)

    def __enter__(self):
        return self

    def __exit__(self, *_):
        os.kill(self.process, signal.SIGKILL)
        os.waitpid(self.process, 0)
        os.close(self.file)

    def send(self, text, mark, seconds=60):
        """Types a text; what comes up to the mark."""
        os.write(self.file, text.encode())
        end = time.monotonic() + seconds
        while mark not in self.said:
            assert time.monotonic() < end, f"{text!r}: {self.said!r}"
            if select.select([self.file], [], [], 0.1)[0]:
                self.said += os.read(self.file, 65536).decode(errors="replace")
        before, _, self.said = self.said.partition(mark)
        return before

    def words(self, line):
        """The words that it lists for a line."""
        said = self.send(f"{line}\x04\x18", f"<<{line}>>")
        self.send("", PROMPT)
        return set(re.findall(r"[\w-]+", said)) - set(line.split())

    def completed(self, line):
        """The line that stands there after the tab key."""
        said = self.send(f"{line}\t\x18", ">>")
        self.send("", PROMPT)
        return said.rpartition("<<")[2]
