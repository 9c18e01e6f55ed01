"""The world from a file that the command line names, and files that can't be read, on the program as it is built."""

import os
import tempfile

from harness import EXAMPLES, Skipped, answer, file, row_world, same
from test_devices import ANSWERS, EVERY, FAULTY, shell

SMALLEST = row_world("smallest")


def folder():
    return tempfile.mkdtemp(dir=os.environ["TOOLS_TEST_ROOM"])


def not_read(name, reason, told=None):
    """Each command on a file that can't be read."""
    for words in EVERY:
        line = f"fault 1 Read: {told or name}: {reason}\n"
        same(answer([*words.split(), "--", name]), (1, b"", line.encode()), f"{words} {name!r}")


def test_each_command_of_a_file():
    path = file(SMALLEST)
    for words, text in EVERY.items():
        done = (0, text.encode(), b"")
        # Standard input holds another world, or is closed: it is not looked at.
        same(answer([*words.split(), path], b"{}"), done, words)
        same(shell(f"{words} {path}", "<&-"), done, words)
    same(answer(["matrix", path, "--brief"]), (0, ANSWERS["matrix --brief"].encode(), b""))
    same(answer(["decide", "0", "--", "0", "0", path]), (0, ANSWERS["decide 0 0 0"].encode(), b""))


def test_standard_input():
    for words, text in EVERY.items():
        for more in ([], ["-"], ["--", "-"]):
            same(answer([*words.split(), *more], SMALLEST), (0, text.encode(), b""), f"{words} {more}")
            same(shell(" ".join([words, *more]), "<&-"), (1, b"", b"fault 1 Read\n"), f"{words} {more}")
            same(shell(" ".join([words, *more]), "< /"), (1, b"", b"fault 1 Read\n"), f"{words} {more}")


def test_a_name_that_is_a_hyphen_or_begins_with_one():
    room = folder()
    for name in ("-", "-x"):
        with open(os.path.join(room, name), "wb") as it:
            it.write(SMALLEST)
    done = (0, ANSWERS["check"].encode(), b"")
    for words in (["./-"], ["./-x"], ["--", "-x"]):
        same(answer(["check", *words], cwd=room), done, words)
    same(answer(["check", "-x"], cwd=room)[0], 2)


def test_a_file_that_is_not_there():
    room, path = folder(), file(SMALLEST)
    not_read("no-such-file.json", "No such file or directory")
    not_read(os.path.join(room, "no", "world.json"), "No such file or directory")
    not_read(os.path.join(path, "world.json"), "Not a directory")
    not_read(path + "/", "Not a directory")


def test_links():
    room = folder()
    for name, to in (("dangling", "no-such-file"), ("loop", "loop"), ("whole", file(SMALLEST)), ("folder", room)):
        os.symlink(to, os.path.join(room, name))
    not_read(os.path.join(room, "dangling"), "No such file or directory")
    not_read(os.path.join(room, "loop"), "Too many levels of symbolic links")
    not_read(os.path.join(room, "folder"), "Is a directory")
    same(answer(["check", os.path.join(room, "whole")]), (0, ANSWERS["check"].encode(), b""))


def test_a_folder_fails_at_the_first_read():
    for name in (folder(), "/", "."):
        not_read(name, "Is a directory")


def test_a_file_that_opens_and_fails():
    if not os.path.exists("/proc/self/mem"):
        raise Skipped("there is no /proc")
    not_read("/proc/self/mem", "Input/output error")


def test_a_file_that_may_not_be_read():
    if os.getuid() == 0:
        raise Skipped("root may read all files")
    path = file(SMALLEST)
    os.chmod(path, 0)
    not_read(path, "Permission denied")


def test_long_names():
    for size in (256, 5000):
        not_read("a" * size, "File name too long")


def test_a_name_stands_on_one_line():
    missing = "No such file or directory"
    for name in ("a b.json", "it's", "é.json", "a: b", "a,b", "fault 1 Read", "*", "%s{}"):
        not_read(name, missing)
    for name, told in (
        ("a\nb", '"a\\nb"'),
        ("\n", '"\\n"'),
        ("a\rb\t", '"a\\rb\\t"'),
        ("\x1b[31m", '"\\u{1b}[31m"'),
        ("a\u2028b", '"a\\u{2028}b"'),
        ("a\u202eb", '"a\\u{202e}b"'),
        ('a"b', '"a\\"b"'),
        ("a\\nb", '"a\\\\nb"'),
    ):
        not_read(name, missing, told)


def test_what_a_file_holds_is_told_as_of_standard_input():
    for text, line in (
        (b"", b"fault 2 World: 1 NotJson\n"),
        (b"{}", b"fault 2 World: 2 BadShape at moment\n"),
        (SMALLEST[:-9], b"fault 2 World: 1 NotJson\n"),
        (SMALLEST.ljust(8_388_609), b"fault 2 World: 9 TooLarge\n"),
    ):
        for words in EVERY:
            same(answer([*words.split(), file(text)]), (1, b"", line), words)
    with open(FAULTY, "rb") as it:
        text = it.read()
    for words in EVERY:
        same(answer([*words.split(), FAULTY]), answer(words.split(), text), words)
    same(answer(["check", file(SMALLEST.ljust(8_388_608))]), (0, ANSWERS["check"].encode(), b""))
    same(answer(["decide", "0", "1", "0", file(SMALLEST)]), (1, b"", b"fault 5 NoSuchCell\n"))
    same(answer(["matrix", "--tile", "0", file(SMALLEST)]), (1, b"", b"fault 6 Cut: 1 ZeroTile\n"))
    # What is wrong with the workers is told behind what is wrong with the file.
    same(
        answer(["matrix", "--workers", "0", "no-such-file"]),
        (1, b"", b"fault 1 Read: no-such-file: No such file or directory\n"),
    )


def test_pipes_and_devices_are_files():
    company = os.path.join(EXAMPLES, "company.json")
    with open(company, "rb") as it:
        given = it.read()
    whole = answer(["matrix"], given)
    same(whole[0], 0)
    same(answer(["matrix", company]), whole)
    same(answer(["-c", f'exec "$0" matrix <(cat {company})', os.environ["IAMSIM"]], program="bash"), whole)
    same(answer(["matrix", "/dev/stdin"], given), whole)
    same(answer(["check", "/dev/null"]), (1, b"", b"fault 2 World: 1 NotJson\n"))
    same(answer(["check", "/dev/zero"]), (1, b"", b"fault 2 World: 9 TooLarge\n"))


def test_streams_that_fail():
    path = file(SMALLEST)
    for words in EVERY:
        for streams in (">&-", "> /dev/full", "1< /dev/null"):
            same(shell(f"{words} {path}", f"{streams} <&-"), (1, b"", b"fault 4 Write\n"), f"{words} {streams}")
        for streams in ("2>&-", "2> /dev/full", "2>&- >&-"):
            same(shell(f"{words} no-such-file", streams), (1, b"", b""), f"{words} {streams}")


def test_command_lines_that_are_refused():
    path = file(SMALLEST)
    for words in (
        ["check", path, path],
        ["check", "-", "-"],
        ["decide", "0", "0", path],
        ["decide", "0", "0", "0", path, path],
        ["matrix", path, path],
        ["first", path, "x"],
        [path],
        ["check", ""],
        ["matrix", "", "--brief"],
    ):
        status, out, said = answer(words, SMALLEST)
        same((status, out, said.startswith(b"error: ")), (2, b"", True), words)
    same(answer([b"check", b"\xff"]), (2, b"", b"error: a word of the command line is not UTF-8\n"))
