"""The documents: their links lead somewhere, they stay short, and the program prints what they say."""

import csv
import glob
import json
import os
import re
import shlex

from harness import TOOLS, answer, same

TOP = os.path.dirname(TOOLS)
DOCUMENTS = [
    "README.md",
    "CONTRIBUTING.md",
    "CHANGELOG.md",
    "bench/README.md",
    *(f"docs/{it}" for it in os.listdir(f"{TOP}/docs") if it.endswith(".md")),
]

# How many words each of these pages may have; any other has at most 300 lines, and LOGIC.md as many as it needs.
WORDS = {
    "README.md": 1500,
    "docs/guide.md": 2500,
    "docs/AWS.md": 4000,
    "CONTRIBUTING.md": 3000,
    "bench/README.md": 3000,
    "docs/estates.md": 3000,
    "docs/reference.md": 3000,
    "docs/proofs.md": 3000,
    "docs/replay.md": 3000,
    "docs/escalate.md": 3000,
    "docs/DECISIONS.md": 6000,
}
WIDTH = 120


def read(path):
    with open(os.path.join(TOP, path), encoding="utf-8") as it:
        return it.read()


def anchors(path):
    """What links to the headings of a document are called."""
    headings = re.findall(r"^#+ (.*)$", read(path), re.M)
    return {re.sub(r"[^\w -]", "", it.lower()).replace(" ", "-") for it in headings}


def test_links_lead_somewhere():
    for path in DOCUMENTS:
        for link, anchor in re.findall(r"\]\((?!https?:)([^)#]*)#?([^)]*)\)", read(path)):
            to = os.path.normpath(os.path.join(os.path.dirname(path), link)) if link else path
            assert os.path.exists(os.path.join(TOP, to)), f"{path}: {link}"
            assert not anchor or anchor in anchors(to), f"{path}: {link}#{anchor}"


def test_the_rules_have_a_list_of_their_sections():
    text = read("docs/LOGIC.md")
    same(re.findall(r"^ *- \[(.*)\]\(#", text, re.M), re.findall(r"^###? (\d.*)$", text, re.M))


def words_of(crate):
    """The words of a crate's code and definitions, without comments, and the names of their files."""
    paths = [
        it
        for of in ("src/**/*.rt", "specs/**/*.antt")
        for it in glob.glob(f"{TOP}/crates/{crate}/{of}", recursive=True)
    ]
    texts = [os.path.basename(it) + re.sub(r"(//|-- ).*", "", read(it)) for it in paths]
    return {word for it in texts for word in re.findall(r"\w+", it)}


def test_crates_have_what_the_table_of_crates_names():
    rows = dict(re.findall(r"^\| `(iam\w+)` \|(.*)", read("docs/architecture.md"), re.M))
    crates = set(re.findall(r"^(\w+).*:", read("crates.txt"), re.M))
    same(set(rows), crates)
    for crate, row in rows.items():
        named = {word for code in re.findall(r"`([^`]*)`", row) for word in re.findall(r"\w+", code)}
        missing = named - words_of(crate) - crates - {"specs", "Code", "data", "args", "stdin", "stdout"}
        assert not missing, f"{crate}: {missing}"


def words(text):
    """How many words a page has: what has a letter, but in blocks of code."""
    prose = re.sub(r"^ *```.*?^ *```$", "", text, flags=re.M | re.S)
    return sum(bool(re.search(r"[A-Za-z]", it)) for it in prose.split())


def wide_lines(text):
    """The lines that are wider than WIDTH, but those of tables, of blocks of code and of a URL."""
    prose = re.sub(r"^ *```.*?^ *```$", "", text, flags=re.M | re.S)
    return [it for it in prose.splitlines() if len(it) > WIDTH and not re.match(r" *\||.*https?://", it)]


def test_pages_have_few_words_and_narrow_lines():
    for path, most in WORDS.items():
        text = read(path)
        assert words(text) <= most, f"{path}: {words(text)} words"
        same(wide_lines(text), [], path)


def test_no_other_document_is_long():
    for path in set(DOCUMENTS) - set(WORDS) - {"docs/LOGIC.md"}:
        assert len(read(path).splitlines()) <= 300, path


def test_readers_of_the_outside_meet_no_word_of_the_house():
    for path in ("README.md", "docs/guide.md", "docs/reference.md", "docs/proofs.md"):
        text = re.sub(r"`[^`]*`|```.*?```", "", read(path), flags=re.S)
        found = re.findall(r"\b(seats?|crews?|tails?|surveys?|surveyed)\b", text)
        assert not found, f"{path}: {found}"


def test_the_program_prints_what_the_documents_say():
    for path, count in (("README.md", 1), ("docs/guide.md", 4)):
        found = re.findall(r"`\./iamsim ([^`]*\bexamples/\w+\.json[^`]*)`[^`]*\n\n```\n(.*?)```", read(path), re.S)
        same(len(found), count, path)
        for words, text in found:
            status, out, said = answer(shlex.split(words), cwd=TOP)
            same((out + said).decode(), text, f"{path}: {words}")
            same(status, 1 if said else 0, f"{path}: {words}")


def test_readme_shows_the_example_that_it_names():
    same(
        json.loads(re.search(r"```json\n(.*?)```", read("README.md"), re.S).group(1)),
        json.loads(read("examples/smallest.json")),
    )


def test_the_cells_of_the_company_are_as_the_guide_tells():
    rows = re.findall(
        r"^\| `decide ([\d ]+)` \| `(\w+)` \| `([^`]*)` \| (?:`([^`]*)` )?\|", read("docs/guide.md"), re.M
    )
    same(len(rows), 5)
    for cell, *wanted in rows:
        _, out, _ = answer(["decide", *cell.split()], read("examples/company.json").encode())
        same(list(csv.reader(out.decode().splitlines()))[1][4:], wanted, cell)
