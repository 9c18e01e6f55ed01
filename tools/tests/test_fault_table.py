"""One table of faults: docs/reference.md has it. LOGIC.md, the code and the tools name the same faults by the same numbers."""

import glob
import os
import re

from harness import TOOLS, same

TOP = os.path.dirname(TOOLS)
# For each table the enum that has its faults, and the section of LOGIC.md that states them. A run of two worlds has two more, one of
# requests another, and one about all names two more, the last of which has two forms, and of two worlds a third one.
TABLES = {
    "Of the run": ("iam_app/src/fault.rt", "RunFault", "14"),
    "Of the matrix": ("iam_matrix/src/fault.rt", "MatrixFault", "11.7"),
    "Of the cut": ("iam_matrix/src/cut.rt", "CutFault", "11.7"),
    "Of the world": ("iam_world/src/fault.rt", "WorldFault", "12.2"),
    "Of a line of requests": ("iam_asked/src/fault.rt", "LineFault", "13.8"),
    "Of a line of texts": ("iam_asked/src/text_fault.rt", "TextFault", "13.9"),
    "Of a context": ("iam_context/src/fault.rt", "ContextFault", "9.3"),
    "Of a document": ("iam_policy/src/fault.rt", "Fault", "6.3"),
}


def read(path):
    with open(os.path.join(TOP, path), encoding="utf-8") as it:
        return it.read()


def part(text, heading):
    """What stands below a heading, up to the next."""
    return re.split(r"^##+ ", text.split(f"\n{heading}", 1)[1], maxsplit=1, flags=re.M)[0]


def table(name):
    """The names of a table of reference.md; its numbers count from 1."""
    rows = re.findall(r"^\| (\d+) (\w+) \|", part(read("docs/reference.md"), f"### {name}\n"), re.M)
    same([int(number) for number, _ in rows], list(range(1, len(rows) + 1)), name)
    return [fault for _, fault in rows]


def variants(path, enum):
    body = re.search(rf"^pub enum {enum} \{{$(.*?)^\}}$", read(f"crates/{path}"), re.M | re.S).group(1)
    return re.findall(r"^    (\w+)\b", body, re.M)


def test_the_code_has_the_faults_of_the_table():
    run, *further = variants("iam_app/src/changes_fault.rt", "ChangesFault")
    also, *last = variants("iam_app/src/requests_fault.rt", "RequestsFault")
    names, *kinds, long = variants("iam_app/src/names_fault.rt", "NamesFault")
    same([run, also, names, long], ["Run", "Run", "Run", "LongTexts"])
    both = variants("iam_app/src/every_changes_fault.rt", "EveryChangesFault")
    same(both, ["Changes", *kinds, "BeforeTexts", long])
    for name, (path, enum, _) in TABLES.items():
        same(variants(path, enum) + (further + last + kinds if enum == "RunFault" else []), table(name), enum)


def test_logic_has_the_faults_of_the_table():
    logic = read("docs/LOGIC.md")
    for name, (_, _, section) in TABLES.items():
        heading = f"### {section} " if "." in section else f"## {section}. "
        text = " ".join(re.sub(r" \| |, (?=OutOfMemory)", " ", part(logic, heading)).split())
        for number, fault in enumerate(table(name), 1):
            assert re.search(rf"\b{number} {fault}\b", text), f"LOGIC {section} has no {number} {fault}"


def test_no_text_names_a_fault_that_is_none():
    lines = {name: table(name) for name in TABLES}
    known = {(str(number), fault) for faults in lines.values() for number, fault in enumerate(faults, 1)}
    for path in ["README.md", *(f"docs/{it}" for it in os.listdir(f"{TOP}/docs") if it.endswith(".md"))]:
        for line in re.findall(r"fault (\d+ .*?)(?:[`(),;]|$)", read(path), re.M):
            for number, fault in re.findall(r"\b(\d+) ([A-Z]\w+)", line):
                assert (number, fault) in known or fault == "Name", f"{path}: {number} {fault}"


def test_the_tools_tell_each_fault_of_a_document():
    wanted = [it for it in table("Of a document") if it != "OutOfMemory"]
    paths = [
        it for it in glob.glob(f"{TOOLS}/**/*", recursive=True) if re.search(r"\.(py|tsv)$", it) and "/tests/" not in it
    ]
    telling = [read(it) for it in paths if "PrincipalMisplaced" in read(it)]
    assert telling, "no tool has the faults in words"
    for text in telling:
        same(re.findall(rf"\b({'|'.join(wanted)})\b", text), wanted, "the faults in words")
