"""LOGIC.md and the house point at each other: each section names definitions that name it and code that is there, each file of
definitions names sections that are there, and each row the one that it tries, of which each has a row. Whether they fit is not tested."""

import glob
import json
import os
import re

from harness import ROWS, TOOLS, run

TOP = os.path.dirname(TOOLS)
# What is left out.
LEFT_OUT = {"1.2"}
# What is left out, and the examples of other sections.
WITHOUT_DEFINITIONS = LEFT_OUT | {"6.11", "11.5"}


def read(path):
    with open(path, encoding="utf-8") as it:
        return it.read()


def sections():
    """The text of each section that has no sections of its own, by its number."""
    parts = re.split(r"^#{2,3} (\d+(?:\.\d+)?)\.? .*$", read(os.path.join(TOP, "docs/LOGIC.md")), flags=re.M)
    texts = dict(zip(parts[1::2], parts[2::2]))
    return {it: text for it, text in texts.items() if f"{it}.1" not in texts}


def claims():
    """For each section the crates that it names, each with its definitions and its functions."""
    found = {}
    for section, text in sections().items():
        said = " ".join(line[2:] for line in text.splitlines() if line.startswith("> "))
        for crate, names in re.findall(r"`(iam_\w+)`: ([^.]*)\.", said):
            # Of a crate whose definitions stand in one below it, functions alone are named.
            definitions, _, functions = names.rpartition("; ")
            found.setdefault(section, []).append(
                (crate, re.findall(r"`(\w+)`", definitions), re.findall(r"`(\w+)\(\)`", functions))
            )
    return found


def specs(crate="*"):
    return [
        it
        for it in glob.glob(f"{TOP}/crates/{crate}/specs/*.antt")
        if os.path.basename(it) not in ("Lib.antt", "Code.antt")
    ]


def cited(path):
    """The sections that the first comment of a file names."""
    comment = " ".join(line for line in read(path).split("\n\n")[0].splitlines() if line.startswith("-- "))
    names = re.search(r"LOGIC ((?:\d+(?:\.\d+)?(?:, | and )?)+)\.", comment)
    return re.findall(r"\d+(?:\.\d+)?", names.group(1)) if names else []


def test_each_file_of_definitions_names_its_sections():
    known = set(sections()) | {it.split(".")[0] for it in sections()}
    for path in specs():
        assert cited(path), f"{path} names no section of LOGIC.md"
        assert set(cited(path)) <= known, f"{path} names a section that is not there"


def test_each_section_names_its_definitions_and_its_code():
    found = claims()
    assert set(found) == set(sections()) - WITHOUT_DEFINITIONS, set(sections()) ^ set(found)
    for section, crates in found.items():
        assert any(definitions for _, definitions, _ in crates), section
        for crate, definitions, functions in crates:
            assert functions, f"{section}: {crate}"
            for name in definitions:
                holds = re.compile(rf"^(\w+ )*pub (\w+ )?{name}\b", re.M)
                files = [it for it in specs(crate) if holds.search(read(it))]
                assert any(section in cited(it) for it in files), f"{section}: {crate} has no {name} that names it"
            code = "\n".join(read(it) for it in glob.glob(f"{TOP}/crates/{crate}/src/*.rt"))
            for name in functions:
                assert re.search(rf"\bfn {name}\b", code), f"{section}: {crate} has no {name}()"


def test_each_row_names_a_section_and_each_section_has_a_row():
    tried = set()
    for path in glob.glob(os.path.join(ROWS, "*.json")):
        rows = json.loads(read(path))
        if isinstance(rows, list):
            tried |= {row["rule"] for row in rows}
    assert tried == set(sections()) - LEFT_OUT, set(sections()) ^ tried


def test_proofs_has_the_number_of_trusted_definitions():
    """Of `run`, and of all that `main` calls."""
    proofs = " ".join(read(os.path.join(TOP, "docs/proofs.md")).split())
    for words in (["run"], []):
        counted, _ = run([os.path.join(TOOLS, "trusted"), *words])
        definitions, lines, types = (int(it) for it in re.findall(r"\d+", counted))
        assert f"{definitions} definitions of {lines:,} lines, {types} types of the code" in proofs, counted
