"""Reports that pipelines read: JUnit, and SARIF for code scanning."""

import os
import pathlib
from typing import Any, Dict, List, NamedTuple, Sequence
from urllib.parse import quote
from xml.sax.saxutils import escape, quoteattr

from .faults import line_of
from .files import compact

DESCRIBED = {
    "broken": "A rule of access is broken",
    "empty": "A rule of access meets no request",
    "open": "Something that a rule of access hangs on was not asked",
    "fault": "The rules were not checked",
    "unasked": "Something was not asked",
    "note": "What a rule does not tell",
}


class Case(NamedTuple):
    """A rule and how it fares: its file and line, its words, 'kept' or what is wrong, that in lines, each reason by itself,
    and what was told of it besides. One that passes has no lines and no reasons."""

    file: str
    line: int
    text: str
    state: str
    lines: List[str]
    reasons: List[str]
    notes: List[str] = []

    @property
    def name(self) -> str:
        return f"{self.file}:{self.line}: {self.text}" if self.text else self.file


def fault(file: str, why: str) -> Case:
    """There is no answer."""
    return Case(file, 1, "", "fault", [why], [why])


def as_element(notes: Sequence[str], margin: str) -> List[str]:
    """What was told, for a test or for all of them."""
    text = "\n".join(escape(line_of(it)) for it in notes)
    return [f"{margin}<system-err>{text}</system-err>"] if notes else []


def junit(cases: List[Case], notes: Sequence[str] = ()) -> str:
    failures, errors = (sum(bool(it.lines) and (it.state == "fault") == kind for it in cases) for kind in (False, True))
    lines = [
        '<?xml version="1.0" encoding="UTF-8"?>',
        f'<testsuite name="iamsim-aws rules" tests="{len(cases)}" failures="{failures}" errors="{errors}">',
    ]
    for it in cases:
        head = f"<testcase classname={quoteattr(line_of(it.file))} name={quoteattr(line_of(it.name))}"
        if not it.lines:
            said = as_element(it.notes, "    ")
            lines += [f"  {head}>", *said, "  </testcase>"] if said else [f"  {head}/>"]
            continue
        tag, first = "error" if it.state == "fault" else "failure", line_of((it.reasons or it.lines)[0]).strip()
        text = "\n".join(escape(line_of(line)) for line in it.lines)
        lines += [
            f"  {head}>",
            f'    <{tag} type="{it.state}" message={quoteattr(first)}>{text}</{tag}>',
            *as_element(it.notes, "    "),
            "  </testcase>",
        ]
    return "\n".join([*lines, *as_element(notes, "  "), "</testsuite>"]) + "\n"


def place_of(file: str) -> Dict[str, str]:
    """A file as SARIF names it: from the working directory, which is taken to be the repository's top, where it is below."""
    try:
        way = os.path.relpath(file).replace(os.sep, "/")
    except ValueError:
        way = ".."
    if way.split("/")[0] == "..":
        return {"uri": pathlib.Path(os.path.abspath(file)).as_uri()}
    return {"uri": quote(way), "uriBaseId": "%SRCROOT%"}


def sarif(cases: List[Case], notes: Sequence[str] = ()) -> str:
    results: List[Dict[str, Any]] = []
    for it in cases:
        region = {"artifactLocation": place_of(it.file), "region": {"startLine": it.line}}
        told = [(it.state, "error", why) for why in it.reasons] + [("note", "note", line) for line in it.notes]
        for rule, level, why in told:
            text = f"{it.text}: {why}" if it.text else why
            message = {"ruleId": rule, "level": level, "message": {"text": text}}
            results.append({**message, "locations": [{"physicalLocation": region}]})
    rules = [{"id": name, "shortDescription": {"text": text}} for name, text in DESCRIBED.items()]
    ended: Dict[str, Any] = {"executionSuccessful": all(it.state != "fault" for it in cases)}
    if notes:
        ended["toolExecutionNotifications"] = [{"level": "note", "message": {"text": it}} for it in notes]
    value = {
        "$schema": "https://json.schemastore.org/sarif-2.1.0.json",
        "version": "2.1.0",
        "runs": [
            {"tool": {"driver": {"name": "iamsim-aws", "rules": rules}}, "invocations": [ended], "results": results}
        ],
    }
    return compact(value) + "\n"
