"""Worlds that are cut off, changed by one byte, or hostile in their texts and patterns: each has its answer or the line of a
fault of the world, and never anything else. Python's own reader of JSON says which changed ones are JSON at all."""

import csv
import io
import json
import re

from harness import answer, data, document, matrix, on_all_processors, row_world, same, small_world, statement

NOT_JSON = (1, b"", b"fault 2 World: 1 NotJson\n")

PATH = r"(\.|[a-zA-Z]+(/(\d+|[a-zA-Z]+))*)"
AT_A_PLACE = "2 BadShape|3 BadRequester|4 BadAction|5 BadResourceArn|6 UnknownAccount"
CONTEXT = "1 KeyTwice|2 DerivedKeyGiven"
DOCUMENT = r"(document|statement \d+): ([1-9]|1\d|2[01]) [A-Z][a-zA-Z]+"
FAULT = re.compile(
    f"fault 2 World: (({AT_A_PLACE}) at {PATH}|7 Context at {PATH}: ({CONTEXT})|8 Policy at {PATH}: {DOCUMENT})\n"
)

BYTES = b'"}0\\\xff'
TOGETHER = 50


def small_worlds():
    with open(data("every.json"), encoding="utf-8") as it:
        every = json.dumps(json.load(it), separators=(",", ":"), ensure_ascii=False).encode()
    return [row_world("smallest"), row_world("home"), every]


def answers(texts):
    return [answer(["matrix", "--workers", "2", "--tile", "1"], text) for text in texts]


def all_answers(texts):
    """The answer to each text."""
    found = on_all_processors(answers, [texts[n : n + TOGETHER] for n in range(0, len(texts), TOGETHER)])
    return [it for several in found for it in several]


def test_each_beginning_is_not_json():
    for world in small_worlds():
        beginnings = [world[:length] for length in range(len(world))]
        for text, found in zip(beginnings, all_answers(beginnings)):
            same(found, NOT_JSON, text)


def value_of(text):
    """The value of a JSON text, or None."""
    try:
        return json.loads(text.decode("utf-8"))
    except ValueError:
        return None


def is_answer(out, value):
    """Whether it has the rows of the world's cells, in their order."""
    rows = list(csv.reader(io.StringIO(out.decode(), newline="")))
    cells = [
        [action, resource["arn"]]
        for _ in value["principals"]
        for action in value["actions"]
        for resource in value["resources"]
    ]
    return [row[2:4] for row in rows[1:]] == cells and [row[0] for row in rows[1:]] == [
        str(n) for n in range(len(cells))
    ]


def is_right(text, found):
    status, out, said = found
    value = value_of(text)
    if value is None:
        return found == NOT_JSON
    if status == 0:
        return said == b"" and is_answer(out, value)
    return status == 1 and out == b"" and FAULT.fullmatch(said.decode()) is not None


def test_each_byte_changed():
    changed = [
        world[:place] + bytes([byte]) + world[place + 1 :]
        for world in small_worlds()
        for place in range(len(world))
        for byte in BYTES
    ]
    wrong = [(text, found) for text, found in zip(changed, all_answers(changed)) if not is_right(text, found)]
    print(f"worlds with a byte changed: {len(changed)} runs, {len(wrong)} findings", flush=True)
    same(wrong[:3], [])


def test_a_text_of_a_megabyte():
    # Of two bytes a character, with a quote at its end: in CSV the field is quoted and the quote doubled, in JSON it is escaped.
    text = "arn:aws:s3:::" + "\u00e9" * 500_000 + '"'
    value = json.loads(row_world("smallest"))
    value["resources"][0]["arn"] = text
    ann, world = value["principals"][0]["user"], json.dumps(value, ensure_ascii=False).encode()
    quoted = text.replace('"', '""')
    same(answer(["first"], world), (0, b"cell,principal,action,resource,decision\n", b""))
    same(
        answer(["matrix", "--brief"], world),
        (0, f'cell,principal,action,resource,decision\n0,{ann},S3:getobject,"{quoted}",implicitDeny\n'.encode(), b""),
    )
    escaped = text.replace('"', '\\"')
    same(
        answer(["matrix", "--brief", "--format", "json"], world),
        (
            0,
            f'[{{"action":"S3:getobject","cell":0,"decision":"implicitDeny","principal":"{ann}","resource":"{escaped}"}}]\n'.encode(),
            b"",
        ),
    )


# Patterns of many wildcards, texts, and whether they match.
PATTERNS = [
    ("*" * 4000, "", True),
    ("?" * 4000, "a" * 3999, False),
    ("?" * 4000, "a" * 4000, True),
    ("?" * 4000, "a" * 4001, False),
    ("a*" * 1000 + "b", "a" * 4000, False),
    ("a*" * 1000 + "b", "a" * 4000 + "b", True),
    ("*a" * 1000, "a" * 999, False),
    ("*a" * 1000, "a" * 1000, True),
    ("*?" * 2000, "a" * 1999, False),
    ("?*" * 2000, "a" * 2000, True),
    ("*a" * 1000 + "*b*" + "a*" * 1000, "a" * 4000, False),
    ("*a" * 1000 + "*b*" + "a*" * 1000, "a" * 1500 + "b" + "a" * 1000, True),
]


def test_patterns_of_many_wildcards():
    for pattern, text, matches in PATTERNS:
        resources = [{"arn": f"arn:aws:s3:::{text}", "account": "111122223333"}]
        like = {"StringLike": {"k": pattern}, "StringLikeIfExists": {"K": [pattern, "x"]}}
        for version in ("2012-10-17", "2008-10-17"):
            for what, it in [
                (
                    "resource",
                    small_world(
                        {**document(statement(resource=f"arn:aws:s3:::{pattern}")), "Version": version},
                        resources=resources,
                    ),
                ),
                (
                    "action",
                    small_world(
                        {**document(statement(action=f"S3:get{pattern}")), "Version": version},
                        actions=[f"s3:Get{text.upper()}"],
                    ),
                ),
                (
                    "value",
                    small_world({**document(statement(Condition=like)), "Version": version}, context={"k": text}),
                ),
            ]:
                [(decision, _, _)] = matrix(it).values()
                same(
                    decision,
                    "allowed" if matches else "implicitDeny",
                    f"{what}: {pattern[:20]}.. on {text[:20]}.., {version}",
                )
