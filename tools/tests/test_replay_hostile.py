"""Logs that were made to do harm: each ends with an answer, or with status 1 and one line."""

import gc
import gzip
import json
import os
import random
import subprocess
import sys
import time

from harness import AWS, TOOLS, aws, document, file, same, statement
from test_hostile import call, changed_bytes, changed_member
from test_replay import EVENTS, EXPORT, GIVEN_WORDS, log, mapper, number, of, put, replayed, room

sys.path.insert(0, TOOLS)
from iamsim_aws.trails import reading  # noqa: E402
from iamsim_aws.trails.counting import Tally  # noqa: E402

HEADS = EVENTS[number("heads")]
ONE = json.dumps(HEADS)


def faulty(text, suffix=""):
    """The line of a log that is none."""
    said = replayed(file(text, suffix), "--export", EXPORT, status=1)
    same(said.count("\n"), 1, said)
    assert "could not go on" not in said, said
    return said


def test_what_is_no_log():
    for text, why in (
        (b"\xff\xff\xff{}", "it is no text in UTF-8 or UTF-16"),
        ('{"Records": [' + ONE[:-9], "behind 0 events"),
        ('{"Records": [' + ONE + "," + ONE[:40], "behind 1 events"),
        ('{"Records": [' + ONE + " " + ONE + "]}", "stands where one of ,] has to, behind 1 events"),
        ("hello", "h begins no event, behind 0 events"),
        ("12", "1 begins no event"),
        ('{"Records": ' + "[" * 100000, "its JSON is nested too deep"),
        ("[" * 100000, "its JSON is nested too deep"),
        ('{"a":' * 100000, "its JSON is nested too deep"),
        ('{"Records": [{"a": NaN}]}', "NaN is no JSON"),
        ('{"Records": [], 7: 1}', "a member has no name"),
        ('{"a": "' + "x" * (reading.LARGEST + 2 * reading.PIECE) + '"}', "one event has over 4 MiB"),
        (gzip.compress(b'{"Records": [')[:-9], "ended before"),
        (gzip.compress(b"[" + b" " * (1 << 20)) + b"\x1f\x8bgarbage", ""),
    ):
        assert why in faulty(text), (text[:40], why)


def test_a_small_file_that_holds_much():
    real, reading.UNPACKED = reading.UNPACKED, 1 << 24
    try:
        path, at = file(gzip.compress(bytes([32]) * (1 << 25))), time.monotonic()
        assert os.path.getsize(path) < 1 << 16
        status, said = call("replay", path, "--export", EXPORT)
        assert status == 1 and "unpacked it has over" in said, said
        assert time.monotonic() - at < 30
    finally:
        reading.UNPACKED = real
    # What is no JSON is told long before the bound.
    assert "begins no event" in faulty(gzip.compress(b"x" * (1 << 26)))


def test_values_of_other_types():
    """Each member of an event by each of some values; what does not tell a call is counted."""
    others = [
        None,
        True,
        0,
        1e99,
        "",
        "x",
        "*",
        "${a}",
        [],
        [None],
        {},
        [[]],
        {"items": [{"a": 1}]},
        "arn:aws:s3:::",
        "\x1b[31m\n",
    ]
    events = []
    for it in (
        HEADS,
        *of("a list is of the bucket", "two instances", "a role is assumed", "two tables", "a session with MFA"),
    ):
        for name in it:
            events += [{**it, name: value} for value in others]
            if isinstance(it[name], dict):
                events += [{**it, name: {**it[name], inner: value}} for inner in it[name] for value in others]
    found = replayed(log(events), *GIVEN_WORDS, *put(document()), status=3)
    same(found["events"], len(events))
    assert found["mapped"] < len(events) and sum(it["count"] for it in found["notMapped"]) > 100
    out = subprocess.run([AWS, "replay", log(events), *GIVEN_WORDS], capture_output=True)
    assert b"\x1b" not in out.stdout + out.stderr and out.returncode == 3


def test_numbers_of_many_digits_and_keys_that_come_twice():
    text = (
        ONE[:-1]
        + ', "x": '
        + "9" * 100000
        + ', "y": 1e'
        + "9" * 50
        + ', "eventName": "GetBucketAcl", "eventName": "HeadObject"}'
    )
    found = replayed(file(text), "--export", EXPORT)
    same((found["calls"], found["rows"]), (1, []))
    assert "a key comes twice in 1 object of the log: the last one stands" in found["notes"], found["notes"]


def test_texts_that_no_world_can_hold():
    for member, value, name in (
        ("requestParameters", {"bucketName": "data", "key": "\ud800"}, "s3:GetObject (half a character)"),
        ("requestParameters", {"bucketName": "data", "key": "k" * 5000}, "s3:GetObject (what it names is no ARN)"),
        ("requestParameters", {"bucketName": "a/b", "key": "k"}, "s3:GetObject"),
        ("requestParameters", {"bucketName": "arn:aws:s3:::data", "key": "k"}, "s3:GetObject"),
        ("resources", [{"type": "AWS::S3::Object", "ARN": "data"}], "s3:GetObject (what it names is no ARN)"),
    ):
        found = replayed(log([{**HEADS, member: value}]), "--export", EXPORT, status=4)
        same(found["notMapped"], [{"reason": "resource", "name": name, "count": 1}])
    for name in ("Head Object", "x" * 5000, "*", "Get*", "\u00e9"):
        found = replayed(log([{**HEADS, "eventName": name}]), "--export", EXPORT, status=4)
        assert found["notMapped"][0]["reason"] in ("action", "event", "resource"), found
    # A star in a name of the log is that character, and matches nothing else.
    star = {**HEADS, "requestParameters": {"bucketName": "data", "key": "*"}}
    draft = put(document(statement(action="*", resource="*"), statement("Deny", "s3:*", "arn:aws:s3:::data/x")))
    same(replayed(log([star]), "--export", EXPORT, *draft)["rows"], [])


def test_names_without_an_end():
    """Of names that nobody maps no more than some are held."""
    events = [{**HEADS, "eventSource": f"t{n}.amazonaws.com", "resources": []} for n in range(3000)]
    found = replayed(log([*events, HEADS]), "--export", EXPORT)
    same((len(found["notMapped"]), sum(it["count"] for it in found["notMapped"])), (1001, 3000))
    same([it["count"] for it in found["notMapped"] if it["name"] == "others"], [2000])


def test_events_are_let_go():
    """The command looks for no garbage, so what an event leaves must not hold itself."""
    own, tally = mapper(), Tally()
    lacking = [
        {**HEADS, "resources": [], "requestParameters": {}},
        {**HEADS, "requestParameters": {"bucketName": "data", "key": "\ud800"}},
        {**HEADS, "userIdentity": {"type": "Root"}},
        {**HEADS, "eventName": "CopyObject"},
        {**HEADS, "eventName": "Head Object"},
    ]
    gc.collect()
    gc.disable()
    try:
        for _ in range(100):
            for it in (HEADS, *lacking):
                tally.count(it, own)
        same((gc.collect(), tally.events, tally.mapped), (0, 600, 100))
    finally:
        gc.enable()


def test_folders_that_were_made_to_do_harm():
    folder = room()
    with open(os.path.join(folder, "a\n\x1b[31m.json"), "w") as it:
        it.write('{"Records": [')
    os.mkfifo(os.path.join(folder, "b.json"))
    os.symlink(folder, os.path.join(folder, "c"))
    os.symlink("d.json", os.path.join(folder, "d.json"))
    ran = subprocess.run([AWS, "replay", folder, "--export", EXPORT], capture_output=True, timeout=60)
    same((ran.returncode, ran.stderr.count(b"\n")), (1, 1), ran.stderr)
    assert b"\x1b" not in ran.stderr and b"a\\n\\x1b[31m.json: it is no log" in ran.stderr, ran.stderr
    os.remove(os.path.join(folder, "a\n\x1b[31m.json"))
    found = replayed(folder, "--export", EXPORT, status=4)
    assert "not read in folders: 1 links to folders, 2 other files" in found["notes"], found["notes"]
    for path in ("/nowhere", os.path.join(folder, "d.json")):
        _, said = aws("replay", path, "--export", EXPORT, status=1)
        assert said.startswith(f"iamsim-aws: {path}: "), said


def test_streams_that_are_closed_or_full():
    for words, why in (
        (f"{AWS} replay {log([HEADS])} --export {EXPORT} > /dev/full", "standard output: No space left on device"),
        (f"{AWS} replay - --export {EXPORT} <&-", "standard input is closed"),
    ):
        ran = subprocess.run(["sh", "-c", words], stderr=subprocess.PIPE, encoding="utf-8")
        same((ran.returncode, ran.stderr), (1, f"iamsim-aws: {why}\n"), words)


def test_logs_that_are_changed_at_random():
    """MUTATIONS and SEED give another count and seed."""
    seed, count = int(os.environ.get("SEED", "7")), int(os.environ.get("MUTATIONS", "200"))
    print(f"test_logs_that_are_changed_at_random: SEED={seed} MUTATIONS={count}")
    any_of, path = random.Random(seed), file("")
    lookup = {"Events": [{"CloudTrailEvent": json.dumps(it)} for it in EVENTS[:9]], "NextToken": "x"}
    logs = [{"Records": EVENTS[n : n + 9]} for n in range(0, len(EVENTS), 9)] + [lookup]
    statuses = set()
    for n in range(count):
        value = logs[n % len(logs)]
        is_text = any_of.random() < 0.4
        for _ in range(any_of.choice([1, 1, 3])):
            value = value if is_text else changed_member(any_of, value)
        text = changed_bytes(any_of, json.dumps(value).encode()) if is_text else json.dumps(value).encode()
        with open(path, "wb") as it:
            it.write(gzip.compress(text) if any_of.random() < 0.2 else text)
        more = put(document()) if n % 2 else ["--unused", "--strict"]
        status, said = call("replay", path, *GIVEN_WORDS, *more, "--format", any_of.choice(["text", "json", "page"]))
        statuses.add(status)
        assert status in (0, 1, 3, 4, 5), (n, status)
        assert all(line.startswith("iamsim-aws: ") for line in said.splitlines()), (n, said)
        assert status != 1 or said.count("\n") == 1, (n, said)
        assert "it could not go on" not in said, (n, said, text[:3000])
    assert {1, 3} <= statuses, statuses
