"""Hostile hands: folders, modules, names, patterns and files that were made to do harm; streams that are closed, and runs that are
ended. GNU parallel is stood for by a few lines here, so that these run where it is not installed."""

import contextlib
import csv
import fcntl
import gzip
import io
import json
import os
import pty
import random
import signal
import subprocess
import sys
import tempfile
import threading
import time
from urllib.parse import quote

from harness import AWS, IAMSIM, TOOLS, aws, data, document, file, load, patience, same, small_world, statement

sys.path.insert(0, TOOLS)
from iamsim_aws import command, files, patterns, program, reports  # noqa: E402
from iamsim_aws.estates import running, schema  # noqa: E402

EXPORT = data("account.json")
OBJECT = "arn:aws:s3:::releases/app.zip"
RULE = "never alice s3:PutObject arn:aws:s3:::releases/app.zip\n"
PARALLEL = """#!/usr/bin/env python3
import os, subprocess, sys
if "--version" in sys.argv:
    print("GNU parallel, or what stands for it")
    sys.exit(0)
os.listdir(os.environ.get("TMPDIR", "/"))
for line in sys.stdin.read().split():
    job = sys.argv[-1].replace("{}", line)
    ran = subprocess.Popen(["sh", "-c", job], stdin=subprocess.DEVNULL, close_fds=False, preexec_fn=os.setpgrp)
    if ran.wait() != 0:
        sys.exit(1)
"""


def room():
    return tempfile.mkdtemp(dir=os.environ["TOOLS_TEST_ROOM"])


def put(folder, name, text):
    path = os.path.join(folder, name)
    os.makedirs(os.path.dirname(path), exist_ok=True)
    with open(path, "w") as it:
        it.write(text)
    os.chmod(path, 0o755)
    return path


def surroundings(**more):
    """Where GNU parallel is what stands for it."""
    folder = room()
    put(folder, "parallel", PARALLEL)
    return {**os.environ, "PATH": f"{folder}:{os.environ['PATH']}", **more}


def estate(folder, *words, env=None, cwd=TOOLS):
    """Status, and what 'iamsim-aws estate' writes on both streams."""
    given = [AWS, "estate", folder, EXPORT, "--moment", "0", *words]
    ran = subprocess.run(given, capture_output=True, encoding="utf-8", env=env, cwd=cwd, timeout=120)
    assert "Traceback" not in ran.stderr, ran.stderr
    return ran.returncode, ran.stdout, ran.stderr


# --- estates -----------------------------------------------------------------------------------------------------------


def test_an_estate_takes_no_folder_of_somebody_else():
    folder = room()
    path = put(folder, "reports/annual.pdf", "years of work")
    status, _, said = estate(folder, "--slurm")
    same((status, said.count("\n")), (1, 1), said)
    assert f"{folder}: it is neither empty nor the folder of an estate" in said, said
    with open(path) as it:
        same(it.read(), "years of work")
    same(os.listdir(folder), ["reports"])
    # One that is empty is taken, and is its own from then on.
    folder = room()
    for words in (["--slurm"], ["--slurm"], ["--slurm", "--afresh"]):
        status, _, said = estate(folder, *words)
        same(status, 0, said)


def test_a_job_runs_nothing_of_the_folder():
    """Modules of the names that a job imports, planted in the estate's folder and where the command is started."""
    folder, planted, env = room(), os.path.join(room(), "planted"), surroundings()
    harm = f"open({planted!r}, 'w').close()\n"
    same(estate(folder, "--slurm")[0], 0)
    for where in (folder, room()):
        for name in (
            "sqlite3.py",
            "gzip.py",
            "sitecustomize.py",
            "iamsim_aws/__init__.py",
            "iamsim_aws/estates/__init__.py",
        ):
            put(where, name, harm)
        status, out, said = estate(folder, env=env, cwd=where)
        same(status, 0, said)
        assert not os.path.exists(planted), where
        assert " 1 allowed\n" not in out and " allowed\n" in out, out


def test_folders_with_odd_names():
    wanted = estate(room(), env=surroundings())[1]
    assert wanted.startswith("1 worlds, "), wanted
    for name in ("e{}x", "c{}7", "{#} {%}", "a'b\"c $HOME `ls`"):
        folder = os.path.join(room(), name)
        status, out, said = estate(folder, env=surroundings())
        same((status, out), (0, wanted), f"{name}: {said}")


def test_a_run_that_is_ended_ends_what_it_has_started():
    """All has ended within two seconds, whatever the signal, and later only where the machine has more to do than it can; then
    the folder is free, and a run goes on."""
    slow = f'#!/bin/sh\n[ "$*" = --version ] && exec {IAMSIM} --version\n> "$BEGUN"; sleep 61\n'
    for number in (signal.SIGTERM, signal.SIGHUP, signal.SIGINT, signal.SIGKILL):
        folder, begun = room(), os.path.join(room(), "begun")
        env = surroundings(IAMSIM=put(room(), "iamsim", slow), BEGUN=begun)
        given = [AWS, "estate", folder, EXPORT, "--moment", "0"]
        ran = subprocess.Popen(given, env=env, stderr=subprocess.PIPE, start_new_session=True)
        wait_for(lambda: os.path.exists(begun), 30)
        ran.send_signal(number)
        at, most = time.monotonic(), patience(2)
        ran.wait(most)
        with open(os.path.join(folder, "lock"), "ab") as lock:
            wait_for(lambda: is_free(lock), most - (time.monotonic() - at))
        said = ran.stderr.read().decode()
        assert number == signal.SIGKILL or said.endswith("iamsim-aws: stopped\n"), said
        same(ran.returncode, -9 if number == signal.SIGKILL else 1)
        same(estate(folder, env=surroundings())[0], 0)


def is_free(lock):
    try:
        fcntl.flock(lock, fcntl.LOCK_EX | fcntl.LOCK_NB)
    except BlockingIOError:
        return False
    return True


def wait_for(ready, seconds):
    end = time.monotonic() + seconds
    while not ready():
        assert time.monotonic() < end, f"not within {seconds} seconds"
        time.sleep(0.01)


def test_a_line_a_minute():
    """Where there is no terminal."""
    folder, real, said = room(), running.MINUTE, io.StringIO()
    same(estate(folder, "--slurm")[0], 0)
    base, running.MINUTE = schema.opened(os.path.join(folder, "access.db")), 0.2
    try:
        with contextlib.redirect_stderr(said):
            same(running.ended(subprocess.Popen(["sleep", "0.5"]), base, False), 0)
            same(running.ended(subprocess.Popen(["sleep", "0.5"]), base, True), 0)
    finally:
        running.MINUTE = real
    same(said.getvalue().splitlines(), ["iamsim-aws: 0 of 1 worlds are asked"] * 2)


def test_an_estate_goes_on_with_the_program_that_began_it():
    folder = room()
    same(estate(folder, "--slurm")[0], 0)
    other = put(room(), "iamsim", "#!/bin/sh\necho iamsim 9.9.9\n")
    status, _, said = estate(folder, "--slurm", env={**os.environ, "IAMSIM": other})
    assert status == 1 and "and this is iamsim 9.9.9: begin anew by --afresh" in said, said
    same(estate(folder, "--slurm", "--afresh", env={**os.environ, "IAMSIM": other})[0], 0)


# --- what takes long ---------------------------------------------------------------------------------------------------


def test_patterns_of_many_stars():
    at = time.process_time()
    assert not patterns.matcher("*a" * 8 + "*b")("a" * 40)
    assert not patterns.matcher("*a" * 300 + "*b")("a" * 4000)
    assert patterns.matcher("*a" * 300 + "*b")("a" * 300 + "b")
    assert time.process_time() - at < 1
    for pattern, text, is_match in (
        ("", "", True),
        ("*", "", True),
        ("**", "\n", True),
        ("?", "", False),
        ("a*", "a", True),
        ("*ab*ab", "ab", False),
        ("*ab*ab", "abab", True),
        ("a*?b", "ab", False),
        ("a?*b", "axb", True),
        ("[a]*", "[a]b", True),
        ("*b*a*", "aab", False),
        ("A*b*C", "axbxC", False),
        (r"\*", "*", True),
        (r"\*", "x", False),
        (r"\*", r"\*", False),
        (r"a\?", "a?", True),
        (r"\\", "\\", True),
        (r"\\*", r"\x", True),
        (r"\\\*", r"\*", True),
        (r"\\\*", r"\x", False),
        (r"\a", r"\a", True),
        (r"\a", "a", False),
        ("a\\", "a\\", True),
    ):
        same(bool(patterns.matcher(pattern)(text)), is_match, f"{pattern} {text!r}")
    assert patterns.matcher("S3:*Get*Object", True)("s3:getAnObject")


def test_patterns_that_meet():
    for one, other, text in (
        ("a*", "*b", "ab"),
        (r"a\*", "a*", "a*"),
        (r"a\*", "a?", "a*"),
        (r"a\*", "ab", None),
        (r"\\*", r"*\*", r"\*"),
        (r"a\b", r"a\\b", r"a\b"),
    ):
        same(patterns.common(one, other), text, f"{one} {other}")
    # In a policy a backslash is a character, but what a variable gives is no wildcard.
    same(patterns.pattern_of(r"a\*${*}${k}", {"k": r"\?"}), r"a\\*\*\\?")
    same(patterns.resolved(r"a\*${*}${k}", {"k": r"\?"}), r"a\**\?")


def test_objects_of_many_keys():
    text = "{" + ",".join(f'"k{n}":1,"k{n}":2' for n in range(20000)) + "}"
    at, said = time.process_time(), io.StringIO()
    with contextlib.redirect_stderr(said):
        same(files.parsed(text, "x"), {f"k{n}": 2 for n in range(20000)})
    assert time.process_time() - at < 5
    same(said.getvalue().count("comes twice in one object"), 20000)


def test_a_small_file_that_holds_much():
    bomb = gzip.compress(bytes(1 << 24)) * 40
    assert len(bomb) < 1 << 20
    _, said = aws("world", file(bomb), status=1)
    assert "unpacked it has over 256 MiB" in said, said
    with open(EXPORT, "rb") as it:
        text = it.read()
    assert "principals" in aws("world", file(gzip.compress(text[:100]) + gzip.compress(text[100:])))[0]


def test_worlds_are_made_as_they_are_asked():
    """Of many questions no more are there at once than are asked and wait to be."""
    there, most, real = 0, 0, program.Questions.ask
    together = program.processors()

    def jobs():
        nonlocal there, most
        for n in range(50 * together):
            there += 1
            most = max(most, there)
            yield [str(n)], b""

    program.Questions.ask = lambda _, words, world: words[0].encode()
    try:
        for n, it in enumerate(program.each_of(jobs(), 50 * together)):
            there -= 1
            same(it, str(n).encode())
    finally:
        program.Questions.ask = real
    assert most <= 2 * together, most


# --- files and streams -------------------------------------------------------------------------------------------------


def test_a_report_takes_no_file_that_is_read():
    for name in ("--junit", "--sarif"):
        rules = file(RULE)
        for path, why in (
            (rules, "it is read or written by this command already"),
            (os.path.relpath(rules, TOOLS), "it is read or written by this command already"),
            ("-", "a report cannot be standard output"),
        ):
            _, said = aws("rules", rules, EXPORT, name, path, status=1)
            assert why in said, said
            with open(rules) as it:
                same(it.read(), RULE)
    assert not os.path.exists(os.path.join(TOOLS, "-"))
    path = os.path.join(room(), "r")
    _, said = aws("rules", file(RULE), EXPORT, "--junit", path, "--sarif", path, status=1)
    assert "it is read or written by this command already" in said, said
    export = file(load(EXPORT))
    aws("world", export, "--names", export, status=1)
    same(load(export), load(EXPORT))
    organization = file(load(data("organization.json")))
    aws("world", export, "--organization", organization, "--names", organization, status=1)
    same(load(organization), load(data("organization.json")))


def test_a_report_takes_no_configuration():
    """A file of a folder below the configuration's, or by a link, is one of its files too; so is one of the service reference."""
    folder = room()
    path, link = os.path.join(folder, "sub", "main.tf"), os.path.join(folder, "r.xml")
    reference = os.path.join(folder, "services", "s3.json")
    for it in (path, reference):
        os.mkdir(os.path.dirname(it))
        with open(it, "w") as to:
            to.write("#")
    os.symlink(path, link)
    given = ["rules", file(RULE), EXPORT, "--services", os.path.dirname(reference)]
    for it, why in (
        (path, "it is named as a configuration of Terraform: name another file"),
        (link, "it is named as a configuration of Terraform: name another file"),
        (reference, "it is read or written by this command already"),
    ):
        _, said = aws(*given, "--junit", it, status=1)
        assert why in said, said
        with open(it) as kept:
            same(kept.read(), "#")


def test_streams_that_are_closed_or_full():
    for words, why in (
        (f"{AWS} world {EXPORT} >&-", "standard output is closed"),
        (f"{AWS} world {EXPORT} > /dev/full", "standard output: No space left on device"),
        (f"{AWS} world - <&-", "standard input is closed"),
        (f"{AWS} can alice s3:GetObject {OBJECT} {EXPORT} > /dev/full", "standard output: No space left on device"),
    ):
        ran = subprocess.run(["sh", "-c", words], stderr=subprocess.PIPE, encoding="utf-8")
        same(ran.returncode, 1, ran.stderr)
        same(ran.stderr.splitlines()[-1], f"iamsim-aws: {why}", words)
        assert "another form" not in ran.stderr and "Exception" not in ran.stderr, ran.stderr
    # Of what waited to be written before a fault nothing more is said.
    worlds = file(json.dumps(small_world()) + "\n{}\n")
    words, env = f"{AWS} matrices < {worlds} > /dev/full", {
        k: v for k, v in os.environ.items() if k != "PYTHONUNBUFFERED"
    }
    ran = subprocess.run(["sh", "-c", words], stderr=subprocess.PIPE, encoding="utf-8", env=env)
    same((ran.returncode, ran.stderr.count("\n")), (1, 1), ran.stderr)
    assert ran.stderr.startswith("iamsim-aws: world 1: fault 2 World"), ran.stderr
    # What is told goes nowhere else where standard error is closed.
    ran = subprocess.run(["sh", "-c", f"{AWS} world {EXPORT} 2>&-"], stdout=subprocess.PIPE)
    same((ran.returncode, len(json.loads(ran.stdout)["principals"])), (0, 8))
    # GNU parallel wants the folder that TMPDIR names.
    status, _, said = estate(room(), env=surroundings(TMPDIR="/nowhere"))
    same(status, 0, said)


def test_control_characters_in_csv():
    """Each row is one row for whoever reads it, and each name is as it was given."""
    names = ["a\rb", "a\nb", "a\r\nb", "\x00\x1b[31m\t", 'a,"b"', "plain", " "]
    resources = [{"arn": f"arn:aws:s3:::b/{it}", "account": "111122223333"} for it in names if "\x00" not in it]
    made = small_world(document(statement()), resources=resources)
    words = [AWS, "can", "ann", "s3:GetObject", "*", "--world", file(made), "--format", "csv"]
    out = subprocess.run(words, stdout=subprocess.PIPE).stdout.decode()
    rows = list(csv.reader(io.StringIO(out, newline="")))
    same([it[2] for it in rows], ["resource", *(it["arn"] for it in resources)])
    text = reports.csv_text(["x", "y"], [[it, it] for it in names])
    assert text.startswith("x,y\n") and text.endswith("plain,plain\n , \n"), text
    same(text.count('"'), 2 * 2 * 3 + 2 * 6)


def test_no_world_is_no_matrix():
    """Where what comes before in a pipe has failed."""
    for given in ("", "\n \n"):
        _, said = aws("matrices", given=given, status=1)
        same(said, "iamsim-aws: standard input is empty: was there a fault?\n")
    ran = subprocess.run(["sh", "-c", f"{AWS} split /nowhere/w.json | {AWS} matrices"], stderr=subprocess.DEVNULL)
    same(ran.returncode, 1)


def test_documents_as_calls_of_aws_encode_them():
    """The API gives a document as JSON with %-escapes; so do the SDKs that do not decode it."""
    export, policy = load(EXPORT), document(statement(action="s3:GetObject", resource="arn:aws:s3:::b/a+b ü%"))
    export["UserDetailList"][0]["UserPolicyList"] = [{"PolicyName": "own", "PolicyDocument": policy}]
    whole = aws("world", file(export), "--moment", "0")[0]
    for value in (quote(json.dumps(policy)), quote(json.dumps(policy, indent=1), safe=""), json.dumps(policy)):
        export["UserDetailList"][0]["UserPolicyList"][0]["PolicyDocument"] = value
        same(aws("world", file(export), "--moment", "0")[0], whole)
    for it in export["RoleDetailList"]:
        it["AssumeRolePolicyDocument"] = quote(json.dumps(it["AssumeRolePolicyDocument"]))
    same(aws("world", file(export), "--moment", "0")[0], whole)


SLOW = '#!/bin/sh\necho $$ > "$BEGUN"\nexec sleep 60\n'


def test_a_question_that_is_ended_ends_the_program():
    for number in (signal.SIGTERM, signal.SIGHUP, signal.SIGINT):
        begun = os.path.join(room(), "begun")
        env = {**os.environ, "IAMSIM": put(room(), "iamsim", SLOW), "BEGUN": begun}
        words = [AWS, "who-can", "s3:GetObject", OBJECT, EXPORT]
        ran = subprocess.Popen(words, env=env, stderr=subprocess.PIPE, encoding="utf-8", start_new_session=True)
        wait_for(lambda: os.path.exists(begun) and os.path.getsize(begun), 30)
        with open(begun) as it:
            asked = int(it.read())
        ran.send_signal(number)
        # It would sleep for a minute.
        same((ran.wait(30), ran.stderr.read()), (1, "iamsim-aws: stopped\n"))
        wait_for(lambda: not os.path.exists(f"/proc/{asked}"), 30)


def test_a_program_that_begins_while_all_is_stopped():
    """Its start has not yet come back when the others are ended: it ends too, and later questions are asked."""
    begun, stopped = threading.Event(), threading.Event()
    started, real = [], (subprocess.Popen, program.Questions.stop, os.environ["IAMSIM"])

    class Late(subprocess.Popen):
        def __init__(self, *words, **more):
            super().__init__(*words, **more)
            started.append(self)
            begun.set()
            assert stopped.wait(30)

    def stop(questions):
        real[1](questions)
        stopped.set()

    def jobs():
        yield ["decide"], b""
        assert begun.wait(30)
        raise KeyboardInterrupt

    try:
        os.environ["IAMSIM"] = put(room(), "iamsim", "#!/bin/sh\nexec sleep 60\n")
        program.subprocess.Popen, program.Questions.stop = Late, stop
        at = time.monotonic()
        try:
            list(program.each_of(jobs(), 2))
            assert False, "it is not stopped"
        except KeyboardInterrupt:
            pass
        assert time.monotonic() - at < 30 and [it.returncode for it in started] == [-signal.SIGKILL], started
    finally:
        program.subprocess.Popen, program.Questions.stop, os.environ["IAMSIM"] = real
    asked = ["matrix"], json.dumps(small_world(document(statement()))).encode()
    found = program.run(*asked)
    assert b"allowed" in found, found
    same(list(program.each_of([asked] * 3, 3)), [found] * 3)


def test_a_terminal_is_told_how_far_it_is():
    slow = f'#!/bin/sh\nsleep 4\nexec {IAMSIM} "$@"\n'
    env = {**os.environ, "IAMSIM": put(room(), "iamsim", slow)}
    words = [AWS, "can", "alice", "s3:GetObject", OBJECT, EXPORT]
    ours, theirs = pty.openpty()
    ran = subprocess.Popen(words, env=env, stdout=subprocess.PIPE, stderr=theirs)
    os.close(theirs)
    out = ran.stdout.read()
    said = b""
    with contextlib.suppress(OSError):
        while True:
            said += os.read(ours, 65536)
    assert b"iamsim has answered 0 of " in said and b" questions, 2 s" in said.replace(b", 3 s", b", 2 s"), said
    same(subprocess.run(words, env=env, capture_output=True).stdout, out)
    same(b"has answered" in subprocess.run(words, env=env, capture_output=True).stderr, False)


# --- inputs that are changed at random ---------------------------------------------------------------------------------


def changed_bytes(any_of, text):
    at = any_of.randrange(len(text))
    return text[:at] + bytes([any_of.choice(b'{}[],:"\\*$%\x00\xff0aZ')]) + text[at + any_of.randrange(2) :]


OTHERS = [None, True, 0, -1, 1.5, "", "x", "*", "${", "arn:aws:s3:::b", [], [None], {}, {"x": []}, [[]], {"": None}]


def changed_member(any_of, value):
    """The value with one member of it taken away, doubled, or of another type."""
    if any_of.random() < 0.15 or not isinstance(value, (dict, list)) or not value:
        return any_of.choice(OTHERS)
    made = dict(value) if isinstance(value, dict) else list(value)
    key = any_of.choice(list(made) if isinstance(made, dict) else range(len(made)))
    if any_of.random() < 0.1:
        del made[key]
    elif any_of.random() < 0.05:
        made = {**made, "Extra": made[key]} if isinstance(made, dict) else made + [made[key]]
    else:
        made[key] = changed_member(any_of, made[key])
    return made


PLAN = {
    "format_version": "1.2",
    "resource_changes": [
        {
            "address": "aws_iam_role.r",
            "mode": "managed",
            "type": "aws_iam_role",
            "change": {
                "actions": ["create"],
                "before": None,
                "after": {"name": "r", "assume_role_policy": json.dumps(document()), "tags": {"a": "b"}},
                "after_unknown": {"arn": True},
            },
        },
        {
            "address": "aws_iam_role_policy.r",
            "mode": "managed",
            "type": "aws_iam_role_policy",
            "change": {
                "actions": ["create"],
                "before": None,
                "after": {"role": "r", "name": "p", "policy": json.dumps(document(statement()))},
                "after_unknown": {},
            },
        },
    ],
    "configuration": {"root_module": {"resources": [{"address": "aws_iam_role.r", "expressions": {"name": {}}}]}},
}
TEMPLATE = {
    "Parameters": {"Env": {"Type": "String", "Default": "prod"}},
    "Conditions": {"IsProd": {"Fn::Equals": [{"Ref": "Env"}, "prod"]}},
    "Resources": {
        "R": {
            "Type": "AWS::IAM::Role",
            "Condition": "IsProd",
            "Properties": {
                "RoleName": {"Fn::Sub": "${Env}-r"},
                "AssumeRolePolicyDocument": document(),
                "Policies": [
                    {"PolicyName": "p", "PolicyDocument": document(statement(resource={"Fn::GetAtt": ["B", "Arn"]}))}
                ],
                "Tags": [{"Key": "a", "Value": {"Fn::Join": ["-", ["a", {"Ref": "Env"}]]}}],
            },
        },
        "B": {
            "Type": "AWS::S3::Bucket",
            "Properties": {"BucketName": {"Fn::If": ["IsProd", "b", {"Ref": "AWS::NoValue"}]}},
        },
    },
}
IN_YAML = """Resources:
  U:
    Type: AWS::IAM::User
    Properties: {UserName: !Sub "${AWS::AccountId}-u", Groups: [Readers]}
  P:
    Type: AWS::IAM::UserPolicy
    Properties:
      UserName: !Ref U
      PolicyName: &p p
      PolicyDocument: {Version: 2012-10-17, Statement: [{Effect: Allow, Action: "*", Resource: !Join ["", [a, *p]]}]}
"""
POINT = "arn:aws:s3:eu-west-1:111122223333:accesspoint/p"
TO_ALL = document({"Effect": "Allow", "Principal": "*", "Action": "*", "Resource": "*"})
RESOURCES = [
    {"arn": POINT, "account": "111122223333", "bucket": "b", "policy": TO_ALL},
    {"arn": "arn:aws:s3:::b", "account": "111122223333", "policy": TO_ALL, "context": {"aws:ResourceTag/a": "b"}},
]
IN_HCL = """resource "aws_iam_role_policy" "r" {
  role = "r" # whose it is
  policy = jsonencode({ Statement = [{ Effect = "Allow", Action = ["s3:*"], Resource = "${aws_s3_bucket.b.arn}/*" }] })
}
"""
OF_HCL = json.loads(json.dumps(PLAN))
OF_HCL["resource_changes"][1]["change"].update(after={"role": "r", "name": "p"}, after_unknown={"policy": True})
OF_HCL["configuration"]["root_module"]["resources"].append(
    {"address": "aws_iam_role_policy.r", "expressions": {"policy": {"references": ["aws_s3_bucket.b.arn"]}}}
)
HCL_PLAN = file(OF_HCL)
INPUTS = [
    (RESOURCES, lambda it: ["can", "alice", "s3:GetObject", f"{POINT}/object/k", EXPORT, "--resources", it]),
    (IN_HCL, lambda it: ["changes", EXPORT, "--terraform", HCL_PLAN, "--configuration", os.path.dirname(it)]),
    (TEMPLATE, lambda it: ["world", EXPORT, "--cloudformation", it]),
    (IN_YAML, lambda it: ["world", EXPORT, "--cloudformation", it]),
    (load(EXPORT), lambda it: ["can", "alice", "s3:PutObject", "*", it]),
    (PLAN, lambda it: ["changes", EXPORT, "--terraform", it]),
    (document(statement(), statement("Deny", "s3:*")), lambda it: ["changes", EXPORT, "--put", f"Homes={it}"]),
    (load(data("organization.json")), lambda it: ["world", EXPORT, "--organization", it]),
    (RULE + "always * s3:Get* a\\ b except alice\n", lambda it: ["rules", it, EXPORT]),
]


def test_inputs_that_are_changed_at_random():
    """Each ends with an answer, or with status 1 and one line, and 200 of them end in 30 seconds, in this process with iamsim
    beside it. MUTATIONS and SEED give another count and seed; SLOWER says how many times slower than the proved program the one
    is that is asked, as an unproved one with its checks."""
    seed, count = int(os.environ.get("SEED", "7")), int(os.environ.get("MUTATIONS", "200"))
    print(f"test_inputs_that_are_changed_at_random: SEED={seed} MUTATIONS={count}")
    at, own = time.monotonic(), time.process_time()
    any_of = random.Random(seed)
    path = os.path.join(room(), "input.tf")
    for n in range(count):
        value, words = INPUTS[n % len(INPUTS)]
        if isinstance(value, str) or any_of.random() < 0.3:
            text = value.encode() if isinstance(value, str) else json.dumps(value).encode()
            text = changed_bytes(any_of, text)
        else:
            text = json.dumps(changed_member(any_of, value)).encode()
        with open(path, "wb") as it:
            it.write(text)
        status, said = call(*words(path))
        assert status in (0, 1, 3, 4, 6), (n, status)
        assert all(line.startswith("iamsim-aws: ") for line in said.splitlines()), (n, said)
        assert status != 1 or said, n
        assert "it could not go on" not in said, (n, said, text[:3000])
    took, most = time.monotonic() - at, 30 * max(1, count / 200)
    assert time.process_time() - own < most, f"of this process: {time.process_time() - own} s"
    assert took < patience(most) * int(os.environ.get("SLOWER", "1")), f"{took} s"


def call(*words):
    """Status, and lines on standard error, of a command that is run in this process."""
    said, out = io.StringIO(), io.TextIOWrapper(io.BytesIO())
    with contextlib.redirect_stderr(said), contextlib.redirect_stdout(out):
        status = command.main(list(words))
    return status, said.getvalue()
