"""iamsim-aws estate: many accounts in one database."""

import csv
import fcntl
import gzip
import io
import json
import os
import random
import re
import resource
import shutil
import signal
import sqlite3
import subprocess
import sys
import tempfile
import time

from harness import (
    AWS,
    IAMSIM,
    TOOLS,
    Skipped,
    answer,
    aws,
    data,
    document,
    file,
    matrix,
    on_all_processors,
    run,
    same,
    statement,
    world,
)

sys.path.insert(0, TOOLS)
from iamsim_aws.estates import reading  # noqa: E402
from iamsim_aws.faults import Fault  # noqa: E402

ACTIONS = ["s3:GetObject", "kms:Decrypt", "sts:AssumeRole", "iam:PassRole"]
A, B, C = "111111111111", "222222222222", "333333333333"
HOSTILE = 'x\'; DROP TABLE access; --\n"quoted", `y`'


def user(account, name, *documents):
    inline = [{"PolicyName": f"p{n}", "PolicyDocument": it} for n, it in enumerate(documents)]
    return {
        "UserName": name,
        "UserId": f"AIDA{name[:4]}",
        "Arn": f"arn:aws:iam::{account}:user/{name}",
        "UserPolicyList": inline,
    }


def role(account, name, trust, *documents):
    inline = [{"PolicyName": f"p{n}", "PolicyDocument": it} for n, it in enumerate(documents)]
    arn = f"arn:aws:iam::{account}:role/{name}"
    return {
        "RoleName": name,
        "RoleId": f"AROA{name[:4]}",
        "Arn": arn,
        "AssumeRolePolicyDocument": trust,
        "RolePolicyList": inline,
        "Path": "/",
    }


def trusts(*principals):
    return document({"Effect": "Allow", "Principal": {"AWS": list(principals)}, "Action": "sts:AssumeRole"})


def exports(more=()):
    """Three accounts: ann may do all in the first, the second trusts her, bob decrypts there, and the third has one who reads."""
    root = [f"arn:aws:iam::{it}:root" for it in (A, B, C)]
    first = {
        "UserDetailList": [user(A, "ann", document(statement())), *more],
        "RoleDetailList": [role(A, "own", trusts(root[0]))],
    }
    second = {
        "UserDetailList": [user(B, "bob", document(statement(action="kms:Decrypt")))],
        "RoleDetailList": [role(B, "guest", trusts(root[0]))],
    }
    third = {"UserDetailList": [user(C, "cy", document(statement(action="s3:Get*", resource="arn:aws:s3:::b/*")))]}
    return [first, second, third]


KEY, OBJECT = f"arn:aws:kms:eu-west-1:{B}:key/1", "arn:aws:s3:::b/k"
KEY_POLICY = document(
    {"Effect": "Allow", "Principal": {"AWS": f"arn:aws:iam::{B}:root"}, "Action": "kms:*", "Resource": "*"}
)
READ_POLICY = document(
    {"Effect": "Allow", "Principal": {"AWS": C}, "Action": "s3:GetObject", "Resource": "arn:aws:s3:::b/*"}
)
RESOURCES = [
    {"arn": KEY, "account": B, "sealed": True, "policy": KEY_POLICY},
    {"arn": OBJECT, "account": A, "policy": READ_POLICY},
]
OWN, GUEST = f"arn:aws:iam::{A}:role/own", f"arn:aws:iam::{B}:role/guest"
ANN, BOB, CY = f"arn:aws:iam::{A}:user/ann", f"arn:aws:iam::{B}:user/bob", f"arn:aws:iam::{C}:user/cy"
# A trust policy grants sts: alone, and a role for iam: has no policy, so that its own account's policies decide.
WANTED = [
    (ANN, "iam:PassRole", OWN),
    (ANN, "iam:PassRole", OBJECT),
    (ANN, "kms:Decrypt", OBJECT),
    (ANN, "s3:GetObject", OBJECT),
    (ANN, "sts:AssumeRole", OWN),
    (ANN, "sts:AssumeRole", GUEST),
    (ANN, "sts:AssumeRole", OBJECT),
    (BOB, "kms:Decrypt", KEY),
    (CY, "s3:GetObject", OBJECT),
]


def folder():
    return os.path.join(tempfile.mkdtemp(dir=os.environ["TOOLS_TEST_ROOM"]), "estate")


def words(where, some, *more, resources=RESOURCES, actions=ACTIONS):
    if not shutil.which("parallel"):
        raise Skipped("there is no GNU parallel")
    beside = ["--resources", file(resources), "--actions", file("\n".join(actions)), "--session", "s1"]
    return ["estate", where, *(file(it) for it in some), *beside, *more]


def rows(where, what):
    base = sqlite3.connect(os.path.join(where, "access.db"))
    try:
        return base.execute(what).fetchall()
    finally:
        base.close()


def allowed(where):
    return sorted(rows(where, "SELECT principal, action, resource FROM allowed"))


def everything(where):
    """All rows but those of what differs between two folders."""
    names = "actions accounts principals resources policies statements holdings reasons access totals worlds".split()
    return {it: sorted(rows(where, f"SELECT * FROM {it}"), key=repr) for it in names}


def ended(given, status, seconds=300):
    """What a command writes, whose lines may be several."""
    out, said = run([AWS, *given], status=status, seconds=seconds)
    assert "Traceback" not in said, said
    return out, said


def test_three_accounts():
    where = folder()
    out, said = ended(words(where, exports()), 0)
    same((out, said), ("2 worlds, 80 requests asked for, 9 allowed\n", ""))
    same(allowed(where), sorted(WANTED))
    causes = rows(
        where,
        f"SELECT layer, policy, statement FROM allowed JOIN causes USING (reason) WHERE principal = '{CY}' ORDER BY number",
    )
    same(causes, [("resource", "arn:aws:s3:::b policy", 0), ("identity", f"{CY} inline p0", 0)])
    same(rows(where, "SELECT id FROM accounts WHERE has_export ORDER BY id"), [(A,), (B,), (C,)])
    same(rows(where, "SELECT count(*) FROM files WHERE length(sha256) = 64 AND account IS NOT NULL"), [(3,)])
    same(sum(it[0] for it in rows(where, "SELECT allowed FROM totals")), 9)


def test_the_same_estate_gives_the_same_rows():
    where, other, some = folder(), folder(), exports()
    for it in (where, other):
        ended(words(it, some, "--cells", "8", "--moment", "0"), 0)
    once = everything(where)
    same(everything(other), once)
    same(len(once["worlds"]) > 9, True)
    same(allowed(where), sorted(WANTED))
    out, _ = ended(words(where, some, "--cells", "8"), 0)
    same((everything(where), out.split(", ", 1)[1]), (once, "80 requests asked for, 9 allowed\n"))
    _, said = ended(words(where, some[:2], "--cells", "8"), 1)
    assert "it is of other files or options: name another folder, or begin anew by --afresh" in said, said
    ended(words(where, some[:2], "--cells", "8", "--afresh"), 0)
    same(allowed(where), sorted(it for it in WANTED if it[0] != CY))


def started(given):
    return subprocess.Popen([AWS, *given], stdout=subprocess.DEVNULL, stderr=subprocess.DEVNULL, start_new_session=True)


def test_a_killed_run_goes_on():
    """It is killed after the first worlds and after some more; what is there is whole."""
    where, some = folder(), exports()
    given, whole = words(where, some, "--cells", "8", "--moment", "0", "--jobs", "1"), folder()
    ended([given[0], whole, *given[2:]], 0)
    log = os.path.join(where, "joblog")
    for count in (1, 4):
        it = started(given)
        end = time.monotonic() + 120
        while (
            it.poll() is None
            and time.monotonic() < end
            and not (os.path.exists(log) and len(open(log).readlines()) > count)
        ):
            time.sleep(0.02)
        os.killpg(it.pid, signal.SIGKILL)
        it.wait()
        with open(os.path.join(where, "lock"), "ab") as lock:
            fcntl.flock(lock, fcntl.LOCK_EX)  # until what it had started has ended
        done, loaded = rows(
            where, "SELECT (SELECT sum(allowed) FROM worlds WHERE ended = 'done'), (SELECT count(*) FROM access)"
        )[0]
        same(done, loaded)
        left = len(rows(where, "SELECT world FROM worlds WHERE ended = 'waiting'"))
        path = os.path.join(where, "access.db")
        _, said = aws("who-can", "*", "*", "--database", path, status=6 if left else 0)
        assert left == 0 or f"{left} of " in said, said
    ended(given, 0)
    same(everything(where), everything(whole))


def test_a_refused_policy_is_told_and_the_rest_is_there():
    """All are told before any world is asked; a refused one takes away who has it alone, if that is wanted."""
    bad = user(A, "eve", document(statement(effect="allow")))
    where, some = folder(), exports([user(A, "dan"), bad])
    some[1]["RoleDetailList"].append(role(B, "shut", document(statement(action="sts:AssumeRole"))))
    where, given = folder(), words(folder(), some, "--cells", "8")[2:]
    _, said = ended(["estate", where, *given], 1)
    shut = f"arn:aws:iam::{B}:role/shut"
    told = [
        f"iamsim refuses a policy: {shut} trust policy: statement 0: a resource's policy has to name a Principal "
        f"(fault 12 PrincipalMissing); of {shut}",
        f"iamsim refuses a policy: {bad['Arn']} inline p0: statement 0: the Effect is neither Allow nor Deny "
        f"(fault 8 BadEffect); of {bad['Arn']}",
        "2 policies are refused, of 2 principals and resources, and nothing was asked: mend them, or leave out who has them "
        "by --leave-out",
    ]
    same(said.splitlines(), [f"iamsim-aws: {it}" for it in told])
    base = ["--database", os.path.join(where, "access.db")]
    assert "it is no database of an estate" in aws("who-can", "*", "*", *base, status=1)[1]
    _, said = ended(["estate", where, *given, "--leave-out"], 0)
    left = f"iamsim-aws: left out, since a policy is refused: {shut}, {bad['Arn']}"
    same(said.splitlines(), [*(f"iamsim-aws: {it}" for it in told[:2]), left])
    same(allowed(where), sorted(WANTED))
    for question in (["who-can"], ["can", "ann"]):
        _, said = ended([*question, "iam:PassRole", "*/own", *base], 0)
        same(said.splitlines(), [left])
    ended(words(where, exports(), "--cells", "8", "--afresh"), 0)
    _, said = aws("who-can", "s3:GetObject", "*", "--database", os.path.join(where, "access.db"))
    same(said, "")


def test_hostile_names():
    arn = f"arn:aws:s3:::b/{HOSTILE}" + '\\","statements":[]},{"action":"\b\f\t\x01\x1f\x7fé\u2028\U0001f600'
    rest = [
        {
            "arn": arn,
            "account": A,
            "policy": document(
                {"Effect": "Allow", "Principal": "*", "Action": "s3:*", "Resource": "*", "Sid": HOSTILE}
            ),
        }
    ]
    it = user(A, "ann", document(statement(Sid=HOSTILE)))
    it["UserPolicyList"][0]["PolicyName"] = HOSTILE
    where = folder() + " 'q' \"r\" $HOME `id`\nline"
    made = role(A, "own", trusts(f"arn:aws:iam::{A}:root"))
    out, _ = ended(
        words(where, [{"UserDetailList": [it], "RoleDetailList": [made]}], resources=rest, actions=["s3:GetObject"]), 0
    )
    same(out, "1 worlds, 2 requests asked for, 2 allowed\n")
    same({it[2] for it in allowed(where)}, {arn})
    found = rows(
        where, f"SELECT policy, sid FROM allowed JOIN causes USING (reason) WHERE principal = '{ANN}' ORDER BY layer"
    )
    same(found, [(f"{ANN} inline {HOSTILE}", HOSTILE), ("arn:aws:s3:::b policy", HOSTILE)])
    base = os.path.join(where, "access.db")
    out, _ = aws("who-can", "s3:GetObject", arn, "--database", base, "--format", "json")
    same([(row["principal"], row["resource"]) for row in json.loads(out)][:1], [(ANN, arn)])
    out, _ = aws("who-can", "s3:GetObject", arn, "--database", base, "--format", "csv")
    same({row[2] for row in csv.reader(io.StringIO(out))}, {"resource", arn})
    out, _ = aws("who-can", "s3:GetObject", arn, "--database", base)
    same(out.count("\n"), 1 + 3 + 2 + 1)


def test_names_of_users_policies_and_resources():
    """Each user has a bucket, called so with some letters more: names are as they were given, and as in the program's report."""
    names = ["=a", "a,b", 'a"b', "a\\b", '=,"\\']  # of users, which are ASCII without spaces
    mine = {f"{it} é日\U0001f600": f"arn:aws:iam::{A}:user/{it}" for it in names}
    keys = {it: f"arn:aws:s3:::{it}/{it}" for it in mine}
    people, rest = [], []
    for (it, arn), name in zip(mine.items(), names):
        people.append(user(A, name, document(statement(action="s3:GetObject", resource=keys[it], Sid=it))))
        people[-1]["UserPolicyList"][0]["PolicyName"] = it
        grant = {"Effect": "Allow", "Principal": "*", "Action": "s3:GetObject", "Resource": keys[it], "Sid": it}
        grant["Condition"] = {"StringEquals": {"aws:PrincipalArn": arn}}
        rest.append({"arn": keys[it], "account": A, "policy": document(grant)})
    where, wanted = folder(), sorted((arn, "s3:GetObject", keys[it]) for it, arn in mine.items())
    given = words(where, [{"UserDetailList": people}], "--moment", "0", resources=rest, actions=["s3:GetObject"])
    same(ended(given, 0), ("1 worlds, 25 requests asked for, 5 allowed\n", ""))
    same(allowed(where), wanted)
    same(sorted(it for it, row in matrix(world(*given[2:7])).items() if row[0] == "allowed"), wanted)
    causes = [(arn, "identity", f"{arn} inline {it}", it) for it, arn in mine.items()]
    causes += [(arn, "resource", f"arn:aws:s3:::{it} policy", it) for it, arn in mine.items()]
    found = rows(where, "SELECT principal, layer, policy, sid FROM allowed JOIN causes USING (reason)")
    same(sorted(found), sorted(causes))
    base = ["--database", os.path.join(where, "access.db")]
    for (it, arn), name in zip(mine.items(), names):
        out, _ = aws("who-can", "s3:GetObject", keys[it], *base, "--format", "csv")
        same([row[:3] for row in list(csv.reader(io.StringIO(out)))[1:]], [[arn, "s3:GetObject", keys[it]]])
        out, _ = aws("can", name, "s3:GetObject", keys[it], *base)
        same(out.splitlines()[0], f"allowed: {arn} s3:GetObject {keys[it]}")


def test_two_accounts_with_the_same_names():
    """Users, roles, policies and queues that are called alike: who is of one account has its queue, and the other's role."""
    exports_of, wanted, causes = [], [], []
    for it, other, action in ((A, B, "sqs:ReceiveMessage"), (B, A, "sqs:SendMessage")):
        queue, theirs = f"arn:aws:sqs:eu-west-1:{it}:q", f"arn:aws:iam::{other}:role/own"
        may = document(
            statement(action=action, resource="arn:aws:sqs:*:*:q"),
            statement(action="sts:AssumeRole", resource="arn:aws:iam::*:role/own"),
        )
        people, roles = [user(it, "ann", may)], [role(it, "own", trusts(other), may)]
        exports_of.append({"UserDetailList": people, "RoleDetailList": roles})
        for who, arn in (
            (people[0]["Arn"], people[0]["Arn"]),
            (f"arn:aws:sts::{it}:assumed-role/own/s1", roles[0]["Arn"]),
        ):
            wanted += [(who, it, action, queue, it), (who, it, "sts:AssumeRole", theirs, other)]
            causes += [(who, action, f"{arn} inline p0", 0), (who, "sts:AssumeRole", f"{arn} inline p0", 1)]
            causes.append((who, "sts:AssumeRole", f"{theirs} trust policy", 0))
    queues = [{"arn": f"arn:aws:sqs:eu-west-1:{it}:q", "account": it} for it in (A, B)]
    where, actions = folder(), ["sqs:ReceiveMessage", "sqs:SendMessage", "sts:AssumeRole"]
    out, _ = ended(words(where, exports_of, resources=queues, actions=actions), 0)
    same(out, "1 worlds, 48 requests asked for, 8 allowed\n")
    of = """SELECT p.name, o.id, a.name, r.arn, c.id FROM access JOIN principals p USING (principal) JOIN actions a USING (action)
      JOIN resources r USING (resource) JOIN accounts o ON o.account = p.account JOIN accounts c ON c.account = r.account"""
    same(sorted(rows(where, of)), sorted(wanted))
    found = rows(where, "SELECT principal, action, policy, statement FROM allowed JOIN causes USING (reason)")
    same(sorted(found), sorted(causes))
    out, _ = aws("can", "*:user/ann", "sqs:*", "q", "--database", os.path.join(where, "access.db"), status=3)
    same(
        sorted(it for it in out.splitlines() if it.startswith("allowed: ")),
        sorted(
            f"allowed: {who} {action} {it}" for who, _, action, it, _ in wanted if ":user/" in who and "sqs:" in action
        ),
    )


def limited(given, size):
    """The command, none of whose files may grow past so many bytes."""
    limit = lambda: resource.setrlimit(resource.RLIMIT_FSIZE, (size, size))
    return subprocess.run([AWS, *given], capture_output=True, text=True, timeout=300, preexec_fn=limit)


def test_a_full_disk():
    """While the worlds are made, and while they are loaded; then it goes on."""
    rest = [{"arn": f"arn:aws:s3:::b/{n}", "account": A} for n in range(1000)]
    where = folder()
    given = words(where, exports(), "--moment", "0", resources=rest)
    ran = limited(given, 65536)
    assert ran.returncode == 1 and "Traceback" not in ran.stderr and ran.stderr.count("\n") == 1, ran.stderr
    ended([*given, "--slurm"], 0)
    size = os.path.getsize(os.path.join(where, "access.db"))
    ran = limited(given, size)
    assert (
        ran.returncode == 1
        and "Traceback" not in ran.stderr
        and "worlds are not loaded: run the command again" in ran.stderr
    ), ran.stderr
    same(rows(where, "SELECT count(*) FROM access WHERE principal > 5"), [(0,)])
    out, _ = ended(given, 0)
    same(out.rsplit(", ", 1)[1], "4003 allowed\n")


def test_two_runs_at_once():
    where, some = folder(), exports()
    os.makedirs(where)
    with open(os.path.join(where, "lock"), "ab") as it:
        fcntl.flock(it, fcntl.LOCK_EX)
        _, said = ended(words(where, some), 1)
    same(said, f"iamsim-aws: {where}: another run of 'iamsim-aws estate' works on it\n")
    ended(words(where, some), 0)


def test_another_version_and_other_files():
    where, some = folder(), exports()
    given = words(where, some)
    ended(given, 0)
    path = os.path.join(where, "access.db")
    rows(where, "PRAGMA user_version = 7")
    for it in (given, ["who-can", "s3:GetObject", "*", "--database", path]):
        _, said = ended(it, 1)
        same(
            said,
            f"iamsim-aws: {path}: its tables are of version 7, and this command has version 1: make the estate anew\n",
        )
    for text, why in (
        ("no database at all, but a text that is long enough", "file is not a database"),
        ("", "it is no database of an estate"),
    ):
        _, said = ended(["can", "ann", "s3:GetObject", "*", "--database", file(text)], 1)
        assert why in said and said.count("\n") == 1, said


def test_without_parallel():
    given = words(folder(), exports())
    out, said = run(["env", "PATH=/nowhere", sys.executable, AWS, *given], status=1)
    assert (
        said.startswith("iamsim-aws: GNU parallel is not installed (parallel): on Debian") and said.count("\n") == 1
    ), said


def test_reports_of_other_machines():
    """The jobs of Slurm leave reports, which the command loads; one that is cut off is asked for again."""
    where = folder()
    given = words(
        where,
        exports([user(A, "dan"), user(A, "e ve")]),
        "--cells",
        "8",
        "--moment",
        "0",
    )
    out, _ = ended([*given, "--slurm"], 0)
    count = len(rows(where, "SELECT world FROM worlds"))
    job = os.path.join(where, "estate.slurm")
    assert out.startswith(f"{count} worlds; 'sbatch ") and f"--array=0-{count - 1}\n" in open(job).read(), out
    for n in range(count):
        subprocess.run(["bash", job], check=True, env={**os.environ, "IAMSIM": IAMSIM, "SLURM_ARRAY_TASK_ID": str(n)})
    same(len(os.listdir(os.path.join(where, "reports"))), count)
    path = os.path.join(where, "reports", "3.json.gz")
    with open(path, "rb+") as it:
        it.truncate(os.path.getsize(path) - 5)
    _, said = ended([*given, "--jobs", "1"], 1)
    assert "world 3 is not loaded: the report of world 3 cannot be read" in said, said
    _, said = ended(given, 1)
    assert f"fault 2 World: 3 BadRequester at principals/0 (arn:aws:iam::{A}:user/e ve)" in said, said
    same((allowed(where), os.listdir(os.path.join(where, "reports"))), (sorted(WANTED), []))


def read(report, axes):
    """The rows of a report that a pipe brings, or the fault."""
    try:
        found = reading.Reader(io.BytesIO(report), axes).runs()
        return [(p, a, r, text) for p, a, some, texts in found for r, text in zip(some, texts)]
    except Fault as fault:
        return str(fault)


# Names with parts of a report, and with all that JSON escapes; and a report of them, of 2 by 2 by 3 requests.
AXES = [
    ["ann", 'b","resource":"x\\'],
    ["s3:GetObject", 's3:,"cell":0,'],
    ["x", 'é\b\f\n\r\t\x01\x1f\x7f]},{"action":"s3:GetObject","cell":2', "y"],
]
REPORT = [
    r'[{"action":"s3:GetObject","cell":1,"decision":"allowed","lacks":[],"principal":"ann","resource":'
    r'"é\b\f\n\r\t\u0001\u001f'
    + "\x7f"
    + r']},{\"action\":\"s3:GetObject\",\"cell\":2","statements":["identity/0/0"]}',
    r',{"action":"s3:GetObject","cell":2,"decision":"allowed","lacks":[],"principal":"ann","resource":"y",'
    r'"statements":["identity/0/0","resource/0/1"]}',
    r',{"action":"s3:,\"cell\":0,","cell":9,"decision":"allowed","lacks":[],"principal":"b\",\"resource\":\"x\\",'
    r'"resource":"x","statements":["identity/1/0"]}',
    r',{"action":"s3:,\"cell\":0,","cell":11,"decision":"allowed","lacks":[],"principal":"b\",\"resource\":\"x\\",'
    r'"resource":"y","statements":["identity/1/0"]}',
    "]\n",
]
ROWS = [
    (0, 0, 1, b'["identity/0/0"]'),
    (0, 0, 2, b'["identity/0/0","resource/0/1"]'),
    (1, 1, 0, b'["identity/1/0"]'),
    (1, 1, 2, b'["identity/1/0"]'),
]


def test_reports_in_pieces():
    """Wherever the pieces end, the rows are the same."""
    report, before = "".join(REPORT).encode(), reading.PIECE
    try:
        for reading.PIECE in range(3, len(report) + 2):
            same(read(report, AXES), ROWS)
            same(read(b"[]\n", AXES), [])
    finally:
        reading.PIECE = before
    same(read(report, [*AXES[:2], ["x", AXES[2][1], "x"]]), reading.OTHER)
    twice = report.replace(b'"y"', b'"x"')
    same(read(twice, [*AXES[:2], ["x", AXES[2][1], "x"]]), ROWS)


def test_reports_that_are_cut_off():
    report = "".join(REPORT).encode()
    for end in range(1, len(report)):
        same(read(report[:end], AXES), reading.OTHER, end)
    same([read(it, AXES) for it in (b"[]", b"[]\n\n", report + b"\n")], [reading.OTHER] * 3)
    same([read(it, AXES) for it in (b"", b"fault 7 OutOfMemory\n")], ["iamsim wrote nothing", "fault 7 OutOfMemory"])


def test_reports_of_other_worlds():
    report = "".join(REPORT)
    changes = [
        ("ann", "dan"),
        ('"y"', '"z"'),
        ("s3:Get", "s3:Put"),
        ('":1,', '":0,'),
        (":9,", ":-3,"),
        (":11,", ":23,"),
    ]
    changes += [
        ("allowed", "explicitDeny"),
        ("[]", '["org"]'),
        ('],"', '], "'),
        ("},", "}"),
        ("}]", "},]"),
        ("[{", "[[{"),
    ]
    changes += [(":1,", ":,"), (":2,", ":2.0,"), ("\\u0001", "\x01"), ("é", "\\u00e9")]
    for old, new in changes:
        same((report.count(old) > 0, read(report.replace(old, new).encode(), AXES)), (True, reading.OTHER), old)


def test_lists_of_statements():
    same(reading.places_of(b'["org/0/0/0","identity/12/3"]'), ("org/0/0/0", "identity/12/3"))
    for it in ("[]", '[""]', '["identity"]', '["identity/x"]', '["identity/0/0",]', "[1]", '["identity/0/9999999999"]'):
        try:
            found = reading.places_of(it.encode())
        except Fault as fault:
            same(str(fault), reading.OTHER)
        else:
            raise AssertionError(f"{it} gave {found!r}")


def test_reports_that_are_not_the_worlds():
    """One that is cut off, has another's name, or statements that nobody has: the world is asked again."""
    where = folder()
    given = words(where, exports(), "--moment", "0")
    ended([*given, "--slurm"], 0)
    subprocess.run(["sh", "ask.sh", "0"], cwd=where, env={**os.environ, "IAMSIM": IAMSIM}, check=True)
    path = os.path.join(where, "reports", "0.json.gz")
    with gzip.open(path) as it:
        report = it.read()
    for old, new in (("]\n", ""), (CY, BOB), ("identity/0/0", "identity/7/0"), ("identity/0/0", "identity/0/7")):
        with gzip.open(path, "wb") as it:
            it.write(report.replace(old.encode(), new.encode()))
        _, said = ended(given, 1)
        assert f"world 0 is not loaded: {reading.OTHER}\n" in said, said
        same((os.path.exists(path), rows(where, "SELECT ended FROM worlds WHERE world = 0")), (False, [("waiting",)]))
    ended(given, 0)
    same(allowed(where), sorted(WANTED))


def test_a_program_that_is_killed():
    where, text = folder(), f"#!/bin/sh\n[ $1 = matrix ] || exec {IAMSIM} \"$@\"\nprintf '[{{'\nkill -9 $$\n"
    given, killed = words(where, exports()), file(text)
    os.chmod(killed, 0o755)
    _, said = run(["env", f"IAMSIM={killed}", AWS, *given], status=1)
    assert "2 of 2 worlds of the estate failed" in said and "iamsim ended with status -9\n" in said, said
    ended(given, 0)
    same(allowed(where), sorted(WANTED))


def test_nothing_is_allowed():
    where = folder()
    out, _ = ended(words(where, [{"UserDetailList": [user(A, "dan")]}]), 0)
    same((out, allowed(where)), ("2 worlds, 8 requests asked for, 0 allowed\n", []))


def test_more_worlds_than_tasks():
    """Slurm takes 1,000 tasks: each has every thousandth world, and asks again for none that has a report."""
    where, rest = folder(), [{"arn": f"arn:aws:s3:::b/{n}", "account": A} for n in range(201)]
    given = words(where, exports(), "--cells", "1", "--slurm", resources=rest, actions=["s3:GetObject"])
    out, _ = ended(given, 0)
    job, there = os.path.join(where, "estate.slurm"), os.path.join(where, "reports")
    assert out.startswith("1005 worlds; ") and "--array=0-999\n" in open(job).read(), out
    for program in (IAMSIM, "/nowhere/iamsim"):
        more = {"IAMSIM": program, "SLURM_ARRAY_TASK_ID": "3"}
        subprocess.run(["bash", job], check=True, env={**os.environ, **more})
        same(sorted(os.listdir(there)), ["1003.json.gz", "3.json.gz"])


def test_a_machine_that_cannot_ask():
    """A program that is missing or killed there leaves no report."""
    where = folder()
    ended([*words(where, exports()), "--slurm"], 0)
    killed = file("#!/bin/sh\necho '[{'\nkill -9 $$\n")
    os.chmod(killed, 0o755)
    for program, status in (("/nowhere/iamsim", 127), (killed, 137)):
        ran = subprocess.run(["sh", "ask.sh", "0"], cwd=where, env={**os.environ, "IAMSIM": program}, stderr=-1)
        same((ran.returncode, os.listdir(os.path.join(where, "reports"))), (status, []))
        assert status == 137 or b"/nowhere/iamsim" in ran.stderr, ran.stderr


def test_words_of_answers():
    where = folder()
    ended(words(where, exports()), 0)
    base = ["--database", os.path.join(where, "access.db")]
    out, _ = aws("who-can", "KMS:decrypt", "key/1", *base)
    lines = ["1 of 5 principals are allowed, by 1 of 5 requests", f"allowed: {BOB} kms:Decrypt {KEY}"]
    lines += [
        f"  allowed by {KEY} policy, statement 0 (the resource's policy)",
        f"  allowed by {BOB} inline p0, statement 0 (identity policy)",
    ]
    same(out.splitlines()[:-1], lines)
    out, _ = aws("can", "cy", "*", OBJECT, *base, "--format", "csv", status=3)
    same(
        [it[1::2] for it in csv.reader(io.StringIO(out))],
        [["action", "decision"], ["s3:GetObject", "allowed"]] + [[it, "notAllowed"] for it in ACTIONS[1:]],
    )
    for question, why in (
        (["who-can", "s3:PutObject", "*"], "no action of the database matches s3:PutObject"),
        (["can", "dan", "*", "*"], "no principal"),
        (["who-can", "*", "*", "--kinds"], "--database answers alone: leave --kinds out"),
    ):
        _, said = aws(*question, *base, status=1)
        assert why in said, said


def test_a_part_of_an_estate():
    """What no world that is loaded has asked for is unknown, and never 'not allowed'."""
    where = folder()
    ended(words(where, exports(), "--cells", "8"), 0)
    path = os.path.join(where, "access.db")
    base, whole = ["--database", path], len(rows(where, "SELECT * FROM worlds"))
    assert whole > 4
    asked = ["cy", "s3:GetObject", OBJECT, *base]
    aws("can", *asked)
    [(n,)] = rows(
        where,
        f"SELECT world FROM worlds, principals p WHERE name = '{CY}' AND p.principal >= first_principal AND "
        "p.principal < end_principal AND first_action = 0 AND end_resource = 4",
    )
    there = rows(
        where,
        f"SELECT (end_principal - first_principal) * (end_action - first_action) * "
        f"(end_resource - first_resource) FROM worlds WHERE world = {n}",
    )[0][0]
    change = sqlite3.connect(path)
    change.execute(f"UPDATE worlds SET ended = 'waiting' WHERE world = {n}")
    change.execute("DELETE FROM access WHERE principal = (SELECT principal FROM principals WHERE name = ?)", (CY,))
    change.commit()
    out, said = aws("can", *asked, status=6)
    assert out.startswith(
        f"unknown, since its world is not loaded or it was not asked for: {CY} s3:GetObject {OBJECT}\n"
    ), out
    assert f"1 of {whole} worlds of the estate are not loaded" in said, said
    [found] = json.loads(aws("can", *asked, "--format", "json", status=6)[0])
    same((found["decision"], found["statements"]), ("unknown", []))
    out, _ = aws("can", *asked, "--format", "csv", status=6)
    same([it[3] for it in csv.reader(io.StringIO(out))], ["decision", "unknown"])
    # Of others all is known as before.
    aws("can", "bob", "s3:GetObject", OBJECT, *base, status=3)
    aws("can", "ann", "s3:GetObject", OBJECT, *base)
    missing = f"of {there} of 80 requests nothing is known: their worlds are not loaded or they were not asked for"
    out, _ = aws("who-can", "*", "*", *base, status=6)
    assert out.splitlines()[0].endswith(f" of 80 requests; {missing}"), out
    for kind in ("json", "csv"):
        assert missing in aws("who-can", "*", "*", *base, "--format", kind, status=6)[1]
    aws("who-can", "s3:GetObject", KEY, *base, status=6 if there == 16 else 0)


def decided(it):
    """What iamsim says of a request, by a world of its principal and resource alone."""
    some, resources, organization, kind, (p, a, r) = it
    given = [*some, "--resources", resources, "--organization", organization, "--actions", file("\n".join(kind))]
    made = json.dumps(world(*given, "--principal", p, "--resource", r)).encode()
    status, out, said = answer(["decide", "0", str(kind.index(a)), "0"], made)
    row = list(csv.reader(out.decode().splitlines()))[1]
    same((status, said, row[1:4]), (0, b"", [p, a, r]))
    return row[4]


def test_a_hundred_random_requests():
    """The database says what iamsim says of a world of the request alone."""
    some = [data("account.json"), data("partner.json")]
    objects = [
        {"arn": f"arn:aws:s3:::{it}", "account": "111122223333"}
        for it in ("homes/alice/x", "teams/red/x", "releases/app.zip")
    ]
    resources, organization, where = file(objects), data("organization.json"), folder()
    actions = ["s3:GetObject", "s3:PutObject", "sts:AssumeRole", "iam:PassRole", "iam:GetRole"]
    given = words(
        where, [], "--organization", organization, "--moment", "0", "--cells", "60", resources=objects, actions=actions
    )
    ended([*given[:2], *some, *given[2:]], 0)
    axes = [
        [it[0] for it in rows(where, f"SELECT {what}")]
        for what in ("name FROM principals", "name FROM actions", "arn FROM resources")
    ]
    pick, there = random.Random(5), set(allowed(where))
    asked = sorted(there)[:20]
    asked += [tuple(map(pick.choice, axes)) for _ in range(100 - len(asked))]
    # Roles have a trust policy where sts: is asked for, and none for iam:, so actions of both kinds stand in worlds of their own.
    kinds = {it: actions[:3] if it in actions[:3] else actions[3:] for it in actions}
    found = on_all_processors(decided, [(some, resources, organization, kinds[it[1]], it) for it in asked])
    same([it == "allowed" for it in found], [it in there for it in asked])
    assert 8 <= sum(it in there for it in asked) < 100


def questions(where, **given):
    """What the five questions of the document answer, each by the last of its statements."""
    with open(os.path.join(os.path.dirname(TOOLS), "docs", "estates.md"), encoding="utf-8") as it:
        texts = re.findall(r"```sql\n(.*?)```", it.read(), re.S)
    base = sqlite3.connect(os.path.join(where, "access.db"))
    try:
        return [
            [base.execute(one, given).fetchall() for one in text.strip().rstrip(";").split(";\n")][-1] for text in texts
        ]
    finally:
        base.close()


def test_five_questions():
    where, before = folder(), folder()
    eve = user(A, "eve", document(statement()))
    ended(words(where, exports()), 0)
    ended(words(before, exports([eve])[:2]), 0)
    decrypt = [(BOB, "resource", f"{KEY} policy", 0, None), (BOB, "identity", f"{BOB} inline p0", 0, None)]
    lost = [
        ("lost", eve["Arn"], action, it)
        for action, of in (
            ("iam:PassRole", [OWN, OBJECT]),
            ("kms:Decrypt", [OBJECT]),
            ("s3:GetObject", [OBJECT]),
            ("sts:AssumeRole", [OWN, GUEST, OBJECT]),
        )
        for it in of
    ]
    wanted = [
        decrypt,
        [(ANN, GUEST)],
        [("s3:GetObject", OBJECT)],
        [(ANN,)],
        [("gained", CY, "s3:GetObject", OBJECT), *lost],
    ]
    same(questions(where, key=KEY, account=B, principal=CY, before=os.path.join(before, "access.db")), wanted)
