"""The release that tools/dist makes of the built program: the archive, the Debian package, man pages and completions."""

import functools
import hashlib
import os
import re
import shutil
import subprocess
import sys
import tarfile
import tempfile

from harness import IAMSIM, TOOLS, Skipped, run, same
from roots import inside, make_root
from shells import Zsh, bash_words

sys.path.insert(0, TOOLS)
from release import proof

TOP = os.path.dirname(TOOLS)
DIST = os.path.join(TOOLS, "dist")
COMMANDS = {
    "iamsim": ["check", "decide", "matrix", "first", "changes", "ask", "every", "help"],
    "iamsim-aws": re.findall(
        r"^    ([a-z][a-z-]*)(?= |$)", run([os.path.join(TOOLS, "iamsim-aws"), "--help"])[0], re.M
    ),
}
MEMBERS = ["iamsim", "README.md", "CHANGELOG.md", "PROVED", "SHA256SUMS", "docs/AWS.md", "docs/page.png"]
MEMBERS += [
    "examples/smallest.json",
    "rules/no-public-access.txt",
    "tools/iamsim-aws",
    "tools/install",
    "tools/iamsim_aws/command.py",
]
MEMBERS += ["tools/iamsim_aws/parts/page.html", "man/iamsim.1", "man/iamsim-aws.1", "man/iamsim-matrix.1"]
MEMBERS += [
    "completions/bash/iamsim",
    "completions/bash/iamsim-aws",
    "completions/zsh/_iamsim",
    "completions/zsh/_iamsim-aws",
]


def read(*path):
    with open(os.path.join(*path), encoding="utf-8") as it:
        return it.read()


def room():
    return tempfile.mkdtemp(dir=os.environ["TOOLS_TEST_ROOM"])


def need(*programs):
    for it in programs:
        if shutil.which(it) is None:
            raise Skipped(f"there is no {it}")


def version():
    return re.search(r'VERSION: &str = "(.*)"', read(TOP, "crates/iam_options/src/arguments.rt")).group(1)


@functools.lru_cache(maxsize=None)
def release(turn=0):
    """The folder of a release; each turn makes one anew, in surroundings of its own."""
    folder = room()
    more = [{"UNPROVED": "1"}, {"UNPROVED": "1", "TZ": "Asia/Tokyo", "LC_ALL": "C", "COLUMNS": "40", "HOME": folder}][
        turn
    ]
    words = [
        "sh",
        "-c",
        f"umask {('022', '077')[turn]}; exec \"$@\"",
        "sh",
        DIST,
        "--out",
        folder,
        "--record",
        "/nonexistent",
    ]
    run(["env", *(f"{name}={value}" for name, value in more.items()), *words])
    return folder


def archive(turn=0):
    return os.path.join(release(turn), f"iamsim-{version()}-linux-x86_64.tar.gz")


def package(turn=0):
    need("dpkg-deb")
    return os.path.join(release(turn), f"iamsim_{version()}_amd64.deb")


@functools.lru_cache(maxsize=None)
def unpacked():
    folder = room()
    run(["tar", "-xzf", archive(), "-C", folder])
    return os.path.join(folder, f"iamsim-{version()}-linux-x86_64")


def files_below(folder):
    return {os.path.relpath(os.path.join(at, it), folder) for at, _, names in os.walk(folder) for it in names}


def sum_of(kind, *path):
    with open(os.path.join(*path), "rb") as it:
        return hashlib.new(kind, it.read()).hexdigest()


@functools.lru_cache(maxsize=None)
def helps():
    """{command: its help}."""
    own = {"iamsim": run([IAMSIM, "--help"])[0], "iamsim-aws": run([os.path.join(TOOLS, "iamsim-aws"), "--help"])[0]}
    own.update({f"iamsim {it}": run([IAMSIM, "help", it])[0] for it in COMMANDS["iamsim"]})
    own.update(
        {f"iamsim-aws {it}": run([os.path.join(TOOLS, "iamsim-aws"), it, "--help"])[0] for it in COMMANDS["iamsim-aws"]}
    )
    return own


def options_in(text):
    """The options that a help lists, at the beginning of a line or behind a short one."""
    return sorted(set(re.findall(r"^ +(?:-\w, )?(--[a-z][a-z-]*)", text, re.M)))


def test_without_a_gate_there_is_no_release():
    to = room()
    words = ["env", "-u", "UNPROVED", DIST, "--out", f"{to}/dist", "--record", f"{to}/.gate"]
    why = "no gate has passed on this commit"
    _, said = run(words, status=1)
    same(said, f"make dist: {why}; run 'make test' first, or 'make dist UNPROVED=1', which PROVED then says\n")
    same(os.listdir(to), [])
    assert f"\ngate: UNPROVED: {why}\n" in read(unpacked(), "PROVED")


def repository():
    """A repository with the gate, in which all that it starts passes, and the surroundings to run it in."""
    top = room()
    files = {
        ".gitignore": "/.gate\nout/\n",
        "crates/iamsim/out/iamsim": "a program",
        "tools/test": "#!/bin/sh\necho 'tools: 3 passed, 0 failed'\n",
    }
    files.update(
        {
            "bin/rt": '#!/bin/sh\n[ $1 = version ] && echo kit 1 || echo "40 passed, ${FAILED:-0} failed"\n',
            "tools/lanes": "#!/bin/sh\necho 1\n",
            "tools/early": "#!/bin/sh\n",
        }
    )
    for name, text in {**files, "tools/gate": read(TOOLS, "gate")}.items():
        os.makedirs(os.path.dirname(os.path.join(top, name)), exist_ok=True)
        with open(os.path.join(top, name), "w", encoding="utf-8") as it:
            it.write(text)
        os.chmod(it.name, 0o755)
    git = ["git", "-C", top, "-c", "user.name=a", "-c", "user.email=a@example.org"]
    for words in (["init", "-q"], ["add", "-A"], ["commit", "-q", "-m", "all"]):
        run([*git, *words])
    return top, ["env", "-u", "IAMSIM", f"PATH={top}/bin{os.pathsep}{os.environ['PATH']}"]


def refused(*words):
    try:
        proof.proved(*words)
    except proof.Refused as why:
        return str(why)
    return None


def test_the_gate_leaves_what_the_release_says():
    need("git")
    top, surroundings = repository()
    program, record = f"{top}/crates/iamsim/out/iamsim", f"{top}/.gate"
    out, _ = run([*surroundings, f"{top}/tools/gate"])
    same(out.splitlines()[-1], "43 passed, 0 failed")
    commit = run(["git", "-C", top, "rev-parse", "HEAD"])[0].strip()
    date = re.search("^date: (.*)$", read(record), re.M).group(1)
    wanted = ["iamsim 1.2.3", f"commit: {commit}", "kit: kit 1", "gate: 43 passed, 0 failed", f"date: {date}"]
    wanted += ["program: " + hashlib.sha256(b"a program").hexdigest()]
    same(proof.lines_of("1.2.3", proof.proved(top, program, record)), wanted)
    assert re.fullmatch(r"\d{4}-\d\d-\d\d", date), date
    with open(f"{top}/new", "w"):
        same(refused(top, program, record), "no gate has passed on these files: some are not as in the commit")
    os.remove(f"{top}/new")
    with open(program, "w") as it:
        it.write("another")
    same(refused(top, program, record), f"no gate has tested this program: {program}")


def test_a_gate_that_fails_or_meets_changes_leaves_nothing():
    need("git")
    top, surroundings = repository()
    run([*surroundings, f"{top}/tools/gate"])
    assert os.path.exists(f"{top}/.gate")
    run([*surroundings, "FAILED=1", f"{top}/tools/gate"], status=1)
    same(os.path.exists(f"{top}/.gate"), False)
    with open(f"{top}/new", "w"):
        run([*surroundings, f"{top}/tools/gate"])
    same(os.path.exists(f"{top}/.gate"), False)
    same(refused(top, f"{top}/crates/iamsim/out/iamsim", f"{top}/.gate"), "no gate has passed on this commit")


def test_the_archive_has_its_files():
    with tarfile.open(archive()) as it:
        members = it.getmembers()
    top = f"iamsim-{version()}-linux-x86_64"
    names = [it.name for it in members]
    same(sorted(set(MEMBERS) - {it[len(top) + 1 :] for it in names}), [])
    same((names == sorted(names), len(set(names)) == len(names)), (True, True))
    same({(it.uid, it.gid, it.uname, it.gname) for it in members}, {(0, 0, "root", "root")})
    same(len({it.mtime for it in members}), 1)
    same(
        {it.name[len(top) + 1 :] for it in members if it.isfile() and it.mode != 0o644},
        {"iamsim", "tools/iamsim-aws", "tools/install"},
    )
    same({it.mode for it in members if it.isdir() or it.mode != 0o644}, {0o755})
    same([it for it in names if "__pycache__" in it or "/tests/test_" in it], [])


def test_the_sums_are_those_of_all_files():
    lines = [it.split("  ") for it in read(unpacked(), "SHA256SUMS").splitlines()]
    same({path for _, path in lines} | {"SHA256SUMS"}, files_below(unpacked()))
    for value, path in lines:
        same(value, sum_of("sha256", unpacked(), path), path)


def test_the_same_commit_gives_the_same_bytes():
    same(sum_of("sha256", archive(0)), sum_of("sha256", archive(1)))
    same(sum_of("sha256", package(0)), sum_of("sha256", package(1)))


def test_links_of_the_documents_lead_to_files_of_the_archive():
    for path in files_below(unpacked()):
        for link in re.findall(r"\]\(([^)#]+)", read(unpacked(), path)) if path.endswith(".md") else []:
            to = os.path.join(unpacked(), os.path.dirname(path), link)
            assert re.match(r"https?:", link) or os.path.exists(to), f"{path}: {link}"


def test_what_readme_says_to_type_answers_the_first_example():
    text, folder = read(TOP, "README.md"), room()
    shutil.copy(archive(), folder)
    typed = re.search(r"^## Install\n.*?```\n(.*?)```", text, re.M | re.S).group(1)
    wanted = re.search(r"`\./iamsim decide [^`]*`[^`]*\n\n```\n(.*?)```", text, re.S).group(1)
    ran = subprocess.run(["bash", "-euc", typed], cwd=folder, capture_output=True, encoding="utf-8")
    same((ran.stdout, ran.stderr, ran.returncode), (wanted, "", 0))


def test_the_unpacked_command_finds_the_program():
    words = "env -u IAMSIM tools/iamsim-aws can alice sts:AssumeRole */audit tools/tests/data/account.json --format csv"
    more = {**os.environ, "PYTHONDONTWRITEBYTECODE": "1"}
    ran = subprocess.run(words.split(), cwd=unpacked(), capture_output=True, encoding="utf-8", env=more)
    told = "iamsim-aws: */audit is taken for 1 named resource: with --kinds it means every name\n"
    same((ran.stdout.count("\n"), ",allowed," in ran.stdout, ran.stderr), (2, True, told))


def test_it_installs():
    to = room()
    run([os.path.join(unpacked(), "tools/install"), to])
    out, _ = run([f"{to}/bin/iamsim", "decide", "0", "0", "0", f"{to}/share/doc/iamsim/examples/smallest.json"])
    same(out.splitlines()[1].split(",")[4:], ["allowed", "identity/0/0", ""])
    out, _ = run(
        ["env", "-u", "IAMSIM", f"{to}/bin/iamsim-aws", "page", f"{to}/share/doc/iamsim/tools/tests/data/account.json"]
    )
    assert out.startswith("<!DOCTYPE html>"), out[:100]
    for it in (
        "man/man1/iamsim-aws-can.1",
        "bash-completion/completions/iamsim",
        "zsh/site-functions/_iamsim",
        "doc/iamsim/PROVED",
    ):
        assert os.path.isfile(os.path.join(to, "share", it)), it


def test_the_package():
    need("dpkg-deb")
    root = room()
    run(["dpkg-deb", "--raw-extract", package(), root])
    fields = dict(it.split(": ", 1) for it in read(root, "DEBIAN/control").splitlines() if ": " in it and it[0] != " ")
    same((fields["Package"], fields["Version"], fields["Architecture"]), ("iamsim", version(), "amd64"))
    same(
        (fields["Depends"].startswith("python3 (>= 3.8), libc6 (>= 2."), fields["Recommends"]),
        (True, "parallel, python3-yaml"),
    )
    lines = [it.split("  ") for it in read(root, "DEBIAN/md5sums").splitlines()]
    same({path for _, path in lines}, {it for it in files_below(root) if not it.startswith("DEBIAN/")})
    for value, path in lines:
        same(value, sum_of("md5", root, path), path)
    for path in files_below(unpacked()) - {"tools/install", "SHA256SUMS"}:
        place = re.sub(r"^(iamsim|tools/iamsim-aws)$", lambda it: f"bin/{os.path.basename(it.group(0))}", path)
        place = re.sub(r"^tools/iamsim_aws/", "lib/iamsim-aws/iamsim_aws/", place)
        place = re.sub(r"^completions/bash/", "share/bash-completion/completions/", place)
        place = re.sub(r"^completions/zsh/", "share/zsh/vendor-completions/", place)
        place = re.sub(r"^man/(.*)", r"share/man/man1/\1.gz", place)
        place = place if re.match("bin/|lib/|share/", place) else f"share/doc/iamsim/{place}"
        assert os.path.isfile(os.path.join(root, "usr", place)), place
    modes = {
        line.split()[0] + " " + line.split()[1] for line in run(["dpkg-deb", "--contents", package()])[0].splitlines()
    }
    same(modes, {"drwxr-xr-x root/root", "-rwxr-xr-x root/root", "-rw-r--r-- root/root"})


def smoke(root, program, command, shared, folder="/"):
    """Runs both commands in a root of its own: their help, the first example, a question."""
    assert "Usage: iamsim <COMMAND>" in inside(root, [program, "--help"], folder)
    assert "usage: iamsim-aws" in inside(root, [command, "--help"], folder)
    row = "0,arn:aws:iam::111122223333:user/ann,S3:getobject,arn:aws:s3:::b/k,allowed,identity/0/0,\n"
    out = inside(root, [program, "decide", "0", "0", "0", f"{shared}examples/smallest.json"], folder)
    same(out, "cell,principal,action,resource,decision,statements,lacks\n" + row)
    account = f"{shared}tools/tests/data/account.json"
    out = inside(root, [command, "can", "alice", "sts:AssumeRole", "*/audit", account, "--format", "csv"], folder)
    same((out.count("\n"), ",allowed," in out), (2, True))


@functools.lru_cache(maxsize=None)
def empty_root():
    root = room()
    make_root(root, IAMSIM)
    return root


def test_the_archive_runs_in_an_empty_root():
    run(["tar", "-xzf", archive(), "-C", f"{empty_root()}/tmp"])
    folder = f"/tmp/{os.path.basename(unpacked())}"
    smoke(empty_root(), "./iamsim", "tools/iamsim-aws", "", folder)
    shutil.rmtree(empty_root() + folder)


def test_the_package_runs_in_an_empty_root():
    need("dpkg-deb")
    run(["dpkg-deb", "--extract", package(), empty_root()])
    smoke(empty_root(), "iamsim", "iamsim-aws", "/usr/share/doc/iamsim/")
    words = "source /usr/share/bash-completion/completions/iamsim; complete -p iamsim; "
    words += "COMP_WORDS=(iamsim ma) COMP_CWORD=1; _iamsim; echo $COMPREPLY"
    same(inside(empty_root(), ["bash", "-c", words]), "complete -F _iamsim iamsim\nmatrix\n")


def test_lintian_finds_no_error():
    need("lintian")
    out, _ = run(["lintian", "--allow-root", "--fail-on", "none", package()])
    same([it for it in out.splitlines() if it.startswith(("E:", "W:"))], [])


def test_man_pages_name_every_command_and_option():
    for name, text in helps().items():
        page = read(unpacked(), "man", name.replace(" ", "-") + ".1").replace("\\-", "-")
        found = set(re.findall(r"\\fB(--?[a-z-]+)\\fR", page))
        same([it for it in options_in(text) if it not in found], [], name)
        same(
            [
                it
                for it in COMMANDS.get(name, [])
                if f"\\fB{it}\\fR" not in page or f"\\fB{name}-{it}\\fR(1)" not in page
            ],
            [],
            name,
        )
    assert set(f"{it.replace(' ', '-')}.1" for it in helps()) == set(os.listdir(os.path.join(unpacked(), "man")))


def test_man_pages_read():
    need("man")
    for name in os.listdir(os.path.join(unpacked(), "man")):
        ran = subprocess.run(
            ["man", "--warnings=all", "-l", os.path.join(unpacked(), "man", name)],
            capture_output=True,
            encoding="utf-8",
            env={**os.environ, "MANWIDTH": "100"},
        )
        same((ran.returncode, ran.stderr), (0, ""), name)
        assert re.search(r"^NAME\n +\S+ +- \w", re.sub(".\b", "", ran.stdout), re.M), ran.stdout[:300]


def test_bash_completes_every_command_and_option():
    folder = os.path.join(unpacked(), "completions/bash")
    texts = helps()
    for name, commands in COMMANDS.items():
        asked = [[name, ""], [name, "-"], *([name, it, "-"] for it in commands)]
        found = bash_words(folder, name, asked, TOP)
        same(found[0], commands, name)
        for words, answer in zip(asked[1:], found[1:]):
            if words[1] != "help":
                same(
                    [it for it in answer if it.startswith("--")],
                    [it for it in re.findall(r"^ +(?:-\w, )?(--[a-z][a-z-]*)", texts[" ".join(words[:-1])], re.M)],
                    " ".join(words),
                )


def test_bash_completes_words_and_files():
    folder = os.path.join(unpacked(), "completions/bash")
    asked = [
        ["iamsim", "matrix", "--format", ""],
        ["iamsim", "matrix", "--decision", "=", "i"],
        ["iamsim", "matrix", "--workers", ""],
        ["iamsim", "changes", "--fail-on", ""],
        ["iamsim", "ask", "--requests", "examples/sm"],
        ["iamsim", "every", "--texts", "examples/sm"],
        ["iamsim", "every", "--like", "examples/sm"],
    ]
    asked += [["iamsim", "decide", "0", "0", "0", "examples/sm"], ["iamsim", "help", "f"]]
    same(
        bash_words(folder, "iamsim", asked, TOP),
        [
            ["csv", "json"],
            ["implicitDeny"],
            [],
            ["gained", "lost", "any"],
            ["examples/smallest.json"],
            ["examples/smallest.json"],
            [],
            ["examples/smallest.json"],
            ["first"],
        ],
    )
    asked = [
        ["iamsim-aws", "can", "--format", ""],
        ["iamsim-aws", "page", "--world", "examples/co"],
        ["iamsim-aws", "organization", ""],
    ]
    same(bash_words(folder, "iamsim-aws", asked, TOP), [["text", "json", "csv"], ["examples/company.json"], []])


def test_zsh_completes():
    need("zsh")
    texts = helps()
    wanted = {"iamsim ma": "iamsim matrix ", "iamsim matrix --decision=imp": "iamsim matrix --decision=implicitDeny "}
    wanted.update(
        {"iamsim-aws who": "iamsim-aws who-can ", "iamsim-aws can --format js": "iamsim-aws can --format json "}
    )
    wanted["iamsim decide 0 0 0 examples/sm"] = "iamsim decide 0 0 0 examples/smallest.json "
    with Zsh(os.path.join(unpacked(), "completions/zsh"), TOP) as zsh:
        for line, completed in wanted.items():
            same(zsh.completed(line), completed, line)
        for name, commands in COMMANDS.items():
            same(set(commands) - zsh.words(f"{name} "), set(), name)
            for it in commands:
                if it != "help":
                    same(set(options_in(texts[f"{name} {it}"])) - zsh.words(f"{name} {it} --"), set(), f"{name} {it}")
