"""The page of a matrix, in headless Chromium. $SCREENSHOTS names a folder in which pictures are left."""

import json
import os
import subprocess
import sys
import time

from browser import Browser
from harness import AWS, EXAMPLES, IAMSIM, aws, data, document, file, load, matrix, run, same, small_world, statement

ACCOUNT, EXPORT = "arn:aws:iam::111122223333:", data("account.json")
ROOM = os.environ["TOOLS_TEST_ROOM"]


def page_of(value, name, *words):
    """The path of the page of a world, made as docs/AWS.md says."""
    world, page = os.path.join(ROOM, f"{name}.json"), os.path.join(ROOM, f"{name}.html")
    with open(world, "w") as it:
        json.dump(value, it)
    report, _ = run([IAMSIM, "matrix", "--workers", "1", "--format", "json", *words], json.dumps(value))
    with open(page, "w") as it:
        it.write(aws("page", "--world", world, "--report", "-", given=report)[0])
    return page


class Opened:
    """A page in a browser, closed at the end."""

    def __init__(self, path):
        self.path = path

    def __enter__(self):
        self.browser = Browser()
        self.browser.open(self.path)
        return self.browser

    def __exit__(self, *_):
        self.browser.close()


def company():
    return load(os.path.join(EXAMPLES, "company.json"))


def words(browser):
    """{cell: decision} of what the grid shows."""
    found = browser.evaluate(
        "[...document.querySelectorAll('.cell')].map((it) => [it.dataset.cell, it.getAttribute('aria-label'), it.className])"
    )
    return {int(cell): (label.split(": ")[-1], kind.split()[1]) for cell, label, kind in found}


def detail(browser):
    return browser.evaluate("document.getElementById('detail').innerText")


def screenshot(browser, name):
    folder = os.environ.get("SCREENSHOTS")
    if folder:
        os.makedirs(folder, exist_ok=True)
        browser.screenshot(os.path.join(folder, name))


KINDS = {"allowed": "d0", "explicitDeny": "d1", "implicitDeny": "d2"}


def test_each_cell_is_that_of_the_report():
    value = company()
    wanted = {n: it[0] for n, it in enumerate(matrix(value).values())}
    with Opened(page_of(value, "company")) as browser:
        seen = {}
        for view in range(3):
            browser.evaluate(f"setView({view})")
            for fixed in range(browser.evaluate("document.getElementById('fixed').options.length")):
                browser.evaluate(f"setFixed({fixed})")
                seen[view, fixed] = words(browser)
        for view in range(3):
            cells = {n: it for (of, _), shown in seen.items() if of == view for n, it in shown.items()}
            same(cells, {n: (word, KINDS[word]) for n, word in wanted.items()}, f"view {view}")
        same(browser.faults(), [])
        # By hand, as docs/guide.md has them: ann 3 of 3 on the object, bob 1 and 1 denied, the session 2.
        browser.evaluate("setView(0); setFixed(0)")
        same(
            browser.evaluate(
                "[...document.querySelectorAll('.row .counts')].map((it) => it.innerText.split(/\\s+/).join(' '))"
            ),
            ["3 0 0", "1 1 1", "2 0 1"],
        )
        same(
            browser.evaluate(
                "[...document.querySelectorAll('.column .counts')].map((it) => it.innerText.split(/\\s+/).join(' '))"
            ),
            ["3 0 0", "1 1 1", "2 0 1"],
        )


def test_a_cell_in_words():
    with Opened(page_of(company(), "company")) as browser:
        browser.evaluate("choose(1, 1)")
        text = detail(browser)
        for wanted in (
            "explicitDeny",
            "HomesAreTheirs",
            "the resource's policy, statement 1 (resource/0/1)",
            '"Action": "s3:PutObject"',
            "iamsim decide 1 1 0",
        ):
            assert wanted in text, f"{wanted} is not in {text}"
        browser.evaluate("choose(2, 1)")
        text = detail(browser)
        for wanted in (
            "Everything",
            "organisation policy 0 of level 1, statement 0 (org/1/0/0)",
            "Reports",
            "identity policy 0, statement 0",
            "boundary: The principal's permissions boundary does not allow this.",
            "did not suffice",
        ):
            assert wanted in text, f"{wanted} is not in {text}"
        screenshot(browser, "company.png")
    with Opened(page_of(company(), "brief", "--brief")) as browser:
        assert "The report is brief" in detail(browser)


def test_filters():
    with Opened(page_of(company(), "company")) as browser:
        browser.evaluate("at('row-filter').value = 'USER/'; at('row-filter').oninput()")
        same(sorted(words(browser)), [0, 3, 6, 9, 12, 15])
        browser.evaluate("at('column-filter').value = 'put'; at('column-filter').oninput()")
        same(sorted(words(browser)), [3, 12])
        browser.evaluate("at('show-allowed').click()")
        same(sorted(words(browser)), [12])
        # Where the chosen resource has no shown cell, the first that has one is chosen: nobody may put on the key.
        browser.evaluate("at('show-explicitDeny').click()")
        same(sorted(words(browser)), [4, 13])
        same(browser.evaluate("at('fixed').value"), "1")
        browser.evaluate("at('show-implicitDeny').click()")
        same(words(browser), {})
        same(browser.evaluate("at('nothing').hidden"), False)
        same(browser.faults(), [])


def test_with_allowed_alone_something_is_shown():
    # Nobody may anything on the first resource.
    value = small_world(
        document(statement(resource="arn:aws:s3:::b/2")),
        actions=("s3:GetObject", "s3:PutObject"),
        resources=[{"arn": f"arn:aws:s3:::b/{n}", "account": "111122223333"} for n in range(3)],
    )
    value["principals"].append({"user": "arn:aws:iam::111122223333:user/bob"})
    with Opened(page_of(value, "allowed")) as browser:
        browser.evaluate("at('show-explicitDeny').click(); at('show-implicitDeny').click()")
        # Cell (p * 2 + a) * 3 + r: ann reads and writes object 2.
        same(sorted(words(browser)), [2, 5])
        same(browser.evaluate("at('nothing').hidden"), True)


def lines(browser):
    return browser.evaluate("[...document.querySelectorAll('.line')].map((it) => it.dataset.cell)")


def test_a_list_of_requests():
    value = company()
    allowed = [n for n, it in enumerate(matrix(value).values()) if it[0] == "allowed"]
    with Opened(page_of(value, "list")) as browser:
        browser.evaluate("at('show-explicitDeny').click(); at('show-implicitDeny').click(); setView(LIST)")
        same(sorted(map(int, lines(browser))), allowed)
        # By resource, then the other way round; of equal ones the lower cell stays first.
        by_resource = lambda sign: [
            str(n)
            for n in sorted(
                allowed,
                key=lambda n: (
                    sign * sorted(it["arn"] for it in value["resources"]).index(value["resources"][n % 3]["arn"]),
                    n,
                ),
            )
        ]
        browser.evaluate("document.querySelectorAll('#titles button')[2].click()")
        same(lines(browser), by_resource(1))
        browser.evaluate("document.querySelectorAll('#titles button')[2].click()")
        same(lines(browser), by_resource(-1))
        browser.evaluate("at('row-filter').value = 'USER/BOB'; at('row-filter').oninput()")
        same(sorted(map(int, lines(browser))), [n for n in allowed if n // 9 == 1])
        browser.evaluate("at('lines').focus()")
        browser.key("End")
        browser.key("Enter")
        same(browser.evaluate("document.activeElement.id"), "detail")
        assert "bob" in detail(browser)
        browser.key("Escape")
        same(browser.evaluate("document.activeElement.id"), "lines")
        screenshot(browser, "list.png")
        same(browser.faults(), [])


def test_the_list_as_csv():
    hostile = 'arn:aws:s3:::b/a,"b"\nc'
    value = small_world(document(statement()), resources=[{"arn": hostile, "account": "111122223333"}])
    with Opened(page_of(value, "csv")) as browser:
        browser.evaluate("setView(LIST)")
        same(
            browser.evaluate("listCsv()"),
            "principal,action,resource,decision\n"
            'arn:aws:iam::111122223333:user/ann,s3:GetObject,"arn:aws:s3:::b/a,""b""\nc",allowed\n',
        )


def test_names_of_policies_and_what_an_answer_hangs_on():
    value = small_world(document(statement(Condition={"Bool": {"aws:MultiFactorAuthPresent": "true"}})))
    names = file({"principals/0/identity/0": "OnlyWith<MFA>"})
    path = os.path.join(ROOM, "names.html")
    with open(path, "w") as it:
        it.write(aws("page", "--world", file(value), "--names", names, "--hanging")[0])
    with Opened(path) as browser:
        text = detail(browser)
        for wanted in ("implicitDeny", "What it hangs on", "allowed if aws:MultiFactorAuthPresent is true"):
            assert wanted in text, f"{wanted} is not in {text}"
    value["context"] = {"aws:MultiFactorAuthPresent": True}
    with open(path, "w") as it:
        it.write(aws("page", "--world", file(value), "--names", names)[0])
    with Opened(path) as browser:
        same(browser.evaluate("document.querySelector('.policy').innerText"), "OnlyWith<MFA>")


def test_what_changes_on_a_page():
    before = small_world(document(statement(action="s3:GetObject")), actions=("s3:GetObject", "s3:PutObject"))
    after = small_world(document(statement(action="s3:PutObject", Sid="New")), actions=("s3:GetObject", "s3:PutObject"))
    after["principals"].append(
        {"user": "arn:aws:iam::111122223333:user/bob", "identity": [document(statement(action="s3:GetObject"))]}
    )
    path = os.path.join(ROOM, "changes.html")
    with open(path, "w") as it:
        it.write(aws("changes", "--before", file(before), "--after", file(after), "--format", "page")[0])
    with Opened(path) as browser:
        assert "2 gained, 1 lost" in browser.evaluate("at('summary').innerText")
        # It opens with what changes alone, at the first.
        same(browser.evaluate("at('only-changes').checked"), True)
        assert "lost: implicitDeny" in detail(browser), detail(browser)
        signs = browser.evaluate(
            "[...document.querySelectorAll('.cell')].map((it) => [it.getAttribute('aria-label').split(': ').pop(), it.innerText])"
        )
        same(
            sorted(signs),
            [["gained, allowed", "+"], ["gained, allowed", "+"], ["implicitDeny", ""], ["lost, implicitDeny", "−"]],
        )
        browser.evaluate("setView(LIST)")
        same(len(lines(browser)), 3)
        browser.evaluate("chooseLine(state.found.findIndex((n) => changeOf(n) === 2))")
        text = detail(browser)
        for wanted in ("lost: implicitDeny", "before: allowed", '"Action": "s3:GetObject"'):
            assert wanted in text, f"{wanted} is not in {text}"
        browser.evaluate("chooseLine(state.found.findIndex((n) => textsOf(n)[0].endsWith('bob')))")
        assert "before: absent" in detail(browser)
        screenshot(browser, "changes.png")
        same(browser.faults(), [])


def test_what_changes_with_a_key_alone_on_a_page():
    """It counts as gained there as in the text, and names the key; who is outside has the words of the text."""
    code = {"Bool": {"aws:MultiFactorAuthPresent": "true"}}
    # alice, whose group's policy is Homes, may put with the code; the bucket lets another account read.
    draft = file(document(statement(action="s3:PutObject", resource="arn:aws:s3:::new", Condition=code)))
    grant = {"Effect": "Allow", "Principal": {"AWS": "999988887777"}, "Action": "s3:GetObject", "Resource": "*"}
    given = [EXPORT, "--resources", file([{"arn": "arn:aws:s3:::new", "account": "111122223333"}])]
    given += ["--put", f"Homes={draft}", "--put", f"new={file(document(grant))}", "--resource", "arn:aws:s3:::new"]
    out, _ = aws("changes", *given)
    assert out.startswith("0 lost and 2 gained, of "), out
    path = os.path.join(ROOM, "keyed.html")
    with open(path, "w") as it:
        it.write(aws("changes", *given, "--format", "page")[0])
    with Opened(path) as browser:
        assert "; 2 gained, 0 lost" in browser.evaluate("at('summary').innerText")
        browser.evaluate("setView(LIST)")
        alice = f"{ACCOUNT}user/alice"
        parts = "[...document.querySelectorAll('.line')].map((it) => [it.children[0].title, it.children[3].title])"
        same(
            sorted(browser.evaluate(parts)),
            [
                ["anyone outside: account 999988887777", "gained, allowed"],
                [alice, "gained, if aws:MultiFactorAuthPresent is true, implicitDeny"],
            ],
        )
        rows = browser.evaluate("listCsv()").splitlines()
        same(rows[0], "principal,action,resource,decision,before,change")
        assert 'implicitDeny,implicitDeny,"gained, if aws:MultiFactorAuthPresent is true"' in "\n".join(rows), rows
        same(browser.faults(), [])


def test_a_page_of_sts_and_iam():
    """Both worlds are made: a role's trust policy decides on sts: actions, and on no iam: action."""
    actions = ["sts:AssumeRole", "iam:PassRole"]
    path, words = os.path.join(ROOM, "both.html"), ["--actions", file("\n".join(actions)), "--session", "s1"]
    with open(path, "w") as it:
        it.write(aws("page", EXPORT, *words, "--hanging")[0])
    export = load(EXPORT)
    del export["UserDetailList"][1]["PermissionsBoundary"]
    wide = os.path.join(ROOM, "wide.html")
    with open(wide, "w") as it:
        it.write(aws("page", file(export), *words)[0])
    found = {}
    for it in (path, wide):
        with Opened(it) as browser:
            texts = "[...answerOf].map((_, n) => [...textsOf(n), WORDS[decisionOf[answerOf[n]]]])"
            found[it] = {tuple(row[:3]) for row in browser.evaluate(texts) if row[3] == "allowed"}
            same(browser.evaluate("answerOf.some((n) => decisionOf[n] === 3)"), False)
            assert "iamsim decide" not in detail(browser)
            same(browser.faults(), [])
    # By hand: who may assume which role, of which chain trusts deploy itself; the boundary keeps bob from iam:, and without it he
    # may pass every role.
    alice, bob = f"{ACCOUNT}user/alice", f"{ACCOUNT}user/ops/bob"
    assume = {(alice, "sts:AssumeRole", f"{ACCOUNT}role/app/{it}") for it in ("deploy", "audit")}
    deploy = "arn:aws:sts::111122223333:assumed-role/deploy/s1"
    assume |= {
        (bob, "sts:AssumeRole", f"{ACCOUNT}role/app/deploy"),
        (deploy, "sts:AssumeRole", f"{ACCOUNT}role/app/chain"),
    }
    same(found[path], assume)
    roles = [it["Arn"] for it in export["RoleDetailList"]]
    same(found[wide], assume | {(bob, "iam:PassRole", it) for it in roles})
    _, said = aws("page", EXPORT, *words, "--report", file("[]"), status=1)
    assert "a report is of one world" in said, said


def sessions_alike():
    """Sessions of roles whose names differ at the end alone."""
    value = small_world(
        document(statement()),
        actions=[f"s3:Action{n}" for n in range(12)],
        resources=[
            {
                "arn": f"arn:aws:s3:::bucket-of-the-team-of-data-{n}/a/long/way/to/an/object-{n}",
                "account": "111122223333",
            }
            for n in range(3)
        ],
    )
    value["principals"] = [
        {"role": f"arn:aws:iam::111122223333:role/data-platform-production-ingestion-{it}", "session": f"session-{it}"}
        for it in ("reader", "writer")
    ]
    return value


def test_headings_on_small_screens():
    with Opened(page_of(sessions_alike(), "small")) as browser:
        for width, height, scheme in (
            (1400, 800, "light"),
            (1400, 800, "dark"),
            (800, 600, "light"),
            (390, 800, "light"),
            (390, 800, "dark"),
        ):
            browser.call(
                "Emulation.setDeviceMetricsOverride", width=width, height=height, deviceScaleFactor=1, mobile=False
            )
            browser.call("Emulation.setEmulatedMedia", features=[{"name": "prefers-color-scheme", "value": scheme}])
            browser.evaluate("window.onresize()")
            names = browser.evaluate("[...document.querySelectorAll('.row .name')].map((it) => it.innerText)")
            same(len(set(names)), 2, f"{width} x {height}: {names}")
            clipped = "[...document.querySelectorAll('.row .name, .row .counts, .column .counts')].filter((it) => it.scrollWidth > it.clientWidth + 1).length"
            same(browser.evaluate(clipped), 0, f"{width} x {height}: clipped")
            same(
                browser.evaluate("at('controls').scrollWidth <= at('controls').clientWidth"), True, f"{width}: controls"
            )
            same(
                browser.evaluate("document.documentElement.scrollWidth <= window.innerWidth"),
                True,
                f"{width}: wider than the screen",
            )
            screenshot(browser, f"small-{width}-{scheme}.png")
        same(browser.faults(), [])


def fits(browser, choice):
    """Whether all elements that a selector chooses are in sight and none is cut."""
    of = f"[...document.querySelectorAll('{choice}')]"
    is_cut = "it.scrollWidth > it.clientWidth + 1 || it.getBoundingClientRect().right > window.innerWidth + 1"
    return browser.evaluate(f"{of}.length > 0 && !{of}.some((it) => {is_cut})")


def test_counts_names_and_columns_at_three_widths():
    """Few of many cells are allowed: the count shows; names of the list are short and whole, or cut in the middle; the last column of
    many is in sight when one goes there."""
    value = sessions_alike()
    value["actions"] = [f"s3:ActionOfALongName{n:02}" for n in range(60)]
    value["principals"] = [
        {"role": f"arn:aws:iam::111122223333:role/team/reader-{n}", "session": "s", "identity": []} for n in range(40)
    ]
    value["principals"][7]["identity"] = [document(statement(action="s3:ActionOfALongName59"))]
    with Opened(page_of(value, "widths")) as browser:
        for width in (1440, 800, 420):
            size = {"width": width, "height": 900, "deviceScaleFactor": 1, "mobile": False}
            browser.call("Emulation.setDeviceMetricsOverride", **size)
            browser.evaluate("setView(0); window.onresize()")
            same(
                browser.evaluate("at('total').innerText.split('\\n').map((it) => it.trim())[0]"),
                "✓ 3 allowed",
                str(width),
            )
            assert fits(browser, "#total span"), width
            browser.evaluate("choose(7, 59)")
            browser.evaluate("draw()")
            last = "[...document.querySelectorAll('.column')].pop()"
            same(browser.evaluate(f"{last}.querySelector('.name').title"), value["actions"][-1])
            edges = f"[{last}.getBoundingClientRect().right, at('pane').getBoundingClientRect().left + at('pane').clientWidth]"
            right, edge = browser.evaluate(edges)
            assert right <= edge + 1, (width, right, edge)
            assert fits(browser, ".column.chosen .name"), width
            browser.evaluate("setView(LIST)")
            assert fits(browser, ".line > span:nth-child(-n+3)"), width
            names = browser.evaluate(
                "[...new Set([...document.querySelectorAll('.line > span:first-child')].map((it) => it.innerText))]"
            )
            assert names and all(it.startswith("reader-") for it in names), names
            screenshot(browser, f"widths-{width}.png")
        same(browser.faults(), [])


def test_keys():
    with Opened(page_of(company(), "company")) as browser:
        chosen = lambda: int(browser.evaluate("document.querySelector('.cell.chosen').dataset.cell"))
        same(chosen(), 0)
        for key, cell in [
            ("ArrowRight", 3),
            ("ArrowDown", 12),
            ("End", 15),
            ("ArrowRight", 15),
            ("PageDown", 24),
            ("Home", 18),
            ("]", 19),
            ("ArrowUp", 10),
            ("[", 9),
        ]:
            browser.key(key)
            same(chosen(), cell, key)
        same(browser.evaluate("at('pane').getAttribute('aria-activedescendant')"), "cell-9")
        browser.key("Enter")
        same(browser.evaluate("document.activeElement.id"), "detail")
        browser.key("Escape")
        same(browser.evaluate("document.activeElement.id"), "pane")


def test_texts_of_a_world_stay_texts():
    hostile = [
        "</script><script>document.title='owned'</script>",
        "<img src=x onerror=\"document.title='owned'\">",
        "<!--<script>",
        "</title>\u2028'\"&amp;",
    ]
    value = small_world(
        document(*[statement(Sid=f"{it}", resource="*") for it in hostile]),
        resources=[{"arn": f"arn:aws:s3:::b/{it}", "account": "111122223333"} for it in hostile],
    )
    value["principals"].append({"user": "arn:aws:iam::111122223333:user/<img:src=x:onerror=alert(1)>"})
    with Opened(page_of(value, "hostile")) as browser:
        # With one action, principals by resources come first.
        same(sorted(words(browser)), list(range(8)))
        browser.evaluate("setView(0)")
        for fixed in range(len(hostile)):
            browser.evaluate(f"setFixed({fixed})")
            text = detail(browser)
            assert f"arn:aws:s3:::b/{hostile[fixed]}".replace("\u2028", "") in text.replace("\u2028", "").replace(
                "\n", ""
            ), text
        browser.evaluate("setView(1)")
        same(browser.evaluate("document.querySelectorAll('img, #detail script, header script').length"), 0)
        same(browser.evaluate("document.scripts.length"), 2)
        same(browser.evaluate("document.title"), "Access matrix")
        same(browser.evaluate("[...document.querySelectorAll('article h4')].map((it) => it.firstChild.data)"), hostile)
        same(
            browser.evaluate("document.querySelectorAll('.row .name')[1].title"),
            "arn:aws:iam::111122223333:user/<img:src=x:onerror=alert(1)>",
        )
        same(browser.faults(), [])
        screenshot(browser, "hostile.png")


def test_control_policies_in_words():
    value = load(os.path.join(EXAMPLES, "shared.json"))
    # A report of the form that docs/LOGIC.md states, by hand.
    rows = [
        {
            "action": action,
            "cell": 2 * p + a,
            "decision": "explicitDeny",
            "lacks": [],
            "principal": principal["user"],
            "resource": "arn:aws:s3:::shared/data.csv",
            "statements": ["control/1/1/0"],
        }
        for p, principal in enumerate(value["principals"])
        for a, action in enumerate(value["actions"])
    ]
    path = os.path.join(ROOM, "shared.html")
    with open(path, "w") as it:
        it.write(
            aws("page", "--world", os.path.join(EXAMPLES, "shared.json"), "--report", "-", given=json.dumps(rows))[0]
        )
    with Opened(path) as browser:
        text = detail(browser)
        for wanted in (
            "OurOrganisation",
            "resource control policy 1 of level 1, statement 0 (control/1/1/0)",
            '"StringNotEquals"',
        ):
            assert wanted in text, f"{wanted} is not in {text}"


def test_nothing_from_outside():
    with open(page_of(company(), "company")) as it:
        text = it.read()
    for word in ("src=", "href=", "@import", "url(", "http://", "https://"):
        assert word not in text, word
    assert "default-src 'none'" in text


def test_a_report_of_another_world_is_refused():
    value = company()
    report, _ = run([IAMSIM, "matrix", "--format", "json"], json.dumps(value))
    for change in (
        lambda it: it["actions"].append("s3:ListBucket"),
        lambda it: it["principals"].pop(),
        lambda it: it["resources"].reverse(),
    ):
        other = company()
        change(other)
        path = os.path.join(ROOM, "other.json")
        with open(path, "w") as it:
            json.dump(other, it)
        _, said = aws("page", "--world", path, "--report", "-", given=report, status=1)
        assert "make both of the same world" in said, said
    for cut, why in (
        ("", "the report is none of"),
        (report[:-5], "cut off"),
        (report[:200], "cut off"),
        ("[]\n", "fewer cells"),
    ):
        _, said = aws("page", "--world", os.path.join(EXAMPLES, "company.json"), "--report", "-", given=cut, status=1)
        assert why in said, said


def large_report():
    """A world of 1,000,000 cells, and a report of its form: made here, and not what the program would say of it."""
    users = [f"arn:aws:iam::111122223333:user/team{n % 10}/user{n}" for n in range(100)]
    actions, resources = [f"s3:Action{n}" for n in range(100)], [
        f"arn:aws:s3:::bucket{n % 7}/key{n}" for n in range(100)
    ]
    world = small_world(actions=actions, resources=[{"arn": it, "account": "111122223333"} for it in resources])
    own = document(*[statement(Sid=f"Number{n}", effect="Deny" if n % 4 == 3 else "Allow") for n in range(400)])
    world["principals"] = [{"user": it, "identity": [own]} for it in users]
    answers = ['"allowed","lacks":[]', '"explicitDeny","lacks":[]', '"implicitDeny","lacks":["identity"]']
    rows, cell = [], 0
    for p, user in enumerate(users):
        for a, action in enumerate(actions):
            for r, resource in enumerate(resources):
                kind = (p * 7 + a * 3 + r * 5) % 11 % 3
                places = f'"identity/0/{(p + a + r) % 400}"' if kind < 2 else ""
                rows.append(
                    f'{{"action":"{action}","cell":{cell},"decision":{answers[kind]},"principal":"{user}","resource":"{resource}","statements":[{places}]}}'
                )
                cell += 1
    return world, "[" + ",".join(rows) + "]\n"


def test_a_million_cells():
    world, report = large_report()
    path = os.path.join(ROOM, "large")
    with open(f"{path}.json", "w") as it:
        json.dump(world, it)
    started = time.monotonic()
    with open(f"{path}.html", "wb") as it:
        subprocess.run(
            [sys.executable, AWS, "page", "--world", f"{path}.json", "--report", "-"],
            input=report.encode(),
            stdout=it,
            check=True,
            timeout=120,
        )
    made, size = time.monotonic() - started, os.path.getsize(f"{path}.html")
    browser = Browser()
    try:
        started = time.monotonic()
        browser.open(f"{path}.html")
        shown = words(browser)
        opened = time.monotonic() - started
        same(shown[0][0], "allowed")
        started = time.monotonic()
        browser.evaluate("setFixed(99)")
        browser.evaluate("choose(99, 99)")
        moved = time.monotonic() - started
        # (99 * 7 + 99 * 3 + 99 * 5) % 11 % 3 is 0, and (99 + 99 + 99) % 400 is 297.
        same(words(browser)[999999][0], "allowed")
        assert "Number297" in detail(browser)
        same(browser.faults(), [])
        screenshot(browser, "large.png")
    finally:
        browser.close()
    print(
        f"a page of 1,000,000 cells: {size / 1e6:.1f} MB, made in {made:.1f} s, opened in {opened:.1f} s, turned in {moved:.1f} s"
    )
    assert opened < 20, f"it opened in {opened} s"
