"""Each example that the tests before were shown, by rules, changes and who-can, is asked for: with its keys, at its moment, `can` says that
it is allowed; of who is outside `who-can` lists it. What is assumed of an account without an export is given by --policy."""

import argparse
import concurrent.futures
import csv
import datetime
import io
import os
import re
import subprocess
import sys

from harness import ASKED, AWS, TOOLS, file, load, same

sys.path.insert(0, TOOLS)
from iamsim_aws.examples import Example  # noqa: E402
from iamsim_aws.keys import givers  # noqa: E402

# Examples of one answer that are asked for at most.
MOST = 5
REQUEST = r"(?P<who>\S.*?) (?P<action>[\w*-]+:\S+|\*) (?P<resource>\S+)"
IF = r"(?P<given>(?:`[^`]*`|the moment) is .*?)"
OF_RULES = re.compile(rf"^  {REQUEST.replace(' ', ' may ', 1)}(?: if {IF}, which (?:nothing gives|comes later)[^:]*?)?: ", re.M)
OF_CHANGES = re.compile(rf"^\+ {REQUEST}(?:, if {IF})?$", re.M)
OF_WHO_CAN = re.compile(rf"^(?P<decision>\w+): {REQUEST}$")
ALLOWED_IF = re.compile(rf"^  allowed if {IF}$")
# What can asks besides: options with a value, with several, and without one.
ONE = ["--organization", "--world", "--names", "--actions", "--session", "--account", "--terraform", "--configuration", "--policy"]
EACH = ["--resources", "--context", "--sessions", "--services", "--put", "--attach", "--parameters", "--stack"]
FLAGS = ["--allow-unknown", "--sealed"]
ASSUMED = "what its own account may allow (assumed)"
TO_ALL = {"Version": "2012-10-17", "Statement": {"Effect": "Allow", "Principal": "*", "Action": "*", "Resource": "*"}}
LEFT = ["--fail-on", "--format", "--action", "--resource", "--junit", "--sarif", "--most", "--depth"]
LEFT_FLAGS = ["--exit-status", "--allow-open", "--allow-empty", "--as-given", "--chains", "--verbose", "--kinds"]


def read(words):
    """The words of a question, as iamsim-aws reads them."""
    parser = argparse.ArgumentParser()
    parser.add_argument("words", nargs="*")
    for it in (*ONE, *LEFT, "--moment"):
        parser.add_argument(it, action="append", default=[])
    for it in (*EACH, "--outside"):
        parser.add_argument(it, action="append", default=[])
    for it in ("--cloudformation", "--before", "--after"):
        parser.add_argument(it, nargs="+", default=[])
    for it in (*FLAGS, *LEFT_FLAGS):
        parser.add_argument(it, action="store_true")
    return parser.parse_intermixed_args(words)


def example_of(given):
    """The keys of an example with their values, and its moment; of several values of one key the first."""
    keys, moment = {}, None
    for text, is_key in re.findall(r"`([^`]*)`( is )?", (given or "").split(" or ")[0]):
        if is_key:
            key = text
            keys[key] = []
        else:
            keys[key].append(text)
    for text in re.findall("the moment is (\\S+)", given or ""):
        moment = int(datetime.datetime.fromisoformat(text.replace("Z", "+00:00")).timestamp())
    return Example(tuple((key, tuple(values)) for key, values in keys.items()), moment)


def shown_by(words, out):
    """(principal, action, resource, example) of each that an answer shows."""
    if words[0] == "rules":
        found = (it for it in OF_RULES.finditer(out) if not re.search(" may (not|come to)$", it["who"]))
        yield from ((it["who"], it["action"], it["resource"], example_of(it["given"])) for it in found)
    elif words[0] == "changes" and out.startswith("change,"):
        for row in (it for it in csv.DictReader(io.StringIO(out)) if it["change"] == "gained"):
            yield row["principal"], row["action"], row["resource"], example_of(row["if"])
    elif words[0] == "changes":
        yield from ((it["who"], it["action"], it["resource"], example_of(it["given"])) for it in OF_CHANGES.finditer(out))
    else:
        last = None
        for line in out.splitlines():
            asked, given = OF_WHO_CAN.match(line), ALLOWED_IF.match(line)
            last = asked or (last if line.startswith(" ") else None)
            if last and (given or (asked and asked["decision"] == "allowed")):
                yield last["who"], last["action"], last["resource"], example_of(given["given"] if given else None)


def pattern(text):
    return re.sub(r"([*?\\])", r"\\\1", text)


def with_resource(world, arn, example):
    """The world, and where its resources give keys of the example, one of this text too, which has the policies of the others of its bucket."""
    of_resources = any(givers(world).get(key.lower(), ("",))[0] == "resources" for key, _ in example.keys)
    alike = [it for it in world["resources"] if it["arn"].split("/")[0] == arn.split("/")[0]]
    if not of_resources or not alike or any(it["arn"] == arn for it in alike):
        return world
    return {**world, "resources": [*world["resources"], {**alike[0], "arn": arn, "context": {}}]}


def source_of(of, given, resource, example):
    """The words by which the same source is asked, with the example's keys, at its moment."""
    values = lambda it: getattr(of, it[2:].replace("-", "_"))
    found = [word for it in (*ONE, *EACH) if it != "--world" for value in values(it) for word in (it, value)]
    found += [it for it in FLAGS if values(it)]
    found += ["--cloudformation", *of.cloudformation] if of.cloudformation else []
    moment = [str(example.moment)] if example.moment is not None else of.moment
    found += ["--moment", *moment] if moment else []
    worlds = of.world or [it for it in given if "principals" in load(it)]
    if worlds:
        world = with_resource(load(worlds[0]), resource, example)
        return ["--world", file(example.given_to(world)), *found]
    keys = {key: list(values) for key, values in example.keys}
    return [*given, *found, *(["--context", file(keys)] if keys else [])]


def confirmed(words, who, action, resource, example, is_assumed):
    """The fault of an example that is not confirmed, or nothing."""
    of = read(words[1:])
    given = of.after or of.words[{"rules": 1, "changes": 0, "who-can": 2}[words[0]] :]
    source = source_of(of, given, resource, example)
    if is_assumed and len({it.split(":")[4] for it in (who, resource) if it.count(":") > 4}) == 2:
        source += ["--policy", file(TO_ALL)]
    if who.startswith("arn:"):
        asked = ["can", pattern(who), action, pattern(resource), *source]
    else:
        # Of one resource who-can asks those alone whom its own policies tell apart, and whom --outside names.
        outside = dict.fromkeys([*of.outside, *re.findall("^anyone outside: account ([0-9]{12})$", who)])
        asked = ["who-can", action, pattern(resource), *source, *(word for it in outside for word in ("--outside", it))]
    ran = subprocess.run([AWS, *asked], capture_output=True, encoding="utf-8", timeout=300, cwd=TOOLS)
    said = f"{who} {action} {resource} {example}\n  {' '.join(asked)}: {ran.returncode} {ran.stdout[:600]}{ran.stderr[:300]}"
    return "" if f"allowed: {who} {action} {resource}\n" in ran.stdout else f"{' '.join(words)} shows {said}"


def test_each_example_is_confirmed():
    some = {}
    for words, out in ASKED:
        for it in list(shown_by(words, out))[:MOST]:
            some.setdefault((words, *it, words[0] == "changes" and ASSUMED in out), None)
    assert some, "no test that shows an example was run before"
    with concurrent.futures.ThreadPoolExecutor(os.cpu_count()) as pool:
        faults = [it for it in pool.map(lambda of: confirmed(*of), some) if it]
    same(len(faults), 0, "\n".join(faults) + f"\n{len(faults)} of {len(some)} examples")
