"""The organisation's policies, collected by the command line of AWS and whatever rights it has. It only reads."""

import subprocess
from typing import Any, Dict, List

from . import files
from .faults import Fault
from .organizations import CONTROL, SERVICE


def call(*words: str) -> Any:
    """The answer of 'aws organizations WORDS'."""
    try:
        ran = subprocess.run(["aws", "organizations", *words, "--output", "json"], capture_output=True)
    except OSError as error:
        raise Fault(f"the command line of AWS cannot be run (aws): {error.strerror or error}") from None
    if ran.returncode:
        raise Fault(f"aws organizations {words[0]}: {ran.stderr.decode(errors='replace').strip()}")
    return files.parsed(files.text_of(ran.stdout, "aws"), f"aws organizations {words[0]}")


def parents_of(accounts: List[str]) -> Dict[str, Any]:
    """The parents of accounts, and of what is above them."""
    found: Dict[str, Any] = {}
    waiting = list(accounts)
    while waiting:
        it = waiting.pop(0)
        if it not in found and not it.startswith("r-"):
            found[it] = call("list-parents", "--child-id", it)["Parents"]
            waiting += [parent["Id"] for parent in found[it][:1]]
    return found


def attached_to(target: str) -> List[Any]:
    kinds = (SERVICE, CONTROL)
    answers = [call("list-policies-for-target", "--target-id", target, "--filter", it) for it in kinds]
    return [it for answer in answers for it in answer["Policies"]]


def collected(accounts: List[str]) -> Dict[str, Any]:
    """The file for --organization."""
    parents = parents_of(accounts)
    roots = {it["Id"] for of in parents.values() for it in of[:1]} - set(parents)
    targets = {it: attached_to(it) for it in [*parents, *sorted(roots)]}
    ids = sorted({it["Id"] for of in targets.values() for it in of})
    policies = [call("describe-policy", "--policy-id", it)["Policy"] for it in ids]
    about = call("describe-organization")["Organization"]
    return {
        "id": about["Id"],
        "management": about["MasterAccountId"],
        "parents": parents,
        "targets": targets,
        "policies": policies,
    }
