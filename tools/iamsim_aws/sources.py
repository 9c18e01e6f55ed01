"""Where a command's worlds come from: exports with further files, or a world that was made before."""

import argparse
import glob
import os
import time
from typing import Any, Callable, Dict, List, Optional, Set, Tuple

from . import files
from .arns import account_of, principal_arn, resource_part, service_of
from .documents import World, dressed
from .exports import ACCOUNT, read_exports
from .faults import Fault, tell
from .making import Estate, has_service, outside, read_resources, refuse_doubles, warnings, world_of
from .organizations import read_organization
from .references import References
from .sessions import put_sets, read_sessions, refuse_unknown_roles

ASSUME = "sts:AssumeRole"


def add_options(parser: argparse.ArgumentParser, has_session: bool = True) -> None:
    """What exports are joined with."""
    add = parser.add_argument
    files_of: Dict[str, Any] = {"action": "append", "default": [], "metavar": "FILE"}
    add(
        "--resources",
        **files_of,
        help="further resources, a JSON list of {arn, account, policy, sealed, context, runsAs, bucket}",
    )
    add("--organization", metavar="FILE", help="the organisation's policies, as iamsim-aws organization collects them")
    add("--context", **files_of, help="the condition keys of all requests, a JSON object")
    if has_session:
        add("--session", default="session", metavar="NAME", help="the name of each role's session (default: session)")
    add(
        "--moment",
        type=moment,
        metavar="SECONDS",
        help="the moment of the requests, in seconds since 1970 (default: now, or that of the world)",
    )
    add(
        "--services",
        action="append",
        default=[],
        metavar="FOLDER",
        help="files of AWS's service reference, or a folder",
    )


def add_sessions(parser: argparse.ArgumentParser) -> None:
    what = "sessions with their policies, and permission sets, a JSON object {sessions, permissionSets}"
    parser.add_argument("--sessions", action="append", default=[], metavar="FILE", help=what)


def add_source(parser: argparse.ArgumentParser) -> None:
    parser.add_argument("exports", nargs="*", metavar="EXPORT", help="of 'aws iam get-account-authorization-details'")
    parser.add_argument("--world", metavar="FILE", help="a world in place of exports")
    parser.add_argument("--names", metavar="FILE", help="the policies' names of that world, by 'world --names FILE'")
    parser.add_argument("--actions", metavar="FILE", help="actions, one a line; '#' begins a comment")
    add_options(parser)
    add_sessions(parser)


def add_outside(parser: argparse.ArgumentParser) -> None:
    what = "also asks for anyone of an account without an export, whether policies name it or not"
    parser.add_argument("--outside", action="append", default=[], type=account, metavar="ACCOUNT", help=what)


def account(text: str) -> str:
    if not ACCOUNT.fullmatch(text):
        raise argparse.ArgumentTypeError("it takes an account, twelve digits")
    return text


def moment(text: str) -> int:
    if not text.isascii() or not text.isdigit():
        raise argparse.ArgumentTypeError("it takes a whole number of seconds")
    return int(text)


def read_actions(path: Optional[str]) -> List[str]:
    """The actions of a file, one a line."""
    if path is None:
        return []
    lines = files.read_text(path).splitlines()
    found = ["".join(line.split("#")[0].split()) for line in lines]
    return list(dict.fromkeys(it for it in found if it))


def read_object(path: Optional[str]) -> Optional[Dict[str, Any]]:
    if path is None:
        return None
    given = files.read_json(path)
    if not isinstance(given, dict):
        raise Fault(f"{files.name_of(path)}: it is no object")
    return given


def read_context(paths: List[str]) -> Optional[Dict[str, Any]]:
    """The keys of all files, each of which is given once."""
    given = [read_object(path) or {} for path in paths]
    refuse_doubles([key for it in given for key in it], fold=True)
    return {key: value for it in given for key, value in it.items()} if paths else None


def estate_of(options: argparse.Namespace, exports: List[str]) -> Estate:
    accounts, (sessions, sets) = read_exports(exports), read_sessions(getattr(options, "sessions", []))
    told = put_sets(accounts, sets)
    refuse_unknown_roles(accounts, sessions)
    estate = Estate(
        accounts,
        read_resources(options.resources),
        read_organization(options.organization),
        read_context(options.context),
        options.session,
        int(time.time()) if options.moment is None else options.moment,
        sessions,
    )
    for line in [*told, *warnings(estate.further), *outside(estate)]:
        tell(line)
    return estate


def read_world(path: str, names: Optional[str] = None) -> World:
    """A world that was made before, with its policies' names."""
    what, given = files.name_of(path), files.read_json(path)
    refuse_shape(given, what)
    return dressed(given, read_object(names) or {})


def refuse_shape(given: Any, what: str) -> None:
    """A world whose axes are none has no requests to tell of."""
    texts = {"accounts": ["id"], "resources": ["arn", "account"]}
    for axis in ("accounts", "principals", "actions", "resources"):
        list_of = given.get(axis) if isinstance(given, dict) else None
        if not isinstance(list_of, list):
            raise Fault(f"{what}: it is no world: {axis} is no list")
        for n, it in enumerate(list_of):
            wanted = texts.get(axis) or (["user"] if isinstance(it, dict) and "user" in it else ["role", "session"])
            is_right = (
                isinstance(it, str)
                if axis == "actions"
                else isinstance(it, dict) and all(isinstance(it.get(name), str) for name in wanted)
            )
            if not is_right:
                raise Fault(f"{what}: it is no world: {axis}/{n} is not of the form of a world")


def is_role(resource: Dict[str, Any]) -> bool:
    return service_of(resource["arn"]) == "iam" and resource_part(resource["arn"]).startswith("role/")


def for_actions(world: World, has_sts: bool, has_iam: bool) -> World:
    """A world that was made before, for these actions: a role's trust policy says nothing on iam: actions."""
    if has_sts or not has_iam:
        return world
    trust = ("policy", "sealed", "control")
    resources = [{k: v for k, v in it.items() if k not in trust} if is_role(it) else it for it in world["resources"]]
    return {**world, "resources": resources}


def refuse_untrusted(world: World) -> None:
    """Where a role has no trust policy, nothing says who may assume it."""
    for it in world["resources"]:
        if is_role(it) and "policy" not in it:
            raise Fault(f"the world has no trust policy of {it['arn']}: make it with an sts: action")


def inputs(options: argparse.Namespace) -> List[str]:
    """The files that the options of a source name, and those of their folders."""
    named = [options.world, options.actions, options.organization]
    further = [*options.exports, *options.resources, *options.context, *options.sessions, *options.services]
    inside = (one for it in options.services for one in glob.glob(f"{glob.escape(it)}{os.sep}*"))
    return [*filter(None, named), *further, *inside]


class Source:
    """Makes worlds of actions: of exports, or of one world; `change` makes another world of each."""

    def __init__(self, estate: Optional[Estate], given: Optional[World], actions: List[str], references: References):
        self.estate = estate
        self.given = given
        self.actions = actions
        self.references = references
        self.change: Callable[[World], World] = lambda world: world
        # Accounts outside that are asked for, whether policies name them or not.
        self.outside: List[str] = []
        # What a plan leaves out, and whom nobody stands for, in lines.
        self.left: List[str] = []
        # The same with what only the apply tells taken to allow nothing and to deny all.
        self.narrow: Optional[Source] = None
        self.made: Dict[Tuple[bool, bool], World] = {}
        # Whether roles have trust policies, so that iam: actions want a world of their own.
        self.has_trust = given is None or any(is_role(it) and "policy" in it for it in given["resources"])

    def like(self, estate: Optional[Estate], change: Callable[[World], World]) -> "Source":
        """A source of the same form, of another estate or of changed worlds."""
        made = Source(estate, self.given, self.actions, self.references)
        made.change, made.outside = change, self.outside
        return made

    def accounts(self) -> Set[str]:
        """The accounts whose principals are asked for."""
        if self.estate is not None:
            return {it.account for it in self.estate.accounts}
        return {account_of(principal_arn(it)) for it in (self.given or {}).get("principals", [])}

    @property
    def moment(self) -> Any:
        """The moment of the requests; of a world what stands there."""
        return self.estate.moment if self.estate else (self.given or {}).get("moment")

    def put_moment(self, moment: int) -> None:
        if self.estate:
            self.estate = self.estate._replace(moment=moment)
        else:
            self.given = {**(self.given or {}), "moment": moment}

    @property
    def giver(self) -> str:
        """What gives requests a condition key, in words."""
        return "--context" if self.estate else "the context of the world"

    def world(self, actions: List[str]) -> World:
        kind = has_service(actions, "sts"), has_service(actions, "iam")
        if kind not in self.made:
            found = for_actions(self.given or {}, *kind) if self.estate is None else world_of(self.estate, actions)
            self.made[kind] = self.change(found)
        return {**self.made[kind], "actions": actions}

    def worlds(self, actions: List[str]) -> List[World]:
        """Worlds that together have these actions. A role's trust policy decides on sts: and on no iam: action, so there is
        no one world for both."""
        if self.given is not None and has_service(actions, "sts") and not has_service(self.given["actions"], "sts"):
            refuse_untrusted(self.given)
        of_iam = [it for it in actions if self.has_trust and has_service([it], "iam")]
        groups = [[it for it in actions if it not in of_iam], of_iam]
        return [self.world(it) for it in groups if it]


def source_of(options: argparse.Namespace) -> Source:
    source = plain_source(options)
    source.outside = getattr(options, "outside", [])
    for it in source.outside:
        if it in source.accounts():
            raise Fault(f"--outside {it}: this account is not outside, its principals are there")
    return source


def plain_source(options: argparse.Namespace) -> Source:
    references = References(options.services)
    actions = read_actions(options.actions)
    refuse_unknown(references, actions)
    if options.world is None and not options.exports:
        raise Fault("name an export, or a world by --world")
    if options.world is not None:
        if options.exports:
            raise Fault("name exports or a world, and not both")
        if options.resources or options.context or options.organization or getattr(options, "sessions", []):
            what = "--resources, --context, --sessions and --organization"
            raise Fault(f"{what} join exports: a world has what they give in itself")
        given = read_world(options.world, options.names)
        # A world whose moment is none is left for iamsim to refuse.
        if options.moment is not None and type(given.get("moment")) is int:
            given = {**given, "moment": options.moment}
        return Source(None, given, actions or given["actions"], references)
    return Source(estate_of(options, options.exports), None, actions, references)


def refuse_unknown(references: References, actions: List[str]) -> None:
    for it in actions:
        if not references.knows(it):
            tell(f"{it}: the service reference does not know this action")
