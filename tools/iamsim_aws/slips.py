"""Names in rules that are likely a slip: what they mean is met by nothing but patterns for all of a service."""

from typing import List

from .arns import names_of_resource, resource_part
from .documents import places, statements_of
from .speaking import patterns_of_actions, texts_of
from .patterns import any_matches, common, is_pattern, near, opened
from .questions import Question, Scope
from .sources import ASSUME


def is_wide(name: str) -> bool:
    """Whether a pattern leaves the name of an action or of a resource open."""
    return not name.strip("*?/")


def named_actions(scope: Scope, asked: str) -> List[str]:
    """The actions that lists and policies name; for a pattern the patterns of policies too."""
    source = scope.source
    spoken = [it for it in patterns_of_actions(source.world([ASSUME])) if not is_wide(it.partition(":")[2])]
    known = [it for it in spoken if is_pattern(asked) or not is_pattern(it)]
    return [*source.references.actions(), *source.actions, *known]


def is_known_resource(scope: Scope, asked: str) -> bool:
    """Whether the world or a policy names a resource that a pattern means."""
    world = scope.source.world([ASSUME])
    if any(any_matches([asked], names_of_resource(it["arn"])) for it in world["resources"]):
        return True
    every = (statement for it in places(world) for statement in statements_of(it.policy.document))
    named = {opened(text) for it in every for text in texts_of(it, "Resource", "NotResource")}
    return any(may_mean(asked, it) for it in named if not is_wide(resource_part(it)))


def may_mean(asked: str, pattern: str) -> bool:
    """Whether two patterns of resources meet part by part: a wildcard may hold colons, but is hardly meant to."""
    parts = asked.split(":", 5), pattern.split(":", 5)
    if not len(parts[0]) == len(parts[1]) == 6:
        parts = [asked.rpartition(":")[2]], [resource_part(pattern)]
    return all(common(one, other) is not None for one, other in zip(*parts))


def unnamed(scope: Scope, action: str) -> str:
    """That no list and no policy names an action that is meant; nothing where one does."""
    named = [] if is_wide(action) else named_actions(scope, action)
    if is_wide(action) or any(common(it, action, True) for it in named):
        return ""
    but = "for all of a service" if is_pattern(action) else f"by a pattern{near(action, named)}"
    what = f"no list and no policy names an action that {action} means, but {but}"
    return f"{what}: is it a slip? If not, give its actions by --actions FILE or --services FOLDER"


def is_unnamed(scope: Scope, question: Question) -> bool:
    """Whether a question of one text each asks for an action that nobody names, of a service of which policies speak."""
    if is_pattern(question.action) or is_pattern(question.resource) or not unnamed(scope, question.action):
        return False
    service = question.action.lower().partition(":")[0]
    return any(it.lower().startswith(f"{service}:") for it in patterns_of_actions(scope.source.world([ASSUME])))


def slips(scope: Scope, question: Question) -> List[str]:
    """A line for each name of a question that is likely a slip."""
    action, resource = question.action, question.resource
    found = list(filter(None, [unnamed(scope, action)]))
    if is_pattern(resource) and not is_wide(resource_part(resource)) and not is_known_resource(scope, resource):
        hint = near(resource, [it["arn"] for it in scope.source.world([ASSUME])["resources"]])
        found.append(f"nothing names a resource that {resource} means{hint}, but policies for all: is it a slip?")
    return found
