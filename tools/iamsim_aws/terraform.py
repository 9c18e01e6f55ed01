"""A plan of Terraform ('terraform show -json PLAN') put into effect on what exports have."""

from typing import Optional

from .arns import owner_of
from .configurations import Configuration
from .effects import KINDS, POINT, REGIONAL, TARGETS, Apply, arn_of
from .faults import Fault
from .making import BUCKET, Estate
from .planned import Change, any_true
from .plans import Plan
from .unknowns import Applied


class ApplyPlan(Apply):
    """Puts a plan's changes into effect, with what follows from references within it."""

    def __init__(self, plan: Plan, estate: Estate, account: Optional[str]):
        super().__init__(plan.changes, estate, account, plan.unknowns)
        self.plan, self.region = plan, plan.region

    def told(self, given: Change) -> Optional[Change]:
        """The change with what follows from others of the plan, documents read; None where it is left out, since only the
        apply tells what it is of. What is not told of a user, group, role or policy stays as it is."""
        if given.after is None:
            return given
        kind, plan, after, unknown = KINDS[given.kind], self.plan, dict(given.after), self.unknowns.lacking
        change, count = given._replace(after=after), len(self.unknowns.lacking)
        if change.unknown.get("name") is True and not after.get("name"):
            plan.lacks(change, "name")
            return None
        where = self.where(change)
        if TARGETS.get(change.kind) == "arn" and change.kind in REGIONAL:
            after["arn"] = self.arn_after(change)
        if change.kind == POINT:
            after[BUCKET] = after.get(BUCKET) or plan.referred(change, BUCKET, where)
        if change.kind in TARGETS and not plan.is_configured(change, kind.document):
            return self.without_own(change)
        if kind.is_link and kind.document and not after.get(kind.document) and not change.unknown.get(kind.document):
            return change
        for name in kind.texts:
            after[name] = plan.text(change, name, where)
        if kind.document:
            after[kind.document] = plan.document(change, kind.document, where)
        for name in kind.lists:
            if any_true(change.unknown.get(name)) and plan.is_configured(change, name):
                plan.lacks(change, name)
        if kind.is_link and len(unknown) > count:
            return None
        begin = f"{change.address}."
        untold = [it[len(begin) :].partition(".")[0] for it in unknown[count:] if it.startswith(begin)]
        return change._replace(after={name: it for name, it in after.items() if name not in untold})

    def without_own(self, change: Change) -> Optional[Change]:
        """A resource whose policy the configuration does not give: AWS or another resource gives it, so it stays as it is, but
        where the resource is made anew."""
        before, after = change.before, {**(change.after or {}), "policy": None}
        if change.kind == POINT:
            kept = {**before, "policy": None} if before and not change.is_replaced else before
            return change._replace(before=kept, after=after, unknown={})
        return change._replace(after=None) if before and change.is_replaced else None

    def run(self) -> Estate:
        """Of an access point that goes nothing is left to be asked."""
        made, points = super().run(), [it for it in self.changes if it.kind == POINT]
        there = {self.arn_after(it) for it in points if it.after}
        gone = {it.before.get("arn") for it in points if it.before} - there
        return made._replace(further=[it for it in made.further if owner_of(it["arn"]) not in gone])

    def arn_after(self, change: Change) -> Optional[str]:
        """The ARN of a resource after the change, also where it follows from the name."""
        after = change.after or {}
        return after.get("arn") or arn_of(self, change, str(after.get("name")))


def applied(
    estate: Estate, path: str, account: Optional[str], allows_unknown: bool, folder: Optional[str] = None
) -> Applied:
    """The estate before the plan, with the policies that the plan has from then, and after it; and what is to be told.
    `folder` has the configuration that the plan is made of."""
    plan = Plan(path, Configuration(folder) if folder is not None else None)
    unknowns = plan.unknowns
    if unknowns.doubts and not allows_unknown:
        raise Fault(f"{plan.path}: {', '.join(unknowns.doubts)}: --allow-unknown takes it as it is")
    apply = ApplyPlan(plan, estate, account)
    made = apply.run()
    told = unknowns.settled(apply.notes, apply.ignored, allows_unknown)
    plan.unknowns = unknowns.narrow()
    narrow = ApplyPlan(plan, estate, account).run() if unknowns.has_guesses else None
    return Applied(apply.first, made, *told, narrow)
