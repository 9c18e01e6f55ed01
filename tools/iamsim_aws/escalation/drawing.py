"""The ways as a picture: SVG with nothing from outside. Each node has one step, so they are trees, drawn from right to left."""

import textwrap
from typing import Dict, List, NamedTuple, Tuple
from xml.sax.saxutils import escape

from ..arns import resource_part
from ..faults import line_of
from ..strangers import is_stranger
from .nodes import Node
from .search import Found
from .steps import Step, words

BOX, LABEL, BEND, ROW, HEIGHT, EDGE = 250, 200, 60, 40, 28, 16
COLUMN = BOX + LABEL + BEND
TITLE, LINE = 44, 16
# The width of a sign of a note.
SIGN = 6.2
# The signs that a box, or the words on a line, have room for.
SIGNS, FEW = 31, 30
FONT = 'font-family="system-ui, sans-serif"'
# The colours of the edge and of the inside of a box.
END, OTHER, CHANGED = ("#b3261e", "#fdeceb"), ("#44546a", "#f4f6f9"), ("#8a5a00", "#fff6e0")


class Place(NamedTuple):
    """The left upper corner of a node's box."""

    x: float
    y: float


def cut(text: str, signs: int) -> str:
    """A text, with a sign in place of its middle where it is too long."""
    half = (signs - 1) // 2
    return text if len(text) <= signs else f"{text[:half]}…{text[-half:]}"


def wrapped(text: str, width: float) -> List[str]:
    """A note in lines, as wide as the picture."""
    return textwrap.wrap(text, int(width / SIGN), subsequent_indent="    ", break_on_hyphens=False)


def steps_of(found: Found) -> Dict[Node, Step]:
    return {step.source: step for steps in found.ways.values() for step in steps}


def sources_of(steps: Dict[Node, Step]) -> Dict[Node, List[Node]]:
    """Of each node those that step to it."""
    into: Dict[Node, List[Node]] = {}
    for source, step in steps.items():
        into.setdefault(step.target, []).append(source)
    return into


def placed(steps: Dict[Node, Step]) -> Tuple[Dict[Node, Place], int]:
    """Where each node stands, and how many rows there are: who steps to nobody stands on the right."""
    into, places, rows = sources_of(steps), {}, 0
    roots = [it for it in into if it not in steps]
    waiting: List[Tuple[Node, int, bool]] = [(it, 0, False) for it in reversed(roots)]
    columns: Dict[Node, int] = {}
    ys: Dict[Node, float] = {}
    while waiting:
        node, column, is_below = waiting.pop()
        below = into.get(node, [])
        if is_below or not below:
            ys[node] = (ys[below[0]] + ys[below[-1]]) / 2 if below else rows * ROW
            columns[node] = column
            rows += not below
            continue
        waiting.append((node, column, True))
        waiting += [(it, column + 1, False) for it in reversed(below)]
    widest = max(columns.values(), default=0)
    for it, column in columns.items():
        places[it] = Place(EDGE + (widest - column) * COLUMN, TITLE + ys[it])
    return places, rows


def text_at(x: float, y: float, text: str, more: str = "") -> str:
    return f'<text x="{x:g}" y="{y:g}" {more}>{escape(line_of(text))}</text>'


def box(found: Found, node: Node, place: Place, is_end: bool) -> List[str]:
    changes = ", ".join(words(it._replace(what=it.what.split("/")[-1])) for it in node.changes)
    principal = found.people.principals[node.number]
    is_outside = is_stranger(principal)
    name = found.name(node).rpartition("anyone ")[2] if is_outside else resource_part(found.people.called(node))
    edge, inside = END if is_end else CHANGED if changes else OTHER
    dashes = ' stroke-dasharray="4 3"' if is_outside else ""
    title = found.name(node) + (f", {changes}" if changes else "")
    lines = [f"<g><title>{escape(line_of(title))}</title>"]
    where = f'x="{place.x:g}" y="{place.y:g}" width="{BOX}" height="{HEIGHT}" rx="5"'
    lines.append(f'<rect {where} fill="{inside}" stroke="{edge}"{dashes}/>')
    if not changes:
        lines.append(text_at(place.x + 9, place.y + 18, cut(name, SIGNS), 'font-size="12.5"'))
    else:
        lines.append(text_at(place.x + 9, place.y + 12, cut(name, SIGNS), 'font-size="11.5"'))
        lines.append(text_at(place.x + 9, place.y + 24, cut(changes, SIGNS + 6), f'font-size="10" fill="{edge}"'))
    return [*lines, "</g>"]


def line(step: Step, places: Dict[Node, Place]) -> List[str]:
    """The line of a step, with the names of its ways."""
    first, last = places[step.source], places[step.target]
    x, y, end = first.x + BOX, first.y + HEIGHT / 2, last.y + HEIGHT / 2
    bend, middle = x + LABEL, x + LABEL + BEND / 2
    path = f"M{x:g} {y:g}H{bend:g}C{middle:g} {y:g} {middle:g} {end:g} {last.x - 6:g} {end:g}"
    name = ", ".join(it.way.name for it in step.parts)
    told = "; ".join(it.words() for it in step.parts)
    return [
        f"<g><title>{escape(line_of(told))}</title>",
        f'<path d="{path}" fill="none" stroke="#7a8699" marker-end="url(#tip)"/>',
        text_at(x + 8, y - 4, cut(name, FEW), 'font-size="11" fill="#333"'),
        "</g>",
    ]


def drawing(found: Found, title: str, notes: List[str]) -> str:
    """The picture of all ways that were found, and below it what was not asked or not shown."""
    steps = steps_of(found)
    places, rows = placed(steps)
    width = max([it.x + BOX + EDGE for it in places.values()], default=0)
    width, below = max(width, 640), TITLE + max(rows, 1) * ROW
    told = [part for it in notes for part in wrapped(line_of(it), width)]
    height = below + len(told) * LINE + EDGE
    size = f'viewBox="0 0 {width:g} {height:g}" width="{width:g}" height="{height:g}"'
    head = f'<svg xmlns="http://www.w3.org/2000/svg" {size} {FONT}>'
    marker = 'id="tip" markerWidth="8" markerHeight="8" refX="2" refY="4" orient="auto"'
    tip = f'<marker {marker}><path d="M0 1L7 4L0 7z" fill="#7a8699"/></marker>'
    lines = [head, f"<title>{escape(line_of(title))}</title>", f"<defs>{tip}</defs>"]
    lines.append('<rect width="100%" height="100%" fill="#fff"/>')
    lines.append(text_at(EDGE, 26, title, 'font-size="15" font-weight="600"'))
    for step in steps.values():
        lines += line(step, places)
    for node, place in places.items():
        lines += box(found, node, place, node not in steps)
    lines += [text_at(EDGE, below + n * LINE, it, 'font-size="11" fill="#5a6473"') for n, it in enumerate(told, 1)]
    return "\n".join([*lines, "</svg>"]) + "\n"
