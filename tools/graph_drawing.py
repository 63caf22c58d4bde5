"""Draws boxes and arrows as SVG, or writes them as DOT.

A graph is boxes by a key, and arrows between keys. `in_layers` gives each box its place, from left to right along the arrows, with
bends where an arrow passes a layer; a picture with places of its own sets them. Texts are in a fixed-width font, so that a box
is as wide as its text in any viewer."""
from collections import defaultdict
from dataclasses import dataclass, field
from html import escape

FONT = "'DejaVu Sans Mono', Menlo, Consolas, 'Liberation Mono', monospace"
SIZE = 13
CHARACTER = 7.9
LINE = 17
PAD = 9
MARGIN = 24
COLUMN_GAP = 70
ROW_GAP = 16

# Fill, line and pattern of the line of each kind of box, and the word for it in the legend.
KINDS = {
    "version": ("#ffffff", "#5f6b7a", None, "version"),
    "unshared": ("#fff4c2", "#a67c00", None, "checkout or private file"),
    "absent": ("#f4f4f4", "#8a8a8a", "4 3", "looked for in vain"),
    "object": ("#e8e4f5", "#5b4b9a", None, "object"),
    "built": ("#fddfc4", "#b8520a", None, "built"),
    "winked": ("#d4e5fb", "#1f5fae", None, "winked in"),
    "kept": ("#dcefd6", "#3b7a3b", None, "kept"),
    "branch": ("#33475b", "#33475b", None, "branch"),
    "more": ("#ffffff", "#ffffff", None, "versions passed over"),
}
# Colour and pattern of the line of each kind of arrow, and the word for it.
ARROWS = {"plain": ("#5f6b7a", None, None), "merge": ("#b3261e", "6 4", "merge arrow")}


@dataclass
class Box:
    lines: tuple
    kind: str
    x: float = 0
    y: float = 0

    @property
    def width(self):
        return max(map(len, self.lines)) * CHARACTER + 2 * PAD

    @property
    def height(self):
        return len(self.lines) * LINE + 2 * PAD - 4


@dataclass
class Arrow:
    tail: object
    head: object
    kind: str = "plain"
    bends: list = field(default_factory=list)


@dataclass
class Graph:
    """Boxes by their keys, arrows between keys, and the title of the picture."""

    title: str
    boxes: dict = field(default_factory=dict)
    arrows: list = field(default_factory=list)

    def legend(self):
        """The kinds of boxes and arrows that want a word, in the order of the table."""
        kinds = {box.kind for box in self.boxes.values()} - {"branch", "more"}
        boxes = [kind for kind in KINDS if kind in kinds] if len(kinds) > 1 else []
        drawn = {arrow.kind for arrow in self.arrows}
        return boxes, [kind for kind in ARROWS if kind in drawn and ARROWS[kind][2]]


# Places in layers


def depths(graph, roots):
    """How many arrows the longest way from a root to each box has. The graph has no circles."""
    after, waiting = defaultdict(list), defaultdict(int)
    for arrow in graph.arrows:
        after[arrow.tail].append(arrow.head)
        waiting[arrow.head] += 1
    depth = dict.fromkeys(roots, 0)
    ready = list(roots)
    while ready:
        key = ready.pop()
        for head in after[key]:
            depth[head] = max(depth.get(head, 0), depth[key] + 1)
            waiting[head] -= 1
            if not waiting[head]:
                ready.append(head)
    return depth


def layers_with_bends(graph, depth):
    """The boxes of each layer, with a bend (arrow, layer) wherever an arrow passes a layer, and the neighbours of each."""
    layers = [[] for _ in range(max(depth.values(), default=0) + 1)]
    near = defaultdict(list)
    for key in graph.boxes:
        layers[depth[key]].append(key)
    for number, arrow in enumerate(graph.arrows):
        way = [("bend", number, layer) for layer in range(depth[arrow.tail] + 1, depth[arrow.head])]
        for bend in way:
            layers[bend[2]].append(bend)
        chain = [arrow.tail, *way, arrow.head]
        for one, two in zip(chain, chain[1:]):
            near[one].append((1, two))
            near[two].append((-1, one))
    return layers, near


def untangle(layers, near):
    """Orders each layer by where its neighbours stand, to and fro, so that few arrows cross."""
    place = {key: number for layer in layers for number, key in enumerate(layer)}
    for sweep in range(8):
        side = -1 if sweep % 2 == 0 else 1
        for layer in layers if side < 0 else reversed(layers):
            middle = {}
            for key in layer:
                sides = [place[other] for where, other in near[key] if where == side]
                middle[key] = sum(sides) / len(sides) if sides else place[key]
            layer.sort(key=lambda key: middle[key])
            place.update((key, number) for number, key in enumerate(layer))


def in_layers(graph, roots):
    """Gives each box its place, in columns along the arrows, and each arrow its bends."""
    layers, near = layers_with_bends(graph, depths(graph, roots))
    untangle(layers, near)
    heights = [sum(height_of(graph, key) + ROW_GAP for key in layer) for layer in layers]
    x = MARGIN
    for layer, height in zip(layers, heights):
        y = MARGIN + 30 + (max(heights) - height) / 2
        width = max((graph.boxes[key].width for key in layer if key in graph.boxes), default=0)
        for key in layer:
            if key in graph.boxes:
                graph.boxes[key].x, graph.boxes[key].y = x, y
            else:
                middle = y + height_of(graph, key) / 2
                graph.arrows[key[1]].bends += [(x, middle), (x + width, middle)]
            y += height_of(graph, key) + ROW_GAP
        x += width + COLUMN_GAP


def height_of(graph, key):
    return graph.boxes[key].height if key in graph.boxes else 8


# SVG


def box_svg(box):
    """A box with its lines."""
    fill, stroke, dashes, _ = KINDS[box.kind]
    pattern = f' stroke-dasharray="{dashes}"' if dashes else ""
    ink = "#ffffff" if box.kind == "branch" else "#1c2430"
    yield (f'<rect x="{box.x:.1f}" y="{box.y:.1f}" width="{box.width:.1f}" height="{box.height:.1f}" rx="4" fill="{fill}"'
           f' stroke="{stroke}" stroke-width="1.4"{pattern}/>')
    for number, line in enumerate(box.lines):
        y = box.y + PAD + 10 + number * LINE
        weight = ' font-weight="bold"' if number == 0 and len(box.lines) > 1 else ""
        yield f'<text x="{box.x + PAD:.1f}" y="{y:.1f}" fill="{ink}"{weight}>{escape(line)}</text>'


def curve(points):
    """A path through points that leaves and reaches each of them sideways."""
    (x, y), *others = points
    parts = [f"M{x:.1f} {y:.1f}"]
    for to_x, to_y in others:
        middle = (x + to_x) / 2
        parts.append(f"C{middle:.1f} {y:.1f} {middle:.1f} {to_y:.1f} {to_x:.1f} {to_y:.1f}")
        x, y = to_x, to_y
    return " ".join(parts)


def line_between(tail, head):
    """A line from box to box: down where one stands below the other, else from side to side."""
    if abs(tail.x + tail.width / 2 - head.x - head.width / 2) < 1 or tail.x == head.x:
        x = tail.x + min(tail.width, head.width) / 2
        return f"M{x:.1f} {tail.y + tail.height:.1f} L{x:.1f} {head.y:.1f}"
    if tail.x < head.x:
        start, end = (tail.x + tail.width, tail.y + tail.height / 2), (head.x, head.y + head.height / 2)
    else:
        start, end = (tail.x, tail.y + tail.height / 2), (head.x + head.width, head.y + head.height / 2)
    return curve([start, end])


def arrow_svg(graph, arrow):
    """An arrow from box to box, through its bends."""
    tail, head = graph.boxes[arrow.tail], graph.boxes[arrow.head]
    colour, dashes, _ = ARROWS[arrow.kind]
    pattern = f' stroke-dasharray="{dashes}"' if dashes else ""
    if arrow.bends:
        way = curve([(tail.x + tail.width, tail.y + tail.height / 2), *arrow.bends, (head.x, head.y + head.height / 2)])
    else:
        way = line_between(tail, head)
    return f'<path d="{way}" fill="none" stroke="{colour}" stroke-width="1.3"{pattern} marker-end="url(#{arrow.kind})"/>'


def legend_svg(graph, y):
    """The legend in a line below, and how wide it is."""
    x, parts = MARGIN, []
    boxes, arrows = graph.legend()
    for kind in boxes:
        fill, stroke, dashes, word = KINDS[kind]
        pattern = f' stroke-dasharray="{dashes}"' if dashes else ""
        parts.append(f'<rect x="{x}" y="{y - 11}" width="22" height="14" rx="3" fill="{fill}" stroke="{stroke}"{pattern}/>')
        parts.append(f'<text x="{x + 29}" y="{y}" fill="#1c2430">{word}</text>')
        x += 29 + round(len(word) * CHARACTER) + 22
    for kind in arrows:
        colour, dashes, word = ARROWS[kind]
        parts.append(f'<path d="M{x} {y - 4} L{x + 34} {y - 4}" stroke="{colour}" stroke-width="1.3" stroke-dasharray="{dashes}"'
                     f' marker-end="url(#{kind})"/>')
        parts.append(f'<text x="{x + 42}" y="{y}" fill="#1c2430">{word}</text>')
        x += 42 + round(len(word) * CHARACTER) + 22
    return parts, x


def markers():
    """The points of arrows."""
    for kind, (colour, _, _) in ARROWS.items():
        yield (f'<marker id="{kind}" viewBox="0 0 8 8" refX="7" refY="4" markerWidth="8" markerHeight="8" orient="auto">'
               f'<path d="M0 0.8 L8 4 L0 7.2 z" fill="{colour}"/></marker>')


def svg(graph):
    """The graph as SVG, each box at its place."""
    right = max((box.x + box.width for box in graph.boxes.values()), default=0)
    bottom = max((box.y + box.height for box in graph.boxes.values()), default=0)
    parts, legend_right = legend_svg(graph, bottom + 34)
    width = max(right, legend_right, MARGIN + len(graph.title) * CHARACTER) + MARGIN
    height = bottom + (34 if parts else 0) + MARGIN
    yield (f'<svg xmlns="http://www.w3.org/2000/svg" width="{width:.0f}" height="{height:.0f}" viewBox="0 0 {width:.0f} {height:.0f}"'
           f' font-family="{FONT}" font-size="{SIZE}" role="img">')
    yield f"<title>{escape(graph.title)}</title>"
    yield "<defs>" + "".join(markers()) + "</defs>"
    yield f'<rect width="{width:.0f}" height="{height:.0f}" fill="#ffffff"/>'
    yield f'<text x="{MARGIN}" y="{MARGIN + 4}" font-weight="bold" fill="#1c2430">{escape(graph.title)}</text>'
    yield from (arrow_svg(graph, arrow) for arrow in graph.arrows)
    for box in graph.boxes.values():
        yield from box_svg(box)
    yield from parts
    yield "</svg>"


# DOT


def quoted(text):
    return '"' + text.replace("\\", "\\\\").replace('"', '\\"') + '"'


def dot(graph, direction="LR"):
    """The graph as DOT, for Graphviz."""
    numbers = {key: f"n{number}" for number, key in enumerate(graph.boxes)}
    yield f"digraph {quoted(graph.title)} {{"
    yield f'  rankdir={direction}; node [shape=box, style="filled,rounded", fontname="monospace", fontsize=11];'
    for key, box in graph.boxes.items():
        fill, stroke, dashes, _ = KINDS[box.kind]
        ink = ', fontcolor="#ffffff"' if box.kind == "branch" else ""
        style = ', style="filled,rounded,dashed"' if dashes else ""
        label = quoted("\n".join(box.lines)).replace("\n", "\\n")
        yield f'  {numbers[key]} [label={label}, fillcolor="{fill}", color="{stroke}"{style}{ink}];'
    for arrow in graph.arrows:
        colour, dashes, _ = ARROWS[arrow.kind]
        style = ", style=dashed, constraint=false" if dashes else ""
        yield f'  {numbers[arrow.tail]} -> {numbers[arrow.head]} [color="{colour}"{style}];'
    yield "}"
