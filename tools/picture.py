#!/usr/bin/env python3
"""Draws a base: SVG to standard output, or DOT.

    tools/picture.py BASE tree PATH [--view V] [--dot]    the versions of an element: branches, labels, merge arrows
    tools/picture.py BASE object ROW [--dot]              what an object was made from, down to versions and absent paths
    tools/picture.py BASE build VIEW [--dot]              the objects of a view: built, winked in or kept by its last build

    tools/picture.py demo.base tree src/main.c > main.svg

PATH is that of the view V, by default of a view with the default config spec. Long runs of versions without labels, branches and arrows
are shortened to their ends and a count. ROW is the number of an object, as `lsdo` prints it. The last build is the last one that made a row: what
a build keeps makes none, so every other object of the view counts as kept. A picture has at most 400 boxes.

The base is only read. Ends with 0; with 1 where the picture cannot be drawn, 2 where the words are wrong, and 4 where the base is
damaged."""
import vob
import vob_rows as rows
from graph_drawing import MARGIN, Arrow, Box, Graph, dot, in_layers, svg
from tool_words import Parser, run
from vob_rows import VobError, is_path
from vob_specs import DEFAULT_SPEC

BOX_LIMIT = 400
COLUMN = 40
STEP = 18


def checked(graph):
    """A graph that is small enough to be looked at."""
    if len(graph.boxes) > BOX_LIMIT:
        raise VobError(f"the picture would have {len(graph.boxes)} boxes, and has at most {BOX_LIMIT}")
    return graph


# The versions of an element


def element_at(base, path, view):
    """The element at a path of a view, or of a view with the first config spec."""
    seen = base.selection(view) if view else vob.Selection(base, vob.View("", 0, DEFAULT_SPEC))
    at = seen.at(path)
    if not isinstance(at, (vob.Selected, vob.Unselected)):
        raise VobError(f"{path}: no element there")
    return base.elements[at.element]


def drawn_versions(base, element):
    """The versions that are drawn, oldest first: those at the ends of branches, and those with a label, a branch or an arrow."""
    ends = {end for arrow in base.arrows.values() if arrow.element == element.row for end in (arrow.tail, arrow.head)}
    origins = {branch.origin for branch in element.branches.values()}
    kept = []
    for branch in element.branches.values():
        last = len(branch.versions) - 1
        for version in branch.versions:
            is_end = version.number in (0, 1, last - 1, last)
            if is_end or version.labels or version.row in ends | origins:
                kept.append(version)
    return sorted(kept, key=lambda version: version.row)


def columns(graph, element):
    """The left edge of each branch's column: main first, then the branches in the order in which they were made."""
    x, found = MARGIN, {}
    for branch in sorted(element.branches.values(), key=lambda branch: branch.row):
        found[branch.row] = x
        x += max(box.width for key, box in graph.boxes.items() if column_of(graph, key) == branch.row) + COLUMN
    return found


def column_of(graph, key):
    """The branch in whose column a box is: its own, or that of the version."""
    return key[1] if key[0] == "branch" else graph.branch_of[key]


class TreeGraph(Graph):
    """A graph of versions, with the branch of each, and the last number that is drawn on each branch."""

    def __init__(self, title):
        super().__init__(title)
        self.branch_of, self.drawn = {}, {}


def tree_picture(base, path, view):
    """The versions of an element, a column a branch, from the oldest at the top."""
    element = element_at(base, path, view)
    graph = TreeGraph(f"{path}, element {element.row}")
    for branch in element.branches.values():
        graph.boxes["branch", branch.row] = Box((branch.name,), "branch")
    for version in drawn_versions(base, element):
        add_version(graph, version)
    add_tree_arrows(graph, base, element)
    place_tree(checked(graph), element)
    return graph


def add_version(graph, version):
    """The box of a version, below one that counts the versions left out before it."""
    branch = version.branch.row
    left_out = version.number - graph.drawn.get(branch, -1) - 1
    graph.drawn[branch] = version.number
    labels = (f"({', '.join(sorted(version.labels))})",) if version.labels else ()
    boxes = {"version": Box((version.name, f"row {version.row}", *labels), "version")}
    if left_out:
        boxes = {"more": Box((f".. {left_out} versions ..",), "more"), **boxes}
    for kind, box in boxes.items():
        graph.boxes[version.row, kind] = box
        graph.branch_of[version.row, kind] = branch


def add_tree_arrows(graph, base, element):
    """An arrow from each version to its next one, from the origin of a branch to that, and of each merge."""
    for branch in element.branches.values():
        chain = [key for key in graph.boxes if column_of(graph, key) == branch.row]
        graph.arrows += [Arrow(one, two) for one, two in zip(chain, chain[1:])]
        if branch.origin is not None:
            graph.arrows.append(Arrow((branch.origin, "version"), ("branch", branch.row)))
    for arrow in base.arrows.values():
        if arrow.element == element.row:
            graph.arrows.append(Arrow((arrow.tail, "version"), (arrow.head, "version"), "merge"))


def place_tree(graph, element):
    """Gives each version its place: its branch's column, below what was made before it."""
    left = columns(graph, element)
    y = MARGIN + 30
    for key in in_order(graph):
        box = graph.boxes[key]
        box.x = left[column_of(graph, key)]
        box.y = y
        y += box.height + STEP


def in_order(graph):
    """The boxes from the top: each branch directly above its first version."""
    begun = set()
    for key in graph.boxes:
        branch = ("branch", column_of(graph, key))
        if key != branch:
            if branch not in begun:
                begun.add(branch)
                yield branch
            yield key


# Records


def source_box(base, read):
    """The box of an entry that is no object."""
    if not read.row:
        return Box((f"absent {read.path}",), "absent")
    return Box((base.row_name(read.row, read.path),), "version" if read.row in base.versions else "unshared")


def object_box(found, kind="object"):
    """The box of an object."""
    return Box((*found.targets, f"row {found.row}, {found.size} bytes"), kind)


def key_of(base, read):
    """The key of an entry's box: an object's number, else the path and the row."""
    return read.row if read.row in base.objects else read


def add_entries(graph, base, row):
    """An arrow from an object to each entry of its record. Boxes are made for those that are no objects."""
    for read in base.objects[row].reads:
        key = key_of(base, read)
        if key is read:
            graph.boxes.setdefault(read, source_box(base, read))
        graph.arrows.append(Arrow(row, key))


def object_picture(base, row):
    """What an object rests on: its record's entries, and those of the objects among them."""
    if row not in base.objects:
        raise VobError(f"row {row} made no object")
    graph = Graph(f"What {base.objects[row].targets[0]}@@{row} was made from")
    stack = [row]
    while stack:
        at = stack.pop()
        if at in graph.boxes:
            continue
        graph.boxes[at] = object_box(base.objects[at])
        add_entries(graph, base, at)
        stack += [read.row for read in base.objects[at].reads if read.row in base.objects]
    in_layers(checked(graph), [row])
    return graph


def last_build(base, view):
    """What the view's last build that made a row made: the objects that it built, and those that it winked in."""
    built, winked, last = set(), set(), None
    for row in reversed(base.rows[1:]):
        of_view = isinstance(row.deed, (rows.Publish, rows.PublishAt, rows.Wink)) and row.deed.view == view
        command = (row.phase, row.lane, row.command, row.moment)
        if of_view and last in (None, command):
            last = command
            if isinstance(row.deed, rows.Wink):
                winked.add(row.deed.object)
            else:
                built.add(row.number)
        elif last is not None and row.lane == last[1] and command != last:
            break
    return built, winked


def build_picture(base, view):
    """What a view holds, in the colours of what its last build did, and what their records read."""
    if view not in base.views:
        raise VobError(f"there is no view {view}")
    held = sorted(set(base.views[view].held.values()))
    if not held:
        raise VobError(f"the view {view} holds no object")
    built, winked = last_build(base, view)
    graph = Graph(f"Objects of the view {view} after its last build")
    for row in held:
        kind = "built" if row in built else "winked" if row in winked else "kept"
        graph.boxes[row] = object_box(base.objects[row], kind)
    for row in held:
        add_held_entries(graph, base, row)
    heads = {arrow.head for arrow in graph.arrows}
    in_layers(checked(graph), [row for row in held if row not in heads])
    return graph


def add_held_entries(graph, base, row):
    """An arrow from a held object to each entry of its record that was there."""
    for read in base.objects[row].reads:
        if read.row:
            key = key_of(base, read)
            if key not in graph.boxes:
                graph.boxes[key] = source_box(base, read) if key is read else object_box(base.objects[key])
            graph.arrows.append(Arrow(row, key))


# The command line


def given_words(words):
    """What the command line says."""
    parser = Parser(description=__doc__)
    parser.add_argument("base", metavar="BASE")
    parser.add_argument("subject", choices=("tree", "object", "build"))
    parser.add_argument("name", metavar="PATH|ROW|VIEW")
    parser.add_argument("--view", metavar="V", help="for tree: the view whose path it is")
    parser.add_argument("--dot", action="store_true", help="writes DOT in place of SVG")
    given = parser.parse_args(words)
    if given.view and given.subject != "tree":
        parser.error("--view goes with tree")
    if given.subject == "tree" and not is_path(given.name):
        parser.error(f"no path: {given.name}")
    if given.subject == "object" and not (given.name.isascii() and given.name.isdecimal()):
        parser.error(f"no row: {given.name}")
    return given


def main(words):
    given = given_words(words)
    base = vob.read(given.base)
    if given.subject == "tree":
        graph = tree_picture(base, given.name, given.view)
    elif given.subject == "object":
        graph = object_picture(base, int(given.name))
    else:
        graph = build_picture(base, given.name)
    direction = "TB" if given.subject == "tree" else "LR"
    for line in dot(graph, direction) if given.dot else svg(graph):
        print(line)
    return 0


if __name__ == "__main__":
    run(main)
