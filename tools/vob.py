"""Reads a base from its files alone, and tells what its rows make: an independent reading of docs/FORMATS.md and docs/MODEL.md.

    base = vob.read("demo.base")              # raises VobError where it cannot be read or is damaged
    base.rows[3].deed                         # the row of number 3; rows[0] is None, since row 0 is built in
    base.views["v"].out                       # checkouts by element; also .private, .held and .spec
    base.elements[7].branches["main"].versions
    base.text(row, path)                      # the text that a row made
    seen = base.selection("v")                # what the view v sees, of the base as it is now
    seen.at("src/a.c")                        # Private, Selected, Unselected or None
    seen.names("src"); seen.walk("."); seen.ls("."); seen.text_at("src/a.c")

Nothing is written, and no lock is taken: a program may add rows meanwhile, and `base.grow()` reads these. Rows in memory take some
1 KB each. A row is added in a time that does not grow with the base; a look at a path takes a step a name and a rule.

Texts are `bytes`; names and paths are `str`. Elements, versions, branches, checkouts and objects are named by the number of the row
that made them; the root directory is the element 0, and its version 0 row 0.
"""
from dataclasses import dataclass, field
from typing import NamedTuple, Optional

import vob_rows as rows
import vob_specs as specs
from vob_rows import Journal, NoRow, VobError, join, names_of, parent
from vob_specs import DEFAULT_SPEC, BadSpec, date_text

ROW_LIMIT = 4_000_000
RESERVED_NAMES = ("main", "LATEST", "CHECKEDOUT")


class Damaged(VobError):
    """A frame that spells no row, or whose row does not fit those before it."""

    def __init__(self, path, frame, why):
        super().__init__(f"{path}: damaged at frame {frame}: {why}")
        self.frame, self.why = frame, why


class Unfit(Exception):
    """Why a row does not fit the rows before it."""


def needs(test, why):
    if not test:
        raise Unfit(why)


# Catalogs of directories


class Catalog:
    """The names of a directory with their elements, which keeps older states: of states that come from one another one has the names
    themselves, and each other one only how it differs from the next on the way there."""

    __slots__ = ("names", "name", "element", "next")

    def __init__(self, names):
        self.names, self.name, self.element, self.next = names, None, None, None

    def dict(self):
        """The names, each with its element. Not to be changed."""
        way, at = [], self
        while at.names is None:
            way.append(at)
            at = at.next
        if len(way) > 64 and len(way) * 4 > len(at.names):
            at = Catalog(dict(at.names))  # two states far apart that are asked in turn have names of their own
        for older in reversed(way):
            names, old = at.names, at.names.get(older.name)
            put(names, older.name, older.element)
            older.names = names
            at.names, at.name, at.element, at.next = None, older.name, old, older
            at = older
        self.name, self.element, self.next = None, None, None
        return self.names

    def with_name(self, name, element):
        """The catalog that has this name for an element, or lacks it where that is None."""
        names = self.dict()
        newer = Catalog(names)
        self.names, self.name, self.element, self.next = None, name, names.get(name), newer
        put(names, name, element)
        return newer


def put(names, name, element):
    if element is None:
        names.pop(name, None)
    else:
        names[name] = element


# What rows make


@dataclass(slots=True)
class Version:
    row: int
    element: int
    branch: "BranchOf"
    number: int
    moment: int
    catalog: Optional[Catalog] = None  # of a directory
    labels: set = field(default_factory=set)

    @property
    def name(self):
        return f"{self.branch.path}/{self.number}"


@dataclass(slots=True)
class BranchOf:
    """A branch of an element, named by its row; `main` by that of the element."""

    row: int
    element: int
    name: str
    path: str
    origin: Optional[int]
    versions: list = field(default_factory=list)

    def latest(self, before=None):
        """The last version that was made before a moment."""
        for version in reversed(self.versions):
            if before is None or version.moment < before:
                return version
        return None


@dataclass(slots=True)
class Element:
    row: int
    kind: str
    directory: Optional[int]
    name: str
    branches: dict = field(default_factory=dict)

    @property
    def is_directory(self):
        return self.kind == "directory"

    def branch_behind(self, names):
        """The branch behind `main` by these names, each leaving the one before."""
        branch = self.branches.get(names[-1] if names else "main")
        return branch if branch and branch.path == "/".join(["/main", *names]) else None

    def versions(self):
        """All versions on all branches, oldest first."""
        return sorted((v for branch in self.branches.values() for v in branch.versions), key=lambda v: v.row)


@dataclass(slots=True)
class CheckoutOf:
    """A checkout that stands: the row that made it, that of its text, and the version from which it was made."""

    view: str
    element: int
    row: int
    origin: int
    reserved: bool
    making: int
    catalog: Optional[Catalog] = None


@dataclass(slots=True)
class View:
    name: str
    row: int
    spec: bytes = DEFAULT_SPEC
    out: dict = field(default_factory=dict)  # checkouts by element
    private: dict = field(default_factory=dict)  # rows of private files by path
    held: dict = field(default_factory=dict)  # objects by path

    @property
    def rules(self):
        return specs.rules_of(self.spec)


@dataclass(slots=True)
class Object:
    """A derived object, named by its row, with its configuration record."""

    row: int
    view: str
    moment: int
    targets: list
    script: bytes
    reads: list
    outputs: list
    scrubbed: Optional[int] = None  # the row of the scrub that took it
    holders: dict = field(default_factory=dict)  # how many paths each view holds it at

    @property
    def live(self):
        return self.scrubbed is None

    @property
    def size(self):
        return sum(map(len, self.outputs))

    def output(self, target):
        return self.outputs[self.targets.index(target)] if target in self.targets else None


class ArrowOf(NamedTuple):
    row: int
    element: int
    tail: int
    head: int


# What stands at a path


class Private(NamedTuple):
    row: int


class Selected(NamedTuple):
    """An element with what the view selects of it: the row (of a version, or that made the checkout's text), the line of the rule,
    and whether it is the view's checkout."""

    element: int
    row: int
    line: int
    out: bool
    rule: object


class Unselected(NamedTuple):
    element: int


class Base:
    """The rows of a base, and what they make."""

    def __init__(self):
        self.rows = [None]
        self.views, self.elements, self.versions, self.branches = {}, {}, {}, {}
        self.types, self.type_rows, self.arrows, self.objects = {}, {}, {}, {}
        self.holders = {}  # of labels: versions by label and element
        self.reservers = {}  # views by the branch that they have reserved
        self.sources = {0: None}  # the row from which a row's text is taken, where it has none of its own
        self.path, self.journal, self.damage = None, None, None
        self._make_element(0, 0, "directory", None, ".")

    # Reading

    def grow(self):
        """Reads what was added to the file since, and answers the new rows."""
        return self._take(self.journal.again())

    def _take(self, frames):
        first = len(self.rows)
        for frame, payload in frames:
            if self.damage:
                break
            try:
                self.add(rows.row_of(payload, len(self.rows), frame.place))
            except (NoRow, Unfit) as error:
                self.damage = Damaged(self.path, len(self.rows), error)
        return self.rows[first:]

    def add(self, row):
        """Adds a row, which has to fit."""
        needs(len(self.rows) < ROW_LIMIT, "a base has at most 4,000,000 rows")
        ADD[type(row.deed)](self, row, row.deed)
        self.rows.append(row)

    # Tests and small steps

    def view_of(self, name):
        needs(name in self.views, f"there is no view {name}")
        return self.views[name]

    def out_of(self, view, element):
        needs(element in self.view_of(view).out, f"the view {view} does not have the element {element} checked out")
        return self.views[view].out[element]

    def version_of(self, element, row):
        version = self.versions.get(row)
        needs(version and version.element == element, f"row {row} made no version of the element {element}")
        return version

    def _make_element(self, row, moment, kind, directory, name):
        element = self.elements[row] = Element(row, kind, directory, name)
        branch = element.branches["main"] = self.branches[row] = BranchOf(row, row, "main", "/main", None)
        self._make_version(row, moment, branch, Catalog({}) if kind == "directory" else None)

    def _make_version(self, row, moment, branch, catalog):
        version = Version(row, branch.element, branch, len(branch.versions), moment, catalog)
        branch.versions.append(version)
        self.versions[row] = version

    def _check_out(self, view, element, row, origin, reserved):
        version = self.versions[origin]
        view.out[element] = CheckoutOf(view.name, element, row, origin, reserved, row, version.catalog)
        if reserved:
            self.reservers[version.branch.row] = view.name

    def _end_checkout(self, view, element):
        checkout = view.out.pop(element)
        if checkout.reserved:
            del self.reservers[self.versions[checkout.origin].branch.row]
        return checkout

    def _hold(self, view, path, row):
        self._let_go(view, path)
        view.held[path] = row
        holders = self.objects[row].holders
        holders[view.name] = holders.get(view.name, 0) + 1

    def _let_go(self, view, path):
        row = view.held.pop(path, None)
        if row is not None:
            holders = self.objects[row].holders
            holders[view.name] -= 1
            if not holders[view.name]:
                del holders[view.name]

    def _put_label(self, label, element, version):
        old = self.holders.get((label, element))
        if old is not None:
            self.versions[old].labels.discard(label)
        self.holders[label, element] = version
        self.versions[version].labels.add(label)

    # A row of each deed: its tests, and what it makes

    def _mkview(self, row, deed):
        needs(deed.view not in self.views, f"the view {deed.view} is there already")
        self.views[deed.view] = View(deed.view, row.number)

    def _rmview(self, row, deed):
        view = self.view_of(deed.view)
        for element in list(view.out):
            self._end_checkout(view, element)
        for path in list(view.held):
            self._let_go(view, path)
        del self.views[deed.view]

    def _setcs(self, row, deed):
        view = self.view_of(deed.view)
        try:
            specs.rules_of(deed.text)
        except BadSpec as error:
            raise Unfit(str(error)) from None
        view.spec = deed.text

    def _mkelem(self, row, deed):
        checkout = self.out_of(deed.view, deed.directory)
        needs(self.elements[deed.directory].is_directory, f"the element {deed.directory} is no directory")
        needs(deed.name not in checkout.catalog.dict(), f"the directory has the name {deed.name}")
        checkout.catalog = checkout.catalog.with_name(deed.name, row.number)
        self._make_element(row.number, row.moment, deed.kind, deed.directory, deed.name)
        if deed.out:
            self._check_out(self.views[deed.view], row.number, row.number, row.number, True)

    def _checkout(self, row, deed):
        view = self.view_of(deed.view)
        needs(deed.element not in view.out, f"the view {deed.view} has the element {deed.element} checked out")
        branch = self.version_of(deed.element, deed.origin).branch
        needs(branch.latest().row == deed.origin, f"row {deed.origin} is not the latest version of its branch")
        needs(not deed.reserved or branch.row not in self.reservers, f"the branch {branch.path} is reserved")
        self._check_out(view, deed.element, row.number, deed.origin, deed.reserved)
        self.sources[row.number] = deed.origin

    def _branch(self, row, deed):
        view = self.view_of(deed.view)
        needs(deed.element not in view.out, f"the view {deed.view} has the element {deed.element} checked out")
        origin = self.version_of(deed.element, deed.origin)
        element = self.elements[deed.element]
        needs(self.types.get(deed.name) == "branch", f"there is no branch type {deed.name}")
        needs(deed.name not in element.branches, f"the element has a branch {deed.name}")
        path = f"{origin.branch.path}/{deed.name}"
        branch = BranchOf(row.number, deed.element, deed.name, path, deed.origin)
        element.branches[deed.name] = self.branches[row.number] = branch
        self._make_version(row.number, row.moment, branch, origin.catalog)
        if deed.out != "no":
            self._check_out(view, deed.element, row.number, row.number, deed.out == "reserved")
        self.sources[row.number] = deed.origin

    def _save(self, row, deed):
        checkout = self.out_of(deed.view, deed.element)
        needs(not self.elements[deed.element].is_directory, f"the element {deed.element} is a directory")
        checkout.making = row.number

    def _checkin(self, row, deed):
        checkout = self.out_of(deed.view, deed.element)
        branch = self.versions[checkout.origin].branch
        needs(self.reservers.get(branch.row, deed.view) == deed.view, f"another view has reserved {branch.path}")
        needs(branch.latest().row == checkout.origin, f"row {checkout.origin} is not the latest version of its branch")
        self._end_checkout(self.views[deed.view], deed.element)
        self._make_version(row.number, row.moment, branch, checkout.catalog)
        self.sources[row.number] = checkout.making

    def _uncheckout(self, row, deed):
        self.out_of(deed.view, deed.element)
        self._end_checkout(self.views[deed.view], deed.element)

    def _directory_out(self, view, directory, name):
        """The view's checkout of a directory, which has the name."""
        checkout = self.out_of(view, directory)
        needs(checkout.catalog and name in checkout.catalog.dict(), f"the directory {directory} lacks the name {name}")
        return checkout

    def _rmname(self, row, deed):
        checkout = self._directory_out(deed.view, deed.directory, deed.name)
        needs(checkout.catalog.dict()[deed.name] not in self.views[deed.view].out, f"{deed.name} is checked out")
        checkout.catalog = checkout.catalog.with_name(deed.name, None)

    def _mv(self, row, deed):
        checkout = self._directory_out(deed.view, deed.directory, deed.old)
        element = checkout.catalog.dict()[deed.old]
        needs(deed.new not in checkout.catalog.dict(), f"the directory has the name {deed.new}")
        checkout.catalog = checkout.catalog.with_name(deed.old, None).with_name(deed.new, element)

    def _put(self, row, deed):
        self.view_of(deed.view).private[deed.path] = row.number

    def _rm(self, row, deed):
        needs(deed.path in self.view_of(deed.view).private, f"the view has no private file at {deed.path}")
        del self.views[deed.view].private[deed.path]

    def _mktype(self, row, deed):
        needs(deed.name not in self.types and deed.name not in RESERVED_NAMES, f"the name {deed.name} is taken")
        self.types[deed.name], self.type_rows[deed.name] = deed.kind, row.number

    def _needs_label_type(self, label):
        needs(self.types.get(label) == "label", f"there is no label type {label}")

    def _label(self, row, deed):
        self._needs_label_type(deed.label)
        self.version_of(deed.element, deed.version)
        self._put_label(deed.label, deed.element, deed.version)

    def _unlabel(self, row, deed):
        needs((deed.label, deed.element) in self.holders, f"no version of the element {deed.element} has the label {deed.label}")
        self.versions[self.holders.pop((deed.label, deed.element))].labels.discard(deed.label)

    def _labels(self, row, deed):
        self._needs_label_type(deed.label)
        for place in deed.places:
            self.version_of(*place)
        for place in deed.places:
            self._put_label(deed.label, *place)

    def _arrow(self, row, deed):
        self.version_of(deed.element, deed.tail)
        self.version_of(deed.element, deed.head)
        ends = deed.tail, deed.head
        needs(deed.tail != deed.head and ends not in self.arrows, "the arrow is there, or has one version at both ends")
        self.arrows[ends] = ArrowOf(row.number, deed.element, *ends)

    def _is_entry(self, read):
        """Whether a read names the text of a file, or an output at its path, or says that nothing was there."""
        if read.row == 0:
            return True
        found = self.objects.get(read.row)
        if found:
            return read.path in found.targets
        deed = self.rows[read.row].deed if read.row < len(self.rows) else None
        element = read.row if isinstance(deed, rows.Mkelem) else getattr(deed, "element", None)
        makes_text = isinstance(deed, (rows.Mkelem, rows.Checkout, rows.Branch, rows.Save, rows.Checkin))
        return isinstance(deed, rows.Put) or makes_text and not self.elements[element].is_directory

    def _publish(self, row, deed):
        view = self.view_of(deed.view)
        for read in deed.reads:
            needs(self._is_entry(read), f"the record's entry {read.path} names row {read.row}, which made no text there")
        self.objects[row.number] = Object(
            row.number, deed.view, row.moment, deed.targets, deed.script, deed.reads, deed.outputs
        )
        for target in deed.targets:
            self._hold(view, target, row.number)

    def _wink(self, row, deed):
        view, found = self.view_of(deed.view), self.objects.get(deed.object)
        needs(found and found.live, f"row {deed.object} is no live object")
        for target in found.targets:
            self._hold(view, target, deed.object)

    def _drop(self, row, deed):
        needs(deed.view in self.views and deed.path in self.views[deed.view].held, f"the view holds no object at {deed.path}")
        self._let_go(self.views[deed.view], deed.path)

    def _scrub(self, row, deed):
        for object in deed.objects:
            found = self.objects.get(object)
            needs(found and found.live and not found.holders, f"row {object} is no live object that no view holds")
        for object in deed.objects:
            self.objects[object].scrubbed = row.number

    def _publish_at(self, row, deed):
        raise Unfit("its outputs stand in the file of objects")

    # Asking

    @property
    def labels(self):
        """The label types, in byte order, each with the versions that it stands on, by element."""
        found = {name: {} for name in sorted(self.types) if self.types[name] == "label"}
        for (label, element), version in self.holders.items():
            found[label][element] = version
        return found

    @property
    def checkouts(self):
        """All checkouts that stand, oldest first."""
        return sorted((c for view in self.views.values() for c in view.out.values()), key=lambda c: c.row)

    def text(self, row, path="."):
        """The text that a row made: the bytes; of an object its output at the path. None where it made none."""
        while row in self.sources:
            row = self.sources[row]
            if row is None:
                return None
        deed = self.rows[row].deed if row < len(self.rows) else None
        if isinstance(deed, rows.Publish):
            return self.objects[row].output(path)
        if isinstance(deed, rows.Mkelem):
            return b""
        return deed.text if isinstance(deed, (rows.Save, rows.Put)) else None

    def version_name(self, row):
        return self.versions[row].name

    def row_name(self, row, path):
        """The name of a row at a path, as `catcr` tells it."""
        if row in self.versions:
            return f"{path}@@{self.version_name(row)}"
        deed = self.rows[row].deed
        word = "private" if isinstance(deed, rows.Put) else "object" if isinstance(deed, rows.Publish) else "checkedout"
        return f"{path} {word} {row}"

    def path_made(self, element):
        """The path of an element by the names that it and its directories were made with; views may see it elsewhere."""
        found = self.elements[element]
        if found.directory is None:
            return "."
        above = []
        while found.directory is not None:
            above.append(found.name)
            found = self.elements[found.directory]
        return "/".join(reversed(above))

    def entry_line(self, read):
        """A line of a record: `read NAME`, or `absent P`."""
        return f"read {self.row_name(read.row, read.path)}" if read.row else f"absent {read.path}"

    def inputs(self, row):
        """What an object rests on in the end: the entries of its record and of the objects that it names, down to what is no object, in
        order of their paths."""
        found, seen, stack = set(), {row}, [row]
        while stack:
            for read in self.objects[stack.pop()].reads:
                if read.row not in self.objects:
                    found.add(read)
                elif read.row not in seen:
                    seen.add(read.row)
                    stack.append(read.row)
        return sorted(found)

    def listing(self, row):
        """The version of each element that the record of an object lists, by element."""
        found = {}
        for read in self.inputs(row):
            version = self.versions.get(read.row) if read.row else None
            if version:
                found[version.element] = max(read.row, found.get(version.element, 0))
        return dict(sorted(found.items()))

    def due(self, age, moment):
        """The objects that a scrub of this age at this moment takes, oldest first."""
        return [o for o in self.objects.values() if o.live and not o.holders and o.moment + age <= moment]

    def followers(self, row):
        """The versions that directly follow a version: its successor, the begins of branches that leave it, and by arrows."""
        version = self.versions[row]
        after = version.branch.versions[version.number + 1 : version.number + 2]
        branches = self.elements[version.element].branches.values()
        arrows = (arrow.head for arrow in self.arrows.values() if arrow.tail == row)
        return [v.row for v in after] + [b.row for b in branches if b.origin == row] + list(arrows)

    def selection(self, view):
        """What a view sees of the base as it is now."""
        if view not in self.views:
            raise VobError(f"there is no view {view}")
        return Selection(self, self.views[view])


ADD = {
    rows.Mkview: Base._mkview, rows.Rmview: Base._rmview, rows.Setcs: Base._setcs, rows.Mkelem: Base._mkelem,
    rows.Checkout: Base._checkout, rows.Branch: Base._branch, rows.Save: Base._save, rows.Checkin: Base._checkin,
    rows.Uncheckout: Base._uncheckout, rows.Rmname: Base._rmname, rows.Mv: Base._mv, rows.Put: Base._put, rows.Rm: Base._rm,
    rows.Mktype: Base._mktype, rows.Label: Base._label, rows.Unlabel: Base._unlabel, rows.Labels: Base._labels,
    rows.Arrow: Base._arrow, rows.Publish: Base._publish, rows.Wink: Base._wink, rows.Drop: Base._drop, rows.Scrub: Base._scrub,
    rows.PublishAt: Base._publish_at,
}  # fmt: skip


class Selection:
    """What a view sees. It keeps what it was asked, so it is one of the base as it stands: after a new row take another."""

    def __init__(self, base, view):
        self.base, self.view = base, view
        self._seen, self._rules, self._listings, self._below = {}, view.rules, {}, None

    def _find(self, rule, element):
        """The row that a rule's selector finds of an element."""
        selector, base = rule.selector, self.base
        if isinstance(selector, specs.CheckedOut):
            checkout = self.view.out.get(element.row)
            return checkout.making if checkout else None
        if isinstance(selector, specs.Labelled):
            return base.holders.get((selector.label, element.row))
        if isinstance(selector, specs.OfRecord):
            return self._listed(selector).get(element.row)
        if isinstance(selector, specs.Wherever):
            branch = element.branches.get(selector.name)
        else:
            branch = element.branch_behind(selector.names)
        if branch and isinstance(selector, specs.Numbered):
            return branch.versions[selector.number].row if selector.number < len(branch.versions) else None
        version = branch.latest(rule.before) if branch else None
        return version.row if version else None

    def _listed(self, selector):
        if selector not in self._listings:
            found = self.base.objects.get(selector.object)
            known = found is not None and selector.target in found.targets
            self._listings[selector] = self.base.listing(selector.object) if known else {}
        return self._listings[selector]

    def select(self, number, names):
        """What the first rule that decides selects of an element at the path of these names."""
        element = self.base.elements[number]
        for rule in self._rules:
            if rule.matches(names):
                if isinstance(rule.selector, specs.NoVersion):
                    break
                row = self._find(rule, element)
                if row is not None:
                    return Selected(number, row, rule.line, isinstance(rule.selector, specs.CheckedOut), rule)
        return Unselected(number)

    def at(self, path):
        """What stands at a path: Private, Selected, Unselected, or None for nothing."""
        if path not in self._seen:
            names = names_of(path)
            for length in range(len(names) + 1):
                at = "/".join(names[:length]) or "."
                if at not in self._seen:
                    self._seen[at] = self._look(at, names[:length])
        return self._seen[path]

    def _look(self, path, names):
        if not names:
            return self.select(0, names)
        catalog = self.catalog(parent(path))
        if catalog is None or len(path) > rows.PATH_LIMIT:
            return None
        if path in self.view.private:
            return Private(self.view.private[path])
        element = catalog.get(names[-1])
        return None if element is None else self.select(element, names)

    def catalog(self, path):
        """The names with their elements of the directory that is selected at a path; None where none is. Not to be changed."""
        seen = self.at(path)
        if not isinstance(seen, Selected) or not self.base.elements[seen.element].is_directory:
            return None
        chosen = self.view.out[seen.element] if seen.out else self.base.versions[seen.row]
        return chosen.catalog.dict()

    def path_of(self, element):
        """The path at which the view's directories name an element, or None where none does. Only the directory in which it was made
        and that directory's own can."""
        found = self.base.elements[element]
        if found.directory is None:
            return "."
        above = self.path_of(found.directory)
        catalog = None if above is None else self.catalog(above)
        if catalog is None:
            return None
        if catalog.get(found.name) == element:
            return join(above, found.name)
        return next((join(above, name) for name, other in catalog.items() if other == element), None)

    def is_directory(self, path):
        return self.catalog(path) is not None

    def object_at(self, path):
        """The object that the view holds at a path, where nothing else stands there."""
        return self.view.held.get(path) if self.at(path) is None else None

    def file_at(self, path):
        """The row that made the text of the file at a path: of a private file, or of a file element that is selected; else None."""
        seen = self.at(path)
        if isinstance(seen, Selected) and self.base.elements[seen.element].is_directory:
            return None
        return seen.row if isinstance(seen, (Private, Selected)) else None

    def text_at(self, path):
        """The text at a path, as `cat` tells it: of the file there, else of the view's object where nothing stands there; else None."""
        row = self.file_at(path)
        if row is None:
            row = self.object_at(path)
        return None if row is None else self.base.text(row, path)

    def names(self, path):
        """The names of the directory at a path, in byte order: of its catalog, of private files, and of the view's objects."""
        catalog = self.catalog(path)
        if catalog is None:
            raise VobError(f"{path} is no directory that the view {self.view.name} sees")
        if self._below is None:
            self._below = {}
            for other in (*self.view.private, *self.view.held):
                self._below.setdefault(parent(other), set()).add(other.rpartition("/")[2])
        own = {name for name in catalog if self.at(join(path, name)) is not None}
        return sorted(own | self._below.get(path, set()))

    def walk(self, path="."):
        """Each path at and below a path at which something stands, with what that is, a directory before its names; an object is
        given by its number."""
        stack = [path]
        while stack:
            at = stack.pop()
            seen = self.at(at)
            yield at, self.object_at(at) if seen is None else seen
            if self.is_directory(at):
                stack += [join(at, name) for name in reversed(self.names(at))]

    def line_at(self, path, name):
        """The line of `ls` for a name whose path this is."""
        base, seen = self.base, self.at(path)
        if isinstance(seen, Private):
            return f"{name} private"
        if isinstance(seen, Unselected):
            return f"{name} no version selected"
        if seen is None:
            return f"{name}@@{self.view.held[path]} object"
        if seen.out:
            return f"{name} checkedout from {base.version_name(self.view.out[seen.element].origin)} rule {seen.line}"
        return f"{name}@@{base.version_name(seen.row)} rule {seen.line}"

    def ls(self, path="."):
        """The lines of `ls` for the directory at a path."""
        return [self.line_at(join(path, name), name) for name in self.names(path)]

    def covers(self, row):
        """The first path at which the view sees another row than an object rests on, or None where it covers its record."""
        for read in self.base.inputs(row):
            if (self.file_at(read.path) or 0) != read.row:
                return read.path
        return None


def read(path, strict=True):
    """The base in a file. Where a frame of it is damaged this raises `Damaged`; with `strict` false the base then has the rows before
    that frame, and `base.damage` tells of it."""
    base = Base()
    base.path, base.journal = path, Journal(path)
    base._take(base.journal.more())
    if strict and base.damage:
        raise base.damage
    return base
