"""The reading of a base from its files, against the program: random sessions, whose rows, views, checkouts and directories have to be
told alike, and whatever else queries answer."""
import os
import random
import re
from concurrent.futures import ThreadPoolExecutor

import command_table
import vob
import vob_rows as rows
from vob_rows import join, parent
from vob_specs import date_text, lines_of

from tool_checks import Failed, holds, same

SESSIONS = 300
STEPS = 40
QUERIES = 60
VIEWS = ["v", "w", "x"]
DIRECTORIES = [".", "d", "e", "d/e"]
NAMES = ["a", "b", "c", "d", "e", "out", "two"]
PATHS = sorted({join(directory, name) for directory in DIRECTORIES for name in NAMES})
BRANCHES, LABELS = ["fix", "dev"], ["L", "M"]
MAKEFILE = "|out: a\n|\tcat a > out\n|two: out b\n|\tpp -I d out b > two\n|d/out: d/a\n|\tlink d/a > d/out"
RULES = [
    "element * CHECKEDOUT", "element * /main/LATEST", "element * .../fix/LATEST", "element * .../dev/LATEST -nocheckout",
    "element a L", "element /d/... M", "element *.c -none", "element d/? /main/1", "element * /main/fix/LATEST",
    "element e/... -none", "element * L -nocheckout", "element * /main/LATEST -mkbranch fix", "element b /main/fix/0",
    "element * /main/LATEST -time 1-Jan-2020.00:00:00", "time 31-Dec-2199.23:59:59", "end time", "# none", "",
    "element /*/a .../main/LATEST", "element ... /main/0", "element [ L", "element * L -time 32-Jan-2020.00:00:00",
]  # fmt: skip


class Sessions:
    """Random sessions, the same for the same seed."""

    def __init__(self, seed):
        self.chance = random.Random(seed)

    def path(self):
        return self.chance.choice(PATHS)

    def body(self):
        words = [f"|{self.chance.choice(['x', 'y', 'z', '#include ' + chr(34) + 'a' + chr(34)])}" for _ in range(self.chance.randrange(3))]
        return "".join(f"\n{word}" for word in words)

    def spec(self):
        lines = self.chance.choices(RULES, k=self.chance.randrange(1, 5))
        if self.chance.random() < 0.3:
            lines.append(f"element * -config {self.chance.choice(['out', 'two'])}@@{self.chance.randrange(60)}")
        return [line for line in lines] + ["element * CHECKEDOUT", "element * /main/LATEST"]

    def command(self):
        """One command."""
        chance = self.chance
        v, p, name = chance.choice("vvvwwx"), self.path(), chance.choice(NAMES)
        branch, label = chance.choice(BRANCHES), chance.choice(LABELS)
        replace = chance.choice(["", " -replace"])
        weights = [
            (12, f"checkout {v}{chance.choice(['', ' -unreserved'])} {chance.choice([p, '.', 'd', 'e'])}"),
            (10, f"mkelem {v}{chance.choice(['', ' -nco'])} {p}"),
            (5, f"mkdir {v}{chance.choice(['', ' -nco'])} {chance.choice(['d', 'e', 'd/e'])}"),
            (16, f"save {v} {p}{self.body()}"),
            (12, f"checkin {v}{chance.choice(['', ' -identical'])} {chance.choice([p, '.', 'd', 'e'])}"),
            (4, f"uncheckout {v} {chance.choice([p, '.'])}"),
            (3, f"rmname {v} {p}"),
            (4, f"mv {v} {p} {name}"),
            (3, f"rm {v} {p}"),
            (1, f"mkbrtype {branch}"),
            (1, f"mklbtype {label}"),
            (3, f"mkbranch {v}{chance.choice(['', ' -nco'])} {branch} {chance.choice([p, '.'])}"),
            (5, f"mklabel {v}{replace} {label} {chance.choice([p, '.', 'd'])}"),
            (2, f"mklabel {v}{replace} -config {chance.choice(['out', 'two', 'd/out'])} {label}"),
            (2, f"rmlabel {v} {label} {p}"),
            (2, f"mkarrow {v} {p} /main/{chance.choice(['', 'fix/'])}{chance.randrange(3)}"),
            (3, "setcs " + v + "".join(f"\n|{line}" for line in self.spec())),
            (8, f"clearmake {v} {chance.choice(['', '-u', '-V', '-J 3'])} {chance.choice(['out', 'two', 'd/out', 'out two'])}"),
            (2, f"rmdo {v} {chance.choice(['out', 'two', 'd/out'])}"),
            (1, f"scrub {chance.choice([0, 0, 1000])}"),
            (1, f"rmview {chance.choice(['', '-force '])}{v}" if not chance.randrange(4) else f"mkview {v}"),
        ]
        return chance.choices([line for _, line in weights], [weight for weight, _ in weights])[0]

    def steps(self):
        """Commands that go together more often than chance has it: a change of a file, or a new name in a directory."""
        chance = self.chance
        v, p = chance.choice("vvvwwx"), self.path()
        out = chance.choice(["", " -unreserved"])
        change = [f"save {v} {p}{self.body()}", f"checkin {v}{chance.choice(['', ' -identical'])} {p}"]
        kind = chance.random()
        if kind < 0.2:
            return [f"checkout {v}{out} {p}", *change]
        if kind < 0.35:
            return [f"checkout {v}{out} {parent(p)}", f"mkelem {v} {p}", *change, f"checkin {v} {parent(p)}"][: chance.randrange(2, 6)]
        return [self.command()]

    def begin(self):
        """Commands after which most others find something."""
        lines = ["mkview v", "mkview w", "mkbrtype fix", "mklbtype L", f"save v Makefile\n{MAKEFILE}", "checkout v .", "mkdir v d"]
        lines += [f"mkelem v {name}\nsave v {name}\n|{name}" for name in ("a", "b", "d/a")]
        return lines + ["checkin v a", "checkin v b", "checkin v d/a", "checkin v d", "checkin v .", f"save w Makefile\n{MAKEFILE}"]

    def lines(self):
        return self.begin() + [line for _ in range(STEPS) for line in self.steps()]

    def queries(self):
        """The queries of the last phase but one: each directory of each view, and others drawn."""
        lines = [f"ls {view} {path}" for view in VIEWS for path in DIRECTORIES]
        return lines + [f"lsdo {view}" for view in VIEWS] + self.chance.sample(all_queries(), QUERIES)


def all_queries():
    """What else may be asked."""
    lines = []
    for view in VIEWS:
        lines += [f"catcs {view}"]
        lines += [f"{word} {view} {path}" for word in ("ls", "describe", "lsvtree", "lshistory", "cat") for path in [".", *PATHS]]
        lines += [f"findmerge {view} . -fversion .../{branch}/LATEST" for branch in ("fix", "main")]
        lines += [f"catcr {view} {path}" for path in PATHS]
        lines += [f"covers {other} {view} {path}" for path in ("out", "two", "d/out") for other in VIEWS]
    return lines


# What a base should answer


def refused(code, name, *arguments):
    return " ".join(["refused", code, name, *map(str, arguments)]), []


class Expected:
    """What the program should answer, by the reading of the files."""

    def __init__(self, base):
        self.base = base
        self.views = {view: base.selection(view) for view in base.views}

    def answer(self, word, view, *operands):
        if view not in self.views:
            return refused("C1", "NoView")
        return getattr(self, word)(self.views[view], *operands)

    def catcs(self, seen):
        return "ok", [line.decode() for line in lines_of(seen.view.spec)]

    def lsdo(self, seen):
        held = sorted(seen.view.held.items())
        return "ok", [f"{path}@@{row} references {len(self.base.objects[row].holders)}" for path, row in held]

    def ls(self, seen, path):
        at = seen.at(path)
        if at is None or isinstance(at, vob.Unselected):
            return refused("C3", "NoPath", path)
        return ("ok", seen.ls(path)) if seen.is_directory(path) else refused("C4", "NotDirectory", path)

    def cat(self, seen, path):
        if seen.is_directory(path):
            return refused("C25", "IsDirectory", path)
        text = seen.text_at(path)
        return refused("C3", "NoPath", path) if text is None else ("ok", [line.decode() for line in lines_of(text)])

    def element(self, seen, path):
        """The element that is selected at a path, or the refusal."""
        at = seen.at(path)
        if at is None or isinstance(at, vob.Unselected):
            return None, refused("C3", "NoPath", path)
        if isinstance(at, vob.Private):
            return None, refused("C6", "NotElement", path)
        return self.base.elements[at.element], at

    def describe(self, seen, path):
        element, at = self.element(seen, path)
        if element is None:
            return at
        lines = [f"element {element.row}", f"kind {element.kind}"]
        if at.out:
            return "ok", lines + [f"checkedout from {self.base.version_name(seen.view.out[element.row].origin)}"]
        version = self.base.versions[at.row]
        return "ok", lines + [f"version {version.name}"] + [f"label {label}" for label in sorted(version.labels)]

    def branch_lines(self, path, element, branch):
        lines = [f"{path}@@{branch.path}"]
        for version in branch.versions:
            labels = f" ({', '.join(sorted(version.labels))})" if version.labels else ""
            lines.append(f"{path}@@{version.name}{labels}")
            leaving = [b for b in element.branches.values() if b.origin == version.row]
            for other in sorted(leaving, key=lambda b: b.row):
                lines += self.branch_lines(path, element, other)
        return lines

    def lsvtree(self, seen, path):
        element, at = self.element(seen, path)
        return at if element is None else ("ok", self.branch_lines(path, element, element.branches["main"]))

    def history(self, row, element):
        """What a row did to an element."""
        deed, name = row.deed, self.base.version_name
        if isinstance(deed, rows.Mkelem) and row.number == element:
            return "create element"
        if isinstance(deed, rows.Labels):
            return next((f"label {deed.label} {name(place.version)}" for place in deed.places if place.element == element), None)
        if getattr(deed, "element", None) != element:
            return None
        told = {
            rows.Branch: lambda: f"create branch {self.base.branches[row.number].path}",
            rows.Checkin: lambda: f"create version {name(row.number)}",
            rows.Label: lambda: f"label {deed.label} {name(deed.version)}",
            rows.Unlabel: lambda: f"unlabel {deed.label}",
        }.get(type(deed))
        return told() if told else None

    def lshistory(self, seen, path):
        element, at = self.element(seen, path)
        if element is None:
            return at
        found = [(row, self.history(row, element.row)) for row in reversed(self.base.rows[1:])]
        return "ok", [f"{date_text(row.moment)} {told}" for row, told in found if told]

    def catcr(self, seen, path):
        row = seen.view.held.get(path)
        if row is None:
            return refused("C20", "NoObject", path)
        found = self.base.objects[row]
        lines = [f"target {target}" for target in found.targets]
        lines += [f"script {line.decode()}" for line in lines_of(found.script)]
        return "ok", lines + [self.base.entry_line(read) for read in found.reads]

    def covers(self, seen, view, path):
        if view not in self.views:
            return refused("C1", "NoView")
        row = self.views[view].view.held.get(path)
        if row is None:
            return refused("C20", "NoObject", path)
        missing = seen.covers(row)
        return "ok", ["covered" if missing is None else f"not covered {missing}"]

    def reaches(self, one, two):
        found, stack = {one}, [one]
        while stack:
            for row in self.base.followers(stack.pop()):
                if row not in found:
                    found.add(row)
                    stack.append(row)
        return two in found

    def findmerge(self, seen, path, _, selector):
        name = selector.split("/")[1]
        element, at = self.element(seen, path)
        if element is None:
            return at
        if name != "main" and self.base.types.get(name) != "branch":
            return refused("C13", "NoType", name)
        lines = []
        for below, found in sorted(seen.walk(path), key=lambda one: one[0]):
            branch = self.base.elements[found.element].branches.get(name) if isinstance(found, vob.Selected) else None
            if branch:
                source = branch.latest()
                target = seen.view.out[found.element].origin if found.out else found.row
                if not self.reaches(source.row, target):
                    lines.append(f"{below}@@{source.name} into {below}@@{self.base.version_name(target)}")
        return "ok", lines


# The comparison


def replies_of(transcript):
    """The replies by phase and command: the word, the reply, and the lines behind it."""
    found, phase = {}, 0
    for line in transcript.split("\n")[:-1]:
        if line.startswith("phase "):
            phase = int(line[6:])
        elif line[:1].isdigit():
            number, word, reply = line.split(" ", 2)
            lines = found[phase, int(number)] = (word, reply, [])
        elif not line.startswith("lane "):
            lines[2].append(line[1:] if line.startswith("|") else line)
    return found


MADE = {"save": ("save", "put"), "mkdir": ("mkelem",), "checkout": ("checkout", "branch"), "mkbranch": ("branch",), "rmdo": ("drop",),
        "mkbrtype": ("mktype",), "mklbtype": ("mktype",), "mklabel": ("label", "labels"), "rmlabel": ("unlabel",),
        "mkarrow": ("arrow",), "clearmake": ("publish", "wink")}  # fmt: skip


def check_rows(base, replies):
    """Each row is one of a command that was answered so, and each such command has its rows."""
    of_command = {}
    for row in base.rows[1:]:
        same("the lane of a row", row.lane, 1)
        of_command.setdefault((row.phase, row.command), []).append(type(row.deed).__name__.lower())
    for key, (word, reply, lines) in replies.items():
        made = of_command.pop(key, [])
        if word == "clearmake":
            wanted = len([line for line in lines if re.match(r"  \S+ (built|winked) ", line)])
            targets = sum(len(base.objects[r.number].targets) if isinstance(r.deed, rows.Publish) else len(base.objects[r.deed.object].targets)
                          for r in base.rows[1:] if (r.phase, r.command) == key)  # fmt: skip
            same(f"the targets that the build {key} made", targets, wanted)
        else:
            makes_row = reply.startswith("ok") and reply != "ok 0" and word not in command_table.QUERIES
            same(f"the number of rows of {key} {word} {reply}", len(made), int(makes_row))
        holds(f"the deed of {word}: {made}", all(deed in MADE.get(word, (word,)) for deed in made))
    same("rows of no command", of_command, {})


def check_ends(base, replies, phase):
    """What `rmview` and `scrub` are answered tells of checkouts and of what is due."""
    word, reply, _ = replies[phase, 1]
    due = base.due(0, 1 << 40)
    same("scrub 0", (word, reply), ("scrub", f"ok {len(due)}"))
    for number, view in enumerate(VIEWS, 2):
        if view not in base.views:
            wanted = "refused C1 NoView"
        else:
            out = [checkout.row for checkout in base.checkouts if checkout.view == view]
            wanted = f"refused C21 HasCheckouts {out[0]}" if out else "ok"
        same(f"rmview {view}", replies[phase, number][1], wanted)


def base_before(whole, phase):
    """The base as its rows left it before a phase."""
    base = vob.Base()
    for row in whole.rows[1:]:
        if row.phase < phase:
            base.add(row)
    return base


def check_session(bench, seed):
    """One session: rows, views, checkouts and what queries are answered. Answers how many rows and answers were alike."""
    sessions = Sessions(seed)
    lines, asked = sessions.lines(), sessions.queries()
    phases = [lines[:40], lines[40:], asked, ["scrub 0", *(f"rmview {view}" for view in VIEWS)]]
    text = "".join(f"phase\nlane a\n" + "".join(f"{line}\n" for line in phase) for phase in phases)
    name = f"{seed}.base"
    ended = bench.run([bench.program, name, "run"], text)
    holds(f"seed {seed}: the program carried it out", ended.status in (0, 1), ended)
    replies = replies_of(ended.output)
    whole = vob.read(bench.path(name))
    check_rows(whole, replies)
    base = base_before(whole, 3)
    expected = Expected(base)
    for number, line in enumerate(asked, 1):
        _, reply, told = replies[3, number]
        same(f"seed {seed}: {line}", (reply, told), expected.answer(*line.split()))
    check_ends(base, replies, 4)
    return len(whole.rows) - 1, len(replies)


def checked(bench, seed):
    """The same, where whatever the reading of a base trips over is a failure of its session."""
    try:
        return check_session(bench, seed)
    except (LookupError, TypeError, ValueError, AttributeError, vob.VobError, vob.Unfit) as error:
        raise Failed(f"seed {seed}: {type(error).__name__} {error}") from error


def check(bench):
    with ThreadPoolExecutor(os.cpu_count()) as pool:
        found = list(pool.map(lambda seed: checked(bench, seed), range(SESSIONS)))
    made, alike = (sum(counts) for counts in zip(*found))
    return f"{SESSIONS} random sessions, {made:,} rows, {alike:,} replies alike"
