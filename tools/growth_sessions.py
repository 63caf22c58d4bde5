"""The sessions that tools/growth.py measures: a `Row` for each place where a base that is old, or a session that is odd, could make a
command cost more than it should.

A generator takes a size n and answers a `Case`. Where a row is about an older base, a first session makes it, and only what comes behind
is measured: an empty session opens the base, and `less` is what else is to be taken off. No command of a session is refused and no unit
fails, so the status is 0, but where a `Case` says otherwise."""
from collections.abc import Callable
from typing import NamedTuple

import large_sessions as large

LIMIT = 1.3  # of an exponent: n log n at these sizes stays below 1.2


class Case(NamedTuple):
    """What is run for one size. Each is the lines of a session."""

    run: list  # what is measured
    base: list = None  # what makes the base before
    less: list = None  # what is run on another copy of that base, to be taken off; else an empty session without a base
    against: list = None  # what is run on another copy of that base, to be compared with
    status: int = 0  # with which `run` ends


class Row(NamedTuple):
    """A place, and what is wanted of it."""

    place: str
    wanted: str
    size: int  # n; the row is run at n, 2n and 4n
    case: Callable
    things: int = 1  # so many for each of n; time and memory are reported for one
    seconds: float = LIMIT  # the greatest exponent of the seconds
    memory: float = LIMIT  # the greatest exponent of the memory
    bytes_each: float = None  # the most bytes for each thing
    ratio: float = None  # the most seconds, user's and system's, against those of the other session
    busy: int = 0  # so many endless loops run beside


def lane(commands):
    """A session of one lane."""
    return ["phase", "lane a", *commands]


EMPTY = []


def saved(path, lines):
    """The command that saves a text of these lines."""
    return "\n".join([f"save v {path}", *(f"|{line}" for line in lines)])


def makefile(lines):
    return saved("Makefile", lines)


def numbered(letter, count):
    return [f"{letter}{number}" for number in range(count)]


def empty_files(paths):
    """The commands that make a view and files without a text, each with a version 0, in a root that is checked in."""
    return ["mkview v", "checkout v .", *(f"mkelem v -nco {path}" for path in paths), "checkin v ."]


def rules(names, *lines, needs=""):
    """A rule for each of some names, whose script is these lines."""
    return [line for name in names for line in (f"{name}: {needs}".rstrip(), *(f"\t{part}" for part in lines))]


def whole(names):
    """The first rule of a makefile, which wants all of these."""
    return "all: " + " ".join(names)


def group(names):
    """A rule whose script makes all of these, each empty but for a newline."""
    return [" ".join(names) + " &:", *(f"\techo > {name}" for name in names)]


# What ordinary use meets.


def scrubs(n):
    base = lane(large.of_records(n, 0)) + lane(["scrub 0"])
    return Case(base=base, run=lane(["scrub 0"] * 4), less=EMPTY)


def scrubbed_builds(n):
    names = numbered("o", n)
    commands = ["mkview v", makefile([whole(names), *rules(names, "echo $(NOTE) > $@")])]
    base = lane(commands + [f"clearmake v NOTE={time}" for time in range(8)]) + lane(["scrub 0"])
    return Case(base=base, run=lane(["clearmake v NOTE=8"]), less=EMPTY)


def rebuilds(n):
    files = numbered("f", 100)
    commands = ["mkview v", makefile(rules(["out"], f"cat {' '.join(files)} z > out")), *(f"save v {path}" for path in files)]
    for time in range(n):
        commands += [saved("z", [f"change {time}"]), "clearmake v"]
    return Case(run=lane(commands))


def link_builds(n):
    files, objects, links = numbered("f", n), numbered("o", 100), numbered("p", n)
    lines = ["FILES = " + " ".join(files), "OBJECTS = " + " ".join(objects), whole(links)]
    lines += rules(objects, "cat $(FILES) > $@") + rules(links, "link $(OBJECTS) > $@", needs="$(OBJECTS)")
    return lane(empty_files(files) + [makefile(lines), "clearmake v"])


def links(n):
    return Case(run=link_builds(n))


def links_opening(n):
    return Case(base=link_builds(n), run=EMPTY)


def shared_inputs(n):
    files, units = numbered("f", n), numbered("u", n)
    lines = [whole(units), *rules(units, "cat lib > $@", needs="lib"), *rules(["lib"], f"cat {' '.join(files)} > lib")]
    return Case(base=lane(empty_files(files) + [makefile(lines), "clearmake v"]), run=EMPTY)


def label_lists(files, labels):
    """A base of so many files that one object reads, and so many labels that are each put on all of them."""
    commands = empty_files(files) + [makefile(rules(["out"], f"cat {' '.join(files)} > out")), "clearmake v"]
    for label in labels:
        commands += [f"mklbtype {label}", f"mklabel v -config out {label}"]
    return lane(commands)


def histories(n):
    base = label_lists(numbered("f", n), numbered("REL", 10))
    return Case(base=base, run=lane(["lshistory v f0"] * (n // 10)), less=EMPTY)


def config_labels(n):
    return Case(base=label_lists(numbered("f", 1000), numbered("REL", n)), run=EMPTY)


def a_spec(number):
    """A config spec of 1,000 bytes, which no other number has."""
    return "".join(f"\n|element f{number + place:07} RELEASE{place:08}" for place in range(30)) + f"\n|#{'x' * 8}"


def specs(n):
    return Case(base=lane(["mkview v", *(f"setcs v{a_spec(time)}" for time in range(n))]), run=EMPTY)


def view_lives(n):
    return Case(base=lane(["mkview v", "rmview v"] * n), run=EMPTY)


def answers(n):
    text = saved("f", ["x" * 99_999] * 2)
    return Case(base=lane(["mkview v", text]), run=["phase", "lane a", "cat v f"] * n)


def opening(n):
    return Case(base=lane(large.of_commands(n, 0)), run=EMPTY)


# Lanes that reuse.


def six_lanes(n):
    """Six views wink in what a seventh has built, in a lane each, against the same in one lane."""
    commands = large.of_views(n, 0)
    cut = len(commands) - 1 - commands[::-1].index("phase")
    lanes = [line + " -J 4" if line.startswith("clearmake") else line for line in commands[cut:]]
    builds = [line for line in lanes if line.startswith("clearmake")]
    return Case(base=lane(commands[:cut]), run=lanes, against=lane(builds))


def null_builds(n):
    return Case(base=lane(large.of_views(n, 0)), run=lane(["clearmake v"]), less=EMPTY)


# Hostile or odd sessions.


def branches(path, count):
    """The commands that make so many branches of an element, none of which is checked out."""
    return [line for name in numbered("b", count) for line in (f"mkbrtype {name}", f"mkbranch v -nco {name} {path}")]


def file_branches(n):
    return Case(run=lane([*empty_files(["f"]), *branches("f", n)]))


def branches_opening(n):
    return Case(base=file_branches(n).run, run=EMPTY)


def directory_branches(n):
    """The view has not checked the directory out, which each command finds."""
    base = ["mkview v", "checkout v .", "mkdir v -nco d", "checkin v .", *branches("d", n)]
    return Case(base=lane(base), run=lane([f"mkelem v -nco d/{name}" for name in numbered("f", n)]), less=EMPTY, status=1)


def names(n):
    changes = ["mv v x y", "mv v y x"] * (n // 2)
    base = [*empty_files(["x"]), "mkview w", "checkout w -unreserved .", "checkout v -unreserved .", *changes]
    return Case(base=lane(base), run=lane(["describe w x"] * n), less=EMPTY)


def view_checkouts(n):
    base = empty_files(["f"]) + ["checkout v f", "uncheckout v f"] * n
    return Case(base=lane(base), run=lane(["rmview v", "mkview v"] * n), less=EMPTY)


def group_listing(n):
    """Another view held that group, and holds a newer one."""
    base = ["mkview v", *large.a_makefile(group(numbered("t", n))), "clearmake v", "mkview w", "clearmake w", "clearmake w -u"]
    return Case(base=lane(base), run=lane(["lsdo v"]), less=EMPTY)


def label_moves(n):
    """A base in which a label moved so often between two versions of a file."""
    commands = empty_files(["f"]) + large.new_version("v", "f", 1) + large.new_version("v", "f", 2)
    commands += ["mkview w", "setcs w\n|element f /main/1\n|element * /main/LATEST", "mklbtype REL"]
    return lane(commands + ["mklabel v -replace REL f", "mklabel w -replace REL f"] * (n // 2))


def descriptions(n):
    return Case(base=label_moves(n), run=lane(["describe v f"] * n), less=EMPTY)


def version_trees(n):
    return Case(base=label_moves(n), run=lane(["lsvtree v f"] * n), less=EMPTY)


def branch_chain(n):
    commands = empty_files(["f"])
    for name in numbered("b", n):
        commands += [f"mkbrtype {name}", f"mkbranch v -nco {name} f", f"setcs v\n|element f .../{name}/LATEST\n|element * /main/LATEST"]
    return Case(run=lane(commands))


def make_session(lines):
    """A session of one build."""
    return Case(run=lane(["mkview v", makefile(lines), "clearmake v"]))


def macro_chain(n):
    chain = [f"A{number} = $(A{number + 1})" for number in range(n)]
    return make_session([whole([]), *chain, f"A{n} =", *(f"t{number}: $(A0)" for number in range(n))])


def empty_references(n):
    return make_session([whole([]), "NONE = " + "$x" * (10 * n), *(f"t{number}: $(NONE)" for number in range(n))])


def suffix_prefixes(n):
    """Suffixes of which many begin the targets of many suffix rules, and each time all are looked through for what stands behind."""
    fronts = ["." + "a" * length for length in range(1, n // 5 + 1)]
    behind = numbered(".b", n - len(fronts))
    lines = [".SUFFIXES:", *(f".SUFFIXES: {suffix}" for suffix in fronts + behind), whole([])]
    return make_session(lines + rules([f"{fronts[-1]}{behind[number % len(behind)]}.c{number}" for number in range(n)], "echo > $@"))


def suffix_pairs(n):
    """A suffix rule for each of the suffixes, which no path needs."""
    fronts = numbered(".s", n)
    lines = [whole([]), ".SUFFIXES: .z " + " ".join(fronts)]
    return make_session(lines + rules([f"{front}.z" for front in fronts], "echo > $@"))


def suffix_rules(n):
    """Paths that none of many suffix rules for their suffix serves."""
    fronts, paths = numbered(".s", n), [f"f{number}.z" for number in range(n)]
    lines = [whole(paths), " ".join(paths) + ":", ".SUFFIXES: .z " + " ".join(fronts)]
    return make_session(lines + rules([f"{front}.z" for front in fronts], "echo > $@"))


def prerequisites(n):
    return make_session([whole(numbered("t", n)), " ".join(numbered("t", n)) + ": " + " ".join(numbered("p", n)), " ".join(numbered("p", n)) + ":"])


def targets_of_group(n):
    """Targets without a script that an older build had made together."""
    targets = numbered("t", n)
    base = ["mkview v", makefile(group(targets)), "clearmake v", makefile([whole(targets), " ".join(targets) + ":"])]
    return Case(base=lane(base), run=lane(["clearmake v"] * 10), less=EMPTY)


def comments(n):
    units = numbered("o", n)
    base = ["mkview v", makefile([whole(units), *rules(units, "echo > $@")])]
    note = "#" + "x" * 998
    return Case(base=lane(base), run=["phase", "lane a", *[note] * n, "clearmake v"], less=lane(["clearmake v"]))


def late_units(n):
    """Ten units behind 24,000 others, each of which reads n of those."""
    fronts = numbered("x", 6000)
    served = [f"{front}.{suffix}" for front in fronts for suffix in "opq"]
    late = numbered("l", 10)
    lines = [whole(["fill", *late]), *("fill: " + " ".join(served[start : start + 6000]) for start in range(0, len(served), 6000))]
    lines += ["READ = " + " ".join(served[:n]), ".SUFFIXES: .c .o .p .q", " ".join(f"{front}.c" for front in fronts) + ":"]
    lines += rules([".c.o", ".c.p", ".c.q"], "echo > $@") + rules(late, "cat $(READ) > $@", "echo $(NOTE) >> $@", needs="$(READ)")
    base = ["mkview v", makefile(lines), "clearmake v fill"]
    return Case(base=lane(base), run=lane(["clearmake v"]), less=lane(["clearmake v fill"]))


def group_builds(n):
    targets, units = numbered("t", n), numbered("u", 20)
    lines = [whole(units), *group(targets), "READ = " + " ".join(targets), *rules(units, "cat $(READ) > $@", needs="t0")]
    return lane(["mkview v", makefile(lines), "clearmake v"])


def group_readers(n):
    return Case(run=group_builds(n))


def group_readers_opening(n):
    return Case(base=group_builds(n), run=EMPTY)


def outputs(n):
    targets = numbered("t", n)
    text = saved("b", ["x" * 65_535] * 16)
    base = ["mkview v", text, makefile([" ".join(targets) + " &:", *(f"\tcat b > {target}" for target in targets)])]
    return Case(base=lane(base), run=lane(["clearmake v"]), less=EMPTY)


def config_rules(n):
    targets = numbered("t", n)
    base = empty_files(["f"]) + [makefile(group(targets)), "clearmake v"]
    row = 6  # of the object: mkview, checkout, mkelem, checkin and save come before it
    spec = [f"|element f -config {targets[-1]}@@{row}"] * n + ["|element * CHECKEDOUT", "|element * /main/LATEST"]
    base.append("\n".join(["setcs v", *spec]))
    return Case(base=lane(base), run=lane(["cat v f"] * 100), less=EMPTY)


def empty_phases(n):
    return Case(run=["phase"] * n)


# What is linear, and has to stay so.


def of_large(name):
    """The session of tools/large_sessions.py with this name."""
    return lambda n: Case(run=lane(large.SESSIONS[name][3](n, 0)))


LINEAR = "linear, as it is"

ROWS = {
    "scrubs": Row("a scrub with nothing due, after one that took n objects", "linear in n", 4000, scrubs),
    "scrubbed-builds": Row("a build of n units whose seven older objects each are scrubbed", "linear in n", 500, scrubbed_builds),
    "rebuilds": Row("a unit of 101 entries, rebuilt n times", "a build costs its own entries", 40, rebuilds),
    "links": Row("n links of 100 objects that each list n versions", "a listing is made when it is asked for, and shared", 50, links),
    "links-opening": Row("opening that base", "a listing is made when it is asked for", 50, links_opening),
    "shared-inputs": Row("opening a base in which n units read an object that lists n versions", "a few bytes for each entry of a record", 400, shared_inputs),
    "histories": Row("n/10 times lshistory of a file, beside 10 labels of n places", "what affects the element alone", 2400, histories),
    "config-labels": Row("opening n labels of 1,000 places each", "at most 48 bytes a place", 50, config_labels, things=1000, bytes_each=48),
    "specs": Row("opening a base after n times setcs with 1,000 bytes", "only specs of live views are parsed", 500, specs, things=1000, bytes_each=2.5),
    "view-lives": Row("opening a base after n lives of a view", "only specs of live views are parsed; 2.5 times the journal's bytes, which are 64 a life", 10_000, view_lives, bytes_each=160),
    "answers": Row("n phases that print 200,000 bytes each", "no memory for what was printed", 50, answers, memory=0.3),
    "opening": Row("opening a base of n mixed rows", "at most 2 microseconds a row, and 2.5 times the journal's bytes, which are 50 a row", 20_000, opening, bytes_each=125),
    "lanes": Row("six lanes with -J 4 wink in the same n objects, against one lane", "at most 1.15 times the processor time of one lane", 250, six_lanes, ratio=1.15),
    "lanes-busy": Row("the same beside four busy loops", "at most 1.15 times the processor time of one lane", 250, six_lanes, ratio=1.15, busy=4),
    "null-builds": Row("a build of n targets with nothing to do, in a base of seven views", "at most 10 microseconds a target", 500, null_builds),
    "branches": Row("n times mkbranch -nco of a file", "linear in n", 1000, file_branches),
    "branches-opening": Row("opening that base", "linear in n", 1000, branches_opening),
    "directory-branches": Row("n commands in a directory that is not out, after n times mkbranch -nco of it", "linear in n", 500, directory_branches),
    "names": Row("n looks by a view at a name in its checkout that another changed n times in its own", "linear in n", 400, names),
    "view-checkouts": Row("n times rmview of a view that had n checkouts", "linear in n", 400, view_checkouts),
    "group-listing": Row("lsdo of a group of n targets, which another view held", "linear in n", 200, group_listing),
    "descriptions": Row("n times describe of a file whose label moved n times", "linear in n", 400, descriptions),
    "version-trees": Row("n times lsvtree of a file whose label moved n times", "linear in n", 400, version_trees),
    "branch-chain": Row("a chain of n branches", "quadratic: each name contains those before it", 200, branch_chain),
    "macro-chain": Row("n rules that each use a chain of n macros", "an expansion is kept while no macro changed", 300, macro_chain),
    "empty-references": Row("n rules that each use a macro of 10n references to nothing", "an expansion is kept while no macro changed", 300, empty_references),
    "suffix-prefixes": Row("n suffix rules that n/5 of n suffixes begin", "suffixes in a map", 150, suffix_prefixes),
    "suffix-pairs": Row("n suffix rules of n suffixes", "linear in n", 800, suffix_pairs),
    "suffix-rules": Row("n paths that none of n suffix rules for their suffix serves", "suffix rules in a map", 200, suffix_rules),
    "prerequisites": Row("n targets of one rule with n prerequisites", "prerequisites are shared", 250, prerequisites),
    "targets-of-group": Row("ten builds of n targets without a script that an older build made together", "targets of a large group in a set", 1000, targets_of_group),
    "comments": Row("a build of n units behind n comments of 1,000 bytes", "a turn reads its own line", 100, comments),
    "late-units": Row("ten units behind 24,000 others, which each read n of those", "linear in n", 800, late_units),
    "group-readers": Row("20 units that read a group of n targets", "targets of a large group in a set", 750, group_readers),
    "group-readers-opening": Row("opening that base", "targets of a large group in a set", 750, group_readers_opening),
    "outputs": Row("a unit that writes n outputs of 1 MiB", "linear in n", 8, outputs),
    "config-rules": Row("100 picks by n rules -config of a group of n targets", "linear in n", 250, config_rules),
    "empty-phases": Row("n empty phases", "linear in n", 50_000, empty_phases),
    "commands": Row("n commands on n/10 files", LINEAR, 5000, of_large("commands")),
    "directory-names": Row("n names in a directory, each in a version of its own", LINEAR, 1000, of_large("names")),
    "versions": Row("n versions of a file", LINEAR, 2000, of_large("versions")),
    "labels": Row("a label on n files, and on their next versions", LINEAR, 1000, of_large("labels")),
    "entries": Row("n units with 100 entries each, built and winked in", LINEAR, 200, of_large("entries")),
}
