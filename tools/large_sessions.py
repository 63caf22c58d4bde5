#!/usr/bin/env python3
"""Prints a large session, to time ccbase on.

    tools/large_sessions.py NAME [SIZE [SEED]]

    large_sessions.py versions 50000 > half.txt;  time ccbase half.base run < half.txt | tail -1
    large_sessions.py versions > whole.txt;       time ccbase whole.base run < whole.txt | tail -1

NAME says what is large, SIZE how large: the size of the table below where none is given. What costs a look-up the same however large a
base is takes twice the time at twice the size. No command of a session is refused, so the status is 0; each session wants a
base of its own, but for `again`, which goes on with the base of one that builds, and `changes`. The same NAME, SIZE and SEED (0
where none is given) give the same session; only `commands` and `changes` draw.

    NAME      SIZE      the session
    commands  100000    so many commands: files in directories of 10, and then files drawn to be changed and labelled
    changes   100000    so many commands more, which change and label files drawn among the first 1,000, on the base of `commands`
    names     10000     a directory with so many names, each added in a version of its own
    depth     40        a path of so many directories, and 1,000 versions of the file at its end
    versions  100000    a file with so many versions, and a view that selects one in the middle
    rules     1000      a config spec of so many rules, of which the last decides on all, and 1,000 versions that it selects
    labels    10000     a label on each of so many files, and then on the next version of each
    views     1000      seven views that build the same so many targets, each from a version of its own
    entries   9999      so many units, each of which reads the same 100 versions, built by two views
    records   100000    so many live objects of one target, each of another script, and ten builds that wink in the oldest ones
    again     1         so many builds of the view `v` with nothing to do, on the base that `views` or `entries` left

So `commands` has ten files for each hundred commands, 10,000 in 1,000 directories at its full size. A further build
with nothing to do costs the time of `again 2` less that of `again 1`; `again 1` less that is the opening of the base, and what
the first build of a run looks up besides."""
import sys


def draws(seed):
    """Numbers below 2^31, the same for the same seed."""
    x = seed
    while True:
        x = (x * 6364136223846793005 + 1442695040888963407) % 2**64
        yield x >> 33


def new_version(view, path, text):
    """The commands that make a version with a text of one line."""
    return [f"checkout {view} {path}", f"save {view} {path}\n|{text}", f"checkin {view} {path}"]


def new_file(view, path, text):
    """The commands that make a file with a first version, in a directory that is out."""
    return [f"mkelem {view} {path}", f"save {view} {path}\n|{text}", f"checkin {view} {path}"]


def folder_of(number):
    """The directory of a file, each of which has ten."""
    return f"d{number // 10}"


def files(size):
    """The commands that make so many files, in directories of ten, and their paths."""
    paths = [f"{folder_of(n)}/f{n}" for n in range(size)]
    commands = ["mkview v", "checkout v ."]
    for number, path in enumerate(paths):
        if number % 10 == 0:
            commands.append(f"mkdir v {folder_of(number)}")
        commands += new_file("v", path, f"first of {number}")
        if number % 10 == 9 or number == size - 1:
            commands.append(f"checkin v {folder_of(number)}")
    return commands + ["checkin v ."], paths


def a_change(path, number):
    """The commands that give a file a version with a text by this number, and move the label to it."""
    return new_version("v", path, f"at command {number}") + [f"mklabel v -replace REL {path}"]


def of_commands(size, seed):
    """Files and directories, and then changes and labels of files that are drawn: so many commands, or up to three more."""
    commands, paths = files(max(size // 10, 1))
    commands.append("mklbtype REL")
    numbers = draws(seed)
    while len(commands) < size:
        commands += a_change(paths[next(numbers) % len(paths)], len(commands))
    return commands


def of_changes(size, seed):
    """Changes and labels of files that are drawn, on the base that `commands` left."""
    numbers = draws(seed)
    commands = []
    while len(commands) < size:
        number = next(numbers) % 1000
        commands += a_change(f"{folder_of(number)}/f{number}", len(commands))
    return commands


def of_names(size, _seed):
    """A directory that grows by a name in each of its versions."""
    commands = ["mkview v", "checkout v .", "mkdir v d", "checkin v d", "checkin v ."]
    for number in range(size):
        commands += ["checkout v d", f"mkelem v -nco d/f{number}", "checkin v d"]
    return commands + [f"cat v d/f{size - 1}"]


def a_makefile(lines):
    """The commands that bring in a makefile of these lines, in a root that is not out."""
    body = "".join(f"\n|{line}" for line in lines)
    return ["checkout v .", "mkelem v Makefile", f"save v Makefile{body}", "checkin v Makefile", "checkin v ."]


def targets(count):
    """The names of so many targets."""
    return [f"o{number}" for number in range(count)]


def of_views(size, _seed):
    """Seven views: the first builds a target from each of so many files, and then the others, whose lanes run at once, wink these in."""
    commands, paths = files(size)
    rules = [line for name, path in zip(targets(size), paths) for line in (f"{name}: {path}", f"\tcat {path} > {name}")]
    commands += a_makefile(["all: " + " ".join(targets(size))] + rules)
    commands += [f"mkview v{number}" for number in range(1, 7)] + ["phase", "lane b", "clearmake v", "phase"]
    for number in range(1, 7):
        commands += [f"lane b{number}", f"clearmake v{number}"]
    return commands


def of_entries(size, _seed):
    """Units that read the same hundred files, built by one view and then winked in by another."""
    commands, paths = files(100)
    rules = [line for name in targets(size) for line in (f"{name}:", f"\tcat $(ALL) > {name}")]
    commands += a_makefile(["ALL = " + " ".join(paths), "all: " + " ".join(targets(size))] + rules)
    return commands + ["mkview w", "phase", "lane b", "clearmake v", "phase", "lane c", "clearmake w"]


def of_records(size, _seed):
    """Objects of one target that differ in a macro, and builds of another view that look through all of them."""
    commands = ["mkview v"] + a_makefile(["out:", "\techo $(NOTE) > out"])
    commands += [f"clearmake v -u NOTE={number}" for number in range(size)] + ["mkview w"]
    return commands + [f"clearmake w NOTE={number}" for number in range(min(size, 10))]


def of_again(size, _seed):
    """Builds of a view that has built all."""
    return ["clearmake v"] * size


def of_depth(size, _seed):
    """Directories in one another, and changes of the file in the last."""
    folders = ["/".join(["d"] * depth) for depth in range(1, size + 1)]
    path = "/".join(["d"] * size + ["f"])
    commands = ["mkview v", "checkout v ."] + [f"mkdir v {folder}" for folder in folders]
    commands += new_file("v", path, "first") + [f"checkin v {folder}" for folder in reversed(folders)] + ["checkin v ."]
    for number in range(1000):
        commands += new_version("v", path, f"change {number}")
    return commands + [f"cat v {path}"]


def of_versions(size, _seed):
    """A file with many versions, seen at its latest and in the middle."""
    commands = ["mkview v", "checkout v ."] + new_file("v", "f", "first") + ["checkin v ."]
    for number in range(2, size + 1):
        commands += new_version("v", "f", number)
    spec = f"|element f /main/{size // 2}\n|element * /main/LATEST"
    return commands + ["cat v f", f"setcs v\n{spec}", "cat v f"]


def of_rules(size, _seed):
    """A config spec whose rules all match and find nothing, but for the last."""
    commands = ["mkview v", "checkout v ."] + new_file("v", "f", "first") + ["checkin v ."]
    spec = [f"|element * REL{number}" for number in range(size - 1)] + ["|element * /main/LATEST"]
    commands.append("\n".join(["setcs v"] + spec))
    for number in range(1000):
        commands += new_version("v", "f", f"change {number}")
    return commands + ["cat v f"]


def of_labels(size, _seed):
    """Files that are all labelled, changed and labelled again."""
    commands, paths = files(size)
    commands.append("mklbtype REL")
    commands += [f"mklabel v REL {path}" for path in paths]
    for path in paths:
        commands += new_version("v", path, "second")
    return commands + [f"mklabel v -replace REL {path}" for path in paths]


# What is large: its full size, its least size, its greatest one, and its commands.
SESSIONS = {
    "commands": (100_000, 10, None, of_commands),
    "changes": (100_000, 1, None, of_changes),
    "names": (10_000, 1, None, of_names),
    "depth": (40, 1, 511, of_depth),
    "versions": (100_000, 2, None, of_versions),
    "rules": (1_000, 1, None, of_rules),
    "labels": (10_000, 1, None, of_labels),
    "views": (1_000, 1, 9_999, of_views),
    "entries": (9_999, 1, 9_999, of_entries),
    "records": (100_000, 1, None, of_records),
    "again": (1, 1, None, of_again),
}


def main():
    words = sys.argv[1:]
    if not 1 <= len(words) <= 3 or words[0] not in SESSIONS or not all(word.isdecimal() for word in words[1:]):
        sys.exit(__doc__)
    full, least, most, commands = SESSIONS[words[0]]
    size, seed = (int(words[1]) if len(words) > 1 else full), (int(words[2]) if len(words) > 2 else 0)
    if size < least or (most is not None and size > most):
        sys.exit(f"{words[0]}: from {least} on" + (f", at most {most}" if most is not None else ""))
    for line in ["phase", "lane a"] + commands(size, seed):
        print(line)


if __name__ == "__main__":
    main()
