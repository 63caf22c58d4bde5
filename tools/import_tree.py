#!/usr/bin/env python3
"""Writes the sessions that import a folder into a base.

    tools/import_tree.py FOLDER SESSIONS [--base FILE] [--view V] [--except NAME] [--ccbase PROGRAM]

    tools/import_tree.py src in && ccbase demo.base run < in/1.txt
    tools/import_tree.py src in --base demo.base --ccbase ./ccbase

SESSIONS is a folder, absent or empty so far, for the sessions `1.txt`, `2.txt` and so on, each below 16 MiB, to be run in this order.
The contents of FOLDER become those of the root directory; to import several folders, name the folder that has them all.
They make the view V, `import` by default, and in it an element for each file and folder, and check all of them in. With --base only
the differences from what V sees in that base are written: new names, changed texts, and `rmname` for names that are gone. Where
nothing differs there is no session. With --ccbase the program runs the sessions on that base.

--except names a file or folder to skip wherever it is, as in `--except .git`, and may be repeated. What cannot be imported is listed,
a line each with the reason; an older version in the base stays:

    name              of other bytes than letters, digits and `_-.+`, begun with `-`, all dots, or longer than 255 bytes
    path too long     more than 1,024 bytes
    no last newline   a text is empty or ends in a newline
    too large         it does not fit into a session
    link              a symbolic link, which is not followed
    no file           a device, a socket or a pipe
    taken             the view has a view-private file or an object there, or selects no version of the element of that name

The last line has the counts. Modes and times are not kept. Ends with 0; with 1 where something cannot be imported, a command was
refused or the base cannot be used; with 2 where the words are wrong; and with 4 where the base is damaged."""
import os
import pathlib
import stat
from collections import Counter
from dataclasses import dataclass, field

import vob
from session_files import SESSION_LIMIT, SessionFiles, are_carried_out, in_one_line, shown
from vob_rows import PATH_LIMIT, VobError, is_name, join
from tool_words import Parser, run

# The longest head of a session and line of a save, its path aside.
MARGIN = 1024


@dataclass
class Folder:
    """A folder to import: its files, by where they are, its folders, and the names that cannot be imported."""

    files: dict = field(default_factory=dict)
    folders: dict = field(default_factory=dict)
    left_out: set = field(default_factory=set)


class Reader:
    """Reads a folder, and collects what cannot be imported."""

    def __init__(self, passed_over, seen):
        self.passed_over, self.seen = passed_over, seen
        self.left_out = []

    def folder(self, place, path="."):
        """The folder at a place of the system, to be imported at a path."""
        folder = Folder()
        with os.scandir(place) as entries:
            found = sorted(entries, key=lambda entry: os.fsencode(entry.name))
        for entry in found:
            if entry.name not in self.passed_over:
                self.add(folder, entry, join(path, entry.name))
        return folder

    def add(self, folder, entry, path):
        """Adds a file or folder, or notes why it cannot be imported."""
        mode = entry.stat(follow_symlinks=False).st_mode
        why = fault_of_path(entry.name, path) or self.fault_of_place(path)
        if why is None and not stat.S_ISDIR(mode):
            why = fault_of_file(entry, mode, path)
        if why is not None:
            folder.left_out.add(entry.name)
            self.left_out.append((path, why))
        elif stat.S_ISDIR(mode):
            folder.folders[entry.name] = self.folder(entry.path, path)
        else:
            folder.files[entry.name] = entry.path

    def fault_of_place(self, path):
        """Why the view cannot have an element at a path."""
        if self.seen is None:
            return None
        at = self.seen.at(path)
        taken = isinstance(at, (vob.Private, vob.Unselected)) or at is None and path in self.seen.view.held
        return "taken" if taken else None


def fault_of_path(name, path):
    """Why a base cannot have a name or its path."""
    if not is_name(name):
        return "name"
    return "path too long" if len(path) > PATH_LIMIT else None


def fault_of_file(entry, mode, path):
    """Why a file cannot be an element."""
    if stat.S_ISLNK(mode):
        return "link"
    if not stat.S_ISREG(mode):
        return "no file"
    with open(entry.path, "rb") as file:
        text = file.read(SESSION_LIMIT + 1)
    if MARGIN + len(save("", path, text)) > SESSION_LIMIT:
        return "too large"
    return "no last newline" if text and not text.endswith(b"\n") else None


def save(view, path, text):
    """The line that saves a text, with its body."""
    body = b"|" + text[:-1].replace(b"\n", b"\n|") + b"\n" if text else b""
    return f"save {view} {path}\n".encode() + body


class Changes:
    """The commands that make a view see a folder as it is; without what it sees so far, a view that sees the empty root."""

    def __init__(self, view, seen):
        self.view, self.seen = view, seen
        self.counts = Counter()

    def line(self, word, path):
        return f"{word} {self.view} {path}\n".encode()

    def old_names(self, path):
        """The names of the view's directory at a path, each with whether it is a directory itself; None where none is there. Names whose
        element the view does not select, or hides by a view-private file, are left alone."""
        if self.seen is None:
            return {} if path == "." else None
        names = self.seen.catalog(path)
        if names is None:
            return None
        below = {name: join(path, name) for name in names}
        return {name: self.seen.is_directory(at) for name, at in below.items() if isinstance(self.seen.at(at), vob.Selected)}

    def folder(self, new, path="."):
        """The commands for a folder and all that is in it, at a path."""
        old = self.old_names(path)
        gone = sorted(name for name, is_folder in (old or {}).items() if is_gone(new, name, is_folder))
        added = {name for name in (*new.files, *new.folders) if not old or name not in old or name in gone}
        self.counts["removed"] += len(gone)
        begin = self.begin(path, old is None, bool(gone or added))
        if begin:
            yield begin
        yield from (self.line("rmname", join(path, name)) for name in gone)
        yield from self.below(new, path, added)
        if added or gone:
            yield self.line("checkin", path)

    def begin(self, path, is_new, names_change):
        """The line that makes the directory, or checks it out if its names change."""
        if not is_new:
            return self.line("checkout", path) if names_change else None
        self.counts["directories"] += 1
        return self.line("mkdir", path if names_change else f"-nco {path}")

    def below(self, new, path, added):
        """The commands for what is in a folder."""
        for name in sorted((*new.files, *new.folders)):
            if name in new.folders:
                yield from self.folder(new.folders[name], join(path, name))
            else:
                yield from self.file(new.files[name], join(path, name), name in added)

    def file(self, place, path, is_new):
        """The commands for a file."""
        text = pathlib.Path(place).read_bytes()
        if is_new:
            self.counts["files"] += 1
            yield self.line("mkelem", path) if text else self.line("mkelem", f"-nco {path}")
        elif text != self.seen.text_at(path):
            self.counts["changed"] += 1
            yield self.line("checkout", path)
        else:
            return
        if text or not is_new:
            yield save(self.view, path, text) + self.line("checkin", path)


def is_gone(new, name, was_folder):
    """Whether a name is to be removed: the folder has none of the same kind. What cannot be imported stays."""
    return name not in (new.folders if was_folder else new.files) and name not in new.left_out


def what_is_seen(file, view):
    """What a view sees in the base of a file; None where there is no base or no such view."""
    if file is None or not os.path.exists(file):
        return None
    base = vob.read(file)
    if view not in base.views:
        return None
    if base.views[view].out:
        raise VobError(f"the view {view} has checkouts: check them in or cancel them first")
    return base.selection(view)


def write_sessions(given, seen, tree):
    """Writes the sessions, and answers them with the counts of what is in them."""
    changes, sessions = Changes(given.view, seen), SessionFiles(given.sessions, "import")
    if seen is None:
        sessions.add(f"mkview {given.view}\n".encode())
    for command in changes.folder(tree):
        sessions.add(command)
    sessions.close()
    return sessions.paths, changes.counts


def given_words(words):
    """What the command line says."""
    parser = Parser(description=__doc__)
    parser.add_argument("folder", metavar="FOLDER")
    parser.add_argument("sessions", metavar="SESSIONS")
    parser.add_argument("--base", metavar="FILE", help="the base to import into")
    parser.add_argument("--view", metavar="V", default="import", help="the view that imports it")
    parser.add_argument("--except", metavar="NAME", action="append", default=[], dest="passed_over", help="a name to skip")
    parser.add_argument("--ccbase", metavar="PROGRAM", help="the program, which runs the sessions on the base")
    given = parser.parse_args(words)
    if not is_name(given.view):
        parser.error(f"no name of a view: {given.view}")
    if given.ccbase and not given.base:
        parser.error("--ccbase asks for --base")
    if not os.path.isdir(given.folder):
        parser.error(f"no folder: {given.folder}")
    return given


@in_one_line
def main(words):
    given = given_words(words)
    seen = what_is_seen(given.base, given.view)
    reader = Reader(set(given.passed_over), seen)
    tree = reader.folder(given.folder)
    paths, counts = write_sessions(given, seen, tree)
    for path, why in reader.left_out:
        print(f"{why}: {shown(path)}")
    print(f"{counts['files']} files, {counts['directories']} directories, {counts['changed']} changed, {counts['removed']} removed,"
          f" {len(reader.left_out)} left out; {len(paths)} sessions", flush=True)
    carried_out = not given.ccbase or are_carried_out(given.ccbase, given.base, paths)
    return 0 if carried_out and not reader.left_out else 1


if __name__ == "__main__":
    run(main)
