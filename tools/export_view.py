#!/usr/bin/env python3
"""Writes what a view sees to a folder, its objects too.

    tools/export_view.py BASE VIEW FOLDER [--no-objects]

FOLDER is absent or empty so far. It gets a folder for each directory and a file for each text: of the version or checkout that the
view selects, of its view-private files and, where nothing else is, of the objects that it references. Listed are

    not selected      a name of whose element the view selects no version
    not seen          an object at a path that a file hides, or whose directory is gone

The last line has the counts. The base is only read. Ends with 0; with 1 where the base cannot be used, 2 where the words are wrong, and
4 where the base is damaged."""
import os

import vob
from session_files import in_one_line, new_folder
from vob_rows import VobError
from tool_words import Parser, run


class Export:
    """Writes what a view sees, and collects what it does not write."""

    def __init__(self, seen, folder, with_objects):
        self.seen, self.folder, self.with_objects = seen, folder, with_objects
        self.counts = {"files": 0, "directories": 0, "objects": 0}
        self.unselected, self.held = [], set()

    def write(self):
        for path, at in self.seen.walk():
            if isinstance(at, vob.Unselected):
                self.unselected.append(path)
            elif self.seen.is_directory(path):
                self.add_directory(path)
            elif isinstance(at, int):
                self.held.add(path)
                self.add_object(path)
            else:
                self.add_text(path, "files")

    def place(self, path):
        return os.path.join(self.folder, path)

    def add_directory(self, path):
        if path != ".":
            os.mkdir(self.place(path))
            self.counts["directories"] += 1

    def add_object(self, path):
        if self.with_objects:
            self.add_text(path, "objects")

    def add_text(self, path, kind):
        with open(self.place(path), "wb") as file:
            file.write(self.seen.text_at(path))
        self.counts[kind] += 1

    def left_out(self):
        """The lines that list what was not written."""
        yield from (f"not selected: {path}" for path in self.unselected)
        if self.with_objects:
            yield from (f"not seen: {path}" for path in sorted(set(self.seen.view.held) - self.held))


@in_one_line
def main(words):
    parser = Parser(description=__doc__)
    parser.add_argument("base", metavar="BASE")
    parser.add_argument("view", metavar="VIEW")
    parser.add_argument("folder", metavar="FOLDER")
    parser.add_argument("--no-objects", action="store_true", help="writes no objects")
    given = parser.parse_args(words)
    seen = vob.read(given.base).selection(given.view)
    if not seen.is_directory("."):
        raise VobError(f"the view {given.view} selects no version of the root")
    export = Export(seen, new_folder(given.folder), not given.no_objects)
    export.write()
    for line in export.left_out():
        print(line)
    print(f"{export.counts['files']} files, {export.counts['directories']} directories, {export.counts['objects']} objects")
    return 0


if __name__ == "__main__":
    run(main)
