#!/usr/bin/env python3
"""Runs GNU make over the makefiles in the tests, and says where it leaves other files than they have written down.

    tools/gnu_make_files.py [MAKE]

MAKE is the program, /usr/bin/make where it is not given. Reads the tables of crates/session_tables/data/tables/gnu_make: each case
has the saves of a view, a build, and a `cat` of each file that the build makes, with what these reply. MAKE is run with the words
of the build, and nothing of the surroundings but a PATH, in a new folder with these saves. What it leaves there beside them has
to be these files, with these texts. Prints each case that differs and how many were run; ends with 1 where one differs. It
is outside the gate."""
import pathlib
import re
import subprocess
import sys
import tempfile

TABLES = pathlib.Path(__file__).resolve().parent.parent / "crates/session_tables/data/tables/gnu_make"


def cases_of(table):
    """The cases of a table, each a session and what its last commands reply."""
    _head, *cases = table.split("====\n")
    return [case.split("----\n...\n") for case in cases]


def files_saved(session):
    """The files that a session saves, and its other commands."""
    files, others, name = {}, [], None
    for line in session.splitlines():
        if line.startswith("save v "):
            name = line.removeprefix("save v ")
            files[name] = ""
        elif line.startswith("|"):
            files[name] += line[1:] + "\n"
        elif line and not line.startswith("#"):
            others.append(line)
    return files, others


def texts_printed(replies):
    """The texts of the replies to `cat`."""
    parts = re.split(r"^\d+ cat ok\n", replies, flags=re.MULTILINE)[1:]
    return ["".join(line[1:] + "\n" for line in part.splitlines() if line.startswith("|")) for part in parts]


def parts_of(session, replies):
    """What a session saves, the words of its build, and the files that it prints."""
    saved, commands = files_saved(session)
    words = commands[0].removeprefix("clearmake v").split()
    names = [command.removeprefix("cat v ") for command in commands[1:]]
    return saved, words, dict(zip(names, texts_printed(replies), strict=True))


def files_left(make, saved, words):
    """What the program leaves beside the saved files, or what it says where it fails."""
    with tempfile.TemporaryDirectory() as place:
        folder = pathlib.Path(place)
        for name, text in saved.items():
            (folder / name).write_text(text)
        run = subprocess.run(
            [make, *words], cwd=folder, env={"PATH": "/usr/bin:/bin"},
            stdout=subprocess.DEVNULL, stderr=subprocess.PIPE, text=True, check=False,
        )
        if run.returncode or run.stderr:
            return run.stderr
        return {path.name: path.read_text() for path in folder.iterdir() if path.name not in saved}


def main():
    make = sys.argv[1] if len(sys.argv) > 1 else "/usr/bin/make"
    count, differ = 0, 0
    for source in sorted(TABLES.glob("*.txt")):
        for session, replies in cases_of(source.read_text()):
            saved, words, wanted = parts_of(session, replies)
            count += 1
            left = files_left(make, saved, words)
            if left != wanted:
                differ += 1
                print(f"{source.name}: {session!r} leaves {left!r}, not {wanted!r}")
    print(f"{count} makefiles were run, {differ} differ")
    return 1 if differ else 0


if __name__ == "__main__":
    sys.exit(main())
