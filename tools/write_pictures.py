#!/usr/bin/env python3
"""Draws the pictures of docs/pictures anew, by picture.py, from bases that sessions of examples/ leave.

    tools/write_pictures.py CCBASE            writes them; CCBASE is the built program
    tools/write_pictures.py CCBASE --check    ends with 1 where one is not what the tool draws, and names it"""
import pathlib
import subprocess
import sys
import tempfile

TOP = pathlib.Path(__file__).resolve().parent.parent
FOLDER = TOP / "docs/pictures"

# The picture, the example whose base it is of, and the words of picture.py.
PICTURES = (
    ("tree", "project-merge", ("tree", "src/main.c")),
    ("object", "project-audit", ("object", "60")),
    ("build", "project-nightly", ("build", "bob")),
)


def drawn(program, example, words):
    """The picture of the base that an example leaves."""
    with tempfile.TemporaryDirectory() as folder:
        base = str(pathlib.Path(folder) / "base")
        session = (TOP / "examples" / f"{example}.txt").read_bytes()
        subprocess.run([program, base, "run"], input=session, stdout=subprocess.DEVNULL, check=False)
        tool = [sys.executable, TOP / "tools/picture.py", base, *words]
        return subprocess.run(tool, stdout=subprocess.PIPE, check=True).stdout


def main():
    words = sys.argv[1:]
    if words == ["--help"]:
        print(__doc__)
        return 0
    if not words or words[1:] not in ([], ["--check"]):
        print("usage: write_pictures.py CCBASE [--check]", file=sys.stderr)
        return 2
    FOLDER.mkdir(exist_ok=True)
    wrong = 0
    for name, example, subject in PICTURES:
        path, picture = FOLDER / f"{name}.svg", drawn(words[0], example, subject)
        if len(words) == 1:
            path.write_bytes(picture)
        elif not path.is_file() or path.read_bytes() != picture:
            wrong += 1
            print(f"docs/pictures/{name}.svg: not what the tool draws")
    return 1 if wrong else 0


if __name__ == "__main__":
    sys.exit(main())
