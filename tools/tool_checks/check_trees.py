"""import_tree.py, export_view.py and label_tree.py: what is imported is exported byte for byte, a second import has only what changed,
and what cannot be imported is listed."""
import os
import pathlib
import shutil

from tool_checks import EXAMPLES, holds, same

EVERY_BYTE = bytes(range(256)) + b"\n|\n#x\n\r\n\n"
TEXTS = {"a/x": "one\ntwo\n", "a/b/y": "hi\n", "c/zero": "", "bytes": EVERY_BYTE, "cut": "no newline", "sp ace": "x\n"}
LEFT_OUT = ["link: link", "name: sp ace", "no file: pipe", "no last newline: cut"]
WRONG_WORDS = [
    ("import_tree.py", ("nowhere", "in"), 2, "no folder: nowhere"),
    ("import_tree.py", ("tree", "in", "--view", "a/b"), 2, "no name of a view: a/b"),
    ("import_tree.py", ("tree", "in", "--ccbase", "x"), 2, "--ccbase asks for --base"),
    ("import_tree.py", ("tree",), 2, "SESSIONS"),
    ("import_tree.py", ("tree", "tree"), 1, "tree: is not empty"),
    ("import_tree.py", ("tree", "in", "--base", "foreign"), 4, "damaged at frame 1"),
    ("export_view.py", ("no.base", "v", "out"), 1, "no.base: No such file or directory"),
    ("export_view.py", ("t.base", "nobody", "out"), 1, "there is no view nobody"),
    ("export_view.py", ("t.base", "import", "tree"), 1, "tree: is not empty"),
    ("export_view.py", ("t.base", "import", "foreign/out"), 1, "foreign/out: Not a directory"),
    ("label_tree.py", ("t.base", "import", "LATEST", "in"), 2, "no name of a label: LATEST"),
    ("label_tree.py", ("t.base", "nobody", "REL", "in"), 1, "there is no view nobody"),
]


def make_tree(bench):
    """A folder with texts of every byte, empty files and folders, and what cannot come in."""
    for name, text in TEXTS.items():
        bench.write(f"tree/{name}", text)
    os.mkdir(bench.path("tree/empty"))
    os.symlink("a", bench.path("tree/link"))
    os.mkfifo(bench.path("tree/pipe"))


def change_tree(bench):
    """The folder later: a folder less, a text more, and a file in place of a folder."""
    shutil.rmtree(bench.path("tree/c"))
    shutil.rmtree(bench.path("tree/a/b"))
    bench.write("tree/a/x", "one\ntwo\nthree\n")
    bench.write("tree/a/b", "a file now\n")
    bench.write("tree/new/n", "n\n")


def contents(folder):
    """The texts of the files of a folder, and its folders, by their paths; links and pipes aside."""
    found = {}
    for place in sorted(pathlib.Path(folder).rglob("*")):
        if not place.is_symlink() and (place.is_file() or place.is_dir()):
            found[str(place.relative_to(folder))] = place.read_bytes() if place.is_file() else None
    return found


def imported(bench, sessions, counts):
    """Brings the folder in, and checks what is listed and counted."""
    ended = bench.tool("import_tree.py", "tree", sessions, "--base", "t.base", "--ccbase", bench.program)
    same("the status and errors of an import", (ended.status, ended.errors), (1, ""))
    *listed, last = ended.output.splitlines()
    same("what cannot come in", sorted(listed), LEFT_OUT)
    same("what came in", last, counts)


def comes_out(bench, name):
    """Whether a view's folder is the one that went in."""
    bench.answers("export_view.py", "t.base", "import", name)
    wanted = contents(bench.path("tree"))
    for line in LEFT_OUT:
        wanted.pop(line.split(": ")[1], None)
    same(f"the folder {name}", contents(bench.path(name)), wanted)


def check_import(bench):
    make_tree(bench)
    imported(bench, "first", "4 files, 4 directories, 0 changed, 0 removed, 4 left out; 1 sessions")
    comes_out(bench, "out-first")
    change_tree(bench)
    imported(bench, "second", "2 files, 1 directories, 1 changed, 2 removed, 4 left out; 1 sessions")
    comes_out(bench, "out-second")
    imported(bench, "third", "0 files, 0 directories, 0 changed, 0 removed, 4 left out; 0 sessions")


def check_taken(bench):
    """A private file stands in the way, an older text stays, and a checkout is refused."""
    bench.write("tree/a/x", "cut now")
    bench.write("tree/mine", "theirs\n")
    bench.session("t.base", "phase\nlane a\nsave import mine\n|mine\n")
    ended = bench.tool("import_tree.py", "tree", "fourth", "--base", "t.base")
    listed = set(ended.output.splitlines()[:-1]) - set(LEFT_OUT)
    same("what is taken or was cut", listed, {"taken: mine", "no last newline: a/x"})
    same("nothing else changed", ended.output.splitlines()[-1], "0 files, 0 directories, 0 changed, 0 removed, 6 left out; 0 sessions")
    bench.session("t.base", "phase\nlane a\nrm import mine\ncheckout import a/x\n")
    bench.refuses("import_tree.py", "tree", "fifth", "--base", "t.base", status=1, told="the view import has checkouts")
    bench.session("t.base", "phase\nlane a\nuncheckout import a/x\n")


def check_unselected(bench):
    """A name whose element the view does not select is left alone, whether the folder has it or not."""
    bench.session("t.base", "phase\nlane a\nsetcs import\n|element bytes -none\n|element * /main/LATEST\n")
    text = pathlib.Path(bench.path("tree/bytes"))
    for sessions, listed in (("sixth", True), ("seventh", False)):
        ended = bench.tool("import_tree.py", "tree", sessions, "--base", "t.base")
        same("taken: bytes", "taken: bytes" in ended.output.splitlines(), listed)
        holds("nothing is removed", " 0 changed, 0 removed," in ended.output, ended.output)
        text.unlink(missing_ok=True)
    text.write_bytes(EVERY_BYTE)
    bench.session("t.base", "phase\nlane a\nsetcs import\n|element * CHECKEDOUT\n|element * /main/LATEST\n")


def check_labels(bench):
    """All that a view sees is labelled once, and moved only where that is said."""
    words = ("t.base", "import", "REL1")
    told = bench.answers("label_tree.py", *words, "l1", "--ccbase", bench.program)
    same("labels", told, "8 labelled, 0 not; 1 sessions\n")
    same("labels again", bench.answers("label_tree.py", *words, "l2"), "0 labelled, 0 not; 0 sessions\n")
    bench.session("t.base", "phase\nlane a\ncheckout import new/n\nsave import new/n\n|m\ncheckin import new/n\n")
    ended = bench.tool("label_tree.py", *words, "l3")
    same("a label elsewhere", (ended.status, ended.output), (1, "elsewhere: new/n\n0 labelled, 1 not; 0 sessions\n"))
    told = bench.answers("label_tree.py", *words, "l4", "--replace", "--ccbase", bench.program)
    same("a label moved", told, "1 labelled, 0 not; 1 sessions\n")


def check_objects(bench):
    """Objects are written too, and a view of them is told apart from files."""
    bench.example("project-release")
    told = bench.answers("export_view.py", "project-release.base", "release", "release")
    same("a release", told.splitlines()[-1], "9 files, 3 directories, 6 objects")
    same("what it does not select", told.splitlines()[:-1], ["not selected: README", "not selected: doc/changes", "not selected: tests"])
    greeter = pathlib.Path(bench.path("release/greeter")).read_bytes()
    holds("an object's text", greeter.startswith(b"src/main.o 36\n"), greeter)
    bench.answers("export_view.py", "project-release.base", "release", "sources", "--no-objects")
    holds("no objects", not os.path.exists(bench.path("sources/greeter")))


def check_sessions(bench):
    """The examples of a project begin with what the tool writes for its folder, and a text that fits into no session is told."""
    bench.answers("import_tree.py", str(EXAMPLES / "project"), "project")
    head = pathlib.Path(bench.path("project/1.txt")).read_text()
    examples = sorted(EXAMPLES.glob("project-*.txt"))
    same("the examples of the project", len(examples), 10)
    for example in examples:
        holds(f"{example.stem} begins with the import", example.read_text().split("\n", 1)[1].startswith(head))
    for name in ("one", "two"):
        bench.write(f"large/{name}", b"x" * 9_000_000 + b"\n")
    bench.write("large/three", b"x" * 16_777_216 + b"\n")
    ended = bench.tool("import_tree.py", "large", "parts")
    counts = "2 files, 0 directories, 0 changed, 0 removed, 1 left out; 2 sessions"
    same("large texts", (ended.status, ended.output), (1, f"too large: three\n{counts}\n"))
    sizes = [os.path.getsize(bench.path(f"parts/{n}.txt")) for n in (1, 2)]
    holds("sessions below 16 MiB", max(sizes) < 16_777_216, sizes)


def check(bench):
    for tool in ("import_tree.py", "export_view.py", "label_tree.py"):
        bench.helps(tool)
    check_import(bench)
    check_taken(bench)
    check_unselected(bench)
    check_labels(bench)
    bench.write("foreign", b"\1\1\0\0\0\xff")
    for tool, words, status, told in WRONG_WORDS:
        bench.refuses(tool, *words, status=status, told=told)
    check_objects(bench)
    check_sessions(bench)
    return f"folders in and out, {len(WRONG_WORDS)} refusals"
