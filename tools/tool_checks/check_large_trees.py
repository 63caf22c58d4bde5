"""This repository's own tree goes in and out byte for byte, and 10,000 elements in at most 20 s of the tools' time."""
import resource
import shutil
import subprocess

from tool_checks import TOOLS, holds, same
from tool_checks.check_trees import contents

ELEMENTS, SECONDS = 10_000, 20.0


def seconds_of(work):
    """How many processor seconds the children of a call took, and its answer."""
    before = resource.getrusage(resource.RUSAGE_CHILDREN)
    answer = work()
    after = resource.getrusage(resource.RUSAGE_CHILDREN)
    return after.ru_utime + after.ru_stime - before.ru_utime - before.ru_stime, answer


def goes_through(bench, name):
    """Brings a folder in and writes it out again; answers what could not come in, and the seconds of both tools."""
    base = f"{name}.base"
    writing, told = seconds_of(lambda: bench.process("import_tree.py", name, f"{name}-in", "--base", base))
    for number in range(1, int(told.output.split()[-2]) + 1):
        with open(bench.path(f"{name}-in/{number}.txt"), "rb") as session:
            bench.session(base, session.read())
    reading, _ = seconds_of(lambda: bench.process("export_view.py", base, "import", f"{name}-out"))
    return [line.split(": ", 1)[1] for line in told.output.splitlines()[:-1]], writing, reading


def check_own_tree(bench):
    """The files that git keeps of this repository."""
    listed = subprocess.run(["git", "ls-files", "-z"], cwd=TOOLS.parent, stdout=subprocess.PIPE, check=True).stdout
    for name in listed.decode().split("\0")[:-1]:
        place = TOOLS.parent / name
        bench.write(f"own/{name}", place.read_bytes())
    left_out, _, _ = goes_through(bench, "own")
    wanted = contents(bench.path("own"))
    for path in left_out:
        holds(f"{path} lacks its last newline", not wanted.pop(path).endswith(b"\n"))
    same("this repository's tree", contents(bench.path("own-out")) == wanted, True)
    shutil.rmtree(bench.path("own-out"))
    return len(wanted)


def check_ten_thousand(bench):
    for number in range(ELEMENTS):
        bench.write(f"many/d{number // 100}/f{number}", f"text of {number}\n")
    _, writing, reading = goes_through(bench, "many")
    holds(f"10,000 elements in at most {SECONDS} s: {writing:.1f} s in, {reading:.1f} s out", max(writing, reading) <= SECONDS)
    same("10,000 elements", contents(bench.path("many-out")) == contents(bench.path("many")), True)
    return writing, reading


def check(bench):
    own = check_own_tree(bench)
    writing, reading = check_ten_thousand(bench)
    return f"{own} paths of this repository; {ELEMENTS} elements: {writing:.1f} s in, {reading:.1f} s out"
