"""look.py: what it tells, against what the program answers."""
import hashlib
import json
import os
import re
import resource
import subprocess
import sys

from tool_checks import TOOLS, holds, same
from tool_checks.spelling import journal, large, payload

ELEMENTS, SECONDS = 10_000, 2.0

# Two builds of one target: bob's by another version of `in` below another object.
DIFFERING = """phase
lane a
mkview ann
checkout ann .
mkelem ann Makefile
save ann Makefile
|top: mid
|\tcat mid > top
|mid: in
|\tcat in > mid
checkin ann Makefile
mkelem ann in
save ann in
|one
checkin ann in
checkin ann .
mkview bob
clearmake ann top
checkout ann in
save ann in
|two
checkin ann in
clearmake bob top
"""
WRONG_WORDS = [
    ((), 2, "the following arguments are required"),
    (("no.base", "rows"), 1, "no.base: No such file or directory"),
    ((".", "rows"), 1, ".: Is a directory"),
    (("d.base", "frob"), 2, "invalid choice: 'frob'"),
    (("d.base", "row"), 2, "ROW"),
    (("d.base", "row", "x"), 2, "x is no number"),
    (("d.base", "row", "0"), 1, "there is no row 0: the base has rows 1 to 17"),
    (("d.base", "row", "18"), 1, "there is no row 18"),
    (("d.base", "record", "3"), 1, "row 3 is no object"),
    (("d.base", "checkouts", "eve"), 1, "there is no view eve"),
    (("d.base", "due", "0", "--at", "today"), 1, "today is no date"),
    (("d.base", "why", "12", "1"), 1, "row 1 is no object"),
]


def lines_of_query(bench, base, query):
    """The lines of a query's text."""
    out = bench.session(base, f"phase\nlane a\n{query}\n")
    return [line[1:] for line in out.split("\n") if line.startswith("|")]


def check_records(bench):
    """Records, why two differ, and what a scrub would take."""
    bench.session("d.base", DIFFERING)
    catcr = lines_of_query(bench, "d.base", "catcr bob top")
    objects = {line.split()[1]: int(line.split()[0]) for line in bench.answers("look.py", "d.base", "objects").split("\n")[:2]}
    held = dict(line.split(" ")[0].split("@@") for line in lines_of_query(bench, "d.base", "lsdo bob"))
    same("record", bench.answers("look.py", "d.base", "record", held["top"]).split("\n")[:-1], catcr)
    deep = bench.answers("look.py", "d.base", "record", "-r", held["top"]).split("\n")[:-1]
    same("record -r", deep, catcr + ["  " + line for line in lines_of_query(bench, "d.base", "catcr bob mid")])
    one, two = objects["top"], held["top"]
    wanted = [
        f"top: objects {one} and {two} read other rows at mid",
        f"  < mid object {objects['mid']}",
        f"  > mid object {held['mid']}",
        f"mid: objects {objects['mid']} and {held['mid']} read other rows at in",
        "  < in@@/main/1",
        "  > in@@/main/2",
    ]
    same("why", bench.answers("look.py", "d.base", "why", one, two).split("\n")[:-1], wanted)
    same("due 0, of objects that are held", bench.answers("look.py", "d.base", "due", "0"), "0 objects, 0 bytes\n")
    bench.session("d.base", "phase\nlane a\nrmview ann\n")
    same("due 0", bench.answers("look.py", "d.base", "due", "0").split("\n")[-2], "2 objects, 8 bytes")
    same("due, too young", bench.answers("look.py", "d.base", "due", "1000000"), "0 objects, 0 bytes\n")
    same("scrub 0", "1 scrub ok 2" in bench.session("d.base", "phase\nlane a\nscrub 0\n"), True)
    same("due 0 behind a scrub", bench.answers("look.py", "d.base", "due", "0"), "0 objects, 0 bytes\n")


def check_lists(bench):
    """Views, types, checkouts, arrows, and rows as JSON."""
    merging = bench.example("merging-a-branch")
    same("types", bench.answers("look.py", merging, "types"), "branch fix row 7 on 1 element\n")
    same("arrows", bench.answers("look.py", merging, "arrows"), "row 15 in@@/main/fix/1 into in@@/main/2\n")
    bench.session(merging, "phase\nlane a\ncheckout ann .\ncheckout ann in\nmkelem ann new\nmv ann new old\n")
    found = json.loads(bench.answers("look.py", "--json", merging, "checkouts", "ann"))
    told = [(one["row"], one["path"], one["origin"], one["reserved"]) for one in found]
    same("checkouts", told, [(16, ".", "/main/1", True), (17, "in", "/main/2", True), (18, "old", "/main/0", True)])
    same("checkouts of bob", bench.answers("look.py", merging, "checkouts", "bob"), "")
    views = bench.answers("look.py", merging, "views").split("\n")
    same("views", views[0], "ann row 1, 3 checkouts, 0 private files, 0 objects, default config spec")
    found = json.loads(bench.answers("look.py", merging, "rows", "--json"))
    same("rows", [(one["row"], one["deed"]) for one in found[-2:]], [(18, "mkelem"), (19, "mv")])
    same("row", json.loads(bench.answers("look.py", merging, "row", 4, "--json"))["fields"]["text"], "one\n")


def check_check(bench):
    """Digests as a build told them, bytes that are foreign, and a damaged frame."""
    base = "s.base"
    out = bench.session(base, DIFFERING)
    told = set(re.findall(r"^  (\S+) built (\d+) ([0-9a-f]{64})$", out, re.M))
    text = bench.answers("look.py", base, "check")
    same("digests", set(re.findall(r"^object \d+ (\S+) (\d+) ([0-9a-f]{64})$", text, re.M)), told)
    whole = open(bench.path(base), "rb").read()
    frames = re.match(r"frames (\d+), ([\d,]+) bytes, sha256 ([0-9a-f]{64})\n", text)
    same("the end of the frames", int(frames[2].replace(",", "")), len(whole) - 1)
    same("the digest of the frames", frames[3], hashlib.sha256(whole[:-1]).hexdigest())
    bench.write("f.base", whole[:-1] + b"hello, world\n")
    said = bench.run([bench.program, "f.base", "run"], b"").errors
    holds("the program tells of 13 foreign bytes", f"at row {frames[1]}; the 13 bytes after it are not rows" in said, said)
    holds("check reports them", "after them 13 bytes, foreign" in bench.answers("look.py", "f.base", "check"))
    bench.write("c.base", whole[:-10])
    holds("a frame cut short", "as after a row or a crash" in bench.answers("look.py", "c.base", "check"))
    return whole


def check_damage(bench, whole):
    """A frame that spells no row, and a row that does not fit: the same frame as the program tells."""
    second = 5 + int.from_bytes(whole[1:5], "little")
    twice = payload(1, "mkview", "ann")
    for name, data in [
        ("no-row", whole[: second + 5] + b"\xff" + whole[second + 6 :]),
        ("no-fit", whole[:second] + b"\1" + len(twice).to_bytes(4, "little") + twice + b"\0"),
    ]:
        bench.write(name, data)
        ended = bench.run([bench.program, name, "run"], b"")
        same(f"{name}: the program", (ended.status, ended.output), (4, "damaged 2\n"))
        ended = bench.tool("look.py", name, "rows")
        same(f"{name}: look.py", (ended.status, ended.output.count("\n"), ended.errors.count("\n")), (4, 1, 1))
        holds(f"{name}: the frame", "damaged at frame 2" in ended.errors, ended.errors)


def check_follow(bench):
    """Rows that a session adds while they are followed."""
    words = [sys.executable, str(TOOLS / "look.py"), "g.base", "follow", "--seconds", "300", "--json"]
    bench.session("g.base", "phase\nlane a\nmkview v\n")
    with subprocess.Popen(words, cwd=bench.folder, stdout=subprocess.PIPE, text=True) as following:
        lines = [following.stdout.readline()]
        bench.session("g.base", "phase\nlane a\nsave v a\n|x\nsave v b\n")
        lines += [following.stdout.readline() for _ in range(2)]
        following.terminate()
    same("follow", [json.loads(line)["deed"] for line in lines], ["mkview", "put", "put"])


def check_speed(bench):
    """The processor time of a look at a base of many elements."""
    bench.write("small.base", journal(large(200)))
    opened = bench.session("small.base", "phase\nlane a\nls v d1\n")
    same("the program reads such a base", opened.count("rule 2"), 100)
    bench.write("large.base", journal(large(ELEMENTS)))
    dearest = 0.0
    for words in (["rows"], ["views"], ["checkouts"], ["check"]):
        before = resource.getrusage(resource.RUSAGE_CHILDREN)
        same(f"look.py {words[0]}", bench.process("look.py", "large.base", *words).status, 0)
        after = resource.getrusage(resource.RUSAGE_CHILDREN)
        dearest = max(dearest, after.ru_utime + after.ru_stime - before.ru_utime - before.ru_stime)
    holds(f"a look at {ELEMENTS:,} elements takes at most {SECONDS} s of processor time", dearest <= SECONDS, f"{dearest:.1f} s")
    return f"{ELEMENTS:,} elements in {dearest:.1f} s"


def check(bench):
    bench.helps("look.py")
    check_records(bench)
    bench.session("w.base", DIFFERING)
    os.replace(bench.path("w.base"), bench.path("d.base"))
    for words, status, told in WRONG_WORDS:
        bench.refuses("look.py", *words, status=status, told=told)
    check_lists(bench)
    check_damage(bench, check_check(bench))
    check_follow(bench)
    return f"records, lists, digests, damage, rows that come; {check_speed(bench)}"
