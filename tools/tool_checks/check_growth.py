"""growth.py: two small rows, and that a row whose cost is quadratic fails, unless that is its documented limit, in seconds and in memory."""
import json
import os

import growth
from growth_sessions import Case, Row, lane
from tool_checks import holds, same

SMALL = ["versions", "config-rules"]


def figures(seconds, megabytes, ratio=None):
    """A row at 1,000, 2,000 and 4,000 with these costs."""
    return growth.Figures([growth.Measured(1000 * step, time, 4 + more, more, ratio) for step, time, more in zip(growth.STEPS, seconds, megabytes)])


# Rows that are made up: the seconds and megabytes at n, 2n and 4n, the limits, and what fails.
LINEAR, QUADRATIC, SMALLEST = (0.1, 0.2, 0.4), (0.1, 0.4, 1.6), (0.001, 0.004, 0.016)
CASES = [
    (LINEAR, (5, 10, 20), {}, None),
    (QUADRATIC, (5, 10, 20), {}, "seconds 2.00"),
    (SMALLEST, (5, 10, 20), {}, None),
    (LINEAR, (5, 20, 80), {}, "memory 2.00"),
    (LINEAR, (5, 10, 20), {"memory": 0.3}, "memory 1.00"),
    (LINEAR, (5, 10, 20), {"bytes_each": 6000}, None),
    (LINEAR, (5, 10, 20), {"bytes_each": 5000}, "bytes_each 5242.88"),
]


def check_verdicts():
    for seconds, megabytes, limits, wrong in CASES:
        row = Row("made up", "linear", 1000, None, **limits)
        passes, words = growth.verdict("made-up", row, figures(seconds, megabytes).told(row))
        same(f"whether {seconds}, {megabytes} with {limits} passes", passes, wrong is None)
        holds(f"{words} tells {wrong}", wrong is None or f"FAILED: {wrong}" in words)
    row = Row("made up", "linear", 1000, None, ratio=1.15)
    same("a ratio of 1.2", growth.verdict("made-up", row, figures(LINEAR, LINEAR, 1.2).told(row))[0], False)
    row = Row("made up", "linear", 1000, None)
    told = figures(QUADRATIC, LINEAR).told(row)
    for exponent, passes in ((2.0, True), (1.6, False)):
        growth.KNOWN["made-up"] = {"seconds": exponent}
        same(f"a quadratic row known with {exponent}", growth.verdict("made-up", row, told)[0], passes)
    found = growth.verdict("made-up", row, figures(LINEAR, LINEAR).told(row))
    del growth.KNOWN["made-up"]
    same("a known row that is linear", found, (True, "mended: take it off the list of known ones"))
    same("tables without a row", [name for name in {**growth.LAWS, **growth.KNOWN} if name not in growth.ROWS], [])


def saves(n):
    """As many saves as n squared."""
    return Case(run=lane(["mkview v", *["save v f\n|x"] * (n * n)]))


def check_quadratic(bench):
    """A made-up row that costs what the square of its size does, run by the program."""
    os.mkdir(bench.path("quadratic"))
    row = Row("n squared saves", "linear", 120, saves)
    _, told, passes, words = growth.carried_out(growth.Bench(bench.program, bench.path("quadratic"), 100), "made-up", row, 1.0, 1)
    holds("a quadratic row fails", not passes and words.startswith("FAILED: seconds"), (told, words))
    # Memory is counted exactly. Seconds are not: fixed costs and the tick of the clock took their exponent down to 1.53.
    holds("its memory grows as a square", told["memory"] > 1.8, (told, words))


def check(bench):
    bench.helps("growth.py")
    bench.refuses("growth.py", bench.program, "--only", "frob", status=2, told="frob")
    bench.refuses("growth.py", status=2, told="the program is missing")
    bench.refuses("growth.py", bench.program, "--scale", "0", status=2, told="0 is no positive number")
    listed = bench.answers("growth.py", "--list")
    same("the rows of --list", sum(not line.startswith(" ") for line in listed.splitlines()), len(growth.ROWS))
    check_verdicts()
    check_quadratic(bench)
    ended = bench.process("growth.py", bench.program, "--json", "--scale", "0.1", *(word for name in SMALL for word in ("--only", name)))
    rows = json.loads(ended.output)
    same("the rows that were run, and the status", ([row["row"] for row in rows], ended.status), (SMALL, 0))
    for row in rows:
        sizes, size = [one["size"] for one in row["at"]], int(growth.ROWS[row["row"]].size * 0.1)
        same(f"the sizes of {row['row']}", sizes, [size, 2 * size, 4 * size])
        holds("each run takes memory", all(0.5 < one["megabytes"] < 1000 for one in row["at"]), row)
    ended = bench.process("growth.py", "/bin/false", "--only", "versions")
    same("a program that fails", ended.status, 1)
    return f"{len(rows)} rows of {len(growth.ROWS)} run, {len(CASES)} made up"
