#!/usr/bin/env python3
"""Measures how the cost of a command grows, at each place where an old base or an odd session could make it too much.

    tools/growth.py CCBASE [--scale K] [--only NAME].. [--runs N] [--seconds S] [--json]
    tools/growth.py --list

CCBASE is the program. Each row of tools/growth_sessions.py is run at sizes n, 2n and 4n, each on a new base, in memory where there is
/dev/shm. A line a row: the sizes; user seconds and the peak of the process in megabytes; the exponents with which these grow; the
microseconds and bytes that each thing more costs; and what is found. A row that starts from an older base has that made before. What is
taken off the seconds, and off the megabytes before their exponent is computed, is what an empty session takes, or the session that the row
names, as the opening of its base.

An exponent is that of a power law from n to 4n. Below 0.02 s and 2 MB all counts as that, and below 0.1 s or 8 MB at 4n there is none.
A row fails where an exponent passes 1.3; so does one with another limit of its own: the exponent of its memory, the bytes of each thing,
or the ratio of its processor time to that of another session. Before it fails it is run again, and the least of each size counts.

Two tables below let rows pass their limit. LAWS has those whose law no algorithm mends, with the reason. KNOWN has those that are still to
be mended, one by one, each with what it measured; a mended row is taken off the list. A row in either fails where it is worse than stated
there, by 0.3 of an exponent or by a third. The status is 1 where a row fails, else 0.

--scale K    sizes K times as large; the sizes of the table take under three minutes on an idle machine
--only NAME  this row alone; may be repeated
--runs N     run each row so often at most (3), until it passes
--seconds S  end a run that has taken so many processor seconds, which then fails (100)
--json       a list of all figures
--list       the rows: what each measures, and what is wanted"""
import argparse
import ctypes
import json
import math
import os
import pathlib
import shutil
import signal
import subprocess
import sys
import tempfile
import time
from typing import NamedTuple

import tool_words
from growth_sessions import EMPTY, ROWS
from vob import VobError

# Rows whose law no algorithm mends: what it is, and why.
LAWS = {
    "branch-chain": ({"seconds": 2.0, "memory": 2.0}, "the name of a branch has the names of all before it, and each reply prints it"),
}

# Rows that are still to be mended, with what they measure today.
KNOWN = {
    "rebuilds": {"seconds": 1.8},
    "config-labels": {"bytes_each": 155},
    "specs": {"bytes_each": 12},
    "view-lives": {"bytes_each": 1434},
    "opening": {"bytes_each": 386},
    "lanes": {"ratio": 1.45},
    "lanes-busy": {"ratio": 1.7},
    "suffix-rules": {"seconds": 1.95},
    "prerequisites": {"seconds": 2.0, "memory": 1.8},
}

STEPS = 1, 2, 4
SESSIONS = "base", "less", "against", "run"
LEAST_SECONDS, TOLD_SECONDS = 0.02, 0.1
LEAST_MEGABYTES, TOLD_MEGABYTES = 2.0, 8.0
WORSE_EXPONENT, WORSE_FACTOR = 0.3, 4 / 3
IN_MEMORY = "/dev/shm"  # each row syncs the disk, so bases lie in memory where they can

# A process begins with the peak of what made it as its own. So a shell, which is small, makes the program, and ends; and its process
# comes to this one, which has declared that it takes in what its children leave (`prctl`). The program waits for that.
LAUNCH = 'ulimit -t "$4"; { read -r _ < "$5"; exec "$0" "$1" run < "$2"; } > "$3" & echo $!'
PR_SET_CHILD_SUBREAPER = 36


class Spent(NamedTuple):
    """What a run took: the processor's seconds and the peak of its memory."""

    user: float
    system: float
    megabytes: float

    def both(self):
        return self.user + self.system


class Bench:
    """The program, a folder, and how long a run may take."""

    def __init__(self, program, folder, most_seconds):
        self.program, self.folder, self.most_seconds = program, pathlib.Path(folder), most_seconds
        self.gate = self.path("gate")
        ctypes.CDLL(None).prctl(PR_SET_CHILD_SUBREAPER, 1, 0, 0, 0)
        os.mkfifo(self.gate)
        self.empty = self.least(lambda: self.run(self.written("empty", EMPTY), "none"))

    def least(self, run, times=3):
        return Spent(*map(min, zip(*(run() for _ in range(times)))))

    def path(self, name):
        return self.folder / name

    def written(self, name, lines):
        """The file of a session."""
        place = self.path(f"{name}.session")
        with open(place, "w", encoding="ascii") as file:
            file.writelines(line + "\n" for line in lines)
        return place

    def run(self, session, base, wanted=0):
        """Runs a session on a base, which ends with the status that is wanted, and answers what that took."""
        words = [self.program, self.path(base), session, self.path("replies"), str(self.most_seconds), self.gate]
        shell = subprocess.run(["sh", "-c", LAUNCH, *words], stdout=subprocess.PIPE, check=True)
        self.gate.write_text("\n")
        status, used = end_of(int(shell.stdout))
        if status != wanted:
            raise VobError(f"{session.name}: ended with {status}: {wrong_line(self.path('replies'))}")
        return Spent(used.ru_utime, used.ru_stime, used.ru_maxrss / 1024)

    def copied(self, base):
        """The name of a copy of a base; of none where there is none."""
        for end in ("", ".objects"):
            self.path(f"copy{end}").unlink(missing_ok=True)
            if self.path(base + end).exists():
                shutil.copyfile(self.path(base + end), self.path(f"copy{end}"))
        return "copy"

    def clear(self):
        for place in self.folder.iterdir():
            if place != self.gate:
                place.unlink()


def end_of(process):
    """How a process ends, and what it has used. It does not stay behind."""
    try:
        _, status, used = os.wait4(process, 0)
    except BaseException:
        os.kill(process, signal.SIGKILL)
        os.wait4(process, 0)
        raise
    return os.waitstatus_to_exitcode(status), used


def wrong_line(replies):
    """The first reply that is no success, else the last line."""
    last = "no reply"
    with open(replies, "rb") as lines:
        for line in lines:
            last = line.decode("latin-1").strip()
            if any(f" {word} " in f" {last} " for word in ("refused", "failed", "blocked", "fault")):
                break
    return last[:200]


class Busy:
    """Endless loops beside a run."""

    def __init__(self, count):
        self._count, self._loops = count, []

    def __enter__(self):
        self._loops = [subprocess.Popen(["sh", "-c", "while :; do :; done"]) for _ in range(self._count)]

    def __exit__(self, *_):
        for loop in self._loops:
            loop.kill()
            loop.wait()


class Measured(NamedTuple):
    """A row at one size."""

    size: int
    seconds: float  # of the user, without what is taken off
    megabytes: float  # the peak
    more: float  # the part of it that is above what is taken off
    ratio: float = None


def measured(bench, row, size):
    """Runs a row at one size."""
    bench.clear()
    case = row.case(size)
    sessions = {name: bench.written(name, getattr(case, name)) for name in SESSIONS if getattr(case, name) is not None}
    if "base" in sessions:
        bench.run(sessions["base"], "made")
    with Busy(row.busy):
        less = bench.run(sessions["less"], bench.copied("made")) if "less" in sessions else bench.empty
        other = bench.run(sessions["against"], bench.copied("made")) if "against" in sessions else None
        spent = bench.run(sessions["run"], bench.copied("made"), case.status)
    ratio = spent.both() / other.both() if other else None
    return Measured(size, max(spent.user - less.user, 0.0), spent.megabytes, max(spent.megabytes - less.megabytes, 0.0), ratio)


def exponent(values, least, told):
    """The power with which values grow from the first to the last size; None where the last is too small to tell."""
    if values[-1] < told:
        return None
    return math.log(values[-1] / max(values[0], least)) / math.log(STEPS[-1] / STEPS[0])


class Figures(NamedTuple):
    """A row at its three sizes."""

    at: list

    def growth(self, values):
        return (values[-1] - values[0]) / (self.at[-1].size - self.at[0].size)

    def told(self, row):
        """What is measured of a row, by name; None where it can't be told."""
        seconds, more = [one.seconds for one in self.at], [one.more for one in self.at]
        return {
            "seconds": exponent(seconds, LEAST_SECONDS, TOLD_SECONDS),
            "memory": exponent(more, LEAST_MEGABYTES, TOLD_MEGABYTES),
            "microseconds_each": self.growth(seconds) * 1e6 / row.things,
            "bytes_each": self.growth(more) * 2**20 / row.things,
            "ratio": self.at[-1].ratio,
        }

    def least(self, other):
        """The least of each size."""
        if other is None:
            return self
        return Figures([min_of(*both) for both in zip(self.at, other.at)])


def min_of(one, other):
    return Measured(one.size, *(a if a is None else min(a, b) for a, b in zip(one[1:], other[1:])))


def limits(row):
    """The greatest value of each thing that is measured."""
    wanted = {"seconds": row.seconds, "memory": row.memory, "bytes_each": row.bytes_each, "ratio": row.ratio}
    return {name: most for name, most in wanted.items() if most is not None}


def with_room(name, value):
    """The worst value that still counts as the stated one."""
    return value + WORSE_EXPONENT if name in ("seconds", "memory") else value * WORSE_FACTOR


def verdict(name, row, told):
    """What is found of a row: whether it passes, and in words."""
    law, known = LAWS.get(name, ({}, ""))[0], KNOWN.get(name, {})
    past = {what: told[what] for what, most in limits(row).items() if told[what] is not None and told[what] > most}
    allowed = {what: with_room(what, most) for what, most in {**law, **known}.items()}
    worse = [what for what, value in past.items() if value > allowed.get(what, 0)]
    if worse:
        return False, "FAILED: " + ", ".join(f"{what} {past[what]:.2f}, at most {allowed.get(what, limits(row)[what]):.2f}" for what in worse)
    if not past:
        return True, "mended: take it off the list of known ones" if known else "ok"
    kinds = ["law" if what in law else "known" for what in past]
    return True, ", ".join(f"{kind}: {what}" for kind, what in zip(kinds, past))


def carried_out(bench, name, row, scale, runs):
    """A row's figures, what they tell, and whether it passes."""
    figures = None
    for _ in range(runs):
        at = [measured(bench, row, max(int(row.size * scale), 1) * step) for step in STEPS]
        figures = Figures(at).least(figures)
        told = figures.told(row)
        passes, words = verdict(name, row, told)
        if passes:
            break
    return figures, told, passes, words


def shown(value, form="{:.2f}"):
    return "-" if value is None else form.format(value)


HEAD = f"{'row':22}{'n':>7}{'seconds':>21}{'MB':>18}{'exponents':>13}{'each us':>10}{'bytes':>9}"


def line(name, row, figures, told, words):
    seconds = "".join(f"{one.seconds:7.2f}" for one in figures.at)
    memory = "".join(f"{one.megabytes:6.0f}" for one in figures.at)
    powers = f"{shown(told['seconds']):>7}{shown(told['memory']):>6}"
    each = f"{told['microseconds_each']:10.2f}{told['bytes_each']:9.0f}"
    ratio = f"ratio {told['ratio']:.2f}, " if told["ratio"] is not None else ""
    return f"{name:22}{figures.at[0].size:7}{seconds}{memory}{powers}{each}  {ratio}{words}"


def listed():
    for name, row in ROWS.items():
        print(f"{name:22}{row.size:7}  {row.place}; wanted: {row.wanted}")
        if name in LAWS:
            print(f"{'':31}law: {LAWS[name][1]}")
        if name in KNOWN:
            print(f"{'':31}known: " + ", ".join(f"{what} {value}" for what, value in KNOWN[name].items()))
    return 0


def positive(text):
    try:
        value = float(text)
    except ValueError:
        value = 0.0
    if not 0 < value < math.inf:
        raise argparse.ArgumentTypeError(f"{text} is no positive number")
    return value


def read_words(words):
    parser = tool_words.Parser(prog="growth.py", usage=__doc__, add_help=False)
    parser.add_argument("program", nargs="?")
    parser.add_argument("--scale", type=positive, default=1.0)
    parser.add_argument("--only", action="append", choices=ROWS, metavar="NAME")
    parser.add_argument("--runs", type=tool_words.number, default=3)
    parser.add_argument("--seconds", type=tool_words.number, default=100)
    for flag in ("--json", "--list", "--help"):
        parser.add_argument(flag, action="store_true")
    read = parser.parse_args(words)
    if not (read.help or read.list or read.program):
        parser.error("the program is missing")
    if not (read.runs and read.seconds):
        parser.error("--runs and --seconds are at least 1")
    return read


def as_dictionary(name, row, figures, told, passes, words):
    return {"row": name, "place": row.place, "wanted": row.wanted, "passes": passes, "found": words, **told,
            "at": [one._asdict() for one in figures.at]}  # fmt: skip


def every_row(bench, read):
    """Runs the rows, and answers whether all pass."""
    begun, found, failed = time.monotonic(), [], []
    if not read.json:
        print(HEAD, flush=True)
    for name in read.only or ROWS:
        try:
            figures, told, passes, words = carried_out(bench, name, ROWS[name], read.scale, read.runs)
        except VobError as error:
            found, failed = found + [{"row": name, "passes": False, "found": str(error)}], failed + [name]
            if not read.json:
                print(f"{name:22}FAILED: {error}", flush=True)
            continue
        failed += [] if passes else [name]
        found.append(as_dictionary(name, ROWS[name], figures, told, passes, words))
        if not read.json:
            print(line(name, ROWS[name], figures, told, words), flush=True)
    if read.json:
        print(json.dumps(found, indent=1))
    else:
        print(f"{len(found) - len(failed)} of {len(found)} rows pass, {time.monotonic() - begun:.0f} s" + "".join(f"; {name} fails" for name in failed))
    return not failed


def main(words):
    read = read_words(words)
    if read.help:
        print(__doc__)
        return 0
    if read.list:
        return listed()
    signal.signal(signal.SIGTERM, signal.default_int_handler)  # so that loops, runs and bases do not stay behind
    room = IN_MEMORY if os.access(IN_MEMORY, os.W_OK) else None
    with tempfile.TemporaryDirectory(prefix="growth-", dir=room) as folder:
        return 0 if every_row(Bench(str(pathlib.Path(read.program).resolve()), folder, read.seconds), read) else 1


if __name__ == "__main__":
    tool_words.run(main)
