#!/usr/bin/env python3
"""Runs ccbase at its edge to the system, and checks its status, its output and its errors to the byte.

Usage: check_edge.py CCBASE

CCBASE is the built program: `rt run` in crates/ccbase makes it, as out/ccbase there. Each check runs it in a new folder:

- standard output closed, standard error closed, both: no byte that is printed gets into the base;
- two programs at once on one base: the second is refused, and every acknowledged row is there afterwards;
- a session that is still being written: the base is not held meanwhile;
- foreign bytes in FILE: they are reported before the first row overwrites them, and not where no row can be written;
- a damaged FILE: the row is reported, no file is touched, and none is made beside it;
- a FILE that cannot be opened, words of no form, a text that is no session or too long, an input that cannot be read: one line says
  why, and no file is made;
- a FILE that may grow no more: the short write is reported, where the system's signal for it is ignored, and every
  acknowledged row is there in any case.

Where strace is here and may trace, also:

- the calls on a new base are those of the model, file by file: both files, the folder of the first, and for each row a write, a
  sync, a write and a sync, all before its reply is written; also for a base in another folder, and for a link as FILE;
- each of these calls fails in turn, is interrupted, and moves no byte: a failure ends with 7, and afterwards the base has the
  rows that were acknowledged, and no other;
- each call before the first write on foreign bytes fails in turn: they stay;
- a base that is moved away while a call fails, and another made under its name: each program writes its own;
- no random numbers: words of no form are reported all the same.

Prints a line for each check that passed, and ends with 1 at the first thing that is wrong.
"""
import collections
import os
import re
import signal
import struct
import subprocess
import sys
import tempfile
import time

from kill_and_reopen import MKVIEW, PUT, fail, frames, row, session
from system_calls import OUTPUT, can_trace, injecting, traced, without_tracer

SAVES = 2000
EMPTY = (0, b"", b"")
IN_USE = (7, b"disk fault\n", b"ccbase: b: in use by another program\n")
USAGE = b"usage: ccbase FILE run | ccbase FILE verify | ccbase FILE big SEED SIZE | ccbase FILE sites (see ccbase --help)\n"

# A session of two phases, its rows, and its transcript phase by phase.
PHASES = b"phase\nlane a\nmkview v\nsave v p\n|one\nphase\nlane a\nsave v q\n|two\n"
PHASE_ROWS = [
    ((1, 1, 1), MKVIEW, (b"v",)),
    ((1, 1, 2), PUT, (b"v", b"p", b"one\n")),
    ((2, 1, 1), PUT, (b"v", b"q", b"two\n")),
]
REPLIES = [b"phase 1\nlane a\n1 mkview ok\n2 save ok\n", b"phase 2\nlane a\n1 save ok\n"]


def foreign_line(name, row, count):
    """The line on foreign bytes."""
    ends = f"the base ends at row {row}; the {count} bytes after it are not rows, and the next commit overwrites them"
    return f"ccbase: {name}: {ends}\n".encode()


def transcript(saves):
    """The replies to a session of so many saves."""
    lines = ["phase 1", "lane a", "1 mkview ok"] + [f"{n + 2} save ok" for n in range(saves)]
    return ("\n".join(lines) + "\n").encode()


class Edge:
    """The program, run in a folder of its own."""

    def __init__(self, program, folder):
        self.program, self.folder = program, folder

    def path(self, name):
        return os.path.join(self.folder, name)

    def read(self, name):
        with open(self.path(name), "rb") as file:
            return file.read()

    def write(self, name, data):
        with open(self.path(name), "wb") as file:
            file.write(data)

    def start(self, words, text=None, descriptors="", before="", tracer=()):
        """Starts the program; `descriptors` is what a shell writes to close or direct them, `before` what it does first, and the
        the words of a tracer come first. Without a text its input stays open."""
        with tempfile.TemporaryFile() as given:
            given.write(text or b"")
            given.seek(0)
            return subprocess.Popen(
                ["sh", "-c", f'{before} exec "$0" "$@" {descriptors}', *tracer, self.program, *words],
                cwd=self.folder,
                stdin=subprocess.PIPE if text is None else given,
                stdout=subprocess.PIPE,
                stderr=subprocess.PIPE,
            )

    def end(self, process, text=None):
        """The status, the output and the errors of a program that was started."""
        output, errors = process.communicate(text)
        return process.returncode, output, without_tracer(errors)

    def run(self, words, text, descriptors="", before="", tracer=()):
        return self.end(self.start(words, text, descriptors, before, tracer))

    def has(self, words, text, wanted, descriptors=""):
        """Runs the program, which has to end so."""
        same(" ".join(words), self.run(words, text, descriptors), wanted)

    def has_rows(self, name, rows):
        """Checks that a base has these rows, and that it opens."""
        same(f"the rows of {name}", [row(payload) for payload in frames(self.read(name))], rows)
        self.has([name, "run"], b"", EMPTY)

    def holds(self, name, rows):
        """Checks that a base has these rows, a gate byte 0 after them and nothing more, and that it opens."""
        data = self.read(name)
        same(f"the end of {name}", data[sum(5 + len(payload) for payload in frames(data)) :], b"\0")
        self.has_rows(name, rows)

    def has_none_but(self, names):
        """Checks which files the folder has."""
        same("the files", sorted(os.listdir(self.folder)), sorted(names))


def same(what, found, wanted):
    if found != wanted:
        fail(f"{what}: found {str(found)[:600]}, wanted {str(wanted)[:600]}")


def closed_output(edge):
    text, rows = session(1, 20)
    for name, closed, status, errors in [
        ("output", ">&-", 6, b"ccbase: standard output: a write failed\n"),
        ("errors", "2>&-", 0, b""),
        ("both", ">&- 2>&-", 6, b""),
    ]:
        edge.has([name, "run"], text, (status, transcript(20) if status == 0 else b"", errors), closed)
        edge.holds(name, rows)


def closed_errors_and_foreign_bytes(edge):
    text, rows = session(1, 20)
    edge.write("b", b"hello, world\n")
    edge.has(["b", "run"], text, (0, transcript(20), b""), "2>&-")
    edge.holds("b", rows)


def two_programs(edge):
    sessions = [session(number, SAVES) for number in (1, 2)]
    started = [edge.start(["b", "run"], text) for text, _ in sessions]
    ended = [edge.end(process) for process in started]
    whole = (0, transcript(SAVES), b"")
    kept = [rows for (_, rows), found in zip(sessions, ended) if found == whole]
    for found in ended:
        if found not in (whole, IN_USE):
            fail(f"two programs at once: found {str(found)[:600]}")
    if not kept:
        fail("two programs at once: neither was carried out")
    data = edge.read("b")
    found = [row(payload) for payload in frames(data)]
    if found not in (kept[0] + sum(kept[1:], []), sum(kept[1:], []) + kept[0]):
        fail("two programs at once: the rows are not those that were acknowledged")
    edge.holds("b", found)
    return f"{len(kept)} of 2 carried out, {len(found)} rows"


def held_base(edge):
    text, rows = session(1, SAVES)
    first = edge.start(["b", "run"], text)
    while not os.path.exists(edge.path("b")) or not frames(edge.read("b")):
        if first.poll() is not None:
            fail("a held base: the first program ended too early")
    second = edge.run(["b", "run"], session(2, 1)[0])
    running = first.poll() is None
    same("the first program", edge.end(first), (0, transcript(SAVES), b""))
    if running:
        same("the second program", second, IN_USE)
        edge.holds("b", rows)
    return "the second came while the first ran" if running else "the first ended before the second was tried"


def waiting_session(edge):
    waits = edge.start(["b", "run"])
    text, rows = session(1, 3)
    edge.has(["b", "run"], text, (0, transcript(3), b""))
    more, more_rows = session(2, 3)
    same("the session that waited", edge.end(waits, more), (0, transcript(3), b""))
    edge.holds("b", rows + more_rows)


def foreign_bytes(edge):
    text, rows = session(1, 20)
    edge.write("b", b"hello, world\n")
    edge.has(["b", "run"], b"", (0, b"", foreign_line("b", 0, 13)))
    same("a foreign file that nothing was written to", edge.read("b"), b"hello, world\n")
    edge.has(["b", "run"], text, (0, transcript(20), foreign_line("b", 0, 13)))
    edge.holds("b", rows)
    whole = edge.read("b")
    edge.write("behind", whole[:-1] + b"hello, world\n")
    more, more_rows = session(2, 20)
    edge.has(["behind", "run"], more, (0, transcript(20), foreign_line("behind", 21, 13)))
    edge.holds("behind", rows + more_rows)


def rows_cut_short(edge):
    text, rows = session(1, 1)
    edge.has(["b", "run"], text, (0, transcript(1), b""))
    whole = edge.read("b")
    size = len(frames(whole)[-1])
    for left in range(len(whole)):
        edge.write("cut", whole[:left])
        edge.has(["cut", "run"], b"", EMPTY)
    staged = whole[: -(size + 6)] + b"\0" + whole[-(size + 5) :]
    edge.write("staged", staged)
    edge.has(["staged", "run"], b"", EMPTY)
    edge.write("more", staged + b"\0")
    edge.has(["more", "run"], b"", (0, b"", foreign_line("more", 1, size + 7)))


def files_that_cannot_be_opened(edge):
    text, _ = session(1, 1)
    os.mkdir(edge.path("d"))
    for name, words in [("nope/x", b"No such file or directory"), ("d", b"Is a directory")]:
        edge.has([name, "run"], text, (7, b"disk fault\n", b"ccbase: " + name.encode() + b": " + words + b"\n"))
    edge.has_none_but(["d"])


def words_of_no_form(edge):
    text, _ = session(1, 1)
    for words in [], ["b"], ["b", "walk"], ["b", "run", "more"], ["b", "verify", "more"], ["b", "big", "1", "0"], ["b", "sites", "more"]:
        edge.has(words, text, (2, b"bad words\n", USAGE))
    wanted = (2, b"bad words\n", b"ccbase: a word is not UTF-8 (see ccbase --help)\n")
    same("a word that is not UTF-8", edge.run([b"\xff", b"run"], text), wanted)
    edge.has_none_but([])


def words_that_ask(edge):
    status, text, errors = edge.run(["--help"], b"")
    same("--help", (status, text.splitlines()[0], errors), (0, b"ccbase FILE run", b""))
    for word in ["-h", "help"]:
        edge.has([word], b"", (0, text, b""))
    edge.has(["--version"], b"", (0, b"ccbase 0.1.0\n", b""))
    edge.has_none_but([])


def input_that_cannot_be_read(edge):
    wanted = (5, b"read fault\n", b"ccbase: standard input: a read failed\n")
    edge.has(["b", "run"], b"", wanted, "< .")
    edge.has_none_but([])


def no_session(edge):
    text = b"phase\nlane a\nfrob v\n"
    errors = b"ccbase: standard input: line 3: no such command\n"
    wanted = (3, b"bad session 3 UnknownCommand\n", errors)
    edge.has(["b", "run"], text, wanted)
    edge.has_none_but([])
    edge.write("b", b"hello, world\n")
    edge.has(["b", "run"], text, wanted)
    edge.has_none_but(["b"])
    same("a foreign file", edge.read("b"), b"hello, world\n")


def damaged_base(edge):
    text, _ = session(1, 3)
    edge.has(["b", "run"], text, (0, transcript(3), b""))
    whole = edge.read("b")
    payloads = frames(whole)
    start = sum(5 + len(payload) for payload in payloads[:2]) + 5
    damaged = whole[:start] + b"\xff" + whole[start + 1 :]
    edge.write("b", damaged)
    os.remove(edge.path("b.objects"))
    errors = b"ccbase: b: row 3 is damaged; nothing was run or changed\n"
    edge.has(["b", "run"], text, (4, b"damaged 3\n", errors))
    same("a damaged base", edge.read("b"), damaged)
    edge.has_none_but(["b"])


def too_long_a_session(edge):
    wanted = (9, b"too long\n", b"ccbase: standard input: it has more than 16,777,216 bytes\n")
    edge.has(["b", "run"], b"#" * 16_777_217, wanted)
    edge.has_none_but([])


def file_that_may_not_grow(edge):
    """A file may have one block. The write that would pass it is cut short, and the next one fails."""
    text, rows = session(1, 40)
    edge.has(["ignored", "run"], b"", EMPTY)
    status, output, errors = edge.run(["ignored", "run"], text, before="trap '' XFSZ; ulimit -f 1;")
    same("a file that may not grow", (status, errors), (7, b"ccbase: ignored: File too large\n"))
    kept = acknowledged(output, rows)
    if not 0 < len(kept) < len(rows):
        fail(f"a file that may not grow: {len(kept)} rows are acknowledged")
    edge.has_rows("ignored", kept)
    edge.has(["killed", "run"], b"", EMPTY)
    status, _, errors = edge.run(["killed", "run"], text, before="ulimit -f 1;")
    same("a file that may not grow, with its signal", (status, errors), (-signal.SIGXFSZ, b""))
    edge.has_rows("killed", kept)
    return f"{len(kept)} of {len(rows)} rows"


def acknowledged(output, rows):
    """The rows of these whose commands a transcript answers by `ok`."""
    phase, found = 0, set()
    for line in output.decode().splitlines():
        if line.startswith("phase "):
            phase = int(line.split()[1])
        reply = re.fullmatch(r"(\d+) \w+ ok", line)
        if reply:
            found.add((phase, 1, int(reply[1])))
    return [kept for kept in rows if kept[0] in found]


def commits(file, data):
    """The calls that commit the rows of a journal: for each a write, a sync, a write, and a sync."""
    place, calls = 0, []
    for payload in frames(data):
        behind = struct.pack("<I", len(payload)) + payload + b"\0"
        calls.append(("pwrite64", file, place + 1, behind))
        calls.append(("fdatasync", file))
        calls.append(("pwrite64", file, place, b"\1"))
        calls.append(("fdatasync", file))
        place += 5 + len(payload)
    return calls


def opening(name):
    """The calls that open a file of a base."""
    return [(call, name) for call in ("openat", "flock", "fdatasync")]


def calls_on(edge, name, file, folder):
    """Runs the session on a new base, and checks the calls: FILE has this name, and is made as this file in this folder."""
    found, calls = traced(edge.program, [name, "run"], PHASES, edge.folder)
    same("a traced run", found, (0, b"".join(REPLIES), b""))
    rows = commits(file, edge.read(file))
    wanted = opening(file) + opening(name + ".objects") + [("openat", folder), ("fsync", folder)]
    wanted += [("pwrite64", file, 0, b"\0"), ("fdatasync", file)]
    wanted += rows[:8] + [("write", OUTPUT, None, REPLIES[0])] + rows[8:] + [("write", OUTPUT, None, REPLIES[1])]
    same("the calls", [call for call in calls if call[0] not in ("statx", "pread64")], wanted)
    edge.holds(name, PHASE_ROWS)
    return f"{len(wanted)} calls"


def calls_on_a_new_base(edge):
    return calls_on(edge, "b", "b", ".")


def calls_on_a_base_in_a_folder(edge):
    os.mkdir(edge.path("d"))
    return calls_on(edge, "d/b", "d/b", "d")


def calls_on_a_base_behind_a_link(edge):
    """The folder of what the link leads to is synced; the folder of FILE.objects is not."""
    os.mkdir(edge.path("d"))
    os.symlink("d/far", edge.path("b"))
    return calls_on(edge, "b", "d/far", "d")


def failing_calls(edge):
    """Each call on a file of a base of some rows fails in turn."""
    text, rows = session(1, 2)
    edge.has(["b", "run"], text, (0, transcript(2), b""))
    before = edge.read("b")
    calls = calls_of(edge)
    tried = 0
    for n, (call, file) in enumerate(calls):
        for fault, retried in faults_of(call):
            edge.write("b", before)
            tracer = injecting(call, fault, calls[: n + 1].count((call, file)), file)
            fails_well(edge, tracer, rows, retried)
            tried += 1
    return f"{tried} faults of {len(calls)} calls"


def failing_calls_on_a_foreign_file(edge):
    """Each call before the first write fails in turn: none is taken for good, and the foreign bytes stay."""
    foreign = b"hello, world\n"
    edge.write("b", foreign)
    calls = calls_of(edge)
    calls = calls[: [call for call, _ in calls].index("pwrite64")]
    for n, (call, file) in enumerate(calls):
        edge.write("b", foreign)
        tracer = injecting(call, "error=EIO", calls[: n + 1].count((call, file)), file)
        status, output, errors = edge.run(["b", "run"], PHASES, tracer=tracer)
        what = " ".join(tracer)
        same(what, (status, errors.startswith(b"ccbase: ")), (7, True))
        same(what, (acknowledged(output, PHASE_ROWS), edge.read("b")), ([], foreign))
    return f"{len(calls)} calls"


def calls_of(edge):
    """The calls of a run on the files of a base and on their folder, each as its name and its file."""
    _, calls = traced(edge.program, ["b", "run"], PHASES, edge.folder)
    return [call[:2] for call in calls if call[1] != OUTPUT]


def faults_of(call):
    """How a call may fail, and whether the program then makes it again and goes on as ever."""
    faults = [("error=EIO", False)]
    if call in ("openat", "flock", "fdatasync", "fsync", "pread64", "pwrite64"):
        faults.append(("error=EINTR", True))
    if call in ("pread64", "pwrite64"):
        faults.append(("retval=0", False))
    return faults


def fails_well(edge, tracer, rows, retried):
    """A call that is retried changes nothing, and any other failure is reported."""
    status, output, errors = edge.run(["b", "run"], PHASES, tracer=tracer)
    what = " ".join(tracer)
    if retried:
        same(what, (status, output, errors), (0, b"".join(REPLIES), b""))
    else:
        same(what, (status, errors.startswith(b"ccbase: "), errors.count(b"\n")), (7, True, 1))
    edge.has_rows("b", rows + acknowledged(output, PHASE_ROWS))


def moved_base(edge):
    """A sync fails late, and meanwhile the base is moved away and another is made under its name."""
    text, rows = session(1, 3)
    edge.has(["b", "run"], b"", EMPTY)
    tracer = injecting("fdatasync", "error=EIO:delay_enter=3000000", 5, "b")
    first = edge.start(["b", "run"], text, tracer=tracer)
    while not os.path.exists(edge.path("b")) or not frames(edge.read("b")):
        if first.poll() is not None:
            fail("a moved base: the program ended too early")
    time.sleep(0.2)
    os.rename(edge.path("b"), edge.path("away"))
    more, more_rows = session(2, 3)
    os.rename(edge.path("b.objects"), edge.path("away.objects"))
    edge.has(["b", "run"], more, (0, transcript(3), b""))
    status, output, errors = edge.end(first)
    same("a moved base", (status, errors), (7, b"ccbase: b: Input/output error\n"))
    same("a moved base", acknowledged(output, rows), rows[:1] + rows[2:])
    edge.has_rows("away", rows[:1] + rows[2:])
    edge.holds("b", more_rows)


def no_random_numbers(edge):
    tracer = injecting("getrandom", "error=ENOSYS", "1+")
    wanted = (2, b"bad words\n", USAGE)
    same("no random numbers", edge.run(["b", "walk"], b"", tracer=tracer), wanted)
    wanted = (8, b"", b"ccbase: the system gives no random numbers\n")
    for words in ["b", "run"], ["b", "verify"], ["b", "big", "1", "1"], ["b", "sites"]:
        same("no random numbers", edge.run(words, b"", tracer=tracer), wanted)
    edge.has_none_but([])


CHECKS = [
    closed_output,
    closed_errors_and_foreign_bytes,
    two_programs,
    held_base,
    waiting_session,
    foreign_bytes,
    rows_cut_short,
    files_that_cannot_be_opened,
    words_of_no_form,
    words_that_ask,
    input_that_cannot_be_read,
    no_session,
    damaged_base,
    too_long_a_session,
    file_that_may_not_grow,
]

TRACED_CHECKS = [
    calls_on_a_new_base,
    calls_on_a_base_in_a_folder,
    calls_on_a_base_behind_a_link,
    failing_calls,
    failing_calls_on_a_foreign_file,
    moved_base,
    no_random_numbers,
]


if __name__ == "__main__":
    if len(sys.argv) != 2:
        sys.exit(__doc__)
    checks = CHECKS + (TRACED_CHECKS if can_trace() else [])
    for check in checks:
        with tempfile.TemporaryDirectory() as folder:
            found = check(Edge(os.path.abspath(sys.argv[1]), folder))
            print(check.__name__.replace("_", " ") + (f": {found}" if found else ""))
    left_out = "" if checks != CHECKS else f"; {len(TRACED_CHECKS)} left out, since strace is not here or may not trace"
    print(f"{len(checks)} checks, none wrong{left_out}")
