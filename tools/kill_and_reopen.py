#!/usr/bin/env python3
"""Kills ccbase with SIGKILL at random moments of sessions on a real file, and opens the base again each time.

Usage: kill_and_reopen.py CCBASE [ROUNDS [SAVES [SEED]]]

CCBASE is the built program. Each round runs a session of SAVES saves on the same base and kills it at a random moment, or
lets it end. After each round the base is opened by `ccbase FILE run` on an empty session, which has to end with status 0,
and the rows of the journal are read by this script, from the bytes alone:

- every row of each earlier round is there, in its order, unchanged;
- the rows behind them are the beginning of the round's rows, in order: all of them where the program ended;
- nothing is damaged.

Prints a line a hundred rounds and a summary, and ends with 1 at the first thing that is wrong.
"""
import os
import random
import signal
import struct
import subprocess
import sys
import tempfile
import time

MKVIEW, PUT = 1, 12


def frames(data):
    """The payloads of the whole frames, from the first on: a gate byte 1, a length of four bytes, so many bytes."""
    place, found = 0, []
    while place + 5 <= len(data) and data[place] == 1:
        (size,) = struct.unpack_from("<I", data, place + 1)
        if place + 5 + size > len(data):
            break
        found.append(data[place + 5 : place + 5 + size])
        place += 5 + size
    return found


def row(payload):
    """A row without its moment: its tag, its deed's code and its fields. All fields of these deeds are texts."""
    phase, lane, command = struct.unpack_from("<III", payload, 1)
    code, place, fields = payload[21], 22, []
    while place < len(payload):
        (size,) = struct.unpack_from("<I", payload, place)
        fields.append(payload[place + 4 : place + 4 + size])
        place += 4 + size
    return ((phase, lane, command), code, tuple(fields))


def session(number, saves):
    """The text of a session that makes a view of its own and saves so many files in it, and the rows that it makes."""
    view = b"v%d" % number
    lines, rows = [b"phase", b"lane a", b"mkview " + view], [((1, 1, 1), MKVIEW, (view,))]
    for n in range(saves):
        path, text = b"dir-file.%d" % n, b"round %d save %d" % (number, n)
        lines += [b"save %s %s" % (view, path), b"|" + text]
        rows.append(((1, 1, n + 2), PUT, (view, path, text + b"\n")))
    return b"\n".join(lines) + b"\n", rows


def run(program, base, text, seconds):
    """Runs the program; kills it after so many seconds. Answers its status, or None where it was killed."""
    process = subprocess.Popen(
        [program, base, "run"], stdin=subprocess.PIPE, stdout=subprocess.DEVNULL, stderr=subprocess.DEVNULL
    )
    try:
        process.stdin.write(text)
        process.stdin.close()
    except BrokenPipeError:
        pass
    try:
        return process.wait(timeout=seconds)
    except subprocess.TimeoutExpired:
        process.send_signal(signal.SIGKILL)
        process.wait()
        return None


def fail(message):
    print("WRONG:", message)
    sys.exit(1)


def drill(program, rounds, saves, seed):
    chance = random.Random(seed)
    with tempfile.TemporaryDirectory() as folder:
        base = os.path.join(folder, "drill.base")
        begun = time.monotonic()
        text, rows = session(0, saves)
        if run(program, base, text, 3600) != 0:
            fail("the first session did not end with 0")
        whole = time.monotonic() - begun
        kept, killed, cut = rows, 0, 0
        for number in range(1, rounds + 1):
            text, rows = session(number, saves)
            status = run(program, base, text, chance.uniform(0, whole * 1.1))
            if status not in (0, None):
                fail(f"round {number} ended with {status}")
            if run(program, base, b"", 3600) != 0:
                fail(f"after round {number} the base does not open")
            with open(base, "rb") as journal:
                found = [row(payload) for payload in frames(journal.read())]
            if found[: len(kept)] != kept:
                fail(f"after round {number} an earlier row is missing or changed")
            behind = found[len(kept) :]
            if behind != rows[: len(behind)]:
                fail(f"after round {number} the rows found are no beginning of its rows")
            if status == 0 and len(behind) != len(rows):
                fail(f"round {number} ended, and {len(rows) - len(behind)} of its rows are missing")
            killed += status is None
            cut += status is None and 0 < len(behind) < len(rows)
            kept = found
            if number % 100 == 0:
                print(f"{number} rounds: {killed} killed, {cut} of them within their rows, {len(kept)} rows")
        print(f"{rounds} rounds of {saves} saves: {killed} killed, {cut} of them within their rows; {len(kept)} rows, none missing")


if __name__ == "__main__":
    words = sys.argv[1:]
    if not 1 <= len(words) <= 4:
        sys.exit(__doc__)
    rounds, saves, seed = (list(map(int, words[1:])) + [200, 300, 1][len(words) - 1 :])[:3]
    drill(os.path.abspath(words[0]), rounds, saves, seed)
