#!/usr/bin/env python3
"""Runs large sessions with the built program, and compares their summaries with the rule of docs/FORMATS.md.

Usage: check_big.py CCBASE [SEED SIZE ..]

CCBASE is the built program. Each session, of seed 7 with size 100 and with size 1,000 if none is named, is run twice, each time on
a new base: `ccbase FILE big SEED SIZE` has to end with status 0 and to write the five lines that this script works out from the
rule alone. Then `ccbase FILE verify` has to find every object sound.

Prints a line a session, and ends with 1 at the first thing that is wrong.
"""
import hashlib
import os
import subprocess
import sys
import tempfile

SESSIONS = [(7, 100), (7, 1000)]


def files(seed, size):
    """For each source file the number in its word, and the number of the file that it is joined with."""
    found, x = [], seed
    for _ in range(size):
        x = (x * 6364136223846793005 + 1442695040888963407) % 2**64
        content = (x >> 33) % 1000
        x = (x * 6364136223846793005 + 1442695040888963407) % 2**64
        found.append((content, 1 + (x >> 33) % size))
    return found


def build(joined, text):
    """The lines of a build's units, with `made` for how each object came, and the sum of their lengths."""
    lines, total = [], 0
    for number, other in enumerate(joined, 1):
        output = text[number] + text[other]
        lines.append(b"  o%d made %d %s\n" % (number, len(output), hashlib.sha256(output).hexdigest().encode()))
        total += len(output)
    return b"".join(lines) + b"  all made\n", total


def summary(seed, size):
    """The five lines: seven views build the sources as they were made, and one builds again once the first is changed."""
    drawn = files(seed, size)
    joined = [other for _, other in drawn]
    text = {number: b"w%d\n" % content for number, (content, _) in enumerate(drawn, 1)}
    first, length = build(joined, text)
    text[1] = b"changed\n"
    last, changed = build(joined, text)
    digest = hashlib.sha256(first * 7 + last).hexdigest()
    return (f"commands {24 + 3 * size}\nrefused 0\nunits {8 * (size + 1)}\n"
            f"bytes {7 * length + changed}\ndigest {digest}\n").encode()


def check(ccbase, seed, size):
    """Runs one session twice; what is wrong, if anything is."""
    wanted = summary(seed, size)
    for _ in range(2):
        with tempfile.TemporaryDirectory() as folder:
            base = os.path.join(folder, "base")
            ran = subprocess.run([ccbase, base, "big", str(seed), str(size)], capture_output=True, check=False)
            if (ran.returncode, ran.stdout) != (0, wanted):
                return f"status {ran.returncode} and\n{ran.stdout.decode()}in place of\n{wanted.decode()}"
            ran = subprocess.run([ccbase, base, "verify"], capture_output=True, check=False)
            if ran.returncode != 0 or not ran.stdout.startswith(b"sound "):
                return f"verify: status {ran.returncode} and {ran.stdout.decode()}"
    return None


def main(words):
    """Checks each session that is named."""
    if not words or len(words) % 2 == 0:
        print(__doc__.split("\n\n")[1], file=sys.stderr)
        return 2
    numbers = [int(word) for word in words[1:]]
    for seed, size in list(zip(numbers[::2], numbers[1::2])) or SESSIONS:
        wrong = check(words[0], seed, size)
        print(f"big {seed} {size}: {wrong or 'twice as the rule says'}", flush=True)
        if wrong:
            return 1
    return 0


if __name__ == "__main__":
    sys.exit(main(sys.argv[1:]))
