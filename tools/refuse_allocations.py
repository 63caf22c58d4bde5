#!/usr/bin/env python3
"""Refuses each allocation of a session of two views in turn, and looks at how the run ends and at what it leaves.

Usage: refuse_allocations.py CCBASE [FIRST [LAST]]

CCBASE is the built program. `cc` makes a small library that is loaded before the C library, and whose malloc and realloc fail once,
at their Nth call. N goes from FIRST, or 1, to LAST, or to the first number that a run does not reach. Each run is on a new base:

- it ends by itself, with status 0 or 8;
- what it wrote is a prefix of the transcript of a run in which none fails, and all of it unless it ended with 8;
- its base opens again, and `ccbase FILE verify` finds it sound;
- the rows there are the first ones of the base of a run in which none fails, and all of them unless it ended with 8.

Prints a line for each hundred numbers, and how many runs ended with which status; ends with 1 at the first thing that is wrong.
"""
import collections
import itertools
import os
import pathlib
import subprocess
import sys
import tempfile

from kill_and_reopen import frames

# It leaves a file where it has refused one.
LIBRARY = r"""
#include <fcntl.h>
#include <stdatomic.h>
#include <stddef.h>
#include <stdlib.h>
#include <unistd.h>

void *__libc_malloc(size_t), *__libc_realloc(void *, size_t);
static atomic_long calls;

static int is_refused(void) {
    const char *number = getenv("REFUSED");
    if (!number || atomic_fetch_add(&calls, 1) + 1 != atol(number)) return 0;
    close(open(getenv("REFUSED_FILE"), O_CREAT | O_WRONLY, 0600));
    return 1;
}

void *malloc(size_t size) { return is_refused() ? NULL : __libc_malloc(size); }
void *realloc(void *block, size_t size) { return is_refused() ? NULL : __libc_realloc(block, size); }
"""

# What a view builds from a makefile and a file in the base is winked in by another.
SESSION = b"""phase
lane a
mkview v
checkout v .
mkelem v Makefile
save v Makefile
|out: in
|	cat in > out
checkin v Makefile
mkelem v in
save v in
|hi
checkin v in
checkin v .
clearmake v
mkview w
clearmake w
"""

NO_MEMORY = 8
PROGRESS = 100


def library(folder):
    """The library, made in this folder."""
    made = folder / "refuse.so"
    subprocess.run(["cc", "-O1", "-shared", "-fPIC", "-o", made, "-x", "c", "-"], input=LIBRARY.encode(), check=True)
    return made


def rows(base):
    """The rows of a base, without their moments."""
    payloads = frames(base.read_bytes()) if base.exists() else []
    return [payload[:13] + payload[21:] for payload in payloads]


class Run:
    """A run of the session on a new base, in which the allocation of this number is refused; none is without a number."""

    def __init__(self, ccbase, shim, number=None):
        with tempfile.TemporaryDirectory() as name:
            base, mark = pathlib.Path(name, "base"), pathlib.Path(name, "refused")
            refusing = {"LD_PRELOAD": str(shim), "REFUSED": str(number), "REFUSED_FILE": str(mark)} if number else {}
            ran = subprocess.run([ccbase, base, "run"], input=SESSION, capture_output=True, check=False,
                                 env={**os.environ, **refusing})
            checked = subprocess.run([ccbase, base, "verify"], capture_output=True, check=False)
            self.status, self.written, self.said = ran.returncode, ran.stdout, ran.stderr
            self.checked, self.rows, self.was_refused = checked, rows(base), mark.exists()

    def fault(self, whole):
        """What is wrong with the run beside one in which none is refused, or nothing."""
        if self.status not in (0, NO_MEMORY):
            return f"ended with {self.status}: {self.said.decode(errors='replace')}"
        if not whole.written.startswith(self.written) or whole.rows[: len(self.rows)] != self.rows:
            return f"ended with {self.status}, {len(self.rows)} rows and\n{self.written.decode(errors='replace')}"
        if self.status == 0 and (self.written, self.rows) != (whole.written, whole.rows):
            return f"ended with 0 after {len(self.rows)} rows and\n{self.written.decode(errors='replace')}"
        if self.checked.returncode != 0 or not self.checked.stdout.startswith(b"sound "):
            return f"left a base of which verify says {self.checked.stdout!r} and {self.checked.stderr!r}"
        return None


def main():
    ccbase, *words = sys.argv[1:]
    first, *last = [int(word) for word in words] or [1]
    numbers = range(first, last[0] + 1) if last else itertools.count(first)
    with tempfile.TemporaryDirectory() as name:
        shim = library(pathlib.Path(name))
        whole, ends = Run(ccbase, shim), collections.Counter()
        if whole.status != 0 or whole.fault(whole):
            sys.exit(f"where none is refused: {whole.fault(whole)}")
        for number in numbers:
            run = Run(ccbase, shim, number)
            if not run.was_refused:
                break
            ends[run.status] += 1
            fault = run.fault(whole)
            if fault:
                sys.exit(f"{number}: {fault}")
            if number % PROGRESS == 0:
                print(f"{number}", flush=True)
    counts = ", ".join(f"{count} with {status}" for status, count in sorted(ends.items()))
    print(f"{sum(ends.values())} allocations refused: {counts or 'none'}")
    return 0


if __name__ == "__main__":
    if len(sys.argv) < 2:
        sys.exit(__doc__)
    sys.exit(main())
