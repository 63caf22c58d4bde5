#!/usr/bin/env python3
"""Makes one allocation of ccbase fail, another one each time, while two lanes build, and looks at how each run ends.

    tools/fail_allocations.py [FIRST [LAST [STEP]]]

Runs the unproved program by `rt try --fail-alloc N` on a new base, for N = FIRST, FIRST + STEP and so on up to LAST, where N
counts the allocations of a run from 1. FIRST and STEP are 1 where they are not given, and LAST is 700: a run makes some 650, as
its threads meet. The session is one phase of two lanes, each of which builds in a view of its own, the first one two scripts at
once.

- A run ends by itself, with status 0 or 8.
- What it printed is a prefix of the transcript of a run in which none fails, and all of it unless it ended with 8.

Status 8 is right before the lanes start, at the lock and in the transcript; elsewhere what is left is run once more and 0 is right.
Where an allocation lies the tool cannot tell, since the lanes allocate in an order of their own. So it takes 8 at any number, and
lists the numbers that ended so: a second try that does nothing would show in that list alone.

Prints each number whose run ends otherwise, a line for each ten numbers, the numbers that ended with 8, and how many runs ended
with which status; ends with 1 where one ended otherwise. It is outside the gate: rt builds the program anew for each number,
which takes a minute or more, so a whole sweep takes half a day. A step of 50 and another FIRST each time take a quarter of an hour.
"""
import collections
import pathlib
import re
import subprocess
import sys

CCBASE = pathlib.Path(__file__).resolve().parent.parent / "crates" / "ccbase"

# Some more than a run makes, and a number to which none comes.
MOST, NEVER = 700, 2**40

SESSION = """phase
lane ann
mkview ann
save ann Makefile
|both: one two
|	cat one two > both
|one: text
|	cat text > one
|two: text
|	cat text > two
save ann text
|of ann
clearmake ann -J 2
lane bob
mkview bob
save bob Makefile
|copy: text
|	cat text > copy
save bob text
|of bob
clearmake bob
"""

NO_MEMORY = 8
ENDS = (0, NO_MEMORY)


class Run:
    """A run of the session on a new base, in which the allocation of this number fails."""

    def __init__(self, number):
        ran = subprocess.run(
            ["rt", "try", "--fail-alloc", str(number), "--", "x.base", "run"],
            cwd=CCBASE, input=SESSION.encode(), capture_output=True, check=False,
        )
        self.printed = ran.stdout.decode(errors="replace")
        self.said = ran.stderr.decode(errors="replace")
        ended = re.search(r"^run=ended status=(\d+) ", self.said, re.MULTILINE)
        self.status = int(ended[1]) if ended else None

    def fault(self, whole):
        """What is wrong with the run beside one in which no allocation fails, or nothing."""
        if self.status not in ENDS:
            return f"ended with {self.status}:\n{self.said}"
        if not whole.printed.startswith(self.printed):
            return f"ended with {self.status} and printed\n{self.printed}"
        if self.status != NO_MEMORY and (self.status, self.printed) != (whole.status, whole.printed):
            return f"ended with {self.status} and printed no more than\n{self.printed}"
        return None


def main():
    words = [int(word) for word in sys.argv[1:4]]
    first, last, step = words + [1, MOST, 1][len(words):]
    whole = Run(NEVER)
    if whole.status != 0:
        sys.exit(f"where none fails, the run ended with {whole.status}:\n{whole.said}")
    numbers = range(first, last + 1, step)
    ends, without_memory, wrong = collections.Counter(), [], 0
    for tried, number in enumerate(numbers, 1):
        run = Run(number)
        ends[run.status] += 1
        if run.status == NO_MEMORY:
            without_memory.append(number)
        fault = run.fault(whole)
        if fault:
            wrong += 1
            print(f"{number}: {fault}", flush=True)
        if tried % 10 == 0:
            print(f"{tried} of {len(numbers)}", flush=True)
    print(f"ended with {NO_MEMORY}: {' '.join(map(str, without_memory)) or 'none'}")
    told = ", ".join(f"{count} with {status}" for status, count in sorted(ends.items(), key=str))
    print(f"{len(numbers)} runs ended: {told}; {wrong} otherwise than they may")
    return 1 if wrong else 0


if __name__ == "__main__":
    sys.exit(main())
