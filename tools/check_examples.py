#!/usr/bin/env python3
"""Runs each session under examples/ with the built program, each on a base of its own, and compares what it writes with the
transcript beside it.

    tools/check_examples.py [--refuse-threads] CCBASE [NAME ..]

CCBASE is the built program; NAME an example without its ending, all of them where none is given. A text without a line
`phase` is a text of sites, and is run by `sites` in place of `run`. Says of each whether it is
as expected, shows the lines that differ, and ends with 1 where one does. The dates that `lshistory` prints are those of the run: a
transcript has DATE in their place. With --refuse-threads the system makes no thread for the
program, which then runs builders, and lanes once one builds, one after the other, the first lane first, and writes the same.
That it does shows in two lanes that make one view, the first of them late, which are then run ten times too. It is outside
the gate."""
import difflib
import pathlib
import re
import resource
import subprocess
import sys
import tempfile

EXAMPLES = pathlib.Path(__file__).resolve().parent.parent / "examples"

# The date with which a line of `lshistory` begins.
DATE = re.compile(r"^\|[0-9]{1,2}-[A-Z][a-z]{2}-[0-9]{4}\.[0-9:]{8} ", re.MULTILINE)

# A line that a session has, and a text of sites has not.
PHASE = re.compile(r"^phase$", re.MULTILINE)

# Of two lanes at once, which are on threads since the first builds, the second makes its view while the first looks at another.
LOOKS = 200
ONE_VIEW = "phase\nlane a\nclearmake w\nmkview w\n" + "catcs w\n" * LOOKS + "mkview v\nlane b\nmkview v\n"
FIRST, SECOND = f"\n{LOOKS + 3} mkview ok\n", "lane b\n1 mkview refused C2 ViewExists\n"
TIMES = 10


def refuse_threads():
    """Asks for stacks of 2^47 bytes, for which no address space is left, so that no thread is made."""
    _, most = resource.getrlimit(resource.RLIMIT_STACK)
    resource.setrlimit(resource.RLIMIT_STACK, (2**47, most))


def written(program, session, prepare):
    """What the program writes for a session on a new base, where the process is prepared so."""
    form = "run" if PHASE.search(session) else "sites"
    with tempfile.TemporaryDirectory() as folder:
        run = subprocess.run(
            [program, str(pathlib.Path(folder) / "base"), form],
            input=session.encode(), stdout=subprocess.PIPE, check=False, preexec_fn=prepare,
        )
    return run.stdout.decode(errors="replace")


def is_as_expected(program, session, prepare):
    """Whether an example gives its transcript; what differs is shown."""
    expected = session.with_suffix(".transcript").read_text()
    came = DATE.sub("|DATE ", written(program, session.read_text(), prepare))
    if came == expected:
        print(f"{session.stem}: as expected")
        return True
    print(f"{session.stem}: differs")
    sys.stdout.writelines(difflib.unified_diff(
        expected.splitlines(keepends=True), came.splitlines(keepends=True), "expected", "written"))
    return False


def is_first_first(program, prepare):
    """Whether the first of two lanes has the view that both make."""
    came = written(program, ONE_VIEW, prepare)
    return FIRST in came and came.endswith(SECOND)


def main():
    words = sys.argv[1:]
    prepare = refuse_threads if words[:1] == ["--refuse-threads"] else None
    if prepare:
        words = words[1:]
    if not words:
        sys.exit(__doc__)
    program, names = str(pathlib.Path(words[0]).resolve()), words[1:]
    sessions = [s for s in sorted(EXAMPLES.glob("*.txt")) if not names or s.stem in names]
    if not sessions:
        sys.exit("no example of that name")
    differing = [s.stem for s in sessions if not is_as_expected(program, s, prepare)]
    print(f"{len(sessions) - len(differing)} of {len(sessions)} as expected")
    in_order = all(is_first_first(program, prepare) for _ in range(TIMES if prepare else 0))
    if prepare:
        print("the first lane " + ("first" if in_order else "not always first"))
    sys.exit(1 if differing or not in_order else 0)


if __name__ == "__main__":
    main()
