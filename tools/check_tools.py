#!/usr/bin/env python3
"""Checks the tools beside the program, on the built program: a section a tool.

    check_tools.py CCBASE [SECTION ..]

CCBASE is the built program; a SECTION is a NAME of tools/tool_checks/check_NAME.py, all of them where none is given. Each has a function
`check(bench)`, which raises `Failed` at the first thing that is wrong and else answers what it saw. A tool's section is a file more in
that folder. Prints a line a section, and ends with 1 where one failed."""
import importlib
import os
import pathlib
import sys
import time

from tool_checks import Bench, Failed

SECTIONS = sorted(file.stem[6:] for file in (pathlib.Path(__file__).resolve().parent / "tool_checks").glob("check_*.py"))


def passes(name, program):
    """Whether a section passes; prints its line."""
    begun = time.monotonic()
    try:
        with Bench(program) as bench:
            seen = importlib.import_module(f"tool_checks.check_{name}").check(bench)
    except Failed as failed:
        print(f"{name}: FAILED: {failed}", flush=True)
        return False
    print(f"{name}: {seen}, {time.monotonic() - begun:.1f} s", flush=True)
    return True


def main():
    words = sys.argv[1:]
    if words in (["-h"], ["--help"]):
        print(__doc__)
        return 0
    if not words:
        sys.exit("check_tools.py: the built program is missing (see check_tools.py --help)")
    if not os.access(words[0], os.X_OK) or os.path.isdir(words[0]):
        sys.exit(f"check_tools.py: {words[0]} is no program")
    wrong = [name for name in words[1:] if name not in SECTIONS]
    if wrong:
        sys.exit(f"check_tools.py: {wrong[0]} is no section: wanted is one of {', '.join(SECTIONS)}")
    passed = [passes(name, str(pathlib.Path(words[0]).resolve())) for name in words[1:] or SECTIONS]
    print(f"{sum(passed)} of {len(passed)} sections passed")
    return 0 if all(passed) else 1


if __name__ == "__main__":
    sys.exit(main())
