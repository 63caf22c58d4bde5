#!/usr/bin/env python3
"""Writes the examples as tables of the gate: a file of crates/session_tables/data/tables/examples for each example, a case with its
session and its transcript.

    tools/example_tables.py CCBASE     writes them anew; the built program tells the status and the rows of each
    tools/example_tables.py --check    ends with 1 where a table has another session or transcript than its example, and names it

The clock of the tables stands still, so its date is in the place of DATE. An example writes the same in any order of its lanes.
"""
import pathlib
import subprocess
import sys
import tempfile

import vob
from check_examples import PHASE
from tool_words import run
from vob_rows import VobError

TOP = pathlib.Path(__file__).resolve().parent.parent
EXAMPLES = TOP / "examples"
TABLES = TOP / "crates/session_tables/data/tables/examples"

CLOCK, CLOCK_DATE = 1700000000, "14-Nov-2023.22:13:20"


class Usage(VobError):
    """Words that are none of the forms."""
    status = 2


def examples():
    return sorted(EXAMPLES.glob("*.txt"))


def form_of(session):
    """The form of words that runs an example: a text without a phase is one of sites."""
    return "run" if PHASE.search(session) else "sites"


def case(path):
    """The case of an example, without its last line."""
    session = path.read_text()
    form = form_of(session)
    settings = "" if form == "run" else f"words f {form}\n!!!!\n"
    told = path.with_suffix(".transcript").read_text().replace("|DATE ", f"|{CLOCK_DATE} ")
    return (f"front alone\nclock {CLOCK}\nThe example {path.stem} of examples/, written by tools/example_tables.py.\n====\n"
            f"{settings}{session}----\n{told}")


def outcome(program, path):
    """The last line of the case: the status, and how many rows the program made."""
    with tempfile.TemporaryDirectory() as folder:
        base = pathlib.Path(folder) / "base"
        form = form_of(path.read_text())
        ran = subprocess.run([program, str(base), form], input=path.read_bytes(), stdout=subprocess.DEVNULL, check=False)
        rows = len(vob.read(str(base)).rows) - 1 if form == "run" else 0
    return f"status {ran.returncode}, {rows} rows\n"


def table_of(path):
    return TABLES / f"{path.stem.replace('-', '_')}.txt"


def differing():
    """The tables that are not those of the examples."""
    wanted = {table_of(path): case(path) for path in examples()}
    for table in sorted(wanted.keys() | set(TABLES.glob("*.txt"))):
        text = table.read_text() if table.is_file() else ""
        if table not in wanted or text[:text.rfind("status ")] != wanted[table]:
            yield table.name


def main(words):
    if words == ["--help"]:
        print(__doc__.strip())
    elif words == ["--check"]:
        wrong = list(differing())
        for name in wrong:
            print(f"{name}: not the session and transcript of its example")
        return 1 if wrong else 0
    elif len(words) == 1 and not words[0].startswith("-"):
        TABLES.mkdir(exist_ok=True)
        for path in examples():
            table_of(path).write_text(case(path) + outcome(words[0], path))
            print(table_of(path).name)
    else:
        raise Usage("usage: example_tables.py CCBASE | --check")
    return 0


if __name__ == "__main__":
    run(main)
