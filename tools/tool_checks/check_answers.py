"""The table of answers, against docs/: the rows of the reference to the letter, and each code that FORMATS lists."""
import re

import answers
from tool_checks import same


def listed_codes():
    """The codes with their names in the table of docs/FORMATS.md, reply_text."""
    found = {}
    table = answers.table_in((answers.DOCS / "FORMATS.md").read_text(), "LENGTH is the number of bytes at the target", "A path argument is the one at")
    for line in table:
        codes, names, _ = [cell.strip() for cell in line.strip().strip("|").split("|")]
        numbers = []
        for part in re.split(r", ", codes):
            first, _, last = part.partition(" to ")
            numbers += [f"{first[0]}{n}" for n in range(int(first[1:]), int((last or first)[1:]) + 1)]
        found.update(zip(numbers, names.split(", ")))
    return found


def check(bench):
    same("the tables that differ from docs/", answers.differences(), [])
    explained = {code: answer.name for code, answer in answers.ANSWERS.items() if code != "blocked"}
    same("the codes that are explained", explained, listed_codes())
    for status, (means, base) in answers.STATUSES.items():
        same(f"the status {status} has a meaning", bool(means and base), True)
    same("answers.py", bench.process("answers.py").status, 0)
    return f"{len(explained)} answers as in the reference"
