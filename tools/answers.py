"""What the program answers, and what is to be done: the tables of docs/REFERENCE.md ("Replies and refusals", "Makefile
errors") and of docs/FORMATS.md (spec_text), to the letter. The tools explain answers by these alone.

    answer = ANSWERS["C3"]; answer.name; answer.means; answer.to_do
    python3 tools/answers.py        # compares them with docs/, and shows each row that differs

A row that is changed here is changed there as well; check_tools.py compares them too."""
import difflib
import pathlib
import sys
from typing import NamedTuple

DOCS = pathlib.Path(__file__).resolve().parent.parent / "docs"


class Answer(NamedTuple):
    """A refusal, or the fault of a unit: its code and name (`C3`, `NoPath`), its arguments, what it means and what to do."""

    code: str
    name: str
    arguments: tuple
    means: str
    to_do: str


ANSWER_ROWS = r"""
| `C1 NoView` | there is no such view | `mkview` |
| `C2 ViewExists` | the view exists | use it, or `rmview` |
| `C3 NoPath P` | nothing at P, or no version selected there. `rm`: no view-private file. `rmname`, `mv`: the checked-out directory lacks the name. `cat`: also no such version | see `catcs` and `ls`; was the directory checked in? |
| `C4 NotDirectory P` | P is a file | use another directory |
| `C5 NameTaken P` | the directory has the name, or the view has a view-private file or an object at P | use another name, or `rm` the file, `rmdo` the object |
| `C6 NotElement P` | a view-private file is at P | `rm` it |
| `C7 NotCheckedOut P` | the view has not checked out the element at P, selected or not | `checkout` |
| `C8 AlreadyOut ROW` | the view has checked it out, at that row. `mklabel`, `mkarrow`: a checkout is selected, which is no version | `checkin` or `uncheckout` |
| `C9 Reserved W` | view W has the branch reserved | wait, or `checkout V -unreserved P` |
| `C10 NotLatest ROW` | the branch has a later version, made by that row | `uncheckout`, `checkout` again; for an older version `mkbranch` |
| `C11 Identical ROW` | the text equals the version checked out | `uncheckout` it, or `checkin V -identical P` |
| `C12 ParentNotOut P` | the view has not checked out the directory P | `checkout V P` |
| `C13 NoType N` | no label type, or no branch type, has the name. Only `findmerge` takes `main` | `mklbtype`, `mkbrtype` |
| `C14 TypeExists N` | a type has the name, or none may | use another name |
| `C15 BranchExists ROW` | the element has a branch of the type, made by that row | select it with `.../B/LATEST`, and check out there |
| `C16 LabelElsewhere ROW` | the label is on another version, made by that row | `-replace` moves it |
| `C17 NoCheckoutRule LINE` | the rule in that line has `-nocheckout` | use another view |
| `C18 Building LANE N` | the view is building: command N of that lane | put the command after it, or into a later phase |
| `C19 IsDerived P` | the view holds a derived object at P | save under another name, or `rmdo` |
| `C20 NoObject P` | the view holds no object at P | see `lsdo`; build it |
| `C21 HasCheckouts ROW` | the view has checkouts, the first made by that row | `checkin` or `uncheckout` each, or `rmview -force V` |
| `C22 BadSpec LINE CAUSE` | the line is no rule | see FORMATS, spec_text |
| `C23 Full N` | no room: N rows are there or reserved by builds, of 4,000,000 | start another base |
| `C24 NoLabel P` | no version of the element has the label | see `lsvtree V P` |
| `C25 IsDirectory P` | P is a directory | name a file |
| `C26 NotVersion P` | the object was built from a view-private file or a checkout at P | check in, and build again |
| `C27 NoVersion P` | the element has no such version | see `lsvtree V P` |
| `C28 ArrowExists ROW` | that row made the arrow | nothing |
| `C29 SameVersion ROW` | the version is the selected one | select the version that it was merged into |
| `B1 NoMakefile P` | the view has no makefile | save one |
| `M1 MakeError P LINE CAUSE` | a bad line in a makefile | see "Makefile errors" |
| `G1 NoGoal P` | the goal is no target and no file; `.` if there is no goal at all | name a target |
| `G2 Cycle P` | P depends on itself | remove a prerequisite |
| `G3 TargetIsSource P` | the target is a file of the view | rename one |
| `U1 NoRule P` | the prerequisite P is no file of the view and no target | write a rule, or save it |
| `U2 NoDirectory P` | the target's directory P does not exist | `mkdir` |
| `U3 ScriptTooLong P` | the expanded script is above 65,536 bytes | shorten it |
| `blocked P` | the prerequisite P failed or was blocked | see its line |
| `X1 Absent P` | the script read P, which the unit does not see | if a rule makes P, name it as a prerequisite; else save it |
| `X2 BadLine N` | line N of the script is no command; joined lines count once, blank lines not | see "Script commands" |
| `X3 TooBig P` | the output is above 1,048,576 bytes | write less |
| `X4 IncludeDepth P` | `pp` is 33 files deep, or looked 100,001 times for included files | break the loop; name the right directory first |
| `X5 Failed N` | line N is `fail` | see the lines above it |
| `X6 StrayWrite P` | the script wrote P, which is no target | write the target |
| `X7 NotWritten P` | the script did not write the target P | write it |
"""

STATUS_ROWS = r"""
| 0, 1 | the session was run; 1: something was refused or not made, or `verify` wrote `unsound` | every commit; after `verify` untouched |
| 2, 3, 5, 9 | bad words, bad session, input failed, input too long | untouched |
| 4 | the base is damaged | untouched; nothing was run, and no `FILE.objects` is created |
| 6 | output failed | if a base was opened: the phases up to the one whose transcript failed were carried out; with `big` all of them |
| 7 | the disk failed | see below |
| 8 | out of memory, or no random numbers from the system, which standard error says | what was committed by then, though no reply of that phase was written |
"""

MAKE_CAUSE_ROWS = r"""
| `BadLine` | neither `:` nor `=` in the line, as in a conditional | remove it, or write the `:` |
| | a script line without a rule directly above; a macro line or an include line ends a rule | move it below its rule |
| | `;`, `::` or `:=` in a rule line | write the script below; write `:` or `=` |
| | no target before the `:`, perhaps because a macro is empty | name a target |
| | `include` without a word, or a bad suffix after `.SUFFIXES` | name a file; a suffix is `.` and a name without `.` |
| | `.PHONY`, `.SUFFIXES` or `.POSIX` with a script or before `&:` | remove the script; use a line of its own |
| `BadMacro` | a `$` that begins no reference, a `$(` never closed, a bad macro name as in `A += b` | write `$$` for a `$`; write `=` |
| `BadPath` | a target, prerequisite or included file that is no path, or is the root | no `/` at either end, no empty names |
| `LineTooLong` | a rule line, include line or macro above 65,536 bytes when expanded | split it |
| `MacroLoop` | a macro that refers to itself, used or not | break the loop |
| `TwoScripts` | a target with two scripts | keep one; rules without a script may add prerequisites |
| `PhonyScript` | a `.PHONY` target with a script | move the script to a file that it makes |
| `IncludeAbsent` | the view has no such file | save it |
| `IncludeDepth` | files include one another more than 16 deep | break the loop |
| `TooMany` | over 100,000 lines, 10,000 targets of rule lines or 1,000 included files | split the build, with `-f` |
"""

SPEC_CAUSE_ROWS = r"""
| BadRule | another first word; too few words; an unknown or repeated option, or one without its argument; excess words after `time DATE` or `end time`; another word than `time` after `end` |
| BadPattern | no valid pattern |
| BadSelector | no valid selector |
| BadDate | no valid date in `-time` or `time` |
| BadType | no type name after `-mkbranch` |
| NoBlock | `end time` with no open block |
"""

# Where each table is: its file, the text before it and the text after it.
TABLES = [
    (ANSWER_ROWS, "REFERENCE.md", "## Replies and refusals", "With a status other than 0"),
    (STATUS_ROWS, "REFERENCE.md", "With a status other than 0", "Statuses 6 and 8 take precedence"),
    (MAKE_CAUSE_ROWS, "REFERENCE.md", "### Makefile errors", "## Builds and reuse"),
    (SPEC_CAUSE_ROWS, "FORMATS.md", "The first bad line is reported with its cause", "## session_text"),
]


def lines_of(table):
    return table.strip().split("\n")


def cells_of(table):
    """The cells of a table, row by row."""
    return [[cell.strip() for cell in line.strip().strip("|").split("|")] for line in lines_of(table)]


def plain(text):
    """A text without the marks of its code."""
    return text.replace("`", "")


def answer_of(cells):
    code, *words = plain(cells[0]).split()
    if code == "blocked":
        return Answer(code, "", tuple(words), *cells[1:])
    return Answer(code, words[0], tuple(words[1:]), *cells[1:])


ANSWERS = {answer.code: answer for answer in map(answer_of, cells_of(ANSWER_ROWS))}
STATUSES = {int(number): (means, base) for numbers, means, base in cells_of(STATUS_ROWS) for number in numbers.split(",")}
SPEC_CAUSES = dict(cells_of(SPEC_CAUSE_ROWS))


def make_causes():
    """What each cause of a makefile's refusal may mean, each with what to do."""
    found, cause = {}, None
    for word, means, to_do in cells_of(MAKE_CAUSE_ROWS):
        cause = plain(word) or cause
        found.setdefault(cause, []).append((means, to_do))
    return found


MAKE_CAUSES = make_causes()


def table_in(text, start, end):
    """The rows of the table between two texts, without its head."""
    if start not in text or end not in text.partition(start)[2]:
        return []
    part = text.partition(start)[2].partition(end)[0]
    return [line for line in part.split("\n") if line.startswith("|")][2:]


def differences():
    """The rows that differ from those of docs/."""
    found = []
    for table, name, start, end in TABLES:
        told = table_in((DOCS / name).read_text(), start, end)
        found += difflib.unified_diff(told, lines_of(table), f"docs/{name}", "tools/answers.py", lineterm="", n=0)
    return found


if __name__ == "__main__":
    if sys.argv[1:] in (["-h"], ["--help"]):
        print(__doc__)
        sys.exit(0)
    if sys.argv[1:]:
        sys.exit("answers.py: takes no words")
    found = differences()
    print("\n".join(found) if found else f"{sum(len(lines_of(table)) for table, *_ in TABLES)} rows as in docs/")
    sys.exit(1 if found else 0)
