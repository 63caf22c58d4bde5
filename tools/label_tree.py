#!/usr/bin/env python3
"""Writes the session that labels all that a view sees: its files and directories, the root too.

    tools/label_tree.py BASE VIEW LABEL SESSIONS [--replace] [--ccbase PROGRAM]

    tools/label_tree.py demo.base ann REL1 in && ccbase demo.base run < in/1.txt

SESSIONS is a folder, absent or empty so far, for the session `1.txt`; a tree of some 300,000 elements takes a second one. It makes the
label type if there is none, and skips what has the label already. --replace moves the label from other versions. With --ccbase the
program runs the session on the base. Listed, and not labelled, are

    checked out       an element of which the view selects its checkout
    elsewhere         without --replace, an element with the label on another version
    not selected      a name of whose element the view selects no version

The last line has the counts. Ends with 0; with 1 where something is listed, a command was refused or the base cannot be used; with 2
where the words are wrong; and with 4 where the base is damaged."""
import vob
from session_files import SessionFiles, are_carried_out, in_one_line
from vob_rows import VobError, is_type_name
from tool_words import Parser, run


def why_not(base, seen, label, replace):
    """Why what stands at a path is not labelled: nothing to do, or the word of the list; None where it is."""
    if isinstance(seen, vob.Unselected):
        return "not selected"
    if not isinstance(seen, vob.Selected):
        return ""
    if seen.out:
        return "checked out"
    holder = base.holders.get((label, seen.element))
    if holder == seen.row:
        return ""
    return "elsewhere" if holder is not None and not replace else None


def label_lines(base, view, label, replace, left_out):
    """The lines that label what a view sees; what cannot be labelled is added to a list."""
    if label not in base.types:
        yield f"mklbtype {label}\n"
    option = "-replace " if replace else ""
    for path, seen in base.selection(view).walk():
        why = why_not(base, seen, label, replace)
        if why is None:
            yield f"mklabel {view} {option}{label} {path}\n"
        elif why:
            left_out.append(f"{why}: {path}")


def given_words(words):
    """What the command line says."""
    parser = Parser(description=__doc__)
    for name in ("BASE", "VIEW", "LABEL", "SESSIONS"):
        parser.add_argument(name.lower(), metavar=name)
    parser.add_argument("--replace", action="store_true", help="moves the label")
    parser.add_argument("--ccbase", metavar="PROGRAM", help="the program, which runs the session on the base")
    given = parser.parse_args(words)
    if not is_type_name(given.label) or given.label in vob.RESERVED_NAMES:
        parser.error(f"no name of a label: {given.label}")
    return given


@in_one_line
def main(words):
    given = given_words(words)
    base = vob.read(given.base)
    if base.types.get(given.label) == "branch":
        raise VobError(f"{given.label} is a type of branches")
    left_out = []
    lines = list(label_lines(base, given.view, given.label, given.replace, left_out))
    sessions = SessionFiles(given.sessions, "label")
    for line in lines:
        sessions.add(line.encode())
    sessions.close()
    for line in left_out:
        print(line)
    labelled = sum(line.startswith("mklabel") for line in lines)
    print(f"{labelled} labelled, {len(left_out)} not; {len(sessions.paths)} sessions", flush=True)
    carried_out = not given.ccbase or are_carried_out(given.ccbase, given.base, sessions.paths)
    return 0 if carried_out and not left_out else 1


if __name__ == "__main__":
    run(main)
