#!/usr/bin/env python3
"""cleartool and clearmake at the desk: one command of a view, or a prompt.

    ct.py [--program CCBASE] [--session] BASE VIEW COMMAND ..
    ct.py [--program CCBASE] BASE VIEW                  a prompt, with completion

    ct.py demo.base ann co -unres src/a.c               ct.py demo.base ann ls -long src
    ct.py demo.base ann ci -ident src/a.c               ct.py demo.base ann findmerge . -fversion .../fix/LATEST
    ct.py demo.base ann make -j 4 program               ct.py demo.base ann edcs

The words are those of cleartool and clearmake, options cut short too; `help` lists them. They are tested first: a wrong one is refused
with one line and the status 2, and nothing is run. Then they are written as a session, which the program runs, and its answer is
printed; a refusal is explained from the reference and from the base. `ls -long`, `ls -recurse`, `lsco`, `lsview`, `lstype` and `pwv` are
answered from the base's files, as look.py does. The status is the program's.

    --program CCBASE    the program; else the environment's CCBASE, else `ccbase` on the PATH
    --session           print the session in place of running it

BASE is the FILE of `ccbase FILE run`; a command may begin it, as `mkview`. A text comes in by `save P FILE` or, with the editor that
EDITOR names, by `edit P`."""
import os
import shlex
import shutil
import subprocess
import sys

import vob
from answers import STATUSES, plain
from command_table import QUERIES, WITHOUT_VIEW
from ct_commands import COMMANDS, NAMES, Call, Wrong, call_of, path, session_of
from ct_explain import Explainer
from look import checkouts as checkout_lines
from look import several, types as type_lines
from tool_words import Parser, run
from vob_rows import is_name, join

try:
    import readline
except ImportError:  # a prompt without completion
    readline = None


class Desk:
    """A base with the program, and the view whose commands are carried out."""

    def __init__(self, file, view, program):
        self.file, self.view, self.program = file, view, program

    def base(self):
        """The base as its files are."""
        return vob.read(self.file)

    def known(self):
        """The base as far as it can be read, or None where there is none."""
        try:
            return vob.read(self.file, strict=False)
        except vob.VobError:
            return None

    def run(self, session):
        """What the program answers to a session: its status, its output and its errors."""
        if self.program is None:
            raise vob.VobError("no program: give --program, set CCBASE, or have ccbase on the PATH")
        try:
            done = subprocess.run([self.program, self.file, "run"], input=session, capture_output=True, check=False)
        except OSError as error:
            raise vob.VobError(f"{self.program}: {error.strerror}") from None
        return done.returncode, done.stdout.decode("utf-8", "replace"), done.stderr.decode("utf-8", "replace")


# What the tool answers itself


def long_line(selection, base, at, name):
    """A line of `ls -long`: what it is, and its row."""
    seen = selection.at(at)
    line = selection.line_at(at, name)
    if isinstance(seen, vob.Private):
        return f"private file    {line}  row {seen.row}, {several(len(base.text(seen.row)), 'byte')}"
    if seen is None:
        return f"derived object  {line}  {several(len(base.text(selection.view.held[at], at)), 'byte')}"
    kind = "directory" if base.elements[seen.element].is_directory else "file"
    return f"{kind + ' element':<15} {line}  element {seen.element}"


def ls(desk, call):
    base = desk.base()
    selection = base.selection(desk.view)
    lines = []
    for at in [path(call, word, True) for word in call.words] or ["."]:
        if not selection.is_directory(at):
            raise call.wrong(f"{at} is no directory that the view sees")
        found = [at] + [below for below, _ in selection.walk(at) if "-recurse" in call and below != at and selection.is_directory(below)]
        for directory in found:
            for name in selection.names(directory):
                below = join(directory, name)
                shown = below if "-recurse" in call else name
                lines.append(long_line(selection, base, below, shown) if "-long" in call else selection.line_at(below, shown))
    return lines


class View:
    """The words of look.py's `checkouts`."""

    def __init__(self, view):
        self.view = view


def lscheckout(desk, call):
    base = desk.base()
    if "-all" not in call:
        base.selection(desk.view)
    lines, found = checkout_lines(base, View(None if "-all" in call else desk.view))
    kept = [(line, one) for line, one in zip(lines, found) if not call.words or one["path"] in call.words]
    return [one["path"] or base.path_made(one["element"]) if "-short" in call else line for line, one in kept]


def lsview(desk, call):
    base = desk.base()
    for word in call.words:
        base.selection(word)
    lines = []
    for name, view in sorted(base.views.items()):
        mark = "*" if name == desk.view else " "
        counts = several(len(view.out), "checkout"), several(len(view.private), "private file"), several(len(view.held), "object")
        if not call.words or name in call.words:
            lines.append(name if "-short" in call else f"{mark} {name}  {', '.join(counts)}")
    return lines


def lstype(desk, call):
    kind = {None: None, "brtype": "branch", "lbtype": "label"}.get(call.options.get("-kind"), "")
    if kind == "" or call.words:
        raise call.wrong("wanted is lstype [-kind brtype] or [-kind lbtype]")
    lines, found = type_lines(desk.base(), None)
    kept = [(line, one) for line, one in zip(lines, found) if kind in (None, one["kind"])]
    return [one["type"] if "-short" in call else line for line, one in kept]


def pwv(desk, call):
    return [desk.view]


def helped(desk, call):
    if len(call.words) > 1 or call.words and call.words[0] not in NAMES:
        raise call.wrong(f"{' '.join(call.words)} is no command: wanted is help, or help COMMAND")
    wanted = [NAMES[word] for word in call.words] or list(COMMANDS)
    return [f"{' | '.join((name, *COMMANDS[name].aliases))} {COMMANDS[name].usage}".rstrip() for name in wanted]


LOCAL = {"ls": ls, "lscheckout": lscheckout, "lsview": lsview, "lstype": lstype, "pwv": pwv, "help": helped}


# What the program answers


def words_of(line):
    """The words of a session's line."""
    return (line.decode("utf-8", "replace") if isinstance(line, bytes) else line).split("\n")[0].split()


def shown(words, reply):
    """A reply of the program after the words of its command, but for the view."""
    rest = words[1:] if words[0] in WITHOUT_VIEW else words[2:]
    return f"{' '.join([words[0], *rest])}: {reply}"


def replies(transcript):
    """The lines of a transcript that answer commands, without those of its phase and lane."""
    return [line for line in transcript.split("\n")[:-1] if line and not line.startswith(("phase ", "lane "))]


def tell(desk, lines, transcript):
    """Prints a transcript, each refusal with its explanation; of a query that is answered its text alone."""
    told, explainer, operand = set(), None, ""
    for line in replies(transcript):
        if line.startswith("|"):
            print(line[1:])
            continue
        if line.startswith("  "):
            print(line)
        else:
            number, word, reply = line.split(" ", 2)
            words = words_of(lines[int(number) - 1])
            operand = words[-1]
            if not (word in QUERIES and reply == "ok"):
                print(shown(words, reply))
        if is_fault(line.split()):
            explainer = explainer or Explainer(desk.known(), desk.view)
            explained = explainer.explain_reply(line.split(), operand)
            if tuple(explained) not in told:
                told.add(tuple(explained))
                print("\n".join(explained))


def is_fault(words):
    """Whether a line reports a refusal, or of a unit that was not made."""
    return "refused" in words[2:3] or "failed" in words[1:2] or "blocked" in words[1:2]


def carry_out(desk, words, only_session=False):
    """Carries a command out, and answers its status."""
    call = call_of(desk.view, words)
    if call.name in LOCAL and not (call.name == "ls" and not call.options):
        print("".join(f"{line}\n" for line in LOCAL[call.name](desk, call)), end="")
        return 0
    lines = list_lines(call) if call.name == "ls" else COMMANDS[call.name].lines(call, desk.base)
    if only_session:
        sys.stdout.flush()
        sys.stdout.buffer.write(session_of(lines))
        return 0
    status, transcript, errors = desk.run(session_of(lines))
    if status not in (0, 1, 7, 8) or not transcript.startswith("phase"):
        means = plain(STATUSES[status][0]) if status in STATUSES else "it was stopped"
        raise vob.VobError(f"the program ended with {status}: {means}: {errors.strip() or transcript.strip()}".rstrip(": "))
    tell(desk, lines, transcript)
    if errors:
        print(errors, end="", file=sys.stderr)
    return status


def list_lines(call):
    """`ls` without options, which the program answers."""
    return [f"ls {call.view} {path(call, word, True)}" for word in call.words] or [f"ls {call.view}"]


# The prompt


class Completer:
    """What may come next on a line: a command, an option of it, or a path that the view sees."""

    def __init__(self, desk):
        self.desk, self.found = desk, []

    def paths(self, begun):
        base = self.desk.known()
        if not base or self.desk.view not in base.views:
            return []
        selection = base.selection(self.desk.view)
        directory = begun.rpartition("/")[0] or "."
        if not selection.is_directory(directory):
            return []
        below = [join(directory, name) for name in selection.names(directory)]
        return [at + "/" if selection.is_directory(at) else at for at in below] + sorted(base.types)

    def choices(self, line, begun):
        words = line.split()
        if not words or len(words) == 1 and not line.endswith(" "):
            return sorted(NAMES)
        command = COMMANDS.get(NAMES.get(words[0], ""))
        if begun.startswith("-") and command:
            return sorted(command.options) or ["-f", "-j", "-k", "-u", "-V"]
        return self.paths(begun)

    def __call__(self, begun, state):
        if state == 0:
            line = readline.get_line_buffer()[: readline.get_endidx()]
            self.found = [one for one in self.choices(line, begun) if one.startswith(begun)]
        return self.found[state] if state < len(self.found) else None


def begin_prompt(desk):
    if readline and sys.stdin.isatty():
        readline.set_completer(Completer(desk))
        readline.set_completer_delims(" \t")
        readline.parse_and_bind("tab: complete")


def next_words(desk):
    """The words of the next line; None at the end."""
    try:
        line = input(f"{desk.view}> " if sys.stdin.isatty() else "")
    except EOFError:
        return None
    try:
        words = shlex.split(line, comments=True)
    except ValueError as error:
        raise Wrong(f"{line!r} is no line of words: {str(error).lower()}") from None
    return None if words in (["quit"], ["exit"], ["q"]) else words


def prompt(desk):
    """Carries out line by line; the status is that of the last command."""
    begin_prompt(desk)
    status = 0
    while True:
        try:
            words = next_words(desk)
            if words is None:
                return status
            if words:
                status = carry_out(desk, words)
        except vob.VobError as error:
            sys.stdout.flush()
            print(f"ct.py: {error}", file=sys.stderr)
            status = 2 if isinstance(error, Wrong) else 1


def parser():
    words = Parser(prog="ct.py", description=__doc__, usage="ct.py [--program CCBASE] [--session] BASE VIEW [COMMAND ..]")
    words.add_argument("--program", default=os.environ.get("CCBASE") or shutil.which("ccbase"), help="the program")
    words.add_argument("--session", action="store_true", help="print the session in place of running it")
    words.add_argument("base", metavar="BASE")
    words.add_argument("view", metavar="VIEW")
    return words


def split(arguments):
    """The tool's own words, and those of the command, which may begin with `-`."""
    count, place = 0, 0
    while place < len(arguments) and count < 2:
        if arguments[place] == "--program":
            place += 1
        elif not arguments[place].startswith("-"):
            count += 1
        place += 1
    return arguments[:place], arguments[place:]


def main(arguments):
    own, command = split(arguments)
    words = parser().parse_args(own)
    if not is_name(words.view):
        raise Wrong(f"{words.view!r} is no name of a view: wanted are 1 to 255 of A-Z a-z 0-9 _ - . +, not begun with -")
    desk = Desk(words.base, words.view, words.program)
    if not command:
        return prompt(desk)
    return carry_out(desk, command, words.session)


if __name__ == "__main__":
    run(main)
