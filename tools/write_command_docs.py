#!/usr/bin/env python3
"""Writes what the table of commands (tools/command_table.py) gives: docs/FROM-CLEARCASE.md, docs/ccbase.1,
tools/ccbase.bash and the list of commands in crates/ccbase/src/help.rt.

    tools/write_command_docs.py            writes them anew
    tools/write_command_docs.py --check    ends with 1 where one is not what the table gives, and names it
    tools/write_command_docs.py --list     prints the list of commands as `ccbase --help` shows it
"""
import pathlib
import sys
import textwrap

import command_table as table
from tool_words import run
from vob_rows import VobError

TOP = pathlib.Path(__file__).resolve().parent.parent
WIDTH = 120

FROM_CLEARCASE_HEAD = """\
# Coming from ClearCase, git, make or Bazel

Written by `tools/write_command_docs.py` from `tools/command_table.py`. Each command is a line of a session. REFERENCE explains them,
FORMATS has their grammar.
"""

CLEARCASE_HEAD = """\
## From ClearCase

An empty last column means no difference. Options in the second column are the same in ClearCase. V and W are views, P and Q paths, B
and L types of branches and of labels.
"""

ELSEWHERE_HEAD = """\
## From git, make and Bazel

The nearest counterparts. A version is of one file, so there is no commit of a whole tree; use a label. A build compares what
scripts *read* with what the view selects now. Prerequisites only decide the order; neither timestamps nor declared inputs count.
"""

MISSING_HEAD = """\
## What is missing

Commands and options of `cleartool` and `clearmake` without a counterpart.
"""


def cell(text):
    """A text as a cell of a table."""
    return text.replace("|", "\\|")


def code(text):
    """A text in the type of commands, or nothing."""
    return f"`{text}`" if text else ""


def is_same(command, option):
    """Whether an option has its name and its meaning in ClearCase too."""
    return option.clearcase == code(f"{command.name} {option.form}") and not option.differs


def clearcase_rows(group):
    """The lines of a group in the first table. An option that is the same in ClearCase is in the line of its command."""
    for command in group.commands:
        same = [option for option in command.options if is_same(command, option)]
        does = ". ".join([command.does, *(f"{code(option.form)}: {option.does}" for option in same)])
        form = code(command.form) + (", with a body" if command.body else "")
        yield f"| {form} | {does} | {command.clearcase or 'no counterpart'} | {cell(command.differs)} |"
        for option in command.options:
            if option not in same:
                yield f"| {code(f'{command.name} {option.form}')} | {option.does} | {option.clearcase} | {cell(option.differs)} |"


def clearcase_table():
    """The commands by groups, each with its counterpart in ClearCase."""
    lines = [CLEARCASE_HEAD]
    for group in table.GROUPS:
        lines += [f"### {group.title}", "", "| line | does | ClearCase | difference |", "|---|---|---|---|"]
        lines += [*clearcase_rows(group), ""]
    return "\n".join(lines)


def named(command):
    """A command by its first word, or by its form where another has the same word."""
    names = [other.name for other in table.commands()]
    return command.form if names.count(command.name) > 1 else command.name


def rows_elsewhere(columns):
    """The commands and options that have a counterpart in one of the columns, each a field of the table of commands."""
    for command in table.commands():
        entries = [(named(command), command), *((f"{command.name} {option.form}", option) for option in command.options)]
        for form, entry in entries:
            cells = [cell(getattr(entry, column)) for column in columns]
            if any(cells):
                yield f"| {code(form)} | {' | '.join(cells)} |"


def elsewhere_table():
    """The commands that have a counterpart in git, and those that have one in make or Bazel."""
    lines = [ELSEWHERE_HEAD, "| command | git |", "|---|---|", *rows_elsewhere(["git"])]
    lines += ["", "| command | make | Bazel |", "|---|---|---|", *rows_elsewhere(["make", "bazel"])]
    return "\n".join(lines) + "\n"


def missing_table():
    """What ClearCase has and a session has not."""
    lines = [MISSING_HEAD, "| missing | why | instead |", "|---|---|---|"]
    for entry in table.MISSING:
        lines.append(f"| {cell(entry.names)} | {cell(entry.why)} | {cell(entry.instead)} |")
    return "\n".join(lines) + "\n"


def from_clearcase():
    """docs/FROM-CLEARCASE.md."""
    return "\n".join([FROM_CLEARCASE_HEAD, clearcase_table(), elsewhere_table(), missing_table()])


def roff(text):
    """A text as roff shows it: hyphens and backslashes as they stand, no line that begins a request."""
    text = text.replace("\\", "\\e").replace("-", "\\-").replace("`", "")
    return "\\&" + text if text[:1] in (".", "'") else text


def man_commands():
    """The commands as paragraphs of the manual page."""
    for group in table.GROUPS:
        yield f".SS {group.title}"
        for command in group.commands:
            yield f".TP\n.B {roff(command.form)}\n{roff(sentence(command.does))}"
            if command.options:
                yield ".RS"
                for option in command.options:
                    yield f".TP\n.B {roff(option.form)}\n{roff(sentence(option.does))}"
                yield ".RE"


def sentence(text):
    """A phrase with a capital letter in front and a period behind."""
    return text[0].upper() + text[1:] + "."


MAN_HEAD = r""".\" Made by tools/write_command_docs.py from tools/command_table.py.
.TH CCBASE 1 "" "Livomeral" "User commands"
.SH NAME
ccbase \- versioned object base with dynamic views and audited builds
.SH SYNOPSIS
.B ccbase
.I FILE
.B run
.br
.B ccbase
.I FILE
.B verify
.br
.B ccbase
.I FILE
.B big
.I SEED SIZE
.br
.B ccbase
.I FILE
.B sites
.br
.B ccbase \-\-help
|
.B \-h
|
.B help
.br
.B ccbase \-\-version
.SH DESCRIPTION
.B ccbase run
reads a session from standard input, runs it on the base that the files
.I FILE
and
.IR FILE .objects
keep, and writes the replies to standard output. Absent files are created as an empty base.
.I FILE
is locked during the run.
.PP
.B ccbase verify
runs the script of each live object again, on what its record lists, and writes
.B sound
with the number of live objects, or
.B unsound
with the row of the first that is not what its script gives. It changes nothing and reads no input.
.PP
.B ccbase big
runs the large session of
.I SEED
and
.I SIZE
and writes a summary of its replies in five lines. It reads no input.
.PP
.B ccbase sites
reads from standard input what happens at up to 64 replicas that exchange packets, one event a line, and writes a reply to
each. It is a model of replicas on its own:
.I FILE
is neither opened nor created.
.PP
.I FILE
must be a base, or absent. Any other file whose bytes begin no row is treated as an empty base, and
.BR "the first commit overwrites it" .
Before that a line on standard error says how many of its bytes are not rows. There may be no such line if
.I FILE
begins with a byte 0 or 1, as some pictures and videos do. To look first, run
.BR "ccbase FILE run < /dev/null" ,
which writes nothing into an existing
.IR FILE .
.PP
A session is a list of phases, run one after another. The lanes of a phase run concurrently, and the commands of a lane in order.
Lines that begin with
.B #
are comments. The text of a
.B save
or
.B setcs
is the lines below it that begin with
.BR | .
.SH COMMANDS
"""

MAN_TAIL = r""".SH FILES
.TP
.I FILE
The journal: the rows of the base.
.TP
.IR FILE .objects
Kept beside it; empty so far.
.SH EXAMPLE
.nf
printf 'phase\enlane a\enmkview v\en' | ccbase demo.base run
.fi
.SH SEE ALSO
docs/GUIDE.md, docs/REFERENCE.md, docs/FORMATS.md and docs/FROM\-CLEARCASE.md of the repository.
"""


def man_words():
    """What the letters stand for."""
    yield "In these lines:"
    for word, means in table.WORDS:
        yield f".TP\n.B {roff(word)}\n{roff(sentence(means))}"


def man_statuses():
    """The numbers with which the program ends."""
    yield ".SH EXIT STATUS"
    for status in table.STATUSES:
        yield f".TP\n.B {status.number}\n{roff(sentence(status.means))}"


def man_page():
    """docs/ccbase.1."""
    return MAN_HEAD + "\n".join([*man_words(), *man_commands(), *man_statuses()]) + "\n" + MAN_TAIL


def completion():
    """tools/ccbase.bash."""
    names = " ".join(dict.fromkeys(command.name for command in table.commands() if command.clearcase or command.name == "covers"))
    cases = "\n".join(f"        {name}) echo '{' '.join(options)}' ;;"
                      for name, options in table.options_by_name().items() if options)
    return COMPLETION.replace("@NAMES@", textwrap.fill(names, 100, subsequent_indent=" " * 14)).replace("@CASES@", cases)


COMPLETION = """\
# Completion for bash of ccbase and ct.py: source this file. Made by tools/write_command_docs.py from tools/command_table.py.

_ccbase_names="@NAMES@"

# The options of a command.
_ccbase_options() {
    case $1 in
@CASES@
    esac
}

# ccbase FILE run, ccbase FILE verify, ccbase FILE big SEED SIZE, ccbase FILE sites
_ccbase() {
    local word=${COMP_WORDS[COMP_CWORD]}
    case $COMP_CWORD in
        1) COMPREPLY=($(compgen -f -- "$word") $(compgen -W '--help --version' -- "$word")) ;;
        2) COMPREPLY=($(compgen -W 'run verify big sites' -- "$word")) ;;
        *) COMPREPLY=() ;;
    esac
}

# The first word that names a command, and behind it that command's options or a file.
_ccbase_command() {
    local word=${COMP_WORDS[COMP_CWORD]} given
    for given in "${COMP_WORDS[@]:1:COMP_CWORD-1}"; do
        if [[ " ${_ccbase_names//$'\\n'/ } " == *" $given "* ]]; then
            COMPREPLY=($(compgen -W "$(_ccbase_options "$given")" -- "$word") $(compgen -f -- "$word"))
            return
        fi
    done
    COMPREPLY=($(compgen -W "$_ccbase_names" -- "$word") $(compgen -f -- "$word"))
}

complete -F _ccbase ccbase
complete -F _ccbase_command ct.py
"""


def help_list():
    """The list of `ccbase --help`."""
    shown = [(command.form, command.does) for command in table.commands()]
    indent = 34
    lines = ["The lines of a session. After save and setcs a text follows, each line of it begun by |"]
    for form, does in shown:
        wrapped = textwrap.wrap(does, WIDTH - indent)
        head = f"  {form}"
        if len(head) >= indent:
            lines.append(head)
            head = ""
        lines += [f"{left:{indent}}{part}" for left, part in zip([head] + [""] * len(wrapped), wrapped)]
    return "\n".join(lines) + "\n"


class Usage(VobError):
    """Words that are wrong."""

    status = 2


HELP = "crates/ccbase/src/help.rt"


def help_source():
    """The source file of the help, with the list between the line that the list begins with and the statuses."""
    source = (TOP / HELP).read_text()
    shown = help_list()
    before, _, rest = source.partition(shown.partition("\n")[0])
    return before + shown + "\nEnds with the status\n" + rest.partition("\nEnds with the status\n")[2]


FILES = {
    HELP: help_source,
    "docs/FROM-CLEARCASE.md": from_clearcase,
    "docs/ccbase.1": man_page,
    "tools/ccbase.bash": completion,
}


def differing():
    """The files that are not what the table gives."""
    for name, text in FILES.items():
        path = TOP / name
        if not path.is_file() or path.read_text() != text():
            yield name


def main(words):
    if words == ["--help"]:
        print(__doc__.strip())
    elif words == ["--check"]:
        wrong = list(differing())
        for name in wrong:
            print(f"{name}: not what the table gives")
        return 1 if wrong else 0
    elif words == ["--list"]:
        sys.stdout.write(help_list())
    elif not words:
        for name, text in FILES.items():
            (TOP / name).write_text(text())
            print(name)
    else:
        raise Usage("usage: write_command_docs.py [--check | --list]")
    return 0


if __name__ == "__main__":
    run(main)
