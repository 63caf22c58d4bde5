"""The table of commands: what is written from it, and that each command and option stands in an example of the project."""
import re

import command_table as table
from tool_checks import EXAMPLES, TOOLS, holds, same

# The commands of FORMATS, session_text, each with its options.
ROW = re.compile(r"^\| (`.*`).* \|")
LINE = re.compile(r"`([a-z]+)( [^`]*)?`")
OPTION = re.compile(r"(?<=[\s\[])-[A-Za-z]+")


def commands_of_formats():
    """The first words and options in the table of commands of docs/FORMATS.md; those of `clearmake` stand in its text."""
    text = (TOOLS.parent / "docs/FORMATS.md").read_text()
    start = text.index("| `mkview V` |", text.index("## session_text"))
    lines = text[start:].split("\n\n", 1)[0].splitlines()
    found = {"clearmake": {"-V", "-u", "-k", "-J", "-f"}}
    for row in filter(None, map(ROW.match, lines)):
        for name, rest in LINE.findall(row[1]):
            found.setdefault(name, set()).update(OPTION.findall(f" {rest}"))
    return found


def words_of_examples():
    """The first words and options that the project's sessions have."""
    found = {}
    for example in EXAMPLES.glob("project-*.txt"):
        for line in example.read_text().splitlines():
            if line and line[0] not in "#|":
                name, *words = line.split()
                found.setdefault(name, set()).update(word for word in words if word.startswith("-"))
                if name == "clearmake" and any("=" in word for word in words):
                    found[name].add("NAME=TEXT")
                if name == "cat" and "@@" in line:
                    found[name].add("@@")
    return found


# What is completed: the words so far, the function, and the answer.
COMPLETIONS = [
    ("ct.py b v mklabel -", "_ccbase_command", "-replace -config"),
    ("ct.py b v lsv", "_ccbase_command", "lsvtree"),
    ("ccbase b r", "_ccbase", "run"),
]


def check_completion(bench):
    """The completion for bash, in an empty folder."""
    for words, function, wanted in COMPLETIONS:
        script = f"source {TOOLS}/ccbase.bash; COMP_WORDS=({words}); COMP_CWORD=$((${{#COMP_WORDS[@]}} - 1)); {function}"
        ended = bench.run(["bash", "-c", f'{script}; echo "${{COMPREPLY[@]}}"'])
        same(f"the completion of {words}", (ended.output, ended.errors), (f"{wanted}\n", ""))


def check(bench):
    check_completion(bench)
    bench.helps("write_command_docs.py")
    bench.answers("write_command_docs.py", "--check")
    bench.refuses("write_command_docs.py", "frob", status=2, told="usage: write_command_docs.py")
    told = {name: set(options) for name, options in table.options_by_name().items() if name not in ("phase", "lane")}
    same("the commands and options of the table", told, commands_of_formats())
    shown = words_of_examples()
    for name, options in told.items():
        holds(f"{name} stands in an example", name in shown)
        same(f"the options of {name} that stand in no example", options - shown[name], set())
    holds("NAME=TEXT and P@@VERSION stand in examples", "NAME=TEXT" in shown["clearmake"] and "@@" in shown["cat"])
    listed = bench.answers("write_command_docs.py", "--list")
    same("the commands of --list", listed.count("\n  ") >= len(table.commands()), True)
    return f"{len(told)} commands, each with its options in an example"
