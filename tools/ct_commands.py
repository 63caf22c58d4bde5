"""The words of cleartool and clearmake, and the lines of a session that they become: `lines_of(view, words)`. Words are tested before
anything is run; `Wrong` says in one line which word is wrong and what is wanted.

A command is answered by the program, with lines of a session, or by the tool itself from the base's files (`LOCAL`). Options may be
cut short as in cleartool, as long as one option alone begins so."""
import os
import re
import shlex
import subprocess
import tempfile
from dataclasses import dataclass, field
from typing import Callable

import vob_specs as specs
from answers import SPEC_CAUSES, plain
from vob import VobError
from vob_rows import PATH_LIMIT, is_name, is_path, is_type_name, parent


class Wrong(VobError):
    """Words that are none of a command's."""

    status = 2


@dataclass
class Command:
    """A command: what follows its name, the options that it has (those with True take a word), and what makes its lines."""

    usage: str
    options: dict
    lines: Callable
    aliases: tuple = ()
    passes_options: bool = False  # its options are read by `lines`


@dataclass
class Call:
    """A command as it was called: by this name, in this view, with these options and words."""

    name: str
    view: str
    options: dict = field(default_factory=dict)
    words: list = field(default_factory=list)

    def wrong(self, message):
        return Wrong(f"{self.name}: {message}")

    def __contains__(self, option):
        return option in self.options

    def word(self, option, where=""):
        """An option of the session's line, where it was given."""
        return f" {where or option}" if option in self.options else ""


# Tests of words


def path(call, text, root=False):
    """The path that a word is."""
    if is_path(text) and (root or text != "."):
        return text
    if text == ".":
        raise call.wrong("the root . cannot be meant here: wanted is a path below it, as src/a.c")
    if len(text) > PATH_LIMIT:
        raise call.wrong(f"a path of {len(text):,} bytes is too long: wanted are at most 1,024")
    name = next((name for name in text.split("/") if not is_name(name)), "")
    fault = f"the name {name!r} is none" if name else "a name of it is empty"
    raise call.wrong(
        f"{text!r} is no path: {fault}; wanted are names of A-Z a-z 0-9 _ - . + joined by single /, as src/a.c, or . for the root"
    )


def name(call, text, what="view"):
    if not is_name(text):
        raise call.wrong(f"{text!r} is no name of a {what}: wanted are 1 to 255 of A-Z a-z 0-9 _ - . +, not begun with -")
    return text


def type_name(call, text, what):
    if not is_type_name(text):
        raise call.wrong(f"{text!r} is no name of a {what} type: wanted is a name that begins with a letter, as REL1")
    return text


def version(call, text):
    """A version as /main/3, or after the path's `@@`."""
    if not re.fullmatch(r"/main(/[^/]+)*/(0|[1-9][0-9]*)", text) or not all(map(is_type_name, text.split("/")[1:-1])):
        raise call.wrong(f"{text!r} is no version: wanted is one as /main/3 or /main/fix/0")
    return text


def number(call, text, what, least, most):
    if specs.number_of(text) is None or not least <= int(text) <= most:
        raise call.wrong(f"{text!r} is no {what}: wanted is a number from {least} to {most:,}, without leading zeros")
    return text


def several(call, what="path"):
    if not call.words:
        raise call.wrong(f"a {what} is missing: wanted is {call.name} {COMMANDS[call.name].usage}")
    return call.words


def exactly(call, count):
    if len(call.words) != count:
        found = "too few" if len(call.words) < count else "too many"
        raise call.wrong(f"{found} words: wanted is {call.name} {COMMANDS[call.name].usage}".rstrip())
    return call.words


# Texts


def file_text(call, name):
    """The text of a file of the user's, as a session has it: it is empty or ends with a newline."""
    try:
        with open(name, "rb") as file:
            return file.read()
    except OSError as error:
        raise call.wrong(f"{name}: {error.strerror}") from None


def body(text):
    """A text as body lines."""
    lines = text.split(b"\n")
    return b"".join(b"\n|" + line for line in (lines[:-1] if not lines[-1] else lines))


def spec_body(call, text):
    """The body lines of a config spec, whose lines are tested."""
    try:
        specs.rules_of(text)
    except specs.BadSpec as error:
        shown = specs.lines_of(text)[error.line - 1].decode("utf-8", "replace")
        raise call.wrong(f"line {error.line} of the config spec, {shown!r}: {error.cause}, it has {plain(SPEC_CAUSES[error.cause])}") from None
    return body(text)


def edited(call, text):
    """A text as the user's editor leaves it."""
    with tempfile.NamedTemporaryFile(suffix=".txt") as file:
        file.write(text)
        file.flush()
        editor = shlex.split(os.environ.get("VISUAL") or os.environ.get("EDITOR") or "vi")
        try:
            status = subprocess.run([*editor, file.name], check=False).returncode
        except OSError as error:
            raise call.wrong(f"the editor {editor[0]}: {error.strerror}; set EDITOR") from None
        if status:
            raise call.wrong(f"the editor ended with {status}; nothing was changed")
        return file_text(call, file.name)


# Commands that take paths, one line for each


def each(line, root=False):
    """Lines for each path, made of a template with V for the view, P for the path, and options."""

    def lines(call, base):
        return [line(call, path(call, word, root)) for word in several(call)]

    return lines


def of_view(line):
    def lines(call, base):
        exactly(call, 0)
        return [line.replace("V", call.view)]

    return lines


def mkview(call, base):
    if len(call.words) > 1:
        exactly(call, 1)
    return [f"mkview {name(call, call.words[0]) if call.words else call.view}"]


def rmview(call, base):
    if len(call.words) > 1:
        exactly(call, 1)
    return [f"rmview{call.word('-force')} {name(call, call.words[0]) if call.words else call.view}"]


def mkelem(call, base):
    kind = call.options.get("-eltype", "file")
    if kind not in ("file", "text_file", "directory"):
        raise call.wrong(f"-eltype {kind} is none: wanted is file or directory")
    word = "mkdir" if kind == "directory" else "mkelem"
    return [f"{word} {call.view}{call.word('-nco')} {path(call, one)}" for one in several(call)]


def types(line, what):
    def lines(call, base):
        return [f"{line} {type_name(call, word, what)}" for word in several(call, f"{what} type")]

    return lines


def mkbranch(call, base):
    if len(call.words) < 2:
        exactly(call, 2)
    branch = type_name(call, call.words[0], "branch")
    return [f"mkbranch {call.view}{call.word('-nco')} {branch} {path(call, one, True)}" for one in call.words[1:]]


def mklabel(call, base):
    replace = call.word("-replace")
    if "-config" in call:
        label = type_name(call, exactly(call, 1)[0], "label")
        return [f"mklabel {call.view}{replace} -config {path(call, call.options['-config'])} {label}"]
    if len(call.words) < 2:
        exactly(call, 2)
    label = type_name(call, call.words[0], "label")
    return [f"mklabel {call.view}{replace} {label} {path(call, one, True)}" for one in call.words[1:]]


def rmlabel(call, base):
    if len(call.words) < 2:
        exactly(call, 2)
    label = type_name(call, call.words[0], "label")
    return [f"rmlabel {call.view} {label} {path(call, one, True)}" for one in call.words[1:]]


def mv(call, base):
    """To another name, or to a path in the same directory."""
    old, new = exactly(call, 2)
    path(call, old)
    if "/" in new:
        path(call, new)
        if parent(new) != parent(old):
            raise call.wrong(f"{new} lies in another directory than {old}: wanted is another name in {parent(old)}")
        new = new.rpartition("/")[2]
    return [f"mv {call.view} {old} {name(call, new, 'file')}"]


def mkarrow(call, base):
    at, made = exactly(call, 2)
    return [f"mkarrow {call.view} {path(call, at)} {version(call, made)}"]


def merge(call, base):
    """cleartool's way to note a merge that was made by hand."""
    if "-ndata" not in call or "-to" not in call:
        raise call.wrong("no texts are merged here: wanted is merge -ndata -to P P@@/main/B/N after a merge by hand")
    to = path(call, call.options["-to"])
    at, _, made = exactly(call, 1)[0].partition("@@")
    if path(call, at) != to:
        raise call.wrong(f"{at} is another element than {to}: wanted is a version of {to}")
    return [f"mkarrow {call.view} {to} {version(call, made)}"]


def findmerge(call, base):
    wanted = call.options.get("-fversion")
    if wanted is None:
        raise call.wrong("-fversion is missing: wanted is findmerge P -fversion .../B/LATEST")
    found = re.fullmatch(r"(?:\.\.\./([^/]+)|/(main))/LATEST", wanted)
    if not found or not is_type_name(found[1] or found[2]):
        raise call.wrong(f"-fversion {wanted} is none: wanted is .../B/LATEST with a branch type B, or /main/LATEST")
    words = call.words or ["."]
    return [f"findmerge {call.view} {path(call, one, True)} -fversion .../{found[1] or found[2]}/LATEST" for one in words]


def cat(call, base):
    lines = []
    for word in several(call):
        at, mark, made = word.partition("@@")
        lines.append(f"cat {call.view} {path(call, at, True)}" + (f"@@{version(call, made)}" if mark else ""))
    return lines


def save(call, base):
    at, source = exactly(call, 2)
    text = file_text(call, source)
    return [f"save {call.view} {path(call, at)}".encode() + body(text)]


def edit(call, base):
    """Saves what an editor makes of the text that the view sees."""
    at = path(call, exactly(call, 1)[0])
    old = base().selection(call.view).text_at(at) or b""
    text = edited(call, old)
    if text == old:
        raise call.wrong(f"{at} was not changed, so nothing is saved")
    return [f"save {call.view} {at}".encode() + body(text)]


def setcs(call, base):
    if "-default" in call:
        exactly(call, 0)
        return [f"setcs {call.view}".encode() + body(specs.DEFAULT_SPEC)]
    return [f"setcs {call.view}".encode() + spec_body(call, file_text(call, exactly(call, 1)[0]))]


def edcs(call, base):
    exactly(call, 0)
    old = base().selection(call.view).view.spec
    text = edited(call, old)
    if text == old:
        raise call.wrong("the config spec was not changed, so it is not set")
    return [f"setcs {call.view}".encode() + spec_body(call, text)]


def diffcr(call, base):
    """Two objects of this view, or one of this view and one of another."""
    if len(call.words) not in (2, 3):
        exactly(call, 3)
    first, *other, second = call.words
    return [f"diffcr {call.view} {path(call, first)} {name(call, other[0]) if other else call.view} {path(call, second)}"]


def covers(call, base):
    other, at = exactly(call, 2)
    return [f"covers {name(call, other)} {call.view} {path(call, at)}"]


def scrub(call, base):
    return [f"scrub {number(call, exactly(call, 1)[0], 'age in seconds', 0, 2**63 - 1)}"]


def build(call, base):
    """clearmake: make's words, of which -j is -J here."""
    out, given = [], set()
    words = list(call.words)
    while words:
        word = words.pop(0)
        joined = re.fullmatch(r"-([jJf])(.+)", word)
        option, value = (f"-{joined[1]}", joined[2]) if joined else (word, None)
        option = "-J" if option == "-j" else option
        if option in ("-J", "-f"):
            if value is None and not words:
                raise call.wrong(f"a word is missing after {word}: wanted is {'a number' if option == '-J' else 'a makefile'}")
            if option in given:
                raise call.wrong(f"{option} is given twice: wanted is one")
            given.add(option)
            value = value or words.pop(0)
            out += [option, number(call, value, "number of scripts at once", 1, 64) if option == "-J" else path(call, value, True)]
        elif option in ("-V", "-u", "-k"):
            out.append(option)
        elif word.startswith("-"):
            raise call.wrong(f"{word} is no option of clearmake here: wanted are -j N, -f P, -k, -V and -u")
        elif "=" in word:
            out.append(macro(call, word))
        else:
            out.append(path(call, word, True))
    return [" ".join(["clearmake", call.view, *out])]


def macro(call, word):
    if not re.fullmatch(r"[A-Za-z0-9_.]+=[!-~]*", word):
        raise call.wrong(f"{word!r} is no macro: wanted is NAME=TEXT, with letters, digits, _ and . before the =, and no blank after it")
    return word


NOTHING = {"-nc": False, "-ncomment": False}
SHORT = {"-short": False, "-long": False}
MAKE = Command("[-j N] [-f P] [-k] [-V] [-u] [NAME=TEXT ..] [GOAL ..]", {}, build, ("make",), True)

COMMANDS = {
    "checkout": Command("[-unreserved] P ..", {"-unreserved": False, "-reserved": False, **NOTHING},
                        each(lambda c, p: f"checkout {c.view}{c.word('-unreserved')} {p}", True), ("co",)),
    "checkin": Command("[-identical] P ..", {"-identical": False, **NOTHING},
                       each(lambda c, p: f"checkin {c.view}{c.word('-identical')} {p}", True), ("ci",)),
    "uncheckout": Command("[-rm] P ..", {"-rm": False}, each(lambda c, p: f"uncheckout {c.view} {p}", True), ("unco",)),
    "mkview": Command("[V]", {}, mkview),
    "rmview": Command("[-force] [V]", {"-force": False}, rmview),
    "mkelem": Command("[-nco] [-eltype directory] P ..", {"-nco": False, "-eltype": True, **NOTHING}, mkelem),
    "mkdir": Command("[-nco] P ..", {"-nco": False, **NOTHING}, each(lambda c, p: f"mkdir {c.view}{c.word('-nco')} {p}")),
    "save": Command("P FILE", {}, save),
    "edit": Command("P", {}, edit),
    "rm": Command("P ..", {}, each(lambda c, p: f"rm {c.view} {p}")),
    "rmname": Command("P ..", NOTHING, each(lambda c, p: f"rmname {c.view} {p}")),
    "mv": Command("P NAME", NOTHING, mv, ("move",)),
    "mkbrtype": Command("B ..", NOTHING, types("mkbrtype", "branch")),
    "mklbtype": Command("L ..", NOTHING, types("mklbtype", "label")),
    "mkbranch": Command("[-nco] B P ..", {"-nco": False, **NOTHING}, mkbranch),
    "mklabel": Command("[-replace] L P ..  or  [-replace] -config P L", {"-replace": False, "-config": True, **NOTHING}, mklabel),
    "rmlabel": Command("L P ..", NOTHING, rmlabel),
    "mkarrow": Command("P VERSION", {}, mkarrow),
    "merge": Command("-ndata -to P P@@VERSION", {"-ndata": False, "-to": True}, merge),
    "findmerge": Command("[P ..] -fversion .../B/LATEST [-print]", {"-fversion": True, "-print": False}, findmerge),
    "setcs": Command("FILE  or  -default", {"-default": False}, setcs),
    "edcs": Command("", {}, edcs),
    "catcs": Command("", {}, of_view("catcs V")),
    "cat": Command("P ..  or  P@@VERSION ..", {}, cat),
    "describe": Command("P ..", SHORT, each(lambda c, p: f"describe {c.view} {p}", True), ("desc",)),
    "lsvtree": Command("P ..", {"-all": False}, each(lambda c, p: f"lsvtree {c.view} {p}", True)),
    "lshistory": Command("P ..", SHORT, each(lambda c, p: f"lshistory {c.view} {p}", True), ("lsh",)),
    "lsdo": Command("", SHORT, of_view("lsdo V")),
    "rmdo": Command("P ..", {}, each(lambda c, p: f"rmdo {c.view} {p}")),
    "catcr": Command("P ..", {}, each(lambda c, p: f"catcr {c.view} {p}")),
    "diffcr": Command("P [W] Q", {}, diffcr),
    "covers": Command("W P", {}, covers),
    "scrub": Command("AGE", {}, scrub),
    "clearmake": MAKE,
    "ls": Command("[-long] [-recurse] [P ..]", {"-long": False, "-recurse": False, "-short": False}, None),
    "lscheckout": Command("[-all] [-short] [P ..]", {"-all": False, "-short": False, "-me": False, "-cview": False}, None, ("lsco",)),
    "lsview": Command("[-short] [V ..]", SHORT, None),
    "lstype": Command("[-kind brtype]  or  [-kind lbtype]", {"-kind": True, **SHORT}, None),
    "pwv": Command("", {}, None),
    "help": Command("[COMMAND]", {}, None),
}  # fmt: skip

NAMES = {alias: name for name, command in COMMANDS.items() for alias in (name, *command.aliases)}


def option_of(call, word, options):
    """The option that a word is, whole or cut short."""
    if word in options:
        return word
    found = [option for option in options if option.startswith(word) and len(word) > 1]
    if len(found) == 1:
        return found[0]
    wanted = "one of " + ", ".join(sorted(options)) if options else "none"
    raise call.wrong(f"{word} is {'more than one option' if found else 'no option'} of {call.name}: wanted is {wanted}")


def call_of(view, words):
    """The call that words make: the command, its options, and the other words."""
    first = NAMES.get(words[0])
    if first is None:
        close = [alias for alias in NAMES if alias.startswith(words[0][:2])]
        wanted = f"{', '.join(close[:6])} or another that `help` lists" if close else "one that `help` lists"
        raise Wrong(f"{words[0]} is no command: wanted is {wanted}")
    call, command, rest = Call(first, view), COMMANDS[first], list(words[1:])
    if command.passes_options:
        call.words = rest
        return call
    while rest:
        word = rest.pop(0)
        if not word.startswith("-") or word == "-":
            call.words.append(word)
            continue
        option = option_of(call, word, command.options)
        if command.options[option] and not rest:
            raise call.wrong(f"a word is missing after {option}: wanted is {call.name} {command.usage}")
        call.options[option] = rest.pop(0) if command.options[option] else True
    return call


def session_of(lines):
    """The session of some lines, in one lane."""
    data = [line if isinstance(line, bytes) else line.encode() for line in lines]
    return b"phase\nlane ct\n" + b"".join(line + b"\n" for line in data)
