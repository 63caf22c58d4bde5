"""The table of the session's commands: what each is for, and what users of ClearCase, git, make and Bazel know it as.

`write_command_docs.py` writes docs/FROM-CLEARCASE.md, the manual page, the completion for bash and the list of `ccbase --help`
from this table; `check_tools.py` has each command and option stand in an example.
"""
import re
from typing import NamedTuple

# What a column says where there is nothing to say.
NONE = ""

# An option in a form: a word that begins with `-`.
OPTION = re.compile(r"(?<!\S)\[?(-[A-Za-z]+)")


class Option(NamedTuple):
    """An option or word of a command, the same command with it, and its counterparts."""

    form: str
    does: str
    clearcase: str
    differs: str
    git: str = NONE
    make: str = NONE
    bazel: str = NONE


class Command(NamedTuple):
    """A command of the session, as its line is written, with its counterparts."""

    form: str
    does: str
    clearcase: str
    differs: str
    git: str
    make: str
    bazel: str
    body: bool = False
    options: tuple[Option, ...] = ()
    # Whether it only reads: its reply is a text, and it makes no row.
    reads: bool = False

    @property
    def name(self):
        """The first word of its line."""
        return self.form.split()[0]


class Group(NamedTuple):
    """Commands on one subject."""

    title: str
    commands: tuple[Command, ...]


class Missing(NamedTuple):
    """What ClearCase has and a session has not."""

    names: str
    why: str
    instead: str


class Status(NamedTuple):
    """A number with which the program ends."""

    number: int
    means: str


GROUPS = (
    Group("The session", (
        Command(
            "phase", "begins a phase, after all lanes of the previous one have ended",
            NONE, "there each command runs when it is typed", NONE, NONE, NONE,
        ),
        Command(
            "lane NAME", "begins a lane; the lanes of a phase run concurrently",
            NONE, "a lane is one user or one machine", NONE, NONE, NONE,
        ),
    )),
    Group("Views", (
        Command(
            "mkview V", "makes a view with the default config spec",
            "`mkview -tag V PATH`", "a name in the base: no storage, no server",
            "`git worktree add`", "a copy of the sources", "a workspace",
            ),
        Command(
            "rmview [-force] V", "removes a view, with its private files and references",
            "`rmview -tag V`", "refused while the view has checkouts",
            "`git worktree remove`", NONE, NONE,
            options=(Option(
                "-force", "cancels its checkouts too", "`rmview -force`", "there it only suppresses the prompts",
                ),),
        ),
        Command(
            "setcs V", "sets the config spec to the body",
            "`setcs -tag V FILE`", "the rules are in the session; some selectors are missing",
            "`git switch`", NONE, NONE, body=True,
        ),
        Command(
            "catcs V", "prints the config spec",
            "`catcs -tag V`", NONE, "`git status`", NONE, NONE, reads=True,
        ),
    )),
    Group("Elements", (
        Command(
            "mkelem V [-nco] P", "makes a file element and checks it out",
            "`mkelem P`", "no element types; refused where a view-private file is, which there becomes the checkout",
            "`git add`", NONE, NONE,
            options=(Option("-nco", "does not check it out", "`mkelem -nco`", NONE),),
        ),
        Command(
            "mkdir V [-nco] P", "makes a directory element and checks it out",
            "`mkdir P`", "every directory is an element",
            NONE, NONE, NONE,
            options=(Option("-nco", "does not check it out", "`mkdir -nco`", NONE),),
        ),
        Command(
            "checkout V [-unreserved] P", "checks out the selected version and reserves its branch",
            "`checkout P`", "only the latest version of a branch; no `-branch`, `-version`, `-ndata`",
            "nothing: files are writable", NONE, NONE,
            options=(Option(
                "-unreserved", "leaves the branch unreserved", "`checkout -unreserved`", NONE,
            ),),
        ),
        Command(
            "save V P", "saves the body as the text of a checked-out file, or as a view-private file",
            "an editor in the view", "a text is empty or ends in a newline",
            NONE, NONE, NONE, body=True,
        ),
        Command(
            "checkin V [-identical] P", "checks in the next version of the branch",
            "`checkin P`", "no `-keep`, `-from`, `-ptime`",
            "`git commit P`", NONE, NONE,
            options=(Option(
                "-identical", "also if the text has not changed", "`checkin -identical`", NONE,
            ),),
        ),
        Command(
            "uncheckout V P", "cancels a checkout and discards what was saved in it",
            "`uncheckout -rm P`", "no `-keep`",
            "`git restore P`", NONE, NONE,
        ),
        Command(
            "rmname V P", "removes a name from a checked-out directory",
            "`rmname P`", "refused while the view has the element checked out",
            "`git rm P`", NONE, NONE,
        ),
        Command(
            "mv V P NAME", "renames a name within a checked-out directory",
            "`mv P NEW`", "within one directory: NAME is not a path",
            "`git mv P NEW`", NONE, NONE,
        ),
        Command(
            "rm V P", "removes a view-private file",
            "`rm P` of the system", "view-private files only",
            NONE, NONE, NONE,
        ),
    )),
    Group("Branches, labels and merges", (
        Command(
            "mkbrtype B", "makes a branch type",
            "`mkbrtype B`", "no `-pbranch`: an element has one branch of a type",
            "`git branch B`", NONE, NONE,
        ),
        Command(
            "mkbranch V [-nco] B P", "makes a branch at the selected version and checks it out",
            "`mkbranch B P`", "no `-version`: a config spec selects where it begins",
            "`git switch -c B`", NONE, NONE,
            options=(Option("-nco", "does not check it out", "`mkbranch -nco`", NONE),),
        ),
        Command(
            "mklbtype L", "makes a label type",
            "`mklbtype L`", "no `-pbranch`, `-shared` or `-global`",
            NONE, NONE, NONE,
        ),
        Command(
            "mklabel V [-replace] L P", "labels the selected version",
            "`mklabel L P`", "no `-version`; no `-recurse`: `tools/label_tree.py` labels a tree",
            "`git tag L`", NONE, NONE,
            options=(Option("-replace", "moves the label from another version", "`mklabel -replace`", NONE),),
        ),
        Command(
            "mklabel V [-replace] -config P L", "labels every version that the record of the object at P lists",
            "`mklabel -config P L`", "no directories and makefiles; refused if a view-private file or a checkout was read",
            NONE, NONE, NONE,
        ),
        Command(
            "rmlabel V L P", "removes a label from an element",
            "`rmlabel L P`", NONE, "`git tag -d L`", NONE, NONE,
        ),
        Command(
            "mkarrow V P VERSION", "records that VERSION was merged into the selected version",
            "`merge -to P -ndata -version VERSION`", "the arrow only; refused while P is checked out, so check in first",
            "`git merge -s ours`", NONE, NONE,
        ),
        Command(
            "findmerge V P -fversion .../B/LATEST", "lists what is on branch B and not merged yet",
            "`findmerge P -fversion .../B/LATEST -print`",
            "never merges; `.../B/LATEST` is the only selector, B a branch type or `main`",
            "`git log HEAD..B`", NONE, NONE, reads=True,
        ),
    )),
    Group("Looking", (
        Command(
            "ls V [P]", "lists a directory: the selected versions, and the rules that select them",
            "`ls P`", "view-private files and objects are marked", "`git ls-files`", NONE, NONE, reads=True,
        ),
        Command(
            "cat V P", "prints a text as the view sees it",
            "`cat P` in the view", "also for objects", NONE, NONE, NONE, reads=True,
        ),
        Command(
            "cat V P@@VERSION", "prints the text of any version",
            "`cat P@@VERSION` in the view", "by its number only, not `LATEST` or a label", "`git show COMMIT:P`", NONE, NONE,
        ),
        Command(
            "describe V P", "prints an element, its selected version and the labels",
            "`describe P`", "no users, comments, attributes", "`git log -1 P`", NONE, NONE, reads=True,
        ),
        Command(
            "lsvtree V P", "prints all versions, branch by branch, with their labels",
            "`lsvtree -all P`", "`-all` always; no `-merge`: `tools/picture.py` draws the arrows",
            "`git log --graph --all P`", NONE, NONE, reads=True,
        ),
        Command(
            "lshistory V P", "prints the events of an element, newest first",
            "`lshistory P`", "no users, no comments", "`git log P`", NONE, NONE, reads=True,
        ),
    )),
    Group("Builds and objects", (
        Command(
            "clearmake V [-f P] [-J N] [-k] [-u] [-V] [NAME=TEXT ..] [GOAL ..]", "builds the goals",
            "`clearmake`", "scripts are in a small language; makefiles are a subset of POSIX make",
            NONE, "`make`", "`bazel build`",
            options=(
                Option("-f P", "uses the makefile P", "`clearmake -f P`", "at most once"),
                Option("-J N", "runs up to N scripts at once, 1 to 64", "`clearmake -J N`", "no build hosts", NONE, "`make -j N`",
                       "`--jobs=N`"),
                Option("-k", "continues after a failed unit", "`clearmake -k`", "always on"),
                Option("-u", "rebuilds the goals and all units that they need", "`clearmake -u`", NONE, NONE, "`make -B`", NONE),
                Option("-V", "reuses only objects of the view itself", "`clearmake -V`", NONE, NONE, NONE, "`--disk_cache=`"),
                Option("NAME=TEXT", "defines a macro", "`clearmake NAME=TEXT`", "no macros from the environment, no BOS files",
                       NONE, "`make NAME=TEXT`", "`--define NAME=TEXT`"),
                Option("GOAL", "what to build; by default the first target", "`clearmake GOAL`", NONE),
            ),
        ),
        Command(
            "lsdo V", "lists the objects that the view references, with reference counts",
            "`lsdo`", "only objects that the view references", NONE, NONE, NONE, reads=True,
        ),
        Command(
            "catcr V P", "prints the configuration record of an object",
            "`catcr P`", "no `-recurse`, `-flat` or `-union`: `tools/picture.py` draws the whole closure",
            NONE, NONE, "`bazel aquery`", reads=True,
        ),
        Command(
            "diffcr V P W Q", "compares two configuration records",
            "`diffcr P Q`", "the views are named, in place of view-extended paths", NONE, NONE, "compared execution logs", reads=True,
        ),
        Command(
            "covers W V P", "tells whether W sees all that an object of V was made from",
            NONE, "see REFERENCE, \"Records\"", NONE, NONE, NONE, reads=True,
        ),
        Command(
            "rmdo V P", "drops the view's reference to an object, which stays in the base",
            "`rmdo P`", "the view's reference only", NONE, "`make clean`", "`bazel clean`",
        ),
        Command(
            "scrub AGE", "removes objects without references that are AGE seconds old or more",
            "`scrubber`", "seconds since the build; there hours since the last reference", "`git gc`", NONE,
            "disk cache collection",
        ),
    )),
)

MISSING = (
    Missing("`mkvob`, `mount`, `lsvob`, `register`, `mktag`, `mkregion`", "a base is two files", "`ccbase FILE run` makes it"),
    Missing("`startview`, `setview`, `endview`, `pwv`, `lsview`", "no processes and no current view", "`tools/ct.py BASE VIEW` prompts in one"),
    Missing("snapshot views, `update`, `get`", "views are dynamic", "`tools/export_view.py`"),
    Missing("`clearfsimport`, `clearimport`, `relocate`", NONE, "`tools/import_tree.py`"),
    Missing("`rmelem`, `rmver`, `rmbranch`, `rmtype`, `rmmerge`, `rename`, `chtype`", "what is checked in stays", "`rmname`; `rmlabel`"),
    Missing("`merge`, `diff`, `annotate`", "texts are neither merged nor compared",
            "your own tools, then `mkarrow`"),
    Missing("`lscheckout`, `lsprivate`, `find`", NONE, "`tools/look.py`; `lsco` and `ls -recurse` of `tools/ct.py`"),
    Missing("`reserve`, `unreserve`", "decided at the checkout", "`uncheckout`, then `checkout -unreserved`"),
    Missing("`winkin`", "a build winks in by itself", "`clearmake`"),
    Missing("`mkattype`, `mkattr`, `mkhltype`, `mkhlink`", "no attributes and hyperlinks", "`mkarrow`"),
    Missing("`mktrtype`, `mktrigger`, `lock`, `protect`, `ln`", "no triggers, permissions, links", NONE),
    Missing("`mkeltype`, checkin of an object", "elements are texts and directories", NONE),
    Missing("UCM: `mkproject`, `mkstream`, `mkactivity`, `deliver`, `rebase`, `mkbl`", "not in scope", "branch types and labels"),
    Missing("`multitool`", "one base", "the model `ccbase FILE sites`"),
    Missing("`-c`, `-cq`, `-nc`", "rows have no comments", NONE),
    Missing("`clearmake -n`, `-q`, `-d`, `-p`", "there are no dry runs", "`covers`; `catcr`"),
    Missing("`clearmake -O`, `-T`, `-F`, `-M`, `-R`", "reuse always compares the whole record", NONE),
    Missing("`clearmake -U`; `-e`, `-A`, `-N`; `-B`", NONE, "`-u`; `NAME=TEXT`; `-J N`"),
    Missing("`clearmake -C`, `-i`, `-s`, `-r`", "no other modes, ignored failures, script output, built-in rules", NONE),
    Missing("in config specs: selectors by query, `include`, `-file`, `-directory`, `-eltype`, `-error`, blocks of `mkbranch`, `[..]` in"
            " patterns", NONE, "a rule for each path or pattern"),
)

STATUSES = (
    Status(0, "every command was carried out, and every unit of every build was made; or the base is sound"),
    Status(1, "a command was refused, or a unit failed or was blocked; or the base is not sound"),
    Status(2, "the arguments are none of the forms"),
    Status(3, "the text is not a session"),
    Status(4, "the journal is damaged: FILE has a frame that is not a row, or a row that is not valid after those before it"),
    Status(5, "the input failed"),
    Status(6, "the output failed"),
    Status(7, "the disk failed"),
    Status(8, "memory ran out, or the system gave no random numbers"),
    Status(9, "the text has more than 16,777,216 bytes"),
)

# What the letters in the forms stand for.
WORDS = (
    ("V, W", "views, names"),
    ("P, Q", "paths, names joined by `/`; `.` is the root"),
    ("B, L", "types of branches and of labels, names that begin with a letter"),
    ("VERSION", "a branch and a number, as `/main/2` or `/main/fix/0`"),
    ("AGE, N", "numbers"),
)


def commands():
    """Every command, in the table's order."""
    return [command for group in GROUPS for command in group.commands]


# The words of the commands that only read.
QUERIES = {command.name for command in commands() if command.reads}
# The words of the commands whose line names no view but, of `mkview`, the one that it makes.
WITHOUT_VIEW = {command.name for command in commands() if "V" not in command.form.split() or command.name == "mkview"}


def options_by_name():
    """The words that begin with `-` in the forms of each command, by its first word, each once."""
    found = {}
    for command in commands():
        known = found.setdefault(command.name, [])
        known += [word for word in OPTION.findall(command.form) if word not in known]
    return found
