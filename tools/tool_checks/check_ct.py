"""ct.py: the lines that words become, the words that are refused, and what is explained."""
import os
import stat

from tool_checks import holds, same

# Words of the view v, and the lines of the session that they become.
LINES = [
    ("co -unres src/a.c", "checkout v -unreserved src/a.c"),
    ("checkout -nc . b", "checkout v .\ncheckout v b"),
    ("ci -ident b", "checkin v -identical b"),
    ("unco b", "uncheckout v b"),
    ("mkview", "mkview v"),
    ("mkview w", "mkview w"),
    ("rmview -force", "rmview -force v"),
    ("mkelem -nco b", "mkelem v -nco b"),
    ("mkelem -eltype directory d", "mkdir v d"),
    ("mkdir d d/e", "mkdir v d\nmkdir v d/e"),
    ("rmname b", "rmname v b"),
    ("mv d/b c", "mv v d/b c"),
    ("mv d/b d/c", "mv v d/b c"),
    ("rm b", "rm v b"),
    ("mkbrtype fix", "mkbrtype fix"),
    ("mklbtype REL1 REL2", "mklbtype REL1\nmklbtype REL2"),
    ("mkbranch -nco fix b", "mkbranch v -nco fix b"),
    ("mklabel -rep REL1 . b", "mklabel v -replace REL1 .\nmklabel v -replace REL1 b"),
    ("mklabel -replace -config out REL1", "mklabel v -replace -config out REL1"),
    ("rmlabel REL1 b", "rmlabel v REL1 b"),
    ("mkarrow b /main/fix/1", "mkarrow v b /main/fix/1"),
    ("merge -to b -ndata b@@/main/fix/1", "mkarrow v b /main/fix/1"),
    ("findmerge . -fversion .../fix/LATEST -print", "findmerge v . -fversion .../fix/LATEST"),
    ("findmerge -fver /main/LATEST", "findmerge v . -fversion .../main/LATEST"),
    ("cat b b@@/main/0", "cat v b\ncat v b@@/main/0"),
    ("catcs", "catcs v"),
    ("setcs -default", "setcs v\n|element * CHECKEDOUT\n|element * /main/LATEST"),
    ("setcs spec", "setcs v\n|element * REL1"),
    ("save b text", "save v b\n|one\n|two"),
    ("ls", "ls v"),
    ("ls d", "ls v d"),
    ("desc b", "describe v b"),
    ("lsvtree b", "lsvtree v b"),
    ("lsh b", "lshistory v b"),
    ("lsdo", "lsdo v"),
    ("rmdo out", "rmdo v out"),
    ("catcr out", "catcr v out"),
    ("diffcr out two", "diffcr v out v two"),
    ("diffcr out w two", "diffcr v out w two"),
    ("covers w out", "covers w v out"),
    ("scrub 0", "scrub 0"),
    ("make -j 4 -k CFLAGS=-O2 out", "clearmake v -J 4 -k CFLAGS=-O2 out"),
    ("clearmake -j2 -f mk -u -V", "clearmake v -J 2 -f mk -u -V"),
]

# Words that are refused, and what the line says.
WRONG = [
    ("frob", "frob is no command"),
    ("co", "a path is missing: wanted is checkout [-unreserved] P .."),
    ("co -foo b", "-foo is no option of checkout: wanted is one of"),
    ("co a//b", "'a//b' is no path: a name of it is empty"),
    ("co a/b?", "'a/b?' is no path: the name 'b?' is none"),
    ("ci -re b", "-re is no option of checkin"),
    ("save .", "too few words: wanted is save P FILE"),
    ("save . text", "the root . cannot be meant here"),
    ("save b none.txt", "none.txt: No such file or directory"),
    ("mkelem -eltype", "a word is missing after -eltype"),
    ("mkelem -eltype link b", "-eltype link is none: wanted is file or directory"),
    ("mv d/b e/b", "lies in another directory than d/b"),
    ("mklbtype 1st", "'1st' is no name of a label type: wanted is a name that begins with a letter"),
    ("mkarrow b 3", "'3' is no version: wanted is one as /main/3"),
    ("merge -to b c@@/main/1", "wanted is merge -ndata -to P"),
    ("merge -ndata -to b c@@/main/1", "c is another element than b"),
    ("findmerge .", "-fversion is missing"),
    ("findmerge . -fversion fix", "wanted is .../B/LATEST"),
    ("scrub 01", "'01' is no age in seconds"),
    ("make -j 65 out", "'65' is no number of scripts at once: wanted is a number from 1 to 64"),
    ("make -n", "-n is no option of clearmake here"),
    ("make -j 1 -j 2", "-J is given twice"),
    ("setcs bad", "line 2 of the config spec, 'element [ L': BadPattern"),
    ("catcs v", "too many words"),
    ("lstype -kind tree", "wanted is lstype"),
]

# A session at the prompt, and what has to be among the lines that it writes, in this order.
PROMPT = """mkview
co .
mkdir src lib
mkelem src/a.c lib/b.c
save src/a.c text
ci -ident lib/b.c
ci src lib .
co lib/b.c   # to be told of
rmview
ci lib/b.c
cat src/a.c
ls -long src
lsco -short
co none.c
make out
catcs
pwv
quit
"""
TOLD = [
    "mkview v: ok",
    "checkout .: ok /main/0",
    "rmview: refused C21 HasCheckouts 5",
    "C21: rows 5 (src/a.c) and 12 (lib/b.c) are checked out in this view",
    "  do: checkin or uncheckout each, or rmview -force v",
    "checkin lib/b.c: refused C11 Identical 8",
    "C11: the text is that of lib/b.c@@/main/1, which was checked out",
    "  do: uncheckout it, or checkin v -identical lib/b.c",
    "one",
    "two",
    "file element    a.c checkedout from /main/0 rule 1  element 5",
    "src/a.c",
    "lib/b.c",
    "checkout none.c: refused C3 NoPath none.c",
    "clearmake out: refused B1 NoMakefile Makefile",
    "B1: the view has no makefile",
    "element * CHECKEDOUT",
    "element * /main/LATEST",
    "v",
]


def check_in_order(what, text, wanted):
    lines, place = text.split("\n"), 0
    for line in wanted:
        holds(f"{what}: {line!r} behind the lines before it", line in lines[place:], text)
        place = lines.index(line, place) + 1


def check_words(bench):
    for words, lines in LINES:
        out = bench.answers("ct.py", "--session", "b.base", "v", *words.split())
        same(words, out, f"phase\nlane ct\n{lines}\n")
    for words, told in WRONG:
        bench.refuses("ct.py", "b.base", "v", *words.split(), status=2, told=told)
    bench.refuses("ct.py", "b.base", "a/b", "ls", status=2, told="'a/b' is no name of a view")
    bench.refuses("ct.py", "--program", "/none", "b.base", "v", "mkview", status=1, told="/none: No such file or directory")
    holds("no base was made", not os.path.exists(bench.path("b.base")))


def check_prompt(bench):
    ended = bench.tool("ct.py", "p.base", "v", given=PROMPT)
    same("the prompt's errors", ended.errors, "")
    check_in_order("the prompt", ended.output, TOLD)
    ended = bench.tool("ct.py", "p.base", "v", "make", "out")
    same("the status of a refusal", ended.status, 1)
    before = os.stat(bench.path("p.base"))
    for words in ("lsco", "lsview", "lstype", "ls -recurse", "help"):
        bench.answers("ct.py", "p.base", "v", *words.split())
    after = os.stat(bench.path("p.base"))
    same("the base behind looks", (after.st_mtime_ns, after.st_size), (before.st_mtime_ns, before.st_size))


def check_edcs(bench):
    """The editor's text becomes the config spec; one that is none is refused, and the old one stays."""
    editor = bench.write("editor", "#!/bin/sh\necho \"$LINE\" > \"$1\"\n")
    os.chmod(editor, os.stat(editor).st_mode | stat.S_IXUSR)
    settings = {"EDITOR": editor, "VISUAL": "", "LINE": "element * /main/LATEST"}
    same("edcs", bench.answers("ct.py", "p.base", "v", "edcs", settings=settings), "setcs: ok\n")
    ended = bench.tool("ct.py", "p.base", "v", "edcs", settings={**settings, "LINE": "element"})
    same("edcs of no rule", (ended.status, ended.output), (2, ""))
    same("catcs", bench.answers("ct.py", "p.base", "v", "catcs"), "element * /main/LATEST\n")


def check(bench):
    bench.write("text", "one\ntwo\n")
    bench.write("spec", "element * REL1\n")
    bench.write("bad", "element * REL1\nelement [ L\n")
    bench.helps("ct.py")
    check_words(bench)
    check_prompt(bench)
    check_edcs(bench)
    return f"{len(LINES)} commands, {len(WRONG)} words refused, a session at the prompt"
