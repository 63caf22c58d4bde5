"""picture.py: what stands in the pictures of small bases, the pictures of docs/, and what is refused."""
import xml.etree.ElementTree as xml

from tool_checks import TOOLS, holds, same

SVG = "{http://www.w3.org/2000/svg}"
WRONG_WORDS = [
    (("no.base", "tree", "a"), 1, "no.base: No such file or directory"),
    (("project-merge.base", "frob", "a"), 2, "invalid choice: 'frob'"),
    (("project-merge.base", "tree", "a//b"), 2, "no path: a//b"),
    (("project-merge.base", "tree", "nothing"), 1, "nothing: no element there"),
    (("project-merge.base", "tree", "src", "--view", "eve"), 1, "there is no view eve"),
    (("project-merge.base", "object", "x"), 2, "no row: x"),
    (("project-merge.base", "object", "3"), 1, "row 3 made no object"),
    (("project-merge.base", "build", "eve"), 1, "there is no view eve"),
    (("project-merge.base", "build", "ann"), 1, "the view ann holds no object"),
]


def texts(svg):
    """The lines of a picture, and how many arrows of each kind it has."""
    root = xml.fromstring(svg)
    lines = [text.text for text in root.iter(f"{SVG}text")]
    ends = [path.get("marker-end") for path in root.iter(f"{SVG}path") if path.get("marker-end")]
    return lines, ends.count("url(#plain)"), ends.count("url(#merge)")


def boxes_overlap(svg):
    """Whether two boxes of a picture overlap."""
    placed = [rect for rect in xml.fromstring(svg).iter(f"{SVG}rect") if rect.get("x")]
    rects = [[float(rect.get(side)) for side in ("x", "y", "width", "height")] for rect in placed]
    return any(
        one[0] < two[0] + two[2] and two[0] < one[0] + one[2] and one[1] < two[1] + two[3] and two[1] < one[1] + one[3]
        for number, one in enumerate(rects) for two in rects[number + 1 :]
    )  # fmt: skip


def check_picture(bench, base, words, wanted, arrows):
    """A picture has these lines, so many plain arrows and merge arrows, the legend's one included, and no boxes that overlap."""
    svg = bench.answers("picture.py", base, *words)
    lines, plain, merges = texts(svg)
    for line in wanted:
        holds(f"{words}: a line {line}", line in lines, lines)
    same(f"the arrows of {words}", (plain, merges), arrows)
    holds(f"{words}: no boxes that overlap", not boxes_overlap(svg))
    dot = bench.answers("picture.py", base, *words, "--dot")
    same(f"the arrows of {words} as DOT", dot.count(" -> "), plain + merges - (1 if merges else 0))


def check(bench):
    bench.helps("picture.py")
    bench.example("project-merge")
    for words, status, told in WRONG_WORDS:
        bench.refuses("picture.py", *words, status=status, told=told)
    tree = ["/main/2", "/main/bye/1", "(MERGED)", "merge arrow"]
    check_picture(bench, "project-merge.base", ("tree", "src/main.c"), tree, (6, 2))
    bench.example("project-audit")
    record = ["src/words.c checkedout 56", "absent words.h", "include/greet.h@@/main/1", "checkout or private file"]
    check_picture(bench, "project-audit.base", ("object", "60"), record, (14, 0))
    bench.example("project-nightly")
    check_picture(bench, "project-nightly.base", ("build", "bob"), ["built", "winked in", "kept", "manual"], (13, 0))
    ended = bench.run(["python3", str(TOOLS / "write_pictures.py"), bench.program, "--check"])
    same("the pictures of docs/", (ended.status, ended.output), (0, ""))
    return f"3 subjects, {len(WRONG_WORDS)} refusals"
