#!/usr/bin/env python3
"""Checks the documentation: links, names, sentences and words.

Usage: check_docs.py [--words] [FILE ..], at the top of the repository. Without files it checks README.md, docs/*.md and
crates/*/README.md.

It reports each relative link without a target, each file or folder in backticks that is not there, each `Module.name` that no
definition of a file Module.antt has, each `path::name` of Rust that no source has, and each sentence of more than 40 words. Then
it prints a row for each file: its words, its sentences, their mean length, the longest, and how often it uses words that mean
something only to this project. With --words it reports each such use, and what the field says. It ends with 1 where a name does
not resolve or a sentence is too long. Code blocks are passed over; what is in backticks counts as one word of a sentence. The mean
is of paragraphs and lists, as table cells are no prose.
"""
import collections
import pathlib
import re
import sys

MOST_WORDS = 40
FILE = re.compile(r"[\w./*-]*[\w*-]\.(?:rt|antt|md|py|txt|edit|transcript)")
FOLDER = re.compile(r"(?:crates|docs|tools|examples|[a-z_]+/(?:src|specs|proofs|must-fail|data))(?:/[\w.-]+)*/?")
DEFINED = re.compile(r"([A-Z]\w*[a-z]\w*)\.([A-Za-z]\w+)")
RUST = re.compile(r"(?:[A-Za-z_]\w*::)+([A-Za-z_]\w*)")
LINK = re.compile(r"\]\(([^)#\s]+)(?:#[^)]*)?\)")
CODE_BLOCK = re.compile(r"```.*?```", re.S)
NOT_OURS = {".git", "out", "wip", "__pycache__"}
# Words that the project uses in a sense of its own, with what the field says.
PRIVATE = {
    r"br(?:ing|ings|ought|inging) (?:\w+ ){0,3}in\b": "check in",
    r"ha(?:s|ve|d) (?:(?!checked)\w+ ){0,3}out\b": "has checked out",
    r"(?:take|takes|taken|took) out\b": "check out, remove",
    r"behind\b": "after",
    r"(?:is|are|was|were|be|been) told\b|told by\b": "is reported",
    r"(?:come|comes|came) to\b": "results in",
    r"stands? (?:in|for|at|as|on|below)\b": "is in, depends on",
    r"taken in\b": "read",
    r"fellows?\b": "other builder",
    r"loose\b": "torn",
    r"sights?\b": "view",
    r"(?<!in )fronts?\b(?! of)": "prefix",
    r"bears? on\b": "affects",
}


class Tree:
    """What the repository has: its files and folders, and the names that its sources define."""

    def __init__(self, root):
        self.root = root
        files = [path.relative_to(root) for path in root.rglob("*") if path.is_file()]
        files = [path for path in files if not NOT_OURS & set(path.parts)]
        self.paths = {path.as_posix() for path in files} | {parent.as_posix() for path in files for parent in path.parents}
        self.modules = collections.defaultdict(str)
        for path in files:
            if path.suffix == ".antt":
                self.modules[path.stem] += (root / path).read_text() + "\n"
        self.rust = "\n".join((root / path).read_text() for path in files if path.suffix == ".rt")

    def has_path(self, name, beside):
        """Whether a name is that of a file or folder: from the top, from crates/ or a file's own folder, or as the end of a path."""
        name = name.rstrip("/")
        if "*" in name:
            return any(self.root.glob(name))
        places = {name, f"crates/{name}", f"{beside}/{name}"}
        return bool(places & self.paths) or any(path.endswith("/" + name) for path in self.paths)

    def defines(self, module, name):
        """Whether a file Module.antt has a definition, a field or a constructor of this name."""
        pattern = rf"^\s*(?:(?:abbrev|pub|record|data) )*{re.escape(name)}\s*(?:[:({{]|where|$)"
        return re.search(pattern, self.modules[module], re.M) is not None

    def has_rust(self, name):
        """Whether a source has a function, a type, a module or a variant of this name."""
        pattern = rf"\b(?:fn|struct|enum|trait|mod|type|const)\s+{name}\b|^\s+{name}\b\s*(?:[,({{]|$)"
        return re.search(pattern, self.rust, re.M) is not None

    def resolves(self, span, beside):
        """Whether what is in backticks names something, if it has the form of a path or of a qualified name."""
        if FILE.fullmatch(span) or FOLDER.fullmatch(span):
            return self.has_path(span, beside)
        if found := DEFINED.fullmatch(span):
            return self.defines(found[1], found[2])
        if found := RUST.fullmatch(span):
            return self.has_rust(found[1])
        return True


def unresolved(tree, file, text):
    """The links and names of a text that name nothing."""
    beside = file.parent.as_posix()
    for target in LINK.findall(text):
        if "://" not in target and not (tree.root / file.parent / target).exists():
            yield f"no target of the link {target}"
    for span in re.findall(r"`([^`\n]+)`", CODE_BLOCK.sub("", text)):
        if not tree.resolves(span, beside):
            yield f"nothing is named {span}"


def blocks(text):
    """The pieces in which sentences are, each with whether it is prose: paragraphs, list items and table cells."""
    prose = []
    for line in CODE_BLOCK.sub("\n\n", text).splitlines() + [""]:
        begins = re.match(r"\s*(?:[-*]|\d+\.)\s|#|\|", line)
        if prose and (begins or not line.strip()):
            yield " ".join(prose), True
            prose = []
        if line.startswith("|"):
            yield from ((cell, False) for cell in re.split(r"(?<!\\)\|", line))
        elif line.strip() and not line.startswith("#"):
            prose.append(re.sub(r"^\s*(?:[-*]|\d+\.)\s+", "", line).strip())


def plain(block):
    """A block without links and with one word for each piece of code."""
    return re.sub(r"\[([^\]]*)\]\([^)]*\)", r"\1", re.sub(r"`[^`]*`", "CODE", block))


def sentences(block):
    """The sentences of a block, each as its words. A list of names is none."""
    for sentence in re.split(r"(?<=[.!?])[)*\"]*\s+(?=[\"*(A-Z0-9])", plain(block)):
        words = [word for word in sentence.split() if re.search(r"\w", word)]
        if any(word.strip(".,:;") != "CODE" for word in words):
            yield words


def private_uses(text):
    """Each use of a private word, with the words around it and what the field says."""
    for block, _ in blocks(text):
        block = plain(block)
        for pattern, field in PRIVATE.items():
            for found in re.finditer(rf"\b(?:{pattern})", block, re.I):
                yield f"\"{block[max(0, found.start() - 30):found.end() + 30].strip()}\": {field}"


def figures(file, text):
    """The row of a file: its words, its sentences, their mean length and the longest, and its private words."""
    lengths = [(len(words), is_prose) for block, is_prose in blocks(text) for words in sentences(block)]
    prose = [length for length, is_prose in lengths if is_prose]
    mean = sum(prose) / len(prose) if prose else 0
    longest = max((length for length, _ in lengths), default=0)
    return [str(file), sum(length for length, _ in lengths), len(prose), f"{mean:.1f}", longest, len(list(private_uses(text)))]


def too_long(text):
    """The sentences that are too long, by their first words."""
    for block, _ in blocks(text):
        for words in sentences(block):
            if len(words) > MOST_WORDS:
                yield f"{len(words)} words: {' '.join(words[:12])} .."


def print_table(rows):
    rows = [["file", "words", "sentences", "mean", "longest", "private"], *rows]
    widths = [max(len(str(row[column])) for row in rows) for column in range(len(rows[0]))]
    for row in rows:
        print(row[0].ljust(widths[0]), *(str(cell).rjust(width) for cell, width in zip(row[1:], widths[1:])), sep="  ")


def main():
    root = pathlib.Path(".").resolve()
    names = [word for word in sys.argv[1:] if word != "--words"]
    found = [*root.glob("README.md"), *sorted(root.glob("docs/*.md")), *sorted(root.glob("crates/*/README.md"))]
    files = [pathlib.Path(name) for name in names] or [path.relative_to(root) for path in found]
    tree, faults, rows = Tree(root), 0, []
    for file in files:
        text = (root / file).read_text()
        found = [*unresolved(tree, file, text), *too_long(text)]
        for fault in found + (list(private_uses(text)) if "--words" in sys.argv else []):
            print(f"{file}: {fault}")
        faults += len(found)
        rows.append(figures(file, text))
    print_table(rows)
    print(f"{faults} faults")
    return 1 if faults else 0


if __name__ == "__main__":
    sys.exit(main())
