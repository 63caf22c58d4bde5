#!/usr/bin/env python3
"""Counts what makes the sources long to read or costly to change: lines, clauses, copies of lemmas, private words and the like.

Usage: count_shapes.py [--crates] [--list WORD] [REVISION [REVISION]], at the top of the repository. Without a revision it counts
the checkout, else what git has of the revision; with two it prints a column for each.

It prints a row for each count. With --crates a table follows, a row for each crate: the lines of its folders, and the clauses
of its contracts. With --list it prints in place of the table what the rows whose names have that word count, as of the last
revision.

How it counts:
- Lines are those of files .rt, .antt and .edit. A crate whose name ends in _tests is tests. Tables are the data of
  session_tables.
- A lemma is a statement in proofs/ that stands by itself or in a module, whose parameters are part of it. What stands in a
  `where` is none, nor are answers to goals of the prover and values. Two lemmas are copies if their statements are equal word for
  word, up to the names of bound variables. Binders are the variables that a statement itself names at its head.
- A `requires` tests which command it is where it names a definition that tests a command. It names a kind of command where
  it has a constructor of one.
- A file names a deed or a command where it has a constructor of that enum, by a path or by import.
- An identifier uses a word where one of its parts is the word. Comments and strings are passed over.
- A function is named by a bare participle if its name is one word and ends in -ed, or is among IRREGULAR.
- A function's lines are those of its body.
"""
import collections
import io
import pathlib
import re
import subprocess
import sys
import tarfile

from check_docs import blocks, sentences, too_long

SOURCES = {".rt", ".antt", ".edit"}
FOLDERS = ["src", "specs", "proofs", "must-fail", "tests"]
MOST_BINDERS = 10
MOST_LINES = 40
MOST_COLUMNS = 130
MANY_NAMES = 15
# Words in a sense of this project's own, each by its forms as parts of an identifier, in order.
PRIVATE = {
    "front": ["front|fronts"],
    "sight": ["sight|sights"],
    "told": ["told"],
    "fellow": ["fellow|fellows"],
    "loose": ["loose"],
    "bears": ["bear|bears|bearing|bearings|borne"],
    "taken in": ["taken|takes|take", "in"],
}
SEVERAL_MEANINGS = ["sound", "gate", "tail", "desk", "listing", "kept"]
NO_PARTICIPLES = set("need seed feed speed bed red shed embed exceed proceed succeed deed indeed".split())
IRREGULAR = set(
    "begun borne bound broken built chosen done drawn driven due found given gone held hidden kept known left live lost"
    " made met paid risen said seen sent shown sought spent taken told torn written".split()
)

STRING = r'"(?:[^"\\\n]|\\.)*"'
CLAUSE = re.compile(r"\b(requires|ensures)\b(?: \w+)? \{")
IDENTIFIER = re.compile(r"[A-Za-z_]\w*")
PART = re.compile(r"[A-Z]?[a-z]+|[A-Z]+(?![a-z])|\d+")
FUNCTION = re.compile(r"( *)(?:pub(?:\([a-z ]+\))? )?(?:const )?(?:unsafe )?fn (\w+)")
DEFINITION = re.compile(r"(?:abbrev (?:pub )?|pub record |pub data |pub (?=\S+ : ))([^\s:]+)")
STATEMENT = re.compile(r"( *)(?:pub )?([^\s():]+) :(?: (.*))?$")
ANSWER_OR_VALUE = re.compile(r"\(?(?:goal\.|\w*[gG]oals?\.)|(?:List )?\w+$")
VARIANT = re.compile(r"    (\w+)(?: \{|\(|,)")
TOKEN = re.compile(r"\"[^\"]*\"|[\w'](?:[\w'-]|\.(?=[\w']))*|\S")
NAME = re.compile(r"[^\W\d][\w'-]*")


class Tree:
    """The sources and the documentation at a revision, each file's text by its path."""

    def __init__(self, revision):
        read = of_revision(revision) if revision else of_checkout()
        self.files = {path: text for path, text in read if path.suffix in SOURCES | {".md"} or "data" in path.parts}
        self.code = {path: without_comments(path, text) for path, text in self.files.items() if path.suffix in (".rt", ".antt")}
        self.identifiers = {
            path: collections.Counter(IDENTIFIER.findall(re.sub(STRING, "", text))) for path, text in self.code.items()
        }
        self.lemmas = list(lemmas(self))

    def sources(self, suffix, *folders, code=False):
        """The files with this suffix in these folders of crates that are no tests, with their texts or these without comments."""
        for path, text in (self.code if code else self.files).items():
            if path.suffix == suffix and folder_of(path) in folders:
                yield path, text

    def lines(self, folder, crate=None):
        """How many lines the sources of a folder have, in a crate or in all."""
        return sum(text.count("\n") for path, text in self.files.items()
                   if path.suffix in SOURCES and folder_of(path) == folder and crate in (None, path.parts[1]))

    def clauses(self, word, crate=None):
        """Each clause of a contract by this word, in a crate or in all: its file, and the clause to its closing brace."""
        for path, text in self.sources(".rt", "src", code=True):
            if crate in (None, path.parts[1]):
                for found in CLAUSE.finditer(text):
                    if found[1] == word:
                        yield path, closed(text, found.start())

    def crates(self):
        return sorted({path.parts[1] for path in self.files if path.parts[0] == "crates" and len(path.parts) > 2})


def of_checkout():
    """Each file of the checkout's crates and documentation."""
    root = pathlib.Path(".")
    for pattern in ["README.md", "docs/*.md", "crates/*/README.md", "crates/*/data/**/*"]:
        yield from ((path, path.read_text(errors="replace")) for path in root.glob(pattern) if path.is_file())
    for folder in FOLDERS[:4]:
        for path in root.glob(f"crates/*/{folder}/**/*"):
            if path.suffix in SOURCES and path.is_file():
                yield path, path.read_text()


def of_revision(revision):
    """Each file of a revision's crates and documentation."""
    archive = subprocess.run(["git", "archive", revision, "README.md", "docs", "crates"], capture_output=True, check=True).stdout
    with tarfile.open(fileobj=io.BytesIO(archive)) as tar:
        for member in tar:
            if member.isfile():
                yield pathlib.PurePosixPath(member.name), tar.extractfile(member).read().decode(errors="replace")


def folder_of(path):
    """The folder of a crate that a file belongs to, or tests; empty for other files."""
    if path.parts[0] != "crates" or len(path.parts) < 4:
        return ""
    return "tests" if path.parts[1].endswith("_tests") else path.parts[2]


def without_comments(path, text):
    """A source without its comments; the lines stay."""
    comment = r"//.*" if path.suffix == ".rt" else r"(?<!\S)--(?:[ \t].*)?$"
    return re.sub(rf"(?m){STRING}|{comment}", lambda found: found[0] if found[0].startswith('"') else "", text)


def closed(text, start):
    """The text from a start to the brace that closes its first one."""
    depth = 0
    for end in range(text.index("{", start), len(text)):
        depth += (text[end] == "{") - (text[end] == "}")
        if depth == 0:
            return text[start:end + 1]
    return text[start:]


def lemmas(tree):
    """Each lemma of proofs/: its file, its name, its statement, and the parameters of the modules around it."""
    for path, text in tree.sources(".antt", "proofs", code=True):
        around, open_lemma = [], None
        for line in text.splitlines() + ["end"]:
            if not line.strip():
                continue
            indent = len(line) - len(line.lstrip())
            if open_lemma and indent > open_lemma[0]:
                open_lemma[2].append(line.strip())
                continue
            if open_lemma:
                yield path, open_lemma[1], " ".join(open_lemma[2]), open_lemma[3]
                open_lemma = None
            around = [block for block in around if block[0] < indent]
            found = STATEMENT.match(line)
            if found and not line.lstrip().startswith("abbrev") and all(block[1] is not None for block in around):
                open_lemma = (indent, found[2], [found[3] or ""], " ".join(block[1] for block in around))
            elif indent == 0 or around:
                around.append((indent, parameters(line)))


def parameters(line):
    """The parameters of the module that a line begins; None where it begins none."""
    found = re.match(r"\s*module _ (.*) where$", line)
    return found[1] if found else None


def stated(tree):
    """Each lemma that is no answer to a goal and no value."""
    return [lemma for lemma in tree.lemmas if not ANSWER_OR_VALUE.match(lemma[2])]


def binders(tokens):
    """The groups of variables that a statement binds: the depth of each, and where its names begin and end."""
    depth = 0
    for place, token in enumerate(tokens):
        if token in "({":
            end = place + 1
            while end < len(tokens) and NAME.fullmatch(tokens[end]):
                end += 1
            if place + 1 < end < len(tokens) and tokens[end] == ":":
                yield depth, place + 1, end
        depth += (token in "({[") - (token in ")}]")
        if token == "λ":
            end = place + 1
            while end < len(tokens) and NAME.fullmatch(tokens[end]):
                end += 1
            yield depth + 1, place + 1, end


def plain(statement):
    """A statement with numbers for the names of its bound variables."""
    tokens = TOKEN.findall(statement)
    bound = {place for _, first, end in binders(tokens) for place in range(first, end)}
    numbers, words = {}, []
    for place, token in enumerate(tokens):
        head, dot, rest = token.partition(".")
        if place in bound:
            numbers[token] = f"#{len(set(numbers.values()))}"
        words.append(numbers.get(head, head) + dot + rest if token[0] != '"' else token)
    return " ".join(words)


def copied(tree):
    """The lemmas that stand more than once: each statement with the places of its copies."""
    found = collections.defaultdict(list)
    for path, name, statement, around in stated(tree):
        found[plain(f"{around} {statement}")].append((path, name, statement))
    return {key: places for key, places in found.items() if len(places) > 1}


def copied_statements(tree):
    for places in sorted(copied(tree).values(), key=len, reverse=True):
        yield f"{len(places)} copies: {places[0][2][:160]}"


def copies(tree):
    for places in sorted(copied(tree).values(), key=len, reverse=True):
        yield from (f"{path}: {name}" for path, name, _ in places)


def long_statements(tree):
    for path, name, statement, _ in stated(tree):
        tokens = TOKEN.findall(statement)
        count = sum(end - first for depth, first, end in binders(tokens) if depth == 0)
        if count > MOST_BINDERS:
            yield f"{path}: {name} has {count}"


def clauses(word):
    return lambda tree: (f"{path}: {' '.join(clause.split())}" for path, clause in tree.clauses(word))


def long_clauses(tree):
    """The clauses of contracts that take more than two lines."""
    for word in ["requires", "ensures"]:
        yield from (f"{path}: {' '.join(clause.split())}" for path, clause in tree.clauses(word) if clause.count("\n") > 1)


def unreachable(tree):
    for path, text in tree.sources(".rt", "src", code=True):
        yield from (f"{path}: {line.strip()}" for line in text.splitlines() if "unreachable!" in line)


def required(tree, pattern):
    """The clauses `requires` that have a pattern."""
    return (f"{path}: {' '.join(clause.split())}" for path, clause in tree.clauses("requires") if re.search(pattern, clause))


def tests_of_commands(tree):
    """The clauses `requires` that test which command it is."""
    tests = [test for _, text in tree.sources(".antt", "specs")
             for test in re.findall(r"^abbrev (?:pub )?(\w+) : (?:Command|Change|Query) → Bool$", text, re.M)]
    return required(tree, rf"\b(?:{'|'.join(tests)})\b [\w(]")


def variants(tree, enum):
    """The constructors of an enum of cc_names."""
    for path, text in tree.sources(".rt", "src"):
        body = re.search(rf"^pub enum {enum} \{{\n(.*?)^\}}", text, re.M | re.S) if path.parts[1] == "cc_names" else None
        if body:
            return set(VARIANT.findall(re.sub(r" *//.*", "", body[1])))
    return set()


def named_in(path, text, enum):
    """The names that a file has of an enum's constructors: by the enum's path, by the module of its variants, or by import."""
    if path.suffix == ".rt":
        names = set(re.findall(rf"\b{enum}::(\w+)", text))
        for group in re.findall(rf"\b{enum}::\{{([^}}]*)\}}", text):
            names |= set(IDENTIFIER.findall(group))
    else:
        names = set()
    for group in re.findall(rf"\b{enum}\.TheVariants\.\{{([^}}]*)\}}", text):
        names |= set(IDENTIFIER.findall(group))
    for alias in re.findall(rf"\b{enum}\.TheVariants as (\w+)", text):
        names |= set(re.findall(rf"\b{alias}\.(\w+)", text))
    return names


def naming(*enums):
    """Finds the files that name many constructors of some enums; a variant that only holds another of them is none."""
    def found(tree):
        wanted = {enum: variants(tree, enum) - set(enums) for enum in enums}
        for folder in FOLDERS[:3]:
            for path, text in [*tree.sources(".rt", folder), *tree.sources(".antt", folder)]:
                count = sum(len(named_in(path, text, enum) & wanted[enum]) for enum in enums)
                if count >= MANY_NAMES:
                    yield f"{path}: {count}"
    return found


def edits(tree):
    return (str(path) for path in tree.files if path.suffix == ".edit")


def bodies(tree):
    """Each function of the code: its file, its name, its indentation, and the lines of its body."""
    for path, text in tree.sources(".rt", "src"):
        name = None
        for number, line in enumerate(text.splitlines()):
            if name is None and (found := FUNCTION.match(line)):
                indent, name, start = found[1], found[2], number
            if name is not None and line.endswith("{") and (line == indent + "{" or number == start):
                start = number
            if name is not None and (
                line in (indent + "}", indent + "{}") or line.endswith(("{}", ";")) and line.startswith(indent + "f")
            ):
                yield path, name, indent, number - start - 1
                name = None


def long_functions(tree):
    yield from (f"{path}: {name}, {lines} lines" for path, name, _, lines in bodies(tree) if lines > MOST_LINES)


def unused_exports(tree):
    """Public functions that no other file of code names; a law is there for its contract alone."""
    used = collections.Counter()
    for path, _ in tree.sources(".rt", "src", "tests"):
        used.update(set(tree.identifiers[path]))
    for path, text in tree.sources(".rt", "src"):
        if "laws" not in {path.stem, path.parent.name}:
            yield from (f"{path}: {name}" for name in re.findall(r"^ *pub fn (\w+)", text, re.M) if used[name] == 1)


def uses_of(word):
    """Finds the uses of a private word in identifiers."""
    forms = [re.compile(form) for form in PRIVATE.get(word, [word])]

    def has_word(identifier):
        parts = [part.lower() for part in PART.findall(identifier)]
        places = range(len(parts) - len(forms) + 1)
        return any(all(form.fullmatch(part) for form, part in zip(forms, parts[place:])) for place in places)

    def found(tree):
        wanted = {identifier for identifier in set().union(*tree.identifiers.values()) if has_word(identifier)}
        for path, counts in tree.identifiers.items():
            for identifier in wanted & counts.keys():
                yield from [f"{identifier} in {path}"] * counts[identifier]
    return found


def shared(places):
    """Those of some names, each with its file, that several files have."""
    files = collections.defaultdict(set)
    for path, name in places:
        files[name].add(str(path))
    return (f"{name} in {', '.join(sorted(found))}" for name, found in sorted(files.items()) if len(found) > 1)


def free_functions(tree):
    for path, text in tree.sources(".rt", "src"):
        yield from ((path, found[2]) for line in text.splitlines() if (found := FUNCTION.match(line)) and not found[1])


def defined(tree):
    for path, text in tree.sources(".antt", "specs"):
        yield from ((path, found[1]) for line in text.splitlines() if (found := DEFINITION.match(line)))


def is_participle(name):
    """Whether a name is a participle alone, as `held` or `begun`."""
    return name in IRREGULAR or (name.isalpha() and name.islower() and name.endswith("ed") and name not in NO_PARTICIPLES)


def participle_functions(tree):
    for path, text in tree.sources(".rt", "src"):
        for line in text.splitlines():
            if (found := FUNCTION.match(line)) and is_participle(found[2]):
                yield f"{found[2]} in {path}"


def participle_definitions(tree):
    return (f"{name} in {path}" for path, name in defined(tree) if is_participle(name))


def wide_comments(tree):
    for path, text in tree.files.items():
        if path.suffix in (".rt", ".antt"):
            yield from (f"{path}: {len(line)}: {line.strip()[:60]}" for line in text.splitlines()
                        if len(line) > MOST_COLUMNS and line.lstrip().startswith(("//", "-- ")))


def wide_proofs(tree):
    for path, text in tree.sources(".antt", "proofs"):
        yield from (f"{path}: {len(line)}: {line.strip()[:60]}" for line in text.splitlines()
                    if len(line) > MOST_COLUMNS and not line.lstrip().startswith(("-- ", "use ")))


def docs(tree):
    return ((path, text) for path, text in sorted(tree.files.items()) if path.suffix == ".md")


def words_of_docs(tree):
    for path, text in docs(tree):
        yield from (f"{path}: {word}" for block, _ in blocks(text) for sentence in sentences(block) for word in sentence)


def long_sentences(tree):
    return (f"{path}: {fault}" for path, text in docs(tree) for fault in too_long(text))


def tables(tree):
    return (str(path) for path, text in tree.files.items() if "data" in path.parts for _ in range(text.count("\n")))


# What is counted, each by its name with a function that finds all that it counts.
SHAPES = {
    "lines of tables": tables,
    "clauses requires": clauses("requires"),
    "clauses ensures": clauses("ensures"),
    "clauses of more than two lines": long_clauses,
    "lemmas": stated,
    "statements of lemmas that have copies": copied_statements,
    "their copies": copies,
    f"lemmas of more than {MOST_BINDERS} binders": long_statements,
    "unreachable!": unreachable,
    "requires that test which command it is": tests_of_commands,
    "requires that name a kind of command": lambda tree: required(tree, r"\b(?:commands|changes|queries)\.[A-Z]"),
    f"files that name {MANY_NAMES} deeds or more": naming("Deed"),
    f"files that name {MANY_NAMES} commands or more": naming("Command", "Change", "Query"),
    "edits": edits,
    f"functions of more than {MOST_LINES} lines": long_functions,
    "public functions that no other file names": unused_exports,
    **{f"uses of {word} in identifiers": uses_of(word) for word in [*PRIVATE, *SEVERAL_MEANINGS]},
    "names that several free functions have": lambda tree: shared(free_functions(tree)),
    "names that several definitions have": lambda tree: shared(defined(tree)),
    "functions named by a participle": participle_functions,
    "definitions named by a participle": participle_definitions,
    f"comments wider than {MOST_COLUMNS}": wide_comments,
    f"lines of proofs wider than {MOST_COLUMNS}": wide_proofs,
    "words of the documentation": words_of_docs,
    "sentences of more than 40 words": long_sentences,
}


def count(found):
    return sum(1 for _ in found)


def rows(trees):
    """The rows of the table: a name, and a number for each revision."""
    for folder in FOLDERS:
        yield [f"lines of {folder}", *(tree.lines(folder) for tree in trees)]
    for name, find in SHAPES.items():
        yield [name, *(count(find(tree)) for tree in trees)]


def rows_of_crates(trees):
    """The rows of the table of crates: a cell has both numbers where two revisions differ."""
    yield ["crate", *FOLDERS, "requires", "ensures"]
    for crate in sorted({crate for tree in trees for crate in tree.crates()}):
        counts = [[*(tree.lines(folder, crate) for folder in FOLDERS),
                   *(count(tree.clauses(word, crate)) for word in ["requires", "ensures"])] for tree in trees]
        yield [crate, *(" > ".join(map(str, cells if len(set(cells)) > 1 else cells[:1])) for cells in zip(*counts))]


def print_table(table):
    table = list(table)
    widths = [max(len(str(row[column])) for row in table) for column in range(len(table[0]))]
    for row in table:
        print(row[0].ljust(widths[0]), *(str(cell).rjust(width) for cell, width in zip(row[1:], widths[1:])), sep="  ")


def main():
    words = sys.argv[1:]
    listed = words.pop(words.index("--list") + 1) if "--list" in words[:-1] else None
    revisions = [word for word in words if not word.startswith("--")]
    trees = [Tree(revision) for revision in revisions] or [Tree(None)]
    if listed is not None:
        for name, find in SHAPES.items():
            if listed in name:
                print(f"{name}:", *find(trees[-1]), sep="\n  ")
        return
    print_table([["", *(revisions or ["the checkout"])], *rows(trees)])
    if "--crates" in words:
        print()
        print_table(rows_of_crates(trees))


if __name__ == "__main__":
    main()
