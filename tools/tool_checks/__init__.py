"""The checks of the tools, a file each, and what they have in common: `Bench`, which runs the program and the tools in a folder of its
own, and `same`."""
import contextlib
import importlib
import io
import os
import pathlib
import shutil
import subprocess
import sys
import tempfile
from typing import NamedTuple
from unittest import mock

import tool_words

TOOLS = pathlib.Path(__file__).resolve().parent.parent
EXAMPLES = TOOLS.parent / "examples"
IN_MEMORY = "/dev/shm"  # each row syncs the disk, so bases lie in memory where they can


class Failed(Exception):
    """What is wrong."""


class Ended(NamedTuple):
    """How a process ended."""

    status: int
    output: str
    errors: str


def same(what, found, wanted):
    if found != wanted:
        raise Failed(f"{what}: found {str(found)[:1500]}, wanted {str(wanted)[:1500]}")


def holds(what, test, found=""):
    if not test:
        raise Failed(f"{what}: found {str(found)[:1500]}" if found != "" else what)


class Bench:
    """A folder with bases and texts, and the program."""

    def __init__(self, program):
        self.program, self.folder = program, None

    def __enter__(self):
        room = IN_MEMORY if os.access(IN_MEMORY, os.W_OK) else None
        self.folder = pathlib.Path(tempfile.mkdtemp(prefix="check_tools-", dir=room))
        return self

    def __exit__(self, *_):
        shutil.rmtree(self.folder)

    def path(self, name):
        return str(self.folder / name)

    def write(self, name, data):
        """Writes a file of the folder, and answers its path."""
        place = self.folder / name
        place.parent.mkdir(parents=True, exist_ok=True)
        place.write_bytes(data.encode() if isinstance(data, str) else data)
        return str(place)

    def run(self, words, given=b"", **settings):
        done = subprocess.run(
            words, input=given.encode() if isinstance(given, str) else given, cwd=self.folder, capture_output=True, check=False,
            **settings,
        )  # fmt: skip
        return Ended(done.returncode, done.stdout.decode("utf-8", "replace"), done.stderr.decode("utf-8", "replace"))

    def session(self, base, text, status=0):
        """What the program writes for a session, where it ends with the status (None for any)."""
        ended = self.run([self.program, base, "run"], text)
        if status is not None:
            same(f"the status of a session on {base}", (ended.status, ended.errors), (status, ""))
        return ended.output

    def example(self, name):
        """The base that an example leaves."""
        base = f"{name}.base"
        self.session(base, (EXAMPLES / f"{name}.txt").read_bytes(), None)
        return base

    def process(self, name, *words, given=b"", settings=None):
        """How a tool of tools/ ends, as a process of its own."""
        environment = {**os.environ, "CCBASE": self.program, **(settings or {})}
        return self.run([sys.executable, str(TOOLS / name), *map(str, words)], given, env=environment)

    def tool(self, name, *words, given="", settings=None):
        """How a tool ends that has its `main` run by `tool_words.run`: here, since a process for each word would take long."""
        main = importlib.import_module(name.removesuffix(".py")).main
        with contextlib.ExitStack() as kept:
            kept.enter_context(mock.patch.dict(os.environ, {"CCBASE": self.program, **(settings or {})}))
            kept.enter_context(mock.patch.object(sys, "argv", [name, *map(str, words)]))
            kept.enter_context(mock.patch.object(sys, "stdin", io.StringIO(given)))
            output = kept.enter_context(mock.patch.object(sys, "stdout", io.TextIOWrapper(io.BytesIO(), write_through=True)))
            errors = kept.enter_context(mock.patch.object(sys, "stderr", io.StringIO()))
            before = os.getcwd()
            os.chdir(self.folder)
            try:
                tool_words.run(main)
            except SystemExit as ended:
                return Ended(ended.code or 0, output.buffer.getvalue().decode("utf-8", "replace"), errors.getvalue())
            finally:
                os.chdir(before)

    def answers(self, name, *words, given="", settings=None):
        """What a tool writes that ends with 0 and has no errors."""
        ended = self.tool(name, *words, given=given, settings=settings)
        same(f"{name} {' '.join(map(str, words))}", (ended.status, ended.errors), (0, ""))
        return ended.output

    def refuses(self, name, *words, status, told, given=""):
        """Checks that a tool refuses words with one line, which has this text, and writes nothing."""
        ended = self.tool(name, *words, given=given)
        what = f"{name} {' '.join(map(str, words))}"
        same(f"the status of {what}", (ended.status, ended.output), (status, ""))
        holds(f"{what}: one line with {told!r}", ended.errors.count("\n") == 1 and told in ended.errors, ended.errors)

    def helps(self, name):
        """Checks a tool's --help."""
        ended = self.process(name, "--help")
        holds(f"{name} --help tells its words", ended.status == 0 and name in ended.output and not ended.errors, ended)
