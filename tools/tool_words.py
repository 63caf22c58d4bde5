"""What the tools of a base have in common: words of the command line that are refused with one line, and how a tool ends."""
import argparse
import json
import os
import sys

from vob import Damaged, VobError


class Parser(argparse.ArgumentParser):
    """Reads the words of a command line, and refuses wrong ones with one line and the status 2."""

    def __init__(self, **settings):
        settings.setdefault("formatter_class", argparse.RawDescriptionHelpFormatter)
        super().__init__(**settings)

    def error(self, message):
        name = self.prog.split()[0]
        self.exit(2, f"{name}: {message} ({name} --help tells the words)\n")


def plain(value):
    """A value as JSON has it: bytes as text, where they are UTF-8, else in hexadecimal digits."""
    if isinstance(value, bytes):
        try:
            return value.decode()
        except UnicodeDecodeError:
            return {"hex": value.hex()}
    raise TypeError(f"no JSON for {type(value).__name__}")


def as_json(value, indent=None):
    return json.dumps(value, default=plain, indent=indent)


def number(text):
    """A number without a sign, as rows and ages are given."""
    if not text.isascii() or not text.isdigit():
        raise argparse.ArgumentTypeError(f"{text} is no number")
    return int(text)


def run(main):
    """Runs a tool's main, which answers its status. What it refuses is one line on standard error: the status 4 for a damaged base."""
    name = os.path.basename(sys.argv[0])
    try:
        status = main(sys.argv[1:])
        sys.stdout.flush()
    except VobError as error:
        print(f"{name}: {error}", file=sys.stderr)
        status = 4 if isinstance(error, Damaged) else error.status
    except KeyboardInterrupt:
        status = 130
    except BrokenPipeError:  # whoever reads has enough
        os.dup2(os.open(os.devnull, os.O_WRONLY), sys.stdout.fileno())
        status = 0
    sys.exit(status)
