"""Sessions that a tool writes as files `1.txt`, `2.txt` and so on of a folder, each below the limit of a session, and their run.

This is the only way in which tools change a base: they write sessions, and the program runs them."""
import os
import pathlib
import subprocess

from vob_rows import VobError

# A session has at most 16,777,216 bytes.
SESSION_LIMIT = 16_777_215


class SessionFiles:
    """A folder of sessions, absent or empty so far, each with one lane of one phase."""

    def __init__(self, folder, lane):
        self.folder, self.paths = pathlib.Path(new_folder(folder)), []
        self._head, self._file, self._size = f"phase\nlane {lane}\n".encode(), None, 0

    def add(self, command):
        """Adds lines that belong in one session."""
        if self._file is None or self._size + len(command) > SESSION_LIMIT:
            self.close()
            self.paths.append(self.folder / f"{len(self.paths) + 1}.txt")
            self._file = open(self.paths[-1], "wb")
            self._size = self._file.write(self._head)
        self._size += self._file.write(command)

    def close(self):
        if self._file is not None:
            self._file.close()


def new_folder(path):
    """Makes a folder, which is absent or empty so far."""
    os.makedirs(path, exist_ok=True)
    if os.listdir(path):
        raise VobError(f"{path}: is not empty")
    return path


def are_carried_out(program, base, paths):
    """Runs sessions on a base, until a command is refused or fails, which is printed. Answers whether none did."""
    for path in paths:
        with open(path, "rb") as session:
            run = subprocess.run([program, base, "run"], stdin=session, stdout=subprocess.PIPE, check=False)
        if run.returncode:
            lines = run.stdout.decode("latin-1").splitlines()
            wrong = [line for line in lines if " refused " in line or line.endswith("disk fault")] or lines[-1:]
            print(*(f"{path}: {line}" for line in wrong), f"{path}: ended with {run.returncode}", sep="\n")
            return False
    return True


def in_one_line(main):
    """A tool's main that reports system errors in one line, like those of a base."""

    def told(words):
        try:
            return main(words)
        except BrokenPipeError:
            raise
        except OSError as error:
            raise VobError(f"{error.filename}: {error.strerror}") from None

    return told


def shown(path):
    """A path of the system in one line: bytes that are no text, and control characters, are escaped."""
    text = os.fsencode(path).decode(errors="backslashreplace")
    return "".join(c if c.isprintable() else c.encode("unicode_escape").decode() for c in text)
