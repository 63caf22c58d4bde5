"""Runs a program under strace: which system calls it makes on files, and what it does where one of them fails.

A helper of check_edge.py. A call is given as its name and its file, and a write besides by its place, which a stream has none of,
and its bytes.
"""
import os
import re
import shutil
import subprocess

CALLS = "openat,flock,fdatasync,fsync,statx,pread64,pwrite64,write,ftruncate,rename,unlink"
LINE = re.compile(r"(?:\d+ +)?(\w+)\((.*)\) += +(-?\d+)(.*)$")
HELD = re.compile(r"(\d+)<([^>]*)>")
TEXT = re.compile(r'"([^"]*)"')
OUTPUT = "standard output"


def can_trace():
    """Whether strace is here, and may trace."""
    if shutil.which("strace") is None:
        return False
    return subprocess.run(["strace", "-o", os.devnull, "true"], stderr=subprocess.DEVNULL).returncode == 0


def plain(text):
    """The bytes that strace tells by their numbers, as \\xHH each."""
    return bytes.fromhex(text.replace("\\x", ""))


def call_of(line, folder):
    """The call that a line of a trace tells, where it is on the folder, a file below it or standard output; else None."""
    told = LINE.match(line)
    if told is None:
        return None
    name, words, result, behind = told.groups()
    held = HELD.search(result + behind if name == "openat" else words)
    if held is None:
        return None
    descriptor, path = held.group(1), os.fsdecode(plain(held.group(2)))
    if name == "write":
        return (name, OUTPUT, None, plain(TEXT.search(words).group(1))) if descriptor == "1" else None
    if path != folder and not path.startswith(folder + os.sep):
        return None
    file = os.path.relpath(path, folder)
    if name == "pwrite64":
        return name, file, int(words.rsplit(", ", 1)[1]), plain(TEXT.search(words).group(1))
    return name, file


def traced(program, words, text, folder):
    """Runs the program in a folder; answers its status, output and errors, and its calls."""
    log = folder + ".calls"
    telling = ["strace", "-f", "-y", "-xx", "-s", "1000000", "-e", f"trace={CALLS}", "-e", "signal=none", "-o", log]
    ended = subprocess.run([*telling, program, *words], cwd=folder, input=text, capture_output=True)
    with open(log, encoding="utf-8") as lines:
        calls = [call_of(line.rstrip("\n"), os.path.realpath(folder)) for line in lines]
    os.remove(log)
    return (ended.returncode, ended.stdout, ended.stderr), [call for call in calls if call is not None]


def injecting(call, fault, number, file=None):
    """The words in front of a program that let its call of this number on a file fail so, counted from 1; without a file on any."""
    only = ["-P", file] if file else []
    inject = f"inject={call}:{fault}:when={number}"
    return ["strace", "-f", "-qq", *only, "-e", f"trace={call}", "-e", inject, "-e", "signal=none", "-o", os.devnull]


def without_tracer(errors):
    """What stands on standard error without the lines of strace."""
    return b"".join(line for line in errors.splitlines(True) if not line.startswith(b"strace: "))
