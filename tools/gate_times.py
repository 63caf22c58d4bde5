#!/usr/bin/env python3
"""Runs the gate and prints what it cost, a line a crate: processor seconds, and the most memory that one prover of it held.

Usage: gate_times.py [RT'S WORDS], at the top of the repository. Without words it runs the gate from nothing: `rt ci --anew` where
the kit's rt has that word, and keeps what it passed, else `rt ci`.

It looks once a second at the provers that run below it, and adds up their processor time: the proof of each crate, a program's
builds counted in; the proof of its tests; and its must-fail edits with the proof of the crate over which they are tried. A prover
that lives for less than a second may be missed, so the sums are a little low. The gate's own output goes to gate_times.log; the
last line of it, the wall time and the table go to standard output, the table in Markdown.
"""
import collections
import os
import pathlib
import subprocess
import sys
import time

TICK = os.sysconf("SC_CLK_TCK")
KINDS = ["proof", "tests", "edits"]


def children_of():
    """The processes by their parent: each by its number and when it began, since numbers come again, with its processor time."""
    found = collections.defaultdict(list)
    for entry in os.scandir("/proc"):
        if entry.name.isdigit():
            try:
                stat = pathlib.Path(entry.path, "stat").read_text()
            except OSError:
                continue
            fields = stat.rpartition(")")[2].split()
            process = int(entry.name), int(fields[19])
            found[int(fields[1])].append((process, (int(fields[11]) + int(fields[12])) / TICK))
    return found


def below(root):
    """Each process below one, with its processor time."""
    found, left = children_of(), [root]
    while left:
        for process, seconds in found.get(left.pop(), []):
            left.append(process[0])
            yield process, seconds


def peak_of(pid):
    """The most memory that a process has held so far, in megabytes, or 0 where it is gone."""
    try:
        status = pathlib.Path("/proc", str(pid), "status").read_text()
    except OSError:
        return 0
    return next((int(line.split()[1]) / 1024 for line in status.splitlines() if line.startswith("VmHWM:")), 0)


def told_of(pid):
    """The crate that a prover works on and for what, or None where the process is no prover."""
    try:
        words = pathlib.Path("/proc", str(pid), "cmdline").read_bytes().decode(errors="replace").split("\0")
        folder = os.readlink(f"/proc/{pid}/cwd")
    except OSError:
        return None
    if "--crate-name" not in words or not words[0].endswith("/rattle"):
        return None
    crate = words[words.index("--crate-name") + 1]
    if os.path.basename(folder).startswith("rt-edit"):
        return crate, "edits"
    return crate, "tests" if "--test" in words else "proof"


def measured(command):
    """The gate's last line, its status, its wall time, and by crate the processor seconds of each kind and the peak of memory."""
    seen, names, peaks = {}, {}, collections.Counter()
    start = time.time()
    with open("gate_times.log", "w", encoding="utf-8") as log:
        gate = subprocess.Popen(command, stdout=log, stderr=subprocess.STDOUT)
        while gate.poll() is None:
            for process, seconds in below(gate.pid):
                # A prover has the words of the program that begins it at first, so what is none yet is asked again.
                if not names.get(process):
                    names[process] = told_of(process[0])
                if names[process]:
                    seen[process] = seconds
                    crate = names[process][0]
                    peaks[crate] = max(peaks[crate], peak_of(process[0]))
            time.sleep(1)
    wall = time.time() - start
    sums = collections.defaultdict(lambda: dict.fromkeys(KINDS, 0.0))
    for process, seconds in seen.items():
        crate, kind = names[process]
        sums[crate][kind] += seconds
    last = pathlib.Path("gate_times.log").read_text(encoding="utf-8", errors="replace").strip().splitlines()[-1:]
    return (last or [""])[0], gate.returncode, wall, sums, peaks


def line(name, row, peak):
    """A row of the table."""
    return f"| {name} | " + " | ".join(f"{row[kind]:.0f}" for kind in KINDS) + f" | {peak / 1000:.1f} |"


def from_nothing():
    """The words by which the kit's rt runs the gate from nothing."""
    told = subprocess.run(["rt", "help"], capture_output=True, text=True, check=False)
    return ["ci", "--anew"] if "--anew" in told.stdout + told.stderr else ["ci"]


def main():
    last, status, wall, sums, peaks = measured(["rt"] + (sys.argv[1:] or from_nothing()))
    whole = {kind: sum(row[kind] for row in sums.values()) for kind in KINDS}
    print(last)
    print(f"{wall:.0f} s, {sum(whole.values()) / 60:.0f} processor minutes of provers, {len(os.sched_getaffinity(0))} processors\n")
    print("| crate | proof, s | tests, s | edits, s | peak, GB |\n|---|---|---|---|---|")
    for crate, row in sorted(sums.items(), key=lambda item: -sum(item[1].values())):
        print(line(crate, row, peaks[crate]))
    print(line("all", whole, max(peaks.values(), default=0)))
    sys.exit(status)


if __name__ == "__main__":
    main()
