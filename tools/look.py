#!/usr/bin/env python3
"""Looks at a base: reads its files, writes nothing, and needs no program.

    look.py [--json] BASE WHAT ..

    rows                    a line for each row: number, date, phase.lane.command, what it did
    row N                   all of one row, with its text
    views                   a line for each view: checkouts, private files, objects, config spec
    types                   label and branch types, and where they stand
    checkouts [V]           what is checked out, the oldest first
    arrows                  merge arrows
    objects                 derived objects: row, targets, bytes, who holds them
    record [-r] ROW         the configuration record of an object; with -r down to versions and to what was absent
    why ROW ROW             why two objects differ: the first cause, down the objects that they were made from
    due AGE [--at DATE]     what a scrub of that age would take, and how many bytes that are
    check                   frames, bytes after the last one, digests
    follow [--seconds N]    rows as a running program adds them

BASE is the FILE of `ccbase FILE run`. A damaged base is printed as far as it can be read, with a line on standard error and the
status 4. Dates are in UTC. With --json there is one document, and a line of JSON for each row under `follow`.
"""
import hashlib
import os
import sys
import time
from argparse import SUPPRESS

import vob
import vob_rows as rows
from vob_specs import DEFAULT_SPEC, date_text, moment_of
from tool_words import Parser, as_json, number, run

POLL = 0.2  # seconds between two looks at a base that is followed


def several(count, word):
    return f"{count:,} {word}" + ("" if count == 1 else "s")


def size_of(data):
    return several(len(data), "byte")


# Rows


def field_text(name, value):
    """A field of a deed in a line."""
    if isinstance(value, bytes):
        return f"{name} {size_of(value)}"
    if name == "outputs":
        return "outputs " + " + ".join(size_of(output) for output in value if isinstance(output, bytes))
    if name == "reads":
        return several(len(value), "read")
    if name in ("targets", "objects"):
        return " ".join(map(str, value))
    if name == "places":
        return several(len(value), "version")
    if isinstance(value, bool):
        return name if value else f"not {name}"
    return f"{name} {value}" if isinstance(value, int) else str(value)


def word_of(deed):
    """The word of a deed in docs/FORMATS.md."""
    return "publish at" if isinstance(deed, rows.PublishAt) else type(deed).__name__.lower()


def row_line(row):
    fields = " ".join(field_text(name, value) for name, value in rows.deed_fields(row.deed).items())
    return f"{row.number} {date_text(row.moment)} {row.phase}.{row.lane}.{row.command} {word_of(row.deed)} {fields}"


def row_json(row):
    head = {"row": row.number, "moment": row.moment, "date": date_text(row.moment)}
    tag = {"phase": row.phase, "lane": row.lane, "command": row.command}
    fields = rows.deed_fields(row.deed)
    for name in ("reads", "places"):
        if name in fields:
            fields[name] = [one._asdict() for one in fields[name]]
    return {**head, **tag, "deed": word_of(row.deed), "fields": fields}


def text_lines(text):
    """A text's lines as a session has them, each after a `|`."""
    lines = text.decode("utf-8", "replace").split("\n")
    return [f"|{line}" for line in (lines[:-1] if not lines[-1] else lines)]


def all_rows(base, words):
    return lines_or_json(base.rows[1:], row_line, row_json, words)


def lines_or_json(found, line, form, words):
    """What is printed of each of some things: the lines, or with --json the JSON."""
    return (None, list(map(form, found))) if words.json else (list(map(line, found)), None)


def known_row(base, number):
    if not 0 < number < len(base.rows):
        raise vob.VobError(f"there is no row {number}: the base has rows 1 to {len(base.rows) - 1}")
    return base.rows[number]


def known_object(base, number):
    known_row(base, number)
    if number not in base.objects:
        raise vob.VobError(f"row {number} is no object: look at `objects`")
    return base.objects[number]


def one_row(base, words):
    row = known_row(base, words.number)
    lines = [row_line(row), f"frame at byte {row.place:,}, payload of {several(row.size, 'byte')}"]
    for name, value in rows.deed_fields(row.deed).items():
        if name == "reads":
            lines += [base.entry_line(read) for read in value]
        elif name == "outputs":
            for target, output in zip(row.deed.targets, value):
                lines += [f"output {target}", *text_lines(output)]
        elif name == "places":
            lines += [f"element {e} version {base.version_name(v)} row {v}" for e, v in value]
        elif isinstance(value, bytes):
            lines += [name, *text_lines(value)]
    return lines, row_json(row)


# What rows make


def views(base, words):
    lines, found = [], []
    for _, view in sorted(base.views.items()):
        spec = "default config spec" if view.spec == DEFAULT_SPEC else several(len(view.rules), "rule")
        counts = several(len(view.out), "checkout"), several(len(view.private), "private file")
        lines.append(", ".join((f"{view.name} row {view.row}", *counts, several(len(view.held), "object"), spec)))
        found.append({"view": view.name, "row": view.row, "checkouts": sorted(c.row for c in view.out.values()),
                      "private": view.private, "objects": view.held, "spec": view.spec})  # fmt: skip
    return lines, found


def types(base, words):
    lines, found = [], []
    labels = base.labels
    branches = {}
    for branch in base.branches.values():
        branches[branch.name] = branches.get(branch.name, 0) + 1
    for name, kind in sorted(base.types.items()):
        count = len(labels[name]) if kind == "label" else branches.get(name, 0)
        lines.append(f"{kind} {name} row {base.type_rows[name]} on {several(count, 'element')}")
        found.append({"type": name, "kind": kind, "row": base.type_rows[name], "elements": count})
    return lines, found


def checkouts(base, words):
    if words.view is not None and words.view not in base.views:
        raise vob.VobError(f"there is no view {words.view}")
    lines, found, seen = [], [], {}
    for out in base.checkouts:
        if words.view in (None, out.view):
            selection = seen.get(out.view) or seen.setdefault(out.view, base.selection(out.view))
            path = selection.path_of(out.element)
            origin, moment = base.version_name(out.origin), base.rows[out.row].moment
            where = path or f"{base.path_made(out.element)} (no path now)"
            reserved = "reserved" if out.reserved else "unreserved"
            saved = f", saved by row {out.making}" if out.making != out.row else ""
            lines.append(f"{out.view} row {out.row} {where} from {origin} {reserved} {date_text(moment)}{saved}")
            found.append({"view": out.view, "row": out.row, "element": out.element, "path": path, "origin": origin,
                          "reserved": out.reserved, "moment": moment, "making": out.making})  # fmt: skip
    return lines, found


def arrows(base, words):
    lines, found = [], []
    for arrow in base.arrows.values():
        tail, head, path = base.version_name(arrow.tail), base.version_name(arrow.head), base.path_made(arrow.element)
        lines.append(f"row {arrow.row} {path}@@{tail} into {path}@@{head}")
        found.append({**arrow._asdict(), "tail_version": tail, "head_version": head, "path_made": path})
    return lines, found


def object_line(found):
    state = f"held by {', '.join(sorted(found.holders))}" if found.holders else "held by no view"
    if not found.live:
        state = f"scrubbed by row {found.scrubbed}"
    return f"{found.row} {' '.join(found.targets)} {several(found.size, 'byte')} {date_text(found.moment)} by {found.view}, {state}"


def object_json(found):
    return {"object": found.row, "targets": found.targets, "view": found.view, "moment": found.moment, "bytes": found.size,
            "live": found.live, "scrubbed": found.scrubbed, "held_by": sorted(found.holders)}  # fmt: skip


def objects(base, words):
    return lines_or_json(base.objects.values(), object_line, object_json, words)


# Records


def record_lines(found):
    """The targets and the script of a record."""
    return [f"target {target}" for target in found.targets] + [f"script {line[1:]}" for line in text_lines(found.script)]


def record_tree(base, row):
    """The lines of a record and of those that it rests on, each once, a step further in for each."""
    lines, stack, told = [], [(row, 0)], set()
    while stack:
        at, depth = stack.pop()
        if isinstance(at, str):
            lines.append("  " * depth + at)
            continue
        if at in told:
            lines.append("  " * depth + f"record of {at}: above")
            continue
        told.add(at)
        found = base.objects[at]
        lines += ["  " * depth + line for line in record_lines(found)]
        for read in reversed(found.reads):
            if read.row in base.objects:
                stack.append((read.row, depth + 1))
            stack.append((base.entry_line(read), depth))
    return lines


def record_json(base, row, deep):
    """The record, and below it with `deep` those that it rests on, each once under its row."""
    found = {}
    stack = [row]
    while stack:
        at = stack.pop()
        if at in found:
            continue
        made = base.objects[at]
        reads = [{"path": r.path, "row": r.row, "name": base.row_name(r.row, r.path) if r.row else None} for r in made.reads]
        found[at] = {"targets": made.targets, "script": made.script, "reads": reads}
        if deep:
            stack += [read.row for read in made.reads if read.row in base.objects]
    return {"object": row, "records": found}


def record(base, words):
    found = known_object(base, words.number)
    if words.recursive:
        return record_tree(base, found.row), record_json(base, found.row, True)
    return record_lines(found) + list(map(base.entry_line, found.reads)), record_json(base, found.row, False)


def entry_name(base, path, row):
    if row is None:
        return f"{path} not asked for"
    return base.row_name(row, path) if row else f"{path} absent"


def first_difference(base, one, two):
    """The first thing in which two records differ: a word, and with `read` the path and its two rows. None where they are equal."""
    if one.targets != two.targets:
        return ("targets",)
    if one.script != two.script:
        return ("script",)
    reads = dict(one.reads), dict(two.reads)
    for path in sorted({*reads[0], *reads[1]}):
        rows_read = reads[0].get(path), reads[1].get(path)
        if rows_read[0] != rows_read[1]:
            return "read", path, *rows_read
    return None


def script_cause(one, two):
    """The first line in which two scripts differ."""
    lines = [text_lines(found.script) for found in (one, two)]
    for number in range(max(map(len, lines))):
        pair = [side[number][1:] if number < len(side) else "no such line" for side in lines]
        if pair[0] != pair[1]:
            return [f"  line {number + 1} < {pair[0]}", f"  line {number + 1} > {pair[1]}"]
    return ["  in the newline at the end"]


def why_lines(base, one, two):
    """The way from two objects down to the first cause by which they differ."""
    lines = []
    while one.row != two.row:
        both = f"{' '.join(one.targets)}: objects {one.row} and {two.row}"
        found = first_difference(base, one, two)
        if found is None:
            same = "the same bytes" if one.outputs == two.outputs else "other bytes: run one of them again with `clearmake -u`"
            return lines + [f"{both} have equal records, and {same}: both were built, with -u, with -V, or at once"]
        if found[0] == "targets":
            return lines + [f"{both} have other targets", f"  < {' '.join(one.targets)}", f"  > {' '.join(two.targets)}"]
        if found[0] == "script":
            return lines + [f"{both} have another script", *script_cause(one, two)]
        _, path, first, second = found
        names = [f"  {mark} {entry_name(base, path, row)}" for mark, row in (("<", first), (">", second))]
        lines += [f"{both} read other rows at {path}", *names]
        if first not in base.objects or second not in base.objects:
            return lines
        one, two = base.objects[first], base.objects[second]
    return lines + [f"object {one.row} is one and the same"]


def why(base, words):
    lines = why_lines(base, known_object(base, words.number), known_object(base, words.other))
    return lines, {"one": words.number, "two": words.other, "chain": lines}


def due(base, words):
    moment = int(time.time()) if words.at is None else moment_of(words.at)
    if moment is None:
        raise vob.VobError(f"{words.at} is no date: wanted is one as 14-Nov-2023.22:13:21, in UTC")
    found = base.due(words.age, moment)
    total = sum(one.size for one in found)
    form = {"age": words.age, "moment": moment, "bytes": total, "objects": list(map(object_json, found))}
    return [*map(object_line, found), f"{several(len(found), 'object')}, {several(total, 'byte')}"], form


# The file


def digest_of_frames(base, end):
    """The SHA-256 of the file up to the end of its last frame."""
    digest = hashlib.sha256()
    with open(base.path, "rb") as file:
        while end > 0:
            part = file.read(min(end, 1 << 20))
            if not part:
                break
            digest.update(part)
            end -= len(part)
    return digest.hexdigest()


def digests(found):
    """The SHA-256 of each output of an object, by target."""
    return {target: hashlib.sha256(output).hexdigest() for target, output in zip(found.targets, found.outputs)}


def check(base, words):
    behind, count = base.journal.behind(), len(base.rows) - 1
    digest = digest_of_frames(base, behind.place)
    lines = [f"frames {count:,}, {several(behind.place, 'byte')}, sha256 {digest}"]
    state = "foreign: not rows, and the next commit overwrites them" if behind.foreign else "as after a row or a crash"
    lines.append(f"after them {several(behind.count, 'byte')}" + (f", {state}" if behind.count else ""))
    other = base.path + ".objects"
    size = os.path.getsize(other) if os.path.exists(other) else None
    lines.append(f"{other}: " + ("absent" if size is None else several(size, "byte") + ("" if not size else ", and no row names any")))
    found = [(one, digests(one)) for one in base.objects.values()]
    lines += [f"object {one.row} {target} {len(one.output(target))} {told}" for one, all in found for target, told in all.items()]
    return lines, {"frames": count, "bytes": behind.place, "sha256": digest, "behind": behind.count, "foreign": behind.foreign,
                   "objects_file": size, "digests": {one.row: told for one, told in found}}  # fmt: skip


def follow(base, words):
    """Prints rows as they come, until it is interrupted or so many seconds have gone by."""
    end = None if words.seconds is None else time.monotonic() + words.seconds
    found = base.rows[1:]
    while True:
        for row in found:
            print(as_json(row_json(row)) if words.json else row_line(row))
        sys.stdout.flush()
        if base.damage or (end is not None and time.monotonic() >= end):
            return
        time.sleep(POLL)
        found = base.grow()


def parser():
    words = Parser(prog="look.py", description=__doc__, usage="look.py [--json] BASE WHAT ..")
    words.add_argument("--json", action="store_true", help="JSON in place of lines")
    words.add_argument("base", metavar="BASE")
    what = words.add_subparsers(metavar="WHAT", required=True)

    def add(name, answer, *arguments):
        one = what.add_parser(name, usage=f"look.py [--json] BASE {name}")
        one.set_defaults(answer=answer)
        one.add_argument("--json", action="store_true", default=SUPPRESS, help="JSON in place of lines")
        for flags, settings in arguments:
            one.add_argument(*flags, **settings)

    row = (["number"], {"type": number, "metavar": "ROW"})
    add("rows", all_rows)
    add("row", one_row, row)
    add("views", views)
    add("types", types)
    add("checkouts", checkouts, (["view"], {"nargs": "?", "metavar": "V"}))
    add("arrows", arrows)
    add("objects", objects)
    add("record", record, (["-r"], {"dest": "recursive", "action": "store_true", "help": "down to versions"}), row)
    add("why", why, row, (["other"], {"type": number, "metavar": "ROW"}))
    add("due", due, (["age"], {"type": number, "metavar": "AGE"}), (["--at"], {"metavar": "DATE"}))
    add("check", check)
    add("follow", follow, (["--seconds"], {"type": number, "metavar": "N"}))
    return words


def main(arguments):
    words = parser().parse_args(arguments)
    base = vob.read(words.base, strict=False)
    if words.answer is follow:
        follow(base, words)
    else:
        lines, form = words.answer(base, words)
        sys.stdout.write(as_json(form, 1) + "\n" if words.json else "".join(f"{line}\n" for line in lines))
    if base.damage:
        raise base.damage
    return 0


if __name__ == "__main__":
    run(main)
