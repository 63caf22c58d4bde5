"""Reads the journal of a base: its frames, and the row that each spells. By docs/FORMATS.md alone (vob_journal, row_form).

    journal = Journal("demo.base")
    for frame, payload in journal.more():
        row = row_of(payload)

Only reads. `more` answers the frames that are whole by now, so it can be called again while a program adds rows; `behind` answers
what follows them. A payload that spells no row raises `NoRow`, with the place of its first byte that is wrong.
"""
import re
import struct
from dataclasses import dataclass
from typing import NamedTuple

LAST_MOMENT = 253_402_300_799  # the end of the year 9999
EXTENT_LIMIT = 1_048_576
NAME = re.compile(r"(?!-)(?!\.+\Z)[A-Za-z0-9_.+-]{1,255}\Z")
PATH_LIMIT = 1024


class VobError(Exception):
    """Why a base, or a word about one, cannot be used: one line. A tool that is refused so ends with the status."""

    status = 1


class NoRow(VobError):
    """A payload that spells no row."""

    def __init__(self, place, why):
        super().__init__(f"{why} at byte {place}")
        self.place, self.why = place, why


# Names and paths


def is_name(text):
    return NAME.match(text) is not None


def is_path(text):
    """Whether a text is a path, the root `.` included."""
    return text == "." or (0 < len(text) <= PATH_LIMIT and all(map(is_name, text.split("/"))))


def is_type_name(text):
    return is_name(text) and text[0].isalpha()


def names_of(path):
    """The names of a path; the root has none."""
    return [] if path == "." else path.split("/")


def join(directory, name):
    return name if directory == "." else f"{directory}/{name}"


def parent(path):
    """The path of all names but the last."""
    above, slash, _ = path.rpartition("/")
    return above if slash else "."


# Deeds, with the fields in the order of their spelling


@dataclass(slots=True)
class Mkview:
    view: str


@dataclass(slots=True)
class Rmview:
    view: str


@dataclass(slots=True)
class Setcs:
    view: str
    text: bytes


@dataclass(slots=True)
class Mkelem:
    view: str
    directory: int
    name: str
    kind: str
    out: bool


@dataclass(slots=True)
class Checkout:
    view: str
    element: int
    origin: int
    reserved: bool


@dataclass(slots=True)
class Branch:
    view: str
    element: int
    origin: int
    name: str
    out: str


@dataclass(slots=True)
class Save:
    view: str
    element: int
    text: bytes


@dataclass(slots=True)
class Checkin:
    view: str
    element: int


@dataclass(slots=True)
class Uncheckout:
    view: str
    element: int


@dataclass(slots=True)
class Rmname:
    view: str
    directory: int
    name: str


@dataclass(slots=True)
class Mv:
    view: str
    directory: int
    old: str
    new: str


@dataclass(slots=True)
class Put:
    view: str
    path: str
    text: bytes


@dataclass(slots=True)
class Rm:
    view: str
    path: str


@dataclass(slots=True)
class Mktype:
    kind: str
    name: str


@dataclass(slots=True)
class Label:
    label: str
    element: int
    version: int


@dataclass(slots=True)
class Unlabel:
    label: str
    element: int


class Read(NamedTuple):
    """An entry of a record: a path that the script asked for, and the row that it saw there; 0 where nothing was."""

    path: str
    row: int


@dataclass(slots=True)
class Publish:
    view: str
    targets: list
    script: bytes
    reads: list
    outputs: list


@dataclass(slots=True)
class Wink:
    view: str
    object: int


@dataclass(slots=True)
class Drop:
    view: str
    path: str


@dataclass(slots=True)
class Scrub:
    objects: list


class Placed(NamedTuple):
    element: int
    version: int


@dataclass(slots=True)
class Labels:
    label: str
    places: list


@dataclass(slots=True)
class Arrow:
    element: int
    tail: int
    head: int


class Extent(NamedTuple):
    """Where an output stands in the file of objects."""

    place: int
    length: int


@dataclass(slots=True)
class PublishAt:
    view: str
    targets: list
    script: bytes
    reads: list
    outputs: list


@dataclass(slots=True)
class Row:
    """A row: its number, counted from 1, the command that made it, its moment, what it does, and where its frame stands in FILE."""

    number: int
    phase: int
    lane: int
    command: int
    moment: int
    deed: object
    place: int = 0
    size: int = 0


def deed_fields(deed):
    """The fields of a deed, by their names."""
    return {name: getattr(deed, name) for name in deed.__slots__}


# The fields of a payload


class Payload:
    """The bytes of a row, read from the front."""

    __slots__ = ("data", "place")
    known = {}  # names that were read before, by their bytes

    def __init__(self, data):
        self.data, self.place = data, 0

    def number(self, size=8):
        place = self.place
        self.place = place + size
        if self.place > len(self.data):
            raise NoRow(place, "a number is cut short")
        return int.from_bytes(self.data[place : self.place], "little")

    def text(self):
        data, place = self.data, self.place
        start = place + 4
        end = self.place = start + int.from_bytes(data[place:start], "little")
        if end > len(data):
            raise NoRow(place, "a text is cut short")
        return data[start:end]

    def ruled(self, rule, what):
        place = self.place
        data = self.text()
        found = self.known.get((rule, data))
        if found is None:
            found = data.decode("latin-1")
            if not rule(found):
                raise NoRow(place, f"no {what}")
            if len(self.known) < 1_000_000:
                self.known[rule, data] = found
        return found

    def name(self):
        return self.ruled(is_name, "name")

    def type_name(self):
        return self.ruled(is_type_name, "name of a type")

    def path(self):
        return self.ruled(is_path_below, "path below the root")

    def choice(self, values):
        if self.place >= len(self.data) or self.data[self.place] not in values:
            raise NoRow(self.place, "a byte that is none of its field's")
        self.place += 1
        return values[self.data[self.place - 1]]

    def list(self, member, fault):
        """Members, each read by a call; `fault` says what of their list is against its rule."""
        place = self.place
        count = self.number(4)
        members = []
        for _ in range(count):
            members.append(member())
        wrong = fault(members)
        if wrong:
            raise NoRow(place, wrong)
        return members

    def read(self):
        return Read(self.path(), self.number())

    def placed(self):
        return Placed(self.number(), self.number())

    def output(self):
        """An output of a publish at: its bytes, or where they stand."""
        if not self.choice({0: False, 1: True}):
            return self.text()
        start = self.place
        place = self.number()
        if place >= 2**63 - 1:
            raise NoRow(start, "a place behind which no length fits")
        start = self.place
        length = self.number()
        if not 1 <= length <= EXTENT_LIMIT or place + length >= 2**63:
            raise NoRow(start, "a length that is none")
        return Extent(place, length)


def is_path_below(text):
    return text != "." and is_path(text)


def unless_ascending(keys, least):
    """What is wrong with a list whose members ascend and are so many at least."""
    if len(keys) < least:
        return "a list without members"
    return None if all(one < two for one, two in zip(keys, keys[1:])) else "a list out of order"


def targets_fault(several):
    def fault(targets):
        if len(set(targets)) < len(targets) or not targets:
            return "targets that are none, or not all different"
        return "another number of targets than the first byte says" if (len(targets) > 1) != several else None

    return fault


FLAG = {0: False, 1: True}
KIND = {1: "file", 2: "directory"}
OUT = {0: "no", 1: "reserved", 2: "unreserved"}
TYPE_KIND = {1: "label", 2: "branch"}


def published(payload, several, deed, output, extents):
    view, targets = payload.name(), payload.list(payload.path, targets_fault(several))
    script = payload.text()
    reads = payload.list(payload.read, lambda reads: unless_ascending([read.path for read in reads], 0))

    def fault(outputs):
        if len(outputs) != len(targets):
            return "another number of outputs than of targets"
        return "no output in the file of objects" if extents and not any(isinstance(o, Extent) for o in outputs) else None

    return deed(view, targets, script, reads, payload.list(output, fault))


def deed_of(payload, code, several):
    """The deed of a code, whose fields come next."""
    p = payload
    if code == 17:
        return published(p, several, Publish, p.text, False)
    if code == 23:
        return published(p, several, PublishAt, p.output, True)
    return DEEDS[code](p)


DEEDS = {
    1: lambda p: Mkview(p.name()),
    2: lambda p: Rmview(p.name()),
    3: lambda p: Setcs(p.name(), p.text()),
    4: lambda p: Mkelem(p.name(), p.number(), p.name(), p.choice(KIND), p.choice(FLAG)),
    5: lambda p: Checkout(p.name(), p.number(), p.number(), p.choice(FLAG)),
    6: lambda p: Branch(p.name(), p.number(), p.number(), p.type_name(), p.choice(OUT)),
    7: lambda p: Save(p.name(), p.number(), p.text()),
    8: lambda p: Checkin(p.name(), p.number()),
    9: lambda p: Uncheckout(p.name(), p.number()),
    10: lambda p: Rmname(p.name(), p.number(), p.name()),
    11: lambda p: Mv(p.name(), p.number(), p.name(), p.name()),
    12: lambda p: Put(p.name(), p.path(), p.text()),
    13: lambda p: Rm(p.name(), p.path()),
    14: lambda p: Mktype(p.choice(TYPE_KIND), p.type_name()),
    15: lambda p: Label(p.type_name(), p.number(), p.number()),
    16: lambda p: Unlabel(p.type_name(), p.number()),
    18: lambda p: Wink(p.name(), p.number()),
    19: lambda p: Drop(p.name(), p.path()),
    20: lambda p: Scrub(p.list(p.number, lambda objects: unless_ascending(objects, 1))),
    21: lambda p: Labels(p.type_name(), p.list(p.placed, lambda places: unless_ascending([x.element for x in places], 1))),
    22: lambda p: Arrow(p.number(), p.number(), p.number()),
}
PUBLISHES = (17, 23)


HEAD = struct.Struct("<BIIIQB")


def row_of(data, number=0, place=0):
    """The row that a payload spells."""
    if len(data) < HEAD.size:
        raise NoRow(place_of_head(data), "the row is cut short")
    first, phase, lane, command, moment, code = HEAD.unpack_from(data)
    if first not in (1, 2):
        raise NoRow(0, "a first byte that is neither 1 nor 2")
    if moment > LAST_MOMENT:
        raise NoRow(13, "a moment past the year 9999")
    if code not in DEEDS and code not in PUBLISHES or first == 2 and code not in PUBLISHES:
        raise NoRow(21, "a code that no deed has")
    payload = Payload(data)
    payload.place = HEAD.size
    deed = deed_of(payload, code, first == 2)
    if payload.place < len(data):
        raise NoRow(payload.place, "bytes left over")
    return Row(number, phase, lane, command, moment, deed, place, len(data))


def place_of_head(data):
    """Where the first field begins that cannot be read, of a row that is too short for its head."""
    if data[:1] not in (b"\1", b"\2"):
        return 0
    if len(data) >= 21 and int.from_bytes(data[13:21], "little") > LAST_MOMENT:
        return 13
    return max(at for at in (1, 5, 9, 13, 21) if at <= len(data))


# The journal


class Frame(NamedTuple):
    """Where a frame begins in FILE, and how long its payload is."""

    place: int
    length: int


@dataclass
class Behind:
    """What stands behind the last frame: where it begins, how many bytes, whether the list is settled there, and whether the bytes are
    more than a frame that was cut short can be."""

    place: int
    count: int
    settled: bool
    foreign: bool


class Journal:
    """The frames of FILE, which is only read."""

    def __init__(self, path):
        self.path, self.tail, self._rest = path, 0, b""
        self._read()

    def _read(self):
        try:
            with open(self.path, "rb") as file:
                file.seek(self.tail)
                self._rest = file.read()
        except OSError as error:
            raise VobError(f"{self.path}: {error.strerror}") from None

    def more(self) -> list[tuple[Frame, bytes]]:
        """The frames that are whole and were not answered yet, each with its payload."""
        rest, start, place, found = self._rest, self.tail, 0, []
        while place + 5 <= len(rest) and rest[place] == 1:
            end = place + 5 + int.from_bytes(rest[place + 1 : place + 5], "little")
            if end > len(rest):
                break
            found.append((Frame(start + place, end - place - 5), rest[place + 5 : end]))
            place = end
        self.tail, self._rest = start + place, rest[place:]
        return found

    def again(self) -> list[tuple[Frame, bytes]]:
        """The frames that were added since."""
        self._read()
        return self.more()

    def behind(self):
        """What stands behind the frames that were answered."""
        rest = self._rest
        announced = int.from_bytes(rest[1:5], "little") + 6 if len(rest) >= 5 else 5
        foreign = bool(rest) and (rest[0] > 1 or len(rest) > announced)
        return Behind(self.tail, len(rest), bool(rest) and rest[0] != 1, foreign)
