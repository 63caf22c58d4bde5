"""Spells rows as docs/FORMATS.md has them, so that a check can make a large base, or a damaged one, without the program."""
import struct


def number(value, size=8):
    return value.to_bytes(size, "little")


def text(value):
    data = value.encode() if isinstance(value, str) else value
    return number(len(data), 4) + data


FIELDS = {
    "mkview": (1, text),
    "mkelem": (4, text, number, text, lambda kind: bytes([kind]), lambda out: bytes([out])),
    "checkout": (5, text, number, number, lambda reserved: bytes([reserved])),
    "save": (7, text, number, text),
    "checkin": (8, text, number),
    "put": (12, text, text, text),
}


def payload(command, deed, *values, moment=1_700_000_000):
    """The bytes of a row of the first lane of the first phase."""
    code, *spell = FIELDS[deed]
    head = struct.pack("<BIIIQB", 1, 1, 1, command, moment, code)
    return head + b"".join(one(value) for one, value in zip(spell, values))


def journal(deeds):
    """The journal of some deeds, each a name with its fields."""
    frames = []
    for command, deed in enumerate(deeds, 1):
        data = payload(command, *deed)
        frames.append(b"\1" + number(len(data), 4) + data)
    return b"".join(frames) + b"\0"


def large(elements):
    """The deeds of a base with so many file elements in directories of 100, each with a version, and their directories."""
    deeds, row = [("mkview", "v"), ("checkout", "v", 0, 0, 1)], 2
    for first in range(0, elements, 100):
        deeds.append(("mkelem", "v", 0, f"d{first // 100}", 2, 1))
        directory = row = row + 1
        for n in range(first, min(first + 100, elements)):
            deeds.append(("mkelem", "v", directory, f"f{n}.c", 1, 1))
            element = row = row + 1
            deeds += [("save", "v", element, f"text {n}\n"), ("checkin", "v", element)]
            row += 2
        deeds.append(("checkin", "v", directory))
        row += 1
    return deeds + [("checkin", "v", 0)]
