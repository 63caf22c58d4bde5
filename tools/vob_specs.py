"""Dates and config specs, by docs/FORMATS.md (date_text, spec_text): `rules_of` reads the text of a config spec as its rules, or
raises `BadSpec` with the first line that is none and the cause.

A rule says by its pattern on which paths it bears (`Rule.matches`), and by its selector which version it finds; `vob.Selection`
asks them in order."""
import calendar
import re
import time
from dataclasses import dataclass
from functools import lru_cache
from typing import NamedTuple, Optional

from vob_rows import VobError, is_path, is_type_name

MONTHS = "Jan Feb Mar Apr May Jun Jul Aug Sep Oct Nov Dec".split()
DATE = re.compile(r"([0-9]{1,2})-([A-Z][a-z]{2})-([0-9]{4})\.([0-9]{2}):([0-9]{2}):([0-9]{2})\Z")
DEFAULT_SPEC = b"element * CHECKEDOUT\nelement * /main/LATEST\n"


@lru_cache(10_000)
def date_text(moment):
    """The moment as `d-Mmm-yyyy.hh:mm:ss` in UTC."""
    t = time.gmtime(moment)
    return f"{t.tm_mday}-{MONTHS[t.tm_mon - 1]}-{t.tm_year}.{t.tm_hour:02}:{t.tm_min:02}:{t.tm_sec:02}"


def moment_of(text):
    """The moment of a date, or None where the text is none."""
    found = DATE.match(text)
    if not found or found[2] not in MONTHS:
        return None
    day, month, year, hour, minute, second = int(found[1]), MONTHS.index(found[2]) + 1, *map(int, found.groups()[2:])
    if not 1970 <= year or hour > 23 or minute > 59 or second > 59 or not 1 <= day <= calendar.monthrange(year, month)[1]:
        return None
    return calendar.timegm((year, month, day, hour, minute, second))


class BadSpec(VobError):
    """A config spec's first line that is none, and the cause."""

    def __init__(self, line, cause):
        super().__init__(f"line {line} of the config spec is no rule: {cause}")
        self.line, self.cause = line, cause


class Cause(Exception):
    """Why a line is none."""


# Selectors: what a rule finds of an element


class CheckedOut(NamedTuple):
    pass


class Labelled(NamedTuple):
    label: str


class Latest(NamedTuple):
    """The last version on the branch behind `main` by these names."""

    names: tuple


class Wherever(NamedTuple):
    """The last version on the element's branch of a type."""

    name: str


class Numbered(NamedTuple):
    names: tuple
    number: int


class OfRecord(NamedTuple):
    """The version that the record of an object lists, where the object has the target."""

    target: str
    object: int


class NoVersion(NamedTuple):
    pass


def number_of(text):
    """The number that decimal digits without leading zeros spell, below 2^64; else None."""
    if not re.fullmatch(r"0|[1-9][0-9]{0,19}", text, re.ASCII):
        return None
    return int(text) if int(text) < 2**64 else None


def behind_main(parts):
    *names, end = parts
    if not all(map(is_type_name, names)):
        return None
    if end == "LATEST":
        return Latest(tuple(names))
    number = number_of(end)
    return None if number is None else Numbered(tuple(names), number)


def selector_of(word):
    if word == "CHECKEDOUT":
        return CheckedOut()
    if word == "-none":
        return NoVersion()
    if is_type_name(word):
        return Labelled(word)
    first, *parts = word.split("/")
    if first == "..." and len(parts) == 2 and parts[1] == "LATEST" and is_type_name(parts[0]):
        return Wherever(parts[0])
    if first == "" and len(parts) > 1 and parts[0] == "main":
        return behind_main(parts[1:])
    return None


def record_selector_of(word):
    """`P@@ROW`, as it stands behind `-config`."""
    parts = word.split("@")
    if len(parts) != 3 or parts[1] or not is_path(parts[0]) or number_of(parts[2]) is None:
        return None
    return OfRecord(parts[0], number_of(parts[2]))


# Patterns


def covers(cards, members, is_wild, fits):
    """Whether cards cover a list: a wild one stands for any members, each other one for a member that fits it."""
    card = place = mark = 0
    star = -1
    while place < len(members):
        if card < len(cards) and is_wild(cards[card]):
            star, mark, card = card, place, card + 1
        elif card < len(cards) and fits(cards[card], members[place]):
            card, place = card + 1, place + 1
        elif star >= 0:
            mark += 1
            card, place = star + 1, mark
        else:
            return False
    return all(map(is_wild, cards[card:]))


@lru_cache(100_000)
def matches_name(segment, name):
    """Whether a segment of a pattern matches a name: `*` stands for any bytes of it, `?` for one."""
    if "*" not in segment and "?" not in segment:
        return segment == name
    return covers(segment, name, "*".__eq__, lambda card, byte: card in ("?", byte))


SEGMENT = re.compile(r"[A-Za-z0-9_.+*?-]+\Z")


class Pattern(NamedTuple):
    anchored: bool
    segments: tuple

    def matches(self, names):
        """Whether the pattern matches the path of these names. The pattern `*` matches the root too."""
        if not self.anchored and self.segments == ("*",):
            return True
        cards = self.segments if self.anchored else ("...", *self.segments)
        return covers(cards, names, "...".__eq__, matches_name)


def pattern_of(word):
    anchored = word.startswith("/")
    segments = tuple(word[anchored:].split("/"))
    if not all(map(SEGMENT.match, segments)):
        raise Cause("BadPattern")
    return Pattern(anchored, segments)


# Rules


@dataclass(slots=True, frozen=True)
class Rule:
    """A rule: its line in the text, on which paths it bears, what it finds, and the time before which."""

    line: int
    pattern: Pattern
    selector: object
    before: Optional[int]
    nocheckout: bool
    mkbranch: Optional[str]

    def matches(self, names):
        return self.pattern.matches(names)


def options_of(words):
    """The words of `-time`, `-nocheckout` and `-mkbranch`."""
    found = {}
    words = list(words)
    while words:
        option = words.pop(0)
        if option not in ("-time", "-nocheckout", "-mkbranch") or option in found or option != "-nocheckout" and not words:
            raise Cause("BadRule")
        found[option] = True if option == "-nocheckout" else words.pop(0)
    return found


def needs(value, cause):
    if value is None:
        raise Cause(cause)
    return value


def rule_of(line, block, words):
    """The rule of an element line; its causes are tested in the order of FORMATS."""
    of_record = words[2:3] == ["-config"]
    if len(words) < (4 if of_record else 3):
        raise Cause("BadRule")
    options = options_of(words[4:] if of_record else words[3:])
    pattern = pattern_of(words[1])
    selector = needs(record_selector_of(words[3]) if of_record else selector_of(words[2]), "BadSelector")
    before = needs(moment_of(options["-time"]), "BadDate") if "-time" in options else block
    branch = options.get("-mkbranch")
    if branch is not None and not is_type_name(branch):
        raise Cause("BadType")
    return Rule(line, pattern, selector, before, "-nocheckout" in options, branch)


def read_line(line, words, blocks, rules):
    """One line that has words, added to what stands above it."""
    if words[0] == "element":
        rules.append(rule_of(line, blocks[-1] if blocks else None, words))
    elif words[0] == "time" and len(words) == 2:
        blocks.append(needs(moment_of(words[1]), "BadDate"))
    elif words == ["end", "time"]:
        if not blocks:
            raise Cause("NoBlock")
        blocks.pop()
    else:
        raise Cause("BadRule")


def lines_of(text):
    """The lines of a text, without their newlines; the last may lack its own."""
    lines = text.split(b"\n")
    return lines[:-1] if not lines[-1] else lines


@lru_cache(10_000)
def rules_of(text):
    """The rules of a config spec's text."""
    rules, blocks = [], []
    for line, data in enumerate(lines_of(text), 1):
        words = [word for word in re.split("[ \t]+", data.decode("latin-1")) if word]
        if words and not words[0].startswith("#"):
            try:
                read_line(line, words, blocks, rules)
            except Cause as cause:
                raise BadSpec(line, str(cause)) from None
    return tuple(rules)
