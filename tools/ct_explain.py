"""Explains what the program answers, from the base's files and the table of answers.py: `Explainer(base, view).explain_reply(words)`
gives the lines for a refusal or a unit's fault, as

    C21: rows 22 (src/a.c) and 40 (lib/b.c) are checked out in this view
      HasCheckouts: the view has checkouts, the first made by that row
      do: checkin or uncheckout each, or rmview -force V

The first line is about this base; where nothing more is known than the answer says, it is what the answer means."""
import re

from answers import ANSWERS, MAKE_CAUSES, SPEC_CAUSES, plain
from vob_specs import date_text, lines_of

HAS_CODE = re.compile(r"[CBMGUX][0-9]+\Z")


def joined(parts):
    """Parts in a sentence, with `and` before the last."""
    return parts[0] if len(parts) == 1 else f"{', '.join(parts[:-1])} and {parts[-1]}"


class Explainer:
    """Explains the answers to the commands of a view, on the base as it is after them."""

    def __init__(self, base, view):
        self.base, self.view = base, view
        self.selection = base.selection(view) if base and view in base.views else None

    def path_of(self, element):
        at = self.selection.path_of(element) if self.selection else None
        return at or self.base.path_made(element)

    def version(self, row):
        """A row of a version as users name it, with the path."""
        made = self.base.versions[row]
        return f"{self.path_of(made.element)}@@{made.name}"

    def since(self, row):
        return f"row {row}, {date_text(self.base.rows[row].moment)}"

    def named(self, checkout):
        return f"{checkout.row} ({self.path_of(checkout.element)})"

    def c1(self, view=None):
        known = sorted(self.base.views) if self.base else []
        return f"there is no view {self.view}" + (f"; there are {joined(known[:8])}" if known else "; there is none at all")

    def c2(self):
        return "the view is there already"

    def c8(self, row):
        out = self.base.rows[int(row)]
        element = getattr(out.deed, "element", out.number)
        return f"{self.path_of(element)} is checked out in the view {out.deed.view} since {self.since(int(row))}"

    def c9(self, other):
        outs = [o for o in self.base.views[other].out.values() if o.reserved] if other in self.base.views else []
        told = f" (it has reserved {joined([self.named(o) for o in outs[:4]])})" if outs else ""
        return f"the view {other} has reserved the branch{told}"

    def c10(self, row):
        return f"{self.version(int(row))} is the latest version of the branch, made by {self.since(int(row))}"

    def c11(self, row):
        return f"the text is that of {self.version(int(row))}, which was checked out"

    def c15(self, row):
        branch = self.base.branches[int(row)]
        return f"{self.path_of(branch.element)} has the branch {branch.path}, made by {self.since(int(row))}"

    def c16(self, row):
        return f"the label is on {self.version(int(row))}"

    def c17(self, line):
        return f"line {line} of the config spec has -nocheckout: {self.spec_line(int(line))}"

    def spec_line(self, number):
        lines = lines_of(self.selection.view.spec) if self.selection else []
        return lines[number - 1].decode("utf-8", "replace") if 0 < number <= len(lines) else ""

    def c20(self, path):
        held = sorted(self.selection.view.held) if self.selection else []
        return f"the view holds no object at {path}" + (f"; it holds {joined(held[:6])}" if held else "; it holds none at all")

    def c21(self, row):
        outs = sorted(self.selection.view.out.values(), key=lambda out: out.row) if self.selection else []
        if not outs:
            return f"row {row} is a checkout of this view"
        named = [self.named(out) for out in outs[:10]]
        more = [f"{len(outs) - 10} others"] if len(outs) > 10 else []
        return f"row{'s' if len(outs) > 1 else ''} {joined(named + more)} {'are' if len(outs) > 1 else 'is'} checked out in this view"

    def c22(self, line, cause):
        return f"line {line} of the config spec is no rule: it has {plain(SPEC_CAUSES.get(cause, cause))}"

    def c27(self, path):
        found = self.selection.at(path) if self.selection else None
        element = self.base.elements.get(getattr(found, "element", None))
        names = [version.name for version in element.versions()] if element else []
        return f"{path} has no such version" + (f"; it has {joined(names[-8:])}" if names else "")

    def c28(self, row):
        return f"the arrow is there, made by {self.since(int(row))}"

    def c29(self, row):
        return f"the view selects {self.version(int(row))} itself"

    def m1(self, path, line, cause):
        text = self.selection.text_at(path) if self.selection and line != "0" else None
        lines = lines_of(text or b"")
        shown = f": {lines[int(line) - 1].decode('utf-8', 'replace')}" if 0 < int(line) <= len(lines) else ""
        return f"{path}, line {line}, {cause}{shown}"

    def first_line(self, code, arguments):
        """What an answer says of this base, or None where no more is known than it tells."""
        know = getattr(self, code.lower(), None)
        if know is None or self.base is None:
            return None
        try:
            return know(*arguments)
        except (KeyError, IndexError, TypeError, ValueError, AttributeError):
            return None  # the base went on since, or has not the row

    def meaning(self, answer, text, arguments):
        """A text of the table with what was answered in place of its words."""
        text = plain(text)
        for word, value in zip(answer.arguments, arguments):
            text = re.sub(rf"\b{word}\b(?! =)", lambda _: value, text)
        return re.sub(r"\bV\b", lambda _: self.view, text)

    def explain(self, code, arguments, operand):
        """The lines that explain an answer to a command on an operand."""
        answer = ANSWERS[code]
        means = self.meaning(answer, answer.means, arguments)
        first = self.first_line(code, arguments)
        lines = [f"{code}: {first or means}"]
        if first:
            lines.append(f"  {answer.name}: {means}")
        if code == "M1" and len(arguments) == 3:
            causes = MAKE_CAUSES.get(arguments[2], [])
            return lines + [f"  {plain(why)}: {plain(to_do)}" for why, to_do in causes]
        to_do = self.meaning(answer, answer.to_do, arguments)
        if operand and "P" not in answer.arguments:
            to_do = re.sub(r"\bP\b", lambda _: operand, to_do)
        return lines + [f"  do: {to_do}"]

    def explain_reply(self, words, operand=""):
        """The lines for a reply, or a unit's line, split into its words; none where it tells of no refusal. The operand is the path of
        the command."""
        if "blocked" in words[1:2]:
            return self.explain("blocked", words[2:3], "")
        for place, word in enumerate(words):
            if HAS_CODE.match(word) and words[place - 1 : place] in (["refused"], ["failed"]) and word in ANSWERS:
                return self.explain(word, words[place + 2 :], operand)
        return []
