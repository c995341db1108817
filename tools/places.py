"""Reads a JSON text as the program does: where the value of a path stands, and where a text ceases to be one. It is no command."""
import json
import re

MOST_DEPTH = 127
BLANK = re.compile(r"[ \t\n\r]*")
STRING = re.compile(r'"[^"\\\x00-\x1f\udc80-\udcff]*(?:\\(?:["\\/bfnrt]|u[0-9a-fA-F]{4})[^"\\\x00-\x1f\udc80-\udcff]*)*')
NUMBER = re.compile(r"-?(?:0|[1-9][0-9]*)(?:\.[0-9]+)?(?:[eE][+-]?[0-9]+)?")
WORD = re.compile(r"true|false|null")
BRACKET = re.compile(r'"(?:[^"\\]|\\.)*"|[][{}]', re.S)


class NoJson(Exception):
    """The text is no JSON text: where it ceases to be one, and why."""

    def __init__(self, at, why):
        super().__init__(why)
        self.at, self.why = at, why


class Written(str):
    """A number that is no whole number of a script, as it is written: `1.0`, `-0`, or one beyond 64 bits."""


class Reader:
    """Reads a text, and keeps from where to where the value of one path stands: of equal names the last counts. Where it does not look at
    all, as of a JSON text, it passes what is off the way from bracket to bracket."""

    def __init__(self, text, looks_at_all):
        self.text, self.looks_at_all, self.found = text, looks_at_all, None

    def wrong(self, at, wanted):
        """Returns that the text is no JSON text from here on, and what should stand here."""
        letter = self.text[at : at + 1]
        if not letter:
            return NoJson(at, f"the script ends here, and {wanted} is wanted")
        return NoJson(at, "a byte that is not UTF-8" if "\udc80" <= letter <= "\udcff" else f"{wanted} is wanted")

    def blank(self, at):
        """Returns where the next letter stands that is no blank."""
        return BLANK.match(self.text, at).end()

    def whole(self, path):
        """Reads the whole text, and keeps where the value of this path stands."""
        end = self.blank(self.value(self.blank(0), path, 0))
        if end < len(self.text):
            raise self.wrong(end, "the end of the script")
        return self.found

    def value(self, at, path, depth):
        """Reads a value, and returns where it ends. The path leads on to the part that is sought, and is None off the way."""
        first = self.text[at : at + 1]
        if first in ("{", "[") and not path and not self.looks_at_all:
            end = self.passed(at)
        elif first in ("{", "["):
            if depth == MOST_DEPTH:
                raise NoJson(at, f"nesting deeper than {MOST_DEPTH} levels")
            end = self.members(at + 1, path, depth + 1) if first == "{" else self.elements(at + 1, path, depth + 1)
        else:
            end = self.string(at) if first == '"' else self.plain(at)
        if path == []:
            self.found = at, end
        return end

    def passed(self, at):
        """Returns where the object or the array ends that begins here."""
        depth = 0
        for found in BRACKET.finditer(self.text, at):
            letter = self.text[found.start()]
            depth += (letter in "[{") - (letter in "]}")
            if depth == 0:
                return found.end()
        raise self.wrong(len(self.text), "a bracket")

    def plain(self, at):
        """Reads a number, `true`, `false` or `null`."""
        number = NUMBER.match(self.text, at)
        if number and float(number[0]) in (float("inf"), float("-inf")):
            raise NoJson(at, "a number too great for a float")
        found = number or WORD.match(self.text, at)
        if not found:
            raise self.wrong(at, "a value")
        return found.end()

    def string(self, at):
        """Reads a text in quotation marks."""
        if self.text[at : at + 1] != '"':
            raise self.wrong(at, "a name in quotation marks")
        end = STRING.match(self.text, at).end()
        if self.text[end : end + 1] != '"':
            raise self.wrong(end, "a letter or an escape that a text may have, or its end,")
        if any("\ud800" <= it <= "\udfff" for it in json.loads(self.text[at : end + 1])):
            raise NoJson(at, "half of a pair of \\u escapes stands in this text")
        return end + 1

    def next(self, at, close):
        """Reads what stands behind a member or an element: returns where the next one begins, and whether one does."""
        at = self.blank(at)
        letter = self.text[at : at + 1]
        if letter not in (",", close):
            raise self.wrong(at, f"`,` or `{close}`")
        return self.blank(at + 1) if letter == "," else at + 1, letter == ","

    def members(self, at, path, depth):
        """Reads the members of an object and the brace behind them."""
        at = self.blank(at)
        goes_on = self.text[at : at + 1] != "}"
        at += not goes_on
        while goes_on:
            end = self.string(at)
            ours = bool(path) and json.loads(self.text[at:end]) == path[0]
            at = self.blank(end)
            if self.text[at : at + 1] != ":":
                raise self.wrong(at, "`:`")
            if ours:
                self.found = None
            at, goes_on = self.next(self.value(self.blank(at + 1), path[1:] if ours else None, depth), "}")
        return at

    def elements(self, at, path, depth):
        """Reads the elements of an array and the bracket behind them."""
        at, number = self.blank(at), 0
        goes_on = self.text[at : at + 1] != "]"
        at += not goes_on
        while goes_on:
            ours = bool(path) and path[0] == str(number)
            at, goes_on = self.next(self.value(at, path[1:] if ours else None, depth), "]")
            number += 1
        return at


def find(text, path):
    """Returns from where to where the value of a path stands in a JSON text, a list of names and numbers as texts; None where none does."""
    return Reader(text, False).whole(path)


def no_json(text):
    """Returns where a text ceases to be a JSON text, and why; None where it is one."""
    try:
        Reader(text, True).whole(None)
    except NoJson as found:
        return found.at, found.why
    return None


def line_and_column(text, at):
    """Returns the line and the column of a place, both counted from 1, the column in letters."""
    return text.count("\n", 0, at) + 1, at - text.rfind("\n", 0, at)


def whole(digits):
    """Returns a whole number, or how it is written where a script may not have it."""
    number = int(digits) if len(digits) < 21 else None
    fits = number is not None and -(2**63) <= number < 2**64 and digits != "-0"
    return number if fits else Written(digits)


def value_of(text):
    """Returns the value of a JSON text, in which a number that is no whole number of a script is `Written`."""
    return json.loads(text, parse_int=whole, parse_float=Written)
