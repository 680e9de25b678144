"""JSON whose values know where they stand, and whose faults say what was found there and what to write."""
import re
from typing import NamedTuple

DEEPEST = 128
ESCAPES = {'"': '"', "\\": "\\", "/": "/", "b": "\b", "f": "\f", "n": "\n", "r": "\r", "t": "\t"}
NUMBER = re.compile(r"-?(0|[1-9][0-9]*)(\.[0-9]+)?([eE][+-]?[0-9]+)?(?![0-9A-Za-z_.+-])")
WORD = re.compile(r"[^\s,:{}\[\]\"']+")
WORDS = {"true": True, "false": False, "null": None}
MEANT = {"True": "true", "TRUE": "true", "yes": "true", "on": "true", "False": "false", "FALSE": "false", "no": "false",
         "off": "false", "None": "null", "nil": "null"}
BRACKETS = {"{": "}", "[": "]"}


class JsonFault(Exception):
    """What was found at a place where JSON can't go on, and what to do."""

    def __init__(self, at, what):
        self.at = at
        self.what = what


class Node(NamedTuple):
    """A value and its place. An object's members and a list's items are nodes themselves; `keys` has the places of names."""

    value: object
    at: int
    keys: dict = {}
    repeated: tuple = ()

    def plain(self):
        if isinstance(self.value, dict):
            return {name: it.plain() for name, it in self.value.items()}
        if isinstance(self.value, list):
            return [it.plain() for it in self.value]
        return self.value


def line_and_column(text, at):
    """The line and the column of a place, from 1."""
    before = text[:at]
    return before.count("\n") + 1, at - (before.rfind("\n") + 1) + 1


def read(text):
    """The object of a text, or the fault that it has as JSON."""
    reader = Reader(text)
    reader.begin()
    said = reader.value([])
    reader.blanks()
    if reader.at < len(text):
        raise JsonFault(reader.at, "something stands behind the end of the object: take it away")
    return said


class Reader:
    """Reads JSON by descent. `open_at` are the places of the brackets that aren't closed yet."""

    def __init__(self, text):
        self.text = text
        self.at = 0

    def fault(self, what, at=None):
        raise JsonFault(self.at if at is None else at, what)

    def peek(self):
        return self.text[self.at : self.at + 1]

    def begin(self):
        """What can't be the front of an object is named by what it looks like."""
        if self.text.startswith("\ufeff"):
            self.fault("a byte order mark stands at the front: save the file as UTF-8 without it")
        self.blanks()
        rest = self.text[self.at :]
        if rest == "":
            self.fault("the file is empty: write an object, as {\"include\": [\"app.log\"]}")
        if re.match(r"---|- |[\w.\"'-]+ *:(\s|$)", rest):
            self.fault("this is YAML, and settings are JSON: tools/from-filelog converts the Collector's YAML")
        if rest[0] != "{":
            self.fault(f"{rest[0]} stands where {{ is wanted: settings are one object")

    def blanks(self):
        while self.peek() and self.peek() in " \t\r\n":
            self.at += 1
        if self.peek() == "#" or self.text[self.at : self.at + 2] in ("//", "/*"):
            self.fault("a comment stands here, and JSON has none: take it away")

    def value(self, open_at):
        if len(open_at) > DEEPEST:
            self.fault(f"more than {DEEPEST} brackets are open here: nest less")
        at, first = self.at, self.peek()
        if first == "{":
            return self.object([*open_at, at])
        if first == "[":
            return self.list([*open_at, at])
        if first == '"':
            return Node(self.string(), at)
        return Node(self.literal(open_at), at)

    def ended(self, open_at):
        at = open_at[-1]
        line, column = line_and_column(self.text, at)
        closing = BRACKETS[self.text[at]]
        self.fault(f"the text ends here, and the {self.text[at]} of line {line}, column {column} isn't closed: write {closing}")

    def object(self, open_at):
        members, keys, repeated = {}, {}, []
        for _ in self.parts("}", open_at):
            at, name = self.at, self.name(open_at)
            self.blanks()
            if self.peek() != ":":
                self.fault(f'no colon stands behind "{name}": write "{name}": and its value')
            self.at += 1
            self.blanks()
            if name in members:
                repeated.append((name, at))
            members[name] = self.value(open_at)
            keys[name] = at
        return Node(members, open_at[-1], keys, tuple(repeated))

    def list(self, open_at):
        return Node([self.value(open_at) for _ in self.parts("]", open_at)], open_at[-1])

    def parts(self, closing, open_at):
        """Stands at each part of an object or a list in turn, and passes the commas between them and the bracket behind them."""
        self.at += 1
        is_first, comma = True, None
        while True:
            self.blanks()
            if self.peek() == closing:
                if comma is not None:
                    self.fault(f"a comma stands before the {closing} with nothing behind it: take it away", comma)
                self.at += 1
                return
            if self.peek() == "":
                self.ended(open_at)
            if not is_first and comma is None:
                self.missing_comma(closing)
            if self.peek() == ",":
                self.fault("a comma stands where a value is wanted: take it away")
            yield
            is_first, comma = False, None
            self.blanks()
            if self.peek() == ",":
                comma = self.at
                self.at += 1

    def missing_comma(self, closing):
        if self.peek() in "}]":
            self.fault(f"{self.peek()} stands where {closing} is wanted")
        self.fault(f"no comma stands before this: write one behind what comes before, or {closing} to end it")

    def name(self, open_at):
        if self.peek() == '"':
            return self.string()
        self.quoteless("a name", open_at)

    def literal(self, open_at):
        found = NUMBER.match(self.text, self.at)
        if found:
            self.at = found.end()
            return float(found[0]) if found[2] or found[3] else int(found[0])
        found = WORD.match(self.text, self.at)
        if found and found[0] in WORDS:
            self.at = found.end()
            return WORDS[found[0]]
        if found and found[0] in MEANT:
            self.fault(f"{found[0]} stands where a value is wanted: write {MEANT[found[0]]}")
        if found and re.match("[-+.]?[0-9]|NaN|-?Infinity", found[0]):
            self.fault(f"{found[0]} is no number of JSON: write a whole number, as 1000")
        self.quoteless("a value", open_at)

    def quoteless(self, what, open_at):
        """A fault where a text in quotes would stand."""
        if self.peek() == "":
            self.ended(open_at)
        if self.peek() == "'":
            self.fault('a text in single quotes stands here: write double ones, as "text"')
        found = WORD.match(self.text, self.at)
        if found:
            self.fault(f'{found[0]} stands here without quotes: write "{found[0]}"')
        self.fault(f"{self.peek()} stands where {what} is wanted")

    def string(self):
        begin, said = self.at, ""
        self.at += 1
        while self.peek() != '"':
            if self.peek() in ("", "\n"):
                self.fault('the text that begins here isn\'t closed in its line: write " at its end', begin)
            if self.peek() < " ":
                self.fault("a control character stands in a text: write \\t for a tab, \\r for a carriage return")
            said += self.escape() if self.peek() == "\\" else self.plain_character()
        self.at += 1
        return said

    def plain_character(self):
        self.at += 1
        return self.text[self.at - 1]

    def escape(self):
        at = self.at
        spelled = self.text[at + 1 : at + 2]
        code = re.compile("u([0-9A-Fa-f]{4})").match(self.text, at + 1)
        if not code and spelled not in ESCAPES:
            self.fault(f"\\{spelled} is no escape of JSON, in which a backslash is written twice: write \\\\{spelled}")
        self.at += 6 if code else 2
        return chr(int(code[1], 16)) if code else ESCAPES[spelled]
