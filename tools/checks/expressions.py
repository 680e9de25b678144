"""Expressions."""
import re

from .fields import MEMBER, ROOTS, memberless
from .patterns import pattern
from .stop import Stop, words

LONGEST = 4096
DEEPEST = 32
TOKEN = re.compile(
    r"""(?P<text>"(?:[^"\\]|\\[ntr\\"'])*"|'(?:[^'\\]|\\[ntr\\"'])*')|(?P<int>-?[0-9]+(?![0-9A-Za-z_.]))"""
    r"""|(?P<word>[A-Za-z_$][A-Za-z0-9_]*)|(?P<sign>==|!=|<=|>=|&&|\|\||\?\?|\?\.|=~|.)""",
    re.DOTALL,
)
COMPARISONS = ("==", "!=", "<", "<=", ">", ">=", "contains", "startsWith", "endsWith", "matches", "in")
SIGNS = {"=": "write == to compare", "===": "write ==", "=~": "write matches and a pattern as a text", "&": "write and",
         "|": "write or", "??": "there is no ??: what is missing is nil", "?.": "write . : what is missing is nil",
         "+": "there is no arithmetic", "*": "there is no arithmetic", "/": "there is no arithmetic",
         "%": "there is no arithmetic", "`": "write a text in \" or '", "?": "there is no choice by ?: use an operator's if"}
MEANT = {"AND": "and", "OR": "or", "NOT": "not", "null": "nil", "None": "nil", "True": "true", "False": "false", "IN": "in"}


class Expression:
    """Reads an expression by descent, for the first place from which it can't go on."""

    def __init__(self, text, is_refused):
        self.text = text
        self.at = 0
        self.open = 0
        self.is_refused = is_refused

    def token(self, ahead=None):
        """The next token, with its place and the place behind it."""
        begin = re.compile(r"[ \t\r\n]*").match(self.text, self.at if ahead is None else ahead).end()
        found = TOKEN.match(self.text, begin)
        return ("end", "", begin, begin) if not found else (found.lastgroup, found[0], begin, found.end())

    def takes(self, *spellings):
        kind, spelling, _, end = self.token()
        if kind in ("word", "sign") and spelling in spellings:
            self.at = end
            return spelling
        return None

    def whole(self):
        self.either()
        kind, spelling, begin, end = self.token()
        if kind == "end":
            return
        if spelling == "not" and self.token(end)[1] in COMPARISONS:
            raise Stop(begin, f"write not (a {self.token(end)[1]} b)")
        if spelling == "(":
            raise Stop(begin, "there are no functions: compare fields")
        if spelling in COMPARISONS:
            raise Stop(begin, "a comparison can't be compared: write and before it, or brackets")
        raise Stop(begin, self.hint(spelling, "and, or or the end is wanted here"))

    @staticmethod
    def hint(spelling, else_what):
        if spelling in MEANT:
            return f"write {MEANT[spelling]}"
        return SIGNS.get(spelling, else_what)

    def either(self):
        self.both()
        while self.takes("or", "||"):
            self.both()

    def both(self):
        self.comparison()
        while self.takes("and", "&&"):
            self.comparison()

    def comparison(self):
        self.unary()
        operator = self.takes(*COMPARISONS)
        if operator == "matches":
            self.pattern()
        elif operator:
            self.unary()

    def deeper(self, begin):
        self.open += 1
        if self.open > DEEPEST:
            raise Stop(begin, f"more than {DEEPEST} brackets, lists and not are open here")

    def unary(self):
        begin = self.token()[2]
        if self.takes("not", "!"):
            self.deeper(begin)
            self.unary()
            self.open -= 1
        else:
            self.primary()

    def pattern(self):
        kind, spelling, begin, end = self.token()
        if kind != "text":
            raise Stop(begin, "a pattern as a text is wanted behind matches")
        self.at = end
        said = unescaped(spelling)
        if self.is_refused("pattern", said):
            try:
                pattern(said, self.is_refused)
            except Stop as stop:
                raise Stop(begin, f"its pattern can't be read: {words(said, stop.at)}: {stop.what}") from None
            raise Stop(begin, "its pattern can't be read")

    def primary(self):
        kind, spelling, begin, end = self.token()
        self.at = end
        if spelling == "(":
            self.deeper(begin)
            self.either()
            self.closes(")", begin)
        elif spelling == "[":
            self.deeper(begin)
            self.list(begin)
        elif kind == "word":
            self.word(spelling, begin)
        elif kind not in ("text", "int"):
            raise Stop(begin, self.valueless(kind, spelling))

    def closes(self, closing, begin):
        self.open -= 1
        found, opening = self.token(), self.text[begin]
        if found[0] == "end":
            raise Stop(found[2], f"the {opening} at byte {len(self.text[:begin].encode())} isn't closed: write {closing}")
        if not self.takes(closing):
            raise Stop(found[2], self.hint(found[1], f"{closing} is wanted here"))

    def valueless(self, kind, spelling):
        if kind == "end":
            return "a value is wanted behind this: a field, a text in quotes or a whole number"
        if spelling in "\"'":
            return "this text isn't closed, or has another escape than \\n, \\t, \\r, \\\\, \\\" and \\'"
        if spelling.isdigit() or spelling == ".":
            return "numbers are whole, and a name begins with a letter"
        return self.hint(spelling, "a value is wanted here: a field, a text in quotes or a whole number")

    def list(self, begin):
        while not self.takes("]"):
            kind, spelling, at, end = self.token()
            if kind not in ("text", "int") and spelling not in ("true", "false", "nil"):
                raise Stop(at, "a list has texts in quotes, whole numbers, true, false and nil")
            self.at = end
            if self.token()[1] != "]" and not self.takes(","):
                raise Stop(self.token()[2], "a comma or ] is wanted here")
        self.open -= 1

    def word(self, spelling, begin):
        if spelling in ROOTS:
            self.path()
        elif spelling not in ("true", "false", "nil", "severity_number", "severity_text"):
            raise Stop(begin, self.unknown(spelling))

    def unknown(self, spelling):
        if spelling in MEANT:
            return f"write {MEANT[spelling]}"
        if self.token()[1] == "(":
            return f"there are no functions, and {spelling} isn't known: compare fields"
        if spelling.startswith("$"):
            return "a field has no $ before it: write body, attributes or resource"
        if spelling in COMPARISONS:
            return f"a value is wanted before {spelling}"
        return f'no name is {spelling}: write attributes.{spelling} for a field, or "{spelling}" for a text'

    def path(self):
        """The members of a field, whose dotted names have no hyphen here."""
        while self.at < len(self.text) and self.text[self.at] in ".[":
            found = MEMBER.match(self.text, self.at)
            dotted = re.compile(r"\.[A-Za-z0-9_]+").match(self.text, self.at)
            if not found:
                raise Stop(self.at, memberless(self.text, self.at))
            if dotted and dotted.end() < found.end():
                name = found[0][1:]
                raise Stop(dotted.end(), f'a name with - in it stands in brackets: write ["{name}"]')
            self.at = found.end()


def unescaped(spelling):
    known = {"n": "\n", "t": "\t", "r": "\r"}
    return re.sub(r"\\(.)", lambda it: known.get(it[1], it[1]), spelling[1:-1], flags=re.DOTALL)


def expression(text, is_refused):
    if len(text.encode()) > LONGEST:
        raise Stop(len(text.encode()[:LONGEST].decode(errors="ignore")), f"an expression has at most {LONGEST:,} bytes")
    Expression(text, is_refused).whole()
