"""Regular expressions, of whose parts the program is asked."""
import re

from .stop import Stop

PIECE = re.compile(
    r"\(\?P?<[^>]*>|\(\?[a-zA-Z-]*[:)]|\(\?<?[=!]|\(\?>|\\[pP]\{[^}]*\}|\\x\{[^}]*\}|\\x[0-9A-Fa-f]{2}|\\.|\{[0-9]*,?[0-9]*\}"
    r"|\[\^?\]?(?:\\.|\[:\^?[a-z]+:\]|[^\]\\])*\]|.",
    re.DOTALL,
)
PATTERN_HINTS = (
    (r"\(\?<?[=!]", "there is no look-around: match what stands there, or use two operators"),
    (r"\(\?>", "there are no atomic groups: write (?:"),
    (r"\(\?P?<([^A-Za-z_]|.[^>]*[^A-Za-z0-9_.\[\]])", "a group's name has letters, digits and _, and begins with no digit"),
    (r"\\[1-9]", "there are no references to groups"),
    (r"\[", "this [ isn't closed, or what it has is no class: write ] at its end, or \\[ for itself"),
    (r"\(", "this ( isn't closed: write ) behind it, or \\( for itself"),
    (r"\)", "no ( is open here: write \\) for itself"),
    (r"[*+?]", "there is nothing before it to be repeated: write a backslash before it for itself"),
    (r"\{", "this is no repetition: write \\{ for itself"),
    (r"\\", "there is no such escape"),
)


def pieces(text):
    """A pattern's pieces, with their places."""
    return [(it.start(), it[0]) for it in PIECE.finditer(text)]


def openings(them):
    """The places of the groups that aren't closed."""
    them_open = []
    for at, piece in them:
        if piece.startswith("(") and not re.fullmatch(r"\(\?[a-zA-Z-]*\)", piece):
            them_open.append(at)
        elif piece == ")" and them_open:
            them_open.pop()
    return them_open


def pattern(text, is_refused):
    """The place is that of the first piece with which what stands before it is refused too, its open groups closed."""
    them = pieces(text)
    low, high = 0, len(them)
    while low < high:
        middle = (low + high) // 2
        end = them[middle][0] + len(them[middle][1])
        if is_refused("pattern", text[:end] + ")" * len(openings(them[: middle + 1]))):
            high = middle
        else:
            low = middle + 1
    if low == len(them) and openings(them):
        raise Stop(openings(them)[-1], "this ( isn't closed: write ) behind it, or \\( for itself")
    if low == len(them):
        return
    at = them[low][0]
    for form, what in PATTERN_HINTS:
        if re.compile(form).match(text, at):
            raise Stop(at, what)
    raise Stop(at, "the pattern can't go on here")
