"""Fields, which name a place of an entry."""
import re

from .stop import Stop

ROOTS = ("body", "attributes", "resource")
MEMBER = re.compile(r"""\.[A-Za-z0-9_-]+|\["(?:[^"\\]|\\[\\"'])*"\]|\['(?:[^'\\]|\\[\\"'])*'\]""")
MOST_MEMBERS = 32


def field(text, _):
    root = re.match(r"\$*[A-Za-z0-9_-]*", text)[0]
    if root not in ROOTS:
        raise Stop(0, rootless(text, root))
    at, count = len(root), 0
    while at < len(text):
        found = MEMBER.match(text, at)
        if not found:
            raise Stop(at, memberless(text, at))
        count += 1
        if count > MOST_MEMBERS:
            raise Stop(at, f"a field has at most {MOST_MEMBERS} members")
        at = found.end()


def field_with_member(text, is_refused):
    field(text, is_refused)
    if text in ROOTS:
        raise Stop(len(text), f"a member is wanted behind {text}, as {text}.http")


def rootless(text, root):
    if root.startswith("$"):
        return "a field has no $ before it: write body, attributes or resource"
    if root:
        return f"a field begins with body, attributes or resource: write attributes.{text} or body.{text}"
    return "a field begins with body, attributes or resource"


def memberless(text, at):
    rest = text[at:]
    if re.match(r"\[[0-9]+\]", rest):
        return "no field leads into a list"
    named = re.match(r"\[([^\]\"']+)\]", rest)
    if named:
        return f'a name in brackets has quotes: write ["{named[1]}"]'
    if re.match(r"\.[^.\[]*[^A-Za-z0-9_.\[-]", rest):
        name = re.match(r"\.([^.\[]*)", rest)[1]
        return f'this name has other characters than letters, digits, _ and -: write ["{name}"]'
    if rest.startswith("."):
        return "a name is wanted behind the dot"
    if rest.startswith("["):
        return 'a name in brackets is closed by the quote that opens it and ]: write ["name"]'
    return "a member begins with a dot or a bracket: write .name or [\"name\"]"
