"""Where a text that the program refuses can't be read, and what to write: fields, expressions, globs, layouts and patterns.

Whether a text is refused says the program alone. The readers only look for the first place from which it can't go on: each has
the text, and a function that says of a grammar and a text whether the program refuses it.
"""
from typing import NamedTuple

from .expressions import expression
from .fields import field, field_with_member
from .globs import glob
from .layouts import go_layout, layout
from .patterns import pattern
from .stop import Stop, words

GRAMMARS = {"field": field, "field with a member": field_with_member, "expression": expression, "glob": glob, "layout": layout,
            "layout of Go's": go_layout, "pattern": pattern}


class Place(NamedTuple):
    """A byte of a text, from 0, the words that stand there, and what to do."""

    byte: int
    words: str
    what: str


def explain(grammar, text, is_refused):
    """Where a text that is refused can't be read, or nothing where that isn't known."""
    try:
        GRAMMARS[grammar](text, is_refused)
    except Stop as stop:
        return Place(len(text[: stop.at].encode()), words(text, stop.at), stop.what)
    return None
