"""How a reader of a grammar ends where a text can't be read."""


class Stop(Exception):
    """The first place from which a text can't go on, and what to do there."""

    def __init__(self, at, what):
        self.at = at
        self.what = what


def words(text, at):
    """What stands at a place of a text."""
    return text[at : at + 20] or "its end"
