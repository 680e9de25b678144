"""Patterns of paths."""
import re

from .stop import Stop


def glob(text, _):
    at = 1 if text.startswith("/") else 0
    if at == len(text):
        raise Stop(at, "a name is wanted here, as app.log")
    for name in text[at:].split("/"):
        if name in ("", ".", ".."):
            raise Stop(at, nameless(name, at + len(name) == len(text)))
        closed(text, at, at + len(name))
        at += len(name) + 1


def nameless(name, is_last):
    if name == "..":
        return "no pattern has .. in it: write the folder's path from / on"
    if name == ".":
        return "no pattern has . in it: take ./ away, since paths begin at the agent's folder"
    return "a pattern of files doesn't end with /: write * behind it" if is_last else "no pattern has // in it: write /"


def closed(text, at, end):
    """Looks whether the brackets and braces of a name are closed in it."""
    while at < end:
        if text[at] == "\\":
            at += 2
            continue
        if text[at] == "[":
            found = re.compile(r"\[[!^]?(?:[^\]\\]|\\.)+\]").match(text, at, end)
            if not found:
                raise Stop(at, "this [ isn't closed in its name: write ] behind its characters, or \\[ for itself")
            at = found.end()
            continue
        if text[at] == "{":
            found = re.compile(r"\{(?:[^{}\\]|\\.)*\}").match(text, at, end)
            if not found:
                raise Stop(at, "this { isn't closed in its name: braces hold no / and no braces, so write several patterns")
            at = found.end()
            continue
        if text[at] == "}":
            raise Stop(at, "no { is open here: write \\} for itself")
        at += 1
    if at > end:
        raise Stop(end - 1, "nothing stands behind the backslash")
