"""The files that patterns match now, and what about them the agent would skip or take for one another."""
import os
import re
import stat
from typing import NamedTuple

OWN = re.compile(r"settings\.json|output\.jsonl|checkpoint\.[ab]|output\.[0-9]+\.jsonl")
# Names of the agent's own files, of an output in many files the first and the last.
OWN_NAMES = ("output.jsonl", "output.0.jsonl", "output.65535.jsonl", "checkpoint.a", "checkpoint.b", "settings.json")
# What the package has the agent and its hand-over write to.
FOLDER = "/var/lib/stanza_agent"
SPOOLED = "/var/spool/stanza_agent/0000000000000.jsonl"
MOST_FILES = 65536
GZIP = b"\x1f\x8b"
SPECIAL = re.compile(r"[*?\[{\\]")
PIECE = re.compile(r"\\(.)|(\*)|(\?)|\[([!^]?)((?:[^\]\\]|\\.)+)\]|\{((?:[^{}\\]|\\.)*)\}|(.)", re.DOTALL)


class Matched(NamedTuple):
    """What the patterns of `include` match: the plain files, and for each pattern how many; links and own files are apart."""

    files: list
    counts: list
    links: list
    own: list


def expression_of(name):
    """The regular expression of a name of a pattern."""
    said = ""
    for escaped, star, mark, negation, members, braces, plain in PIECE.findall(name):
        if star:
            said += "[^/]*"
        elif mark:
            said += "[^/]"
        elif members:
            said += f"[{'^/' if negation else ''}{members.replace('[', chr(92) + '[')}]"
        elif braces:
            said += "(?:" + "|".join(expression_of(it) for it in braces.split(",")) + ")"
        else:
            said += re.escape(escaped or plain)
    return said


def compiled(pattern):
    """The expression that matches the paths of a pattern as a whole."""
    names = pattern.strip("/").split("/")
    if names[-1] == "**":
        names.append("*")
    said = "/" if pattern.startswith("/") else ""
    for name in names[:-1]:
        said += "(?:[^/]+/)*" if name == "**" else f"{expression_of(name)}/"
    return re.compile(said + expression_of(names[-1]), re.DOTALL)


def start(pattern):
    """The folder in which a walk for a pattern begins: the names before the first with a special character, without the last."""
    names = pattern.split("/")
    plain = []
    for name in names[:-1]:
        if SPECIAL.search(name):
            break
        plain.append(name)
    return "/".join(plain) + "/" if plain else ""


def walk(folder, base, depth):
    """The paths of what stands below a folder, not through links, with what each is."""
    try:
        them = sorted(os.scandir(os.path.join(base, folder or ".")), key=lambda it: it.name)
    except OSError:
        return
    for it in them:
        path = folder + it.name
        if it.is_dir(follow_symlinks=False):
            if depth > 0:
                yield from walk(path + "/", base, depth - 1)
        else:
            yield path, it.stat(follow_symlinks=False).st_mode


def depth_below(pattern):
    """How many folders below its start a pattern can lead."""
    names = pattern[len(start(pattern)) :].split("/")
    return 32 if "**" in names else len(names) - 1


def matched(include, exclude, base):
    """What the patterns match from this folder on."""
    excluded = [compiled(it) for it in exclude]
    files, links, own, counts = set(), set(), set(), []
    for pattern in include:
        form, found = compiled(pattern), 0
        for path, mode in walk(start(pattern), base, depth_below(pattern)):
            if not form.fullmatch(path) or any(it.fullmatch(path) for it in excluded):
                continue
            found += 1
            if is_own(path, base):
                own.add(path)
            elif stat.S_ISLNK(mode):
                links.add(path)
            elif stat.S_ISREG(mode):
                files.add(path)
        counts.append(found)
    return Matched(sorted(files), counts, sorted(links), sorted(own))


def is_own(path, base):
    folder, name = os.path.split(os.path.join(base, path))
    return OWN.fullmatch(name) is not None and os.path.realpath(folder) == os.path.realpath(base)


def own_file(pattern, exclude, base):
    """An own file that an absolute pattern leads to, whether it is there yet or not, and the folder to be excluded for it."""
    folders = dict.fromkeys((os.path.abspath(base), os.path.realpath(base)))
    own = [(f"{folder}/{name}", folder) for name in OWN_NAMES for folder in folders]
    if FOLDER in folders:
        own.append((SPOOLED, os.path.dirname(SPOOLED)))
    form, excluded = compiled(pattern), [compiled(it) for it in exclude]
    for path, folder in own:
        if form.fullmatch(path) and not any(it.fullmatch(path) for it in excluded):
            return path, folder
    return None


def fronts(files, base, size):
    """The first bytes of each file that can be read."""
    them = []
    for path in files:
        try:
            with open(os.path.join(base, path), "rb") as file:
                them.append((file.read(size), path))
        except OSError:
            continue
    return them


def alike(them):
    """Pairs of files of which one begins with all that the front of the other has."""
    them = sorted(it for it in them if it[0] and not it[0].startswith(GZIP))
    pairs = []
    for at, (front, path) in enumerate(them[1:], 1):
        before, other = them[at - 1]
        if front.startswith(before):
            pairs.append((other, path))
    return pairs
