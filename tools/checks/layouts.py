"""Layouts of times, and those of Go and Java that are taken for them."""
import re

from .stop import Stop

# What to write for directives of other programs.
NO_DIRECTIVES = {
    "Z": "names of zones aren't read: write %z, or the name as it stands and a location",
    "B": "write %b, the month's first three letters", "A": "write %a, the weekday's first three letters",
    "F": "write %Y-%m-%d", "D": "write %m/%d/%y", "R": "write %H:%M", "j": "write %m and %d", "h": "write %b", "k": "write %H",
    "l": "write %I", "N": "write %L", "X": "write %T", "s": 'write "layout_type": "epoch" and "layout": "s"',
}
JAVA = {"yyyy": "%Y", "uuuu": "%Y", "yy": "%y", "MMM": "%b", "MM": "%m", "dd": "%d", "HH": "%H", "hh": "%I", "mm": "%M",
        "ss": "%S", "EEE": "%a", "a": "%p", "XXX": "%z", "XX": "%z", "X": "%z", "Z": "%z", "'T'": "T", "'Z'": "Z"}
GO = {"2006": "%Y", "06": "%y", "01": "%m", "Jan": "%b", "02": "%d", "_2": "%e", "Mon": "%a", "15": "%H", "03": "%I",
      "PM": "%p", "04": "%M", "05": "%S", "Z07:00": "%z", "Z0700": "%z", "-07:00": "%z", "-0700": "%z"}
# The directives that there are, with what each tells.
PARTS = {"Y": ("year",), "y": ("year",), "m": ("month",), "b": ("month",), "d": ("day",), "e": ("day",), "a": ("weekday",),
         "H": ("hour",), "I": ("hour",), "p": ("AM or PM",), "M": ("minute",), "S": ("second",), "L": ("fraction",),
         "f": ("fraction",), "T": ("hour", "minute", "second"), "z": ("zone",)}


# The names of Go's layouts that there are, with what each tells.
GO_PARTS = {"2006": "year", "06": "year", "01": "month", "1": "month", "Jan": "month", "January": "month", "02": "day", "2": "day",
            "_2": "day", "Mon": "weekday", "Monday": "weekday", "15": "hour", "03": "hour", "3": "hour", "PM": "AM or PM",
            "04": "minute", "05": "second", ".000": "fraction", ".000000": "fraction", ".000000000": "fraction", "-0700": "zone",
            "-07:00": "zone", "Z0700": "zone", "Z07:00": "zone", "MST": "zone"}
GO_NAME = re.compile("|".join(re.escape(name) for name in sorted(GO_PARTS, key=len, reverse=True)) + "|[0-9]")


def foreign(layout):
    """The layout of Go or Java that a text without directives is, and how it is written here."""
    if "2006" in layout or "15:04" in layout:
        names, kind, spelled = GO, "Go's", r"[.,](?:0+|9+)(?![0-9])"
    elif re.search("yy|uuuu|MM|dd|HH|mm|ss", layout):
        names, kind, spelled = JAVA, "Java's", r"[.,]S+"
    else:
        return None
    name = re.compile("|".join([spelled, *sorted(map(re.escape, names), key=len, reverse=True)]))
    return kind, name.sub(lambda it: names.get(it[0]) or f"{it[0][0]}%L", layout)


def layout(text, _):
    other = None if "%" in text else foreign(text)
    if other:
        raise Stop(0, f"this is a layout of {other[0]}, and a layout has directives here: write {other[1]}")
    told = []
    for found in re.finditer("%(.?)", text, re.DOTALL):
        letter = found[1]
        if letter == "%":
            continue
        if letter not in PARTS:
            raise Stop(found.start(), NO_DIRECTIVES.get(letter, "there is no such directive: docs/SETTINGS.md has them"))
        for part in PARTS[letter]:
            if part in told:
                raise Stop(found.start(), f"it tells the {part} again: take one away")
            told.append(part)
    for part in ("year", "month", "day"):
        if part not in told:
            raise Stop(len(text), f"it has no {part}: a layout has the year, the month and the day, as %Y-%m-%d")
    if ("%I" in text) != ("%p" in text):
        raise Stop(len(text), "%I and %p go together: write both, or %H alone")


def go_layout(text, _):
    told = []
    for found in GO_NAME.finditer(text):
        if found[0] not in GO_PARTS:
            raise Stop(found.start(), "no name of Go's that is read here begins with this digit: docs/SETTINGS.md has them")
        if GO_PARTS[found[0]] in told:
            raise Stop(found.start(), f"it tells the {GO_PARTS[found[0]]} again: take one away")
        told.append(GO_PARTS[found[0]])
    for part in ("year", "month", "day"):
        if part not in told:
            raise Stop(len(text), f"it has no {part}: a layout has the year, the month and the day, as 2006-01-02")
    if bool({"03", "3"} & {found[0] for found in GO_NAME.finditer(text)}) != ("AM or PM" in told):
        raise Stop(len(text), "03 and PM go together: write both, or 15 alone")
