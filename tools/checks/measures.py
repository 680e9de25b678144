"""What the settings make of a log, and how often each operator fails on it, which the program is asked by changed settings."""
import os

MOST_BYTES = 1 << 20
MOST_OPERATORS = 62
ENTRY, NONE = "check-settings: measured", "check-settings: dropped"


def measured(settings, path, raw, program):
    """The output's lines, and a line for each operator that failed, and for what isn't taken of the log."""
    log = raw[: MOST_BYTES]
    whole = log[: log.rfind(b"\n") + 1] if len(raw) > MOST_BYTES else log
    inside = path_inside(path)
    said, lines = program.records(settings, inside, whole)
    told = [] if lines or said.startswith("files=") else [said]
    if len(raw) > MOST_BYTES:
        told.append(f"the first {len(whole):,} bytes of {path} were read")
    if whole and not whole.endswith(b"\n"):
        told.append(f"the last line of {path} has no line end, so it waits")
    return lines, told + list(faults(settings, inside, whole, program))


def path_inside(path):
    """The path of a log in a folder of its own: as it was named, from / or from here on."""
    return os.path.relpath(path) if ".." not in os.path.relpath(path) else os.path.abspath(path).lstrip("/")


def faults(settings, path, log, program):
    """A line for each operator that failed on entries."""
    operators = settings.get("operators", [])
    if len(operators) > MOST_OPERATORS:
        yield f"of {len(operators)} operators it isn't counted on how many entries each failed, only of {MOST_OPERATORS}"
        return
    for place, operator in enumerate(operators):
        if operator["type"] in ("noop", "router"):
            continue
        count = passed(settings, place, "send", path, log, program) - passed(settings, place, "drop", path, log, program)
        if count:
            word = "dropped" if operator.get("on_error", "send").startswith("drop") else "sent on"
            entries = "1 entry" if count == 1 else f"{count} entries"
            yield f"operators[{place}] ({operator['type']}) {word} {entries} with an error"


def passed(settings, place, on_error, path, log, program):
    """How many entries come out of an operator with this on_error: its output leads to the end, and all else is dropped."""
    operators = [dict(it) for it in settings["operators"]]
    operators[place] = {**operators[place], "on_error": on_error, "output": ENTRY}
    ends = [{"type": "filter", "id": NONE, "expr": "true", "output": ENTRY}, {"type": "noop", "id": ENTRY}]
    return len(program.records({**settings, "operators": [*operators, *ends]}, path, log)[1])
