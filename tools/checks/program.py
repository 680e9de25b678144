"""What the program says of settings: each question is a run of it in a new folder, whose files are gone afterwards."""
import json
import os
import subprocess
import tempfile

ROOT = os.path.join(os.path.dirname(os.path.abspath(__file__)), "../..")
# A settings text of one reading, for each grammar.
ALONE = {
    "field": lambda text: {"operators": [{"type": "remove", "field": text}]},
    "field with a member": lambda text: {"operators": [{"type": "flatten", "field": text}]},
    "expression": lambda text: {"operators": [{"type": "filter", "expr": text}]},
    "pattern": lambda text: {"multiline": {"line_start_pattern": text}},
    "layout": lambda text: {"operators": [{"type": "time_parser", "parse_from": "body", "layout": text}]},
    "layout of Go's": lambda text: {"operators": [{"type": "time_parser", "parse_from": "body", "layout_type": "gotime", "layout": text}]},
    "glob": lambda text: {"exclude": [text]},
}


class NoProgram(Exception):
    """There is no program to be asked, which examples/program has said on standard error."""


class Program:
    """The program that examples/program finds, or builds."""

    def __init__(self):
        found = subprocess.run([os.path.join(ROOT, "examples/program")], stdout=subprocess.PIPE, text=True)
        if found.returncode != 0:
            raise NoProgram
        self.path = found.stdout.strip()

    def once(self, settings, folder):
        """The line that a poll in this folder reports."""
        with open(os.path.join(folder, "settings.json"), "w", encoding="utf-8") as file:
            json.dump(settings, file, ensure_ascii=False)
        said = subprocess.run([self.path, "once"], cwd=folder, stdin=subprocess.DEVNULL, stdout=subprocess.PIPE, text=True)
        return said.stdout.strip()

    def fault(self, settings):
        """What the program refuses in settings, as it says it, or nothing. No log is read: patterns are asked as `exclude`."""
        asked = {**settings, "include": ["none"], "exclude": settings.get("include", []) + settings.get("exclude", [])}
        with tempfile.TemporaryDirectory() as folder:
            said = self.once(asked, folder)
        return said.removeprefix("fault ") if said.startswith("fault ") else ""

    def fault_alone(self, grammar, text):
        return self.fault(ALONE[grammar](text))

    def is_refused(self, grammar, text):
        return self.fault_alone(grammar, text) != ""

    def records(self, settings, path, log):
        """What the settings make of a log with these bytes under this path: the report, and the output by examples/show."""
        with tempfile.TemporaryDirectory() as folder:
            copy = os.path.join(folder, path)
            os.makedirs(os.path.dirname(copy), exist_ok=True)
            with open(copy, "wb") as file:
                file.write(log)
            said = self.once({**settings, "include": [escaped(path)], "exclude": [], "start_at": "beginning"}, folder)
            output = os.path.join(folder, "output.jsonl")
            if not os.path.exists(output):
                return said, []
            shown = subprocess.run([os.path.join(ROOT, "examples/show"), output], stdout=subprocess.PIPE, text=True, check=True)
        return said, shown.stdout.splitlines()


def escaped(path):
    """The pattern that matches this path alone."""
    return "".join("\\" * (it in "*?[]{}\\") + it for it in path)
