"""How a run of a program is measured: its processor time, its peak memory, its instructions, allocations and system calls."""
import os
import re
import shutil
import subprocess
import time
from typing import NamedTuple

TIMES = 5
ALLOCATING = {"malloc", "calloc", "realloc", "aligned_alloc", "posix_memalign", "memalign"}
# What the agent leaves in its folder.
LEFT = ("output.jsonl", "checkpoint.a", "checkpoint.b")


class Failed(Exception):
    """Why nothing can be measured."""


class Used(NamedTuple):
    processor: float
    clock: float


class Counts(NamedTuple):
    instructions: int
    allocations: int


class Work:
    """The folder in which the agent and the floors run."""

    def __init__(self, folder, agent):
        self.folder = folder
        self.agent = agent

    def path(self, name):
        return os.path.join(self.folder, name)

    def write(self, name, text):
        os.makedirs(os.path.dirname(self.path(name)), exist_ok=True)
        with open(self.path(name), "w", encoding="utf-8") as file:
            file.write(text)

    def read(self, name):
        with open(self.path(name), encoding="utf-8") as file:
            return file.read()

    def forget(self):
        """Removes what the agent left, so that it begins anew."""
        for name in LEFT:
            if os.path.exists(self.path(name)):
                os.remove(self.path(name))

    def run(self, command, said=""):
        """Runs a command with this on its standard input; what it prints stands in `report` then."""
        with open(self.path("report"), "wb") as report:
            began = time.perf_counter()
            child = subprocess.Popen(command, cwd=self.folder, stdin=subprocess.PIPE, stdout=report)
            child.stdin.write(said.encode())
            child.stdin.close()
            _, status, usage = os.wait4(child.pid, 0)
            clock = time.perf_counter() - began
        child.returncode = os.waitstatus_to_exitcode(status)
        if child.returncode:
            raise Failed(f"{' '.join(command)} ended with status {child.returncode}: {self.read('report').strip()}")
        return Used(usage.ru_utime + usage.ru_stime, clock)

    def once(self):
        """A poll of an agent that remembers nothing, which has to take all there is."""
        self.forget()
        used = self.run([self.agent, "once"])
        if " left=0 " not in self.read("report"):
            raise Failed("the log is longer than a poll reads of it: take fewer --lines")
        return used

    def memory(self, command):
        """The peak memory of a command, in bytes."""
        return self.measured(command)[1]

    def measured(self, command):
        """The processor time and the peak memory of a command, in seconds and bytes."""
        used = self.run([tool("time"), "-f", "%M", "-o", "memory", *command])
        return used.processor, 1024 * int(self.read("memory"))

    def counts(self, command, said=""):
        """Instructions of a whole run, and how often it asks for memory."""
        valgrind = [tool("valgrind"), "--tool=callgrind", "--callgrind-out-file=counts", "--log-file=told"]
        self.run([*valgrind, *command], said)
        return counts_of(self.path("counts"))

    def calls(self, command, said=""):
        """The number of system calls of a run."""
        self.run([tool("strace"), "-f", "-c", "-o", "calls", *command], said)
        rows = [row.split() for row in self.read("calls").splitlines()]
        return sum(int(row[3]) for row in rows if len(row) > 4 and row[3].isdigit() and row[-1] != "total")


def tool(name):
    path = shutil.which(name)
    if path is None:
        raise Failed(f"{name} isn't installed")
    return path


def can_count_calls():
    """Whether strace is there and may trace."""
    try:
        return subprocess.run(["strace", "-o", os.devnull, "true"], check=False, capture_output=True).returncode == 0
    except FileNotFoundError:
        return False


def counts_of(path):
    """Reads what callgrind wrote: calls stand behind the name of what is called, which is spelled out once."""
    names = {}
    called = None
    allocations = instructions = 0
    with open(path, encoding="utf-8", errors="replace") as file:
        for row in file:
            if row.startswith(("fn=", "cfn=")):
                number, name = re.match(r"c?fn=\((\d+)\)(?: ([^@'\n]*))?", row).groups()
                called = names.setdefault(number, name)
            elif row.startswith("calls=") and called in ALLOCATING:
                allocations += int(row[len("calls="):].split()[0])
            elif row.startswith("totals:"):
                instructions = int(row.split()[1])
    return Counts(instructions, allocations)


def least(measure):
    """The least processor time of some runs, and the least time by the clock."""
    runs = [measure() for _ in range(TIMES)]
    return Used(min(run.processor for run in runs), min(run.clock for run in runs))
