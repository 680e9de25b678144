"""What bench/run measures poll by poll: folders of files, and entries of many short lines."""
import json
import os
import subprocess
import time

from measures import Failed, can_count_calls, least

FOLDERS = (10, 100, 1_000, 10_000)
# The sizes of two folders, so that what a file adds to a poll stands apart from what the folder takes.
IDLE_FILES = (20, 220)
POLLS = 20
# The sizes of a log of lines of one byte: nearly what a poll reads of a file, and nearly the longest entry.
ONE_BYTE = 16_000_000
WAITING = 4_000_000
NAMES = 64_000
# As many files as can be remembered, and a quarter of them, each with a front as long as is usual.
MANY_ROWS = 65_536
FEW_ROWS = MANY_ROWS // 4
FRONT = 1_000
# As many bytes of a file as an audit reads, in lines of this many.
AUDITED = 67_108_864
AUDITED_LINE = 512
STARTS = {"multiline": {"line_start_pattern": "^[0-9]{4}-[0-9]{2}-[0-9]{2}T"}}


class Follower:
    """`stanza_agent follow`, poll by poll."""

    def __init__(self, work):
        self.child = subprocess.Popen(
            [work.agent, "follow"], cwd=work.folder, stdin=subprocess.PIPE, stdout=subprocess.PIPE, text=True, bufsize=1
        )

    def __enter__(self):
        return self

    def __exit__(self, *_fault):
        self.child.stdin.close()
        self.child.wait()

    def poll(self, wanted=""):
        """Makes a poll, whose summary has to have this, and answers its time by the clock."""
        began = time.perf_counter()
        self.child.stdin.write("poll\n")
        summary = self.child.stdout.readline()
        took = time.perf_counter() - began
        if not summary or wanted not in summary:
            raise Failed(f"a poll told {summary.strip() or 'nothing'}, and not{wanted}")
        return took


def write_settings(work, **settings):
    work.forget()
    work.write("settings.json", json.dumps({"start_at": "beginning", **settings}))


def append(work, name, line):
    with open(work.path(name), "a", encoding="utf-8") as log:
        log.write(line + "\n")


# ---- folders


def write_folder(work, name, files):
    """A folder with so many files of 100 lines."""
    for file in range(files):
        lines = (f"2026-11-27T08:00:{line % 60:02}Z INFO file {file} handled request id={line}\n" for line in range(100))
        work.write(f"{name}/{file:04}.log", "".join(lines))
    write_settings(work, include=[f"{name}/*.log"])


def quiet_poll(work, count, polls):
    """What a poll more that finds nothing new counts. `count` takes a command and its standard input."""
    command = [work.agent, "follow"]
    few, many = (count(command, "poll\n" * number) for number in (2, 2 + polls))
    return (many - few) / polls


def idle(work):
    """Instructions and system calls that a file in which nothing is new adds to a poll."""
    few, many = (idle_folder(work, files) for files in IDLE_FILES)
    more = IDLE_FILES[1] - IDLE_FILES[0]
    return [None if whole is None else (whole - part) / more for whole, part in zip(many, few)]


def idle_folder(work, files):
    """Instructions and system calls of a poll over so many files in which nothing is new."""
    write_folder(work, f"idle-{files}", files)
    work.run([work.agent, "once"])
    instructions = quiet_poll(work, lambda *how: work.counts(*how).instructions, 10)
    calls = quiet_poll(work, work.calls, 10) if can_count_calls() else None
    return instructions, calls


def folder(work, files):
    """Times of a folder's polls by the clock: with all lines new, the least with nothing new and with one file that grew, and
    the least of a run of `once` with nothing new; and the system calls for a file."""
    name = f"folder-{files}"
    write_folder(work, name, files)
    with Follower(work) as agent:
        all_new = agent.poll()
        quiet = min(agent.poll(" lines=0 ") for _ in range(POLLS))
        grown = min(grow(work, agent, f"{name}/0007.log") for _ in range(POLLS))
    run = least(lambda: work.run([work.agent, "once"])).clock
    calls = quiet_poll(work, work.calls, 2) / files if can_count_calls() else None
    return all_new, quiet, grown, run, calls


def rows(work):
    """The most memory that runs over as many files as can be remembered take, one that takes them all and one in which a file grew,
    and how many times the processor time of a quarter of them is taken by each."""
    few, many = (rows_of(work, files) for files in (FEW_ROWS, MANY_ROWS))
    return max(memory for _, memory in many), [whole / part for (whole, _), (part, _) in zip(many, few)]


def rows_of(work, files):
    """Processor time and peak memory of both runs."""
    name = f"rows-{files}"
    for file in range(files):
        work.write(f"{name}/{file:05}.log", f"{file:05} ".ljust(FRONT - 1, "x") + "\n")
    write_settings(work, include=[f"{name}/*.log"])
    taken = work.measured([work.agent, "once"])
    append(work, f"{name}/00007.log", "one line more")
    return [taken, work.measured([work.agent, "once"])]


def audit(work):
    """How many times the processor time of the runs that took as much of a file as an audit reads its audit takes, by the least of
    three, and the most memory of an audit."""
    with open(work.path("audited.log"), "w", encoding="utf-8") as log:
        log.writelines(f"{line:08} ".ljust(AUDITED_LINE - 1, "x") + "\n" for line in range(AUDITED // AUDITED_LINE))
    write_settings(work, include=["audited.log"])
    taken = min(take_whole(work) for _ in range(3))
    audits = [audited(work) for _ in range(3)]
    os.remove(work.path("audited.log"))
    return min(processor for processor, _ in audits) / taken, max(memory for _, memory in audits)


def take_whole(work):
    """The processor time of the runs that take all that there is."""
    work.forget()
    processor = 0.0
    while True:
        processor += work.run([work.agent, "once"]).processor
        if " left=0 " in work.read("report"):
            return processor


def audited(work):
    """Processor time and peak memory of an audit that finds the file as it was taken."""
    used = work.measured([work.agent, "audit"])
    told = work.read("report")
    if told != f"audit rows=1 absent=0 lines={AUDITED // AUDITED_LINE}\n":
        raise Failed(f"an audit told {told.strip()}")
    return used


def grow(work, agent, name):
    append(work, name, "2026-11-27T09:00:00Z INFO one line more")
    return agent.poll(" lines=1 ")


# ---- lines of one byte


def one_byte(work):
    """Processor time for a log of lines of one byte, of which none begins an entry."""
    work.write("short.log", "a\n" * (ONE_BYTE // 2))
    write_settings(work, include=["short.log"], **STARTS)
    return least(work.once).processor


def waiting(work):
    """Times by the clock of polls over one entry that waits: the least with nothing new and with a line more."""
    front = "2026-11-27T08:00:00Z it begins\n"
    work.write("waiting.log", front + "a\n" * ((WAITING - len(front)) // 2))
    write_settings(work, include=["waiting.log"], max_log_size=4_194_304, **STARTS)
    with Follower(work) as agent:
        agent.poll(" lines=0 ")
        quiet = min(agent.poll(" lines=0 ") for _ in range(5))
        grown = min(wait_on(work, agent) for _ in range(5))
    os.remove(work.path("waiting.log"))
    return quiet, grown


def wait_on(work, agent):
    append(work, "waiting.log", "a")
    return agent.poll(" lines=0 ")


def header(work):
    """Processor time of a run over no file whose settings name so many columns."""
    names = ",".join(f"n{name}" for name in range(NAMES))
    write_settings(work, include=["none.log"], operators=[{"type": "csv_parser", "header": names}])
    return least(lambda: work.run([work.agent, "once"])).processor
