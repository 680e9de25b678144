"""Programs that are taken in place of the agent, over plain lines: each follows the log and writes a line of JSON for each."""
import os
import shutil
import signal
import subprocess
import time
from typing import NamedTuple

LONGEST = 120

RSYSLOG = """
global(workDirectory="{folder}")
module(load="imfile" mode="polling" pollingInterval="1")
template(name="line" type="string" string="{{\\"file\\":\\"app.log\\",\\"message\\":\\"%msg:::json%\\"}}\\n")
input(type="imfile" file="{folder}/app.log" tag="app" freshStartTail="off" ruleset="lines")
ruleset(name="lines") {{ action(type="omfile" file="{folder}/output.jsonl" template="line") }}
"""
SYSLOG_NG = """
@version: current
source log {{ file("{folder}/app.log" flags(no-parse) read-old-records(yes) follow-freq(1)); }};
destination lines {{ file("{folder}/output.jsonl" template("$(format-json file=app.log message=${{MESSAGE}})\\n")); }};
log {{ source(log); destination(lines); }};
"""
FLUENT_BIT = """
[SERVICE]
    Flush 1
[INPUT]
    Name tail
    Path {folder}/app.log
    Path_Key file
    Read_from_Head On
[OUTPUT]
    Name file
    Match *
    Path {folder}
    File output.jsonl
    Format plain
"""
VECTOR = """
data_dir = "{folder}"
[sources.log]
type = "file"
include = ["{folder}/app.log"]
read_from = "beginning"
[sinks.lines]
type = "file"
inputs = ["log"]
path = "{folder}/output.jsonl"
encoding.codec = "json"
"""


class Peer(NamedTuple):
    name: str
    program: str
    settings: str
    # Behind the program; `{settings}` is the path of the settings.
    words: str


PEERS = [
    Peer("rsyslog", "rsyslogd", RSYSLOG, "-n -f {settings} -i {folder}/pid"),
    Peer("syslog-ng", "syslog-ng", SYSLOG_NG, "-F -f {settings} -R {folder}/persist -c {folder}/control -p {folder}/pid"),
    Peer("Fluent Bit", "fluent-bit", FLUENT_BIT, "-q -c {settings}"),
    Peer("Vector", "vector", VECTOR, "--quiet --config {settings}"),
]


def path_of(peer):
    """The path of the program, where it is installed; daemons may stand where a user's path doesn't lead."""
    return shutil.which(peer.program, path=os.environ.get("PATH", "") + ":/usr/sbin:/opt/fluent-bit/bin")


def measure(peer, folder, lines):
    """Processor time and peak memory, in bytes, of taking all lines of `app.log` in this folder; None where it doesn't."""
    settings = os.path.join(folder, "peer.toml" if peer.name == "Vector" else "peer.conf")
    with open(settings, "w", encoding="utf-8") as file:
        file.write(peer.settings.format(folder=folder))
    words = peer.words.format(settings=settings, folder=folder).split()
    with open(os.path.join(folder, "told"), "wb") as told:
        child = subprocess.Popen([path_of(peer), *words], cwd=folder, stdout=told, stderr=told)
    is_done = wait_for(os.path.join(folder, "output.jsonl"), lines, child)
    memory = peak_memory(child.pid)
    os.kill(child.pid, signal.SIGTERM)
    _, status, usage = os.wait4(child.pid, 0)
    child.returncode = os.waitstatus_to_exitcode(status)
    return (usage.ru_utime + usage.ru_stime, memory) if is_done else None


def wait_for(output, lines, child):
    """Waits until the output has so many lines, and tells whether it came to that."""
    end = time.monotonic() + LONGEST
    while time.monotonic() < end and is_running(child.pid):
        if os.path.exists(output) and count_lines(output) >= lines:
            return True
        time.sleep(0.2)
    return False


def is_running(pid):
    """Whether a child that nobody waited for still runs."""
    with open(f"/proc/{pid}/stat", encoding="utf-8") as stat:
        return stat.read().rsplit(") ", 1)[1][0] != "Z"


def count_lines(path):
    with open(path, "rb") as file:
        return sum(piece.count(b"\n") for piece in iter(lambda: file.read(1 << 20), b""))


def peak_memory(pid):
    with open(f"/proc/{pid}/status", encoding="utf-8") as status:
        rows = [row.split() for row in status if row.startswith("VmHWM:")]
    return 1024 * int(rows[0][1]) if rows else 0
