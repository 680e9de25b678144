# Runs that are killed, and two agents in one folder.

# Fewer runs where the program is slow.
check_kills() { wait_long "$root/tests/e2e/kills" "$agent" $((10 + 190 / slow)) 20261128; }

# Two agents at once know nothing of each other. Here one of two lines is written twice and the other isn't at all, and
# both end with status 0.
check_two_agents() {
    a_folder '*.log'
    echo b1 >b.log
    wait_for python3 - "$agent" <<'PY' || return 1
import subprocess, sys, time
def waits(agent):
    time.sleep(0.02)
    with open(f"/proc/{agent.pid}/stat") as stat:
        return stat.read().rpartition(") ")[2].startswith("S")
# It has opened its session once it waits for a line.
def start():
    agent = subprocess.Popen([sys.argv[1], "follow"], stdin=subprocess.PIPE, stdout=subprocess.PIPE, text=True, bufsize=1)
    while not all(waits(agent) for _ in range(5)):
        pass
    return agent
def poll(agent):
    agent.stdin.write("poll\n")
    return agent.stdout.readline().split()[:2]
one, other = start(), start()
assert poll(one) == ["files=1", "lines=1"]
with open("a.log", "w") as log:
    log.write("a1\n")
assert poll(other) == ["files=2", "lines=2"]
assert poll(one) == ["files=2", "lines=1"]
for agent in (one, other):
    agent.stdin.close()
    assert agent.wait() == 0
PY
    [ "$(told | cut -d ' ' -f 4)" = "a1${LF}a1" ]
}

# With flock a second agent isn't started while one runs.
check_agents_in_turn() {
    a_log
    (echo poll && grown report 1 && grown second 1) | wait_for flock -n . "$agent" follow >report &
    grown report 1 && flock -n . "$agent" once >refused
    [ $? = 1 ] && [ ! -s refused ] && echo >second && wait || return 1
    flock -n . "$agent" once >second && diff second <(summary 1 0 0 326) && bodies '["hello"]'
}
