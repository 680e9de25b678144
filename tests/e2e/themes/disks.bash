# A disk that is full, files that may not be read or written, and what others may do with the output meanwhile.

# on_a_small_disk FUNCTION: calls it in a folder on a disk of 256 KiB, with all beside it on another.
on_a_small_disk() {
    local status
    mkdir small
    mount -t tmpfs -o size=256k tmpfs small 2>/dev/null || {
        skip "a small disk can't be mounted"
        return 0
    }
    (cd small && "$1")
    status=$?
    umount small
    return $status
}

# leave_free PAGES: all of the disk but so many pages of 4 KiB is taken by a file.
leave_free() {
    rm -f filler
    cat /dev/zero >filler 2>/dev/null
    [ "$(stat -c %s filler)" -gt "$((4096 * $1))" ] && truncate -s -"$((4096 * $1))" filler
}

# bodies_are FILE: the output has the lines of this file, each once and in order, numbered from 1.
bodies_are() { diff <(told | cut -d ' ' -f 2,4-) <(awk '{ print NR, $0 }' "$1"); }

# with_little_room: with any number of free pages a poll goes through or ends with status 7, and once there is room
# nothing is lost and nothing there twice.
with_little_room() {
    local free full=0 status
    printf '{"include":["%s/app.log"],"start_at":"beginning"}' "${PWD%/small}" >settings.json
    for free in 0 1 2 3 5 10 20 30 31 32 33 34 35 36 37 40; do
        anew
        rm -f filler
        seq -f 'first %g' 1 10 >../app.log
        quietly || return 1
        seq -f 'then %g' 1 400 >>../app.log
        leave_free "$free" || return 1
        wait_for "$agent" once >"$work/report"
        status=$?
        if [ "$status" = 7 ]; then
            [ "$(cat "$work/report")" = 'fault 7 disk' ] || return 1
            once 7 "fault 7 disk$LF" && full=$((full + 1)) || return 1
        elif [ "$status" != 0 ]; then
            echo "status $status with $free pages"
            return 1
        fi
        rm filler
        quietly && bodies_are ../app.log || return 1
    done
    echo "$full times full"
    [ "$full" -gt 3 ] && [ "$full" -lt 16 ]
}

check_full_disk() { on_a_small_disk with_little_room; }

# The first poll has no room for its checkpoint.
without_a_checkpoint() {
    local free full=0
    printf '{"include":["%s/app.log"],"start_at":"beginning"}' "${PWD%/small}" >settings.json
    seq 1 10 >../app.log
    for free in 0 1 2 3; do
        anew
        leave_free "$free" || return 1
        wait_for "$agent" once >"$work/report" || full=$((full + 1))
        rm filler
        quietly && bodies_are ../app.log || return 1
    done
    [ "$full" = 2 ]
}

check_full_disk_at_first() { on_a_small_disk without_a_checkpoint; }

# A run that may write no longer files, or open few at once, is made good by the next.
check_limits_of_a_process() {
    local most status
    a_log ''
    seq 1 2000 >app.log
    wait_for bash -c 'ulimit -c 0 && ulimit -f 100 && exec "$1" once' - "$agent" >"$work/report" 2>/dev/null && return 1
    quietly && bodies_are app.log || return 1
    anew
    for most in 4 5 6 7 8 9 10; do
        wait_for bash -c 'ulimit -n "$1" && exec "$2" once' - "$most" "$agent" >"$work/report" 2>/dev/null
        status=$?
        [ "$status" = 0 ] || [ "$status" = 127 ] || [ "$status $(cat "$work/report")" = '7 fault 7 disk' ] || return 1
    done
    quietly && bodies_are app.log
}

# as_other COMMAND..: as a user whose rights count; root's don't.
as_other() {
    if [ "$(id -u)" = 0 ]; then
        wait_for setpriv --reuid=65534 --regid=65534 --clear-groups "$@"
    else
        wait_for "$@"
    fi
}

# can_be_another: this folder has `state`, in which another user may write, and `logs`; the program is beside them.
can_be_another() {
    mkdir state logs && chmod o+x "$work" && cp -L "$agent" agent && chmod 777 state && chmod 755 . logs agent
    [ "$(as_other ./agent 2>/dev/null)" = 'fault 2 usage' ] || {
        skip "the program can't be run as another user"
        return 1
    }
}

# other_once STATUS REPORT: as `once`, by the other user in the folder `state`.
other_once() {
    (cd state && as_other ../agent once </dev/null >"$work/report" 2>"$work/errors")
    ended "$?" "$1" "$2"
}

check_folder_without_rights() {
    can_be_another || return 0
    printf '{"include":["%s/logs/*"],"start_at":"beginning"}' "$PWD" >state/settings.json
    echo a1 >logs/a.log
    chmod 555 state
    other_once 7 "fault 7 disk$LF" && [ "$(ls state)" = settings.json ] || return 1
    chmod 333 state
    other_once 7 "fault 7 disk$LF" || return 1
    chmod 777 state
    other_once 0 "$(summary 1 1 0 321)$LF"
}

check_own_files_without_rights() {
    can_be_another || return 0
    local name
    printf '{"include":["%s/logs/*"],"start_at":"beginning"}' "$PWD" >state/settings.json
    chmod 644 state/settings.json
    echo a1 >logs/a.log
    other_once 0 "$(summary 1 1 0 321)$LF" || return 1
    echo a2 >>logs/a.log
    for name in settings.json output.jsonl checkpoint.a; do
        chmod 0 "state/$name"
        other_once 7 "fault 7 disk$LF" || return 1
        chmod 666 "state/$name"
    done
    chmod 444 state/checkpoint.a
    other_once 7 "fault 7 disk$LF" || return 1
    chmod 666 state/checkpoint.a
    other_once 0 "$(summary 1 1 0 642)$LF"
}

check_logs_without_rights() {
    can_be_another || return 0
    printf '{"include":["%s/logs/**"],"start_at":"beginning"}' "$PWD" >state/settings.json
    mkdir logs/below
    echo a1 >logs/a.log
    echo b1 >logs/b.log
    echo c1 >logs/below/c.log
    chmod 0 logs/a.log logs/below
    other_once 0 "$(summary 1 1 2 321)$LF" || return 1
    chmod 755 logs/a.log logs/below
    other_once 0 "$(summary 3 2 0 963)$LF" && cd state && tells '1 1 b.log b1' '2 1 a.log a1' '3 1 c.log c1'
}

# While polls are made `committed` tells lengths that summaries tell, and what is before them stays.
check_committed_while_it_runs() {
    a_log ''
    wait_long python3 - "$agent" <<'PY' || return 1
import subprocess, sys, threading
agent = subprocess.Popen([sys.argv[1], "follow"], stdin=subprocess.PIPE, stdout=subprocess.PIPE, text=True, bufsize=1)
lengths, done = [0], threading.Event()
def poll():
    for number in range(300):
        with open("app.log", "a") as log:
            log.write(f"{number} {'x' * (number % 100)}\n")
        agent.stdin.write("poll\n")
        lengths.append(int(agent.stdout.readline().split("output=")[1]))
    done.set()
threading.Thread(target=poll).start()
told = []
while not done.is_set() or not told:
    ran = subprocess.run([sys.argv[1], "committed"], stdout=subprocess.PIPE, text=True)
    assert ran.returncode == 0, ran
    length = int(ran.stdout)
    if length:
        with open("output.jsonl", "rb") as output:
            told.append((length, output.read(length)))
agent.stdin.close()
assert agent.wait() == 0
assert [length for length, _ in told] == sorted(length for length, _ in told)
whole = open("output.jsonl", "rb").read()
for length, front in told:
    assert length in lengths and len(front) == length and whole.startswith(front) and front.endswith(b"\n")
print(f"{len(told)} looks")
PY
    run 0 "$(stat -c %s output.jsonl)$LF" committed
}

# The agent never reads the output: what was consumed may be given back to the disk while it goes on.
check_holes() {
    local kept blocks
    a_log ''
    seq -f 'line %g' 1 5000 >app.log
    quietly || return 1
    kept=$("$agent" committed)
    blocks=$(stat -c %b output.jsonl)
    fallocate -p -o 0 -l "$kept" output.jsonl 2>/dev/null || {
        skip "this disk has no holes"
        return 0
    }
    [ "$(stat -c %b output.jsonl)" -lt $((blocks / 10)) ] && [ "$(stat -c %s output.jsonl)" = "$kept" ] || return 1
    untouched once 0 "$(summary 1 0 0 "$kept")$LF" && echo more >>app.log && quietly || return 1
    run 0 "$((kept + 328))$LF" committed && tail -c +$((kept + 1)) output.jsonl >rest && mv rest output.jsonl &&
        tells '1 5001 app.log more'
}

check_holes_while_it_runs() {
    a_log ''
    fallocate -l 4096 try && fallocate -p -o 0 -l 4096 try 2>/dev/null || {
        skip "this disk has no holes"
        return 0
    }
    wait_long python3 - "$agent" <<'PY' || return 1
import json, os, subprocess, sys
agent = subprocess.Popen([sys.argv[1], "follow"], stdin=subprocess.PIPE, stdout=subprocess.PIPE, text=True, bufsize=1)
taken, number = 0, 0
for _ in range(30):
    with open("app.log", "a") as log:
        for _ in range(50):
            log.write(f"{number}\n")
            number += 1
    agent.stdin.write("poll\n")
    assert " lines=50 " in agent.stdout.readline()
    kept = int(subprocess.run([sys.argv[1], "committed"], stdout=subprocess.PIPE, text=True).stdout)
    with open("output.jsonl", "rb") as output:
        output.seek(taken)
        lines = output.read(kept - taken).splitlines()
    bodies = [json.loads(it)["resourceLogs"][0]["scopeLogs"][0]["logRecords"][0]["body"]["stringValue"] for it in lines]
    assert bodies == [str(it) for it in range(number - 50, number)], bodies
    subprocess.run(["fallocate", "-p", "-o", "0", "-l", str(kept), "output.jsonl"], check=True)
    taken = kept
agent.stdin.close()
assert agent.wait() == 0
assert os.stat("output.jsonl").st_blocks * 512 < 65536 < taken
PY
    untouched once 0 "$(summary 1 0 0 "$(stat -c %s output.jsonl)")$LF"
}

# An output that is gone can be made as long again; the agent goes on behind it.
check_output_put_back() {
    a_log
    once 0 "$(one_line)$LF" && rm output.jsonl && echo world >>app.log && once 6 "fault 6 short 326 0$LF" || return 1
    truncate -s 326 output.jsonl
    once 0 "$(summary 1 1 0 652)$LF" && tail -c +327 output.jsonl >rest && mv rest output.jsonl && tells '1 2 app.log world'
}

# A limit on the size of files ends the agent by a signal. Nothing that was kept is lost, and the next run goes on.
check_limit_on_the_size_of_files() {
    local status
    a_log
    once 0 "$(one_line)$LF" && seq 1 100 >>app.log || return 1
    (ulimit -f 1 && exec "$agent" once) >report 2>/dev/null
    status=$?
    [ "$status" = $((128 + $(kill -l XFSZ))) ] && run 0 "326$LF" committed && quietly && [ "$(told | wc -l)" = 101 ] &&
        [ "$(told | cut -d ' ' -f 2 | sort -n | uniq | wc -l)" = 101 ]
}

# Where it may open too few files it ends with 7, and leaves what is kept.
check_limit_on_open_files() {
    a_log
    once 0 "$(one_line)$LF" && echo world >>app.log || return 1
    (ulimit -n 8 && exec "$agent" once) >report 2>/dev/null
    [ $? = 7 ] && [ "$(cat report)" = 'fault 7 disk' ] && once 0 "$(summary 1 1 0 652)$LF" && bodies '["hello", "world"]'
}
