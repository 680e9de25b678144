# Files that are renamed, go on, and come to an end.

check_renamed() {
    a_folder 'app.log*'
    echo a1 >app.log
    once 0 "$(summary 1 1 0 323)$LF" || return 1
    mv app.log app.log.1
    echo b1 >app.log
    once 0 "$(summary 2 1 0 646)$LF" || return 1
    echo a2 >>app.log.1
    once 0 "$(summary 2 1 0 969)$LF" && tells '1 1 app.log a1' '2 1 app.log b1' '1 2 app.log a2'
}

# The writer of a renamed file goes on with it until it is told to open the new one.
check_writer_that_goes_on() {
    a_folder 'app.log*'
    exec 3>>app.log
    printf 'a1\na' >&3
    quietly && mv app.log app.log-20261127 && : >app.log && printf '2\na3\n' >&3 && quietly || return 1
    printf 'a4\n' >&3
    exec 3>>app.log
    printf 'b1\n' >&3
    exec 3>&-
    quietly && tells '1 1 app.log a1' '1 2 app.log a2' '1 3 app.log a3' '2 1 app.log b1' '1 4 app.log a4'
}

# As logrotate numbers them, each file has another name each time.
check_numbered_names() {
    local day
    a_folder 'app.log*'
    for day in 1 2 3 4; do
        [ ! -e app.log.2 ] || mv app.log.2 app.log.3
        [ ! -e app.log.1 ] || mv app.log.1 app.log.2
        [ ! -e app.log ] || mv app.log app.log.1
        echo "day $day" >app.log
        quietly && echo "noon $day" >>app.log && quietly && echo "night $day" >>app.log || return 1
    done
    quietly && tells "1 1 app.log day 1" "1 2 app.log noon 1" "2 1 app.log day 2" "1 3 app.log night 1" \
        "2 2 app.log noon 2" "3 1 app.log day 3" "2 3 app.log night 2" "3 2 app.log noon 3" "4 1 app.log day 4" \
        "3 3 app.log night 3" "4 2 app.log noon 4" "4 3 app.log night 4"
}

check_compressed_after_a_while() {
    a_folder 'app.log*'
    echo a1 >app.log
    quietly && mv app.log app.log.1 && gzip app.log.1 && echo b1 >app.log || return 1
    once 0 "$(summary 2 1 0 646 compressed=1)$LF" && tells '1 1 app.log a1' '2 1 app.log b1'
}

check_removed() {
    a_folder '*.log'
    echo a1 >a.log
    echo b1 >b.log
    quietly && rm a.log && echo b2 >>b.log && once 0 "$(summary 1 1 0 963)$LF" || return 1
    echo a1 >c.log
    once 0 "$(summary 2 0 0 963)$LF" && echo c2 >>c.log && quietly || return 1
    tells '1 1 a.log a1' '2 1 b.log b1' '2 2 b.log b2' '1 2 a.log c2'
}

# Three files change their names all the time, while they grow and polls are made. At rest each line was taken once.
check_names_that_change_all_the_time() {
    a_folder '*.log'
    wait_long python3 - "$agent" <<'PY' || return 1
import json, os, subprocess, sys, threading, time
agent = subprocess.Popen([sys.argv[1], "follow"], stdin=subprocess.PIPE, stdout=subprocess.PIPE, text=True, bufsize=1)
files = [open(f"{name}.log", "a", buffering=1) for name in "abc"]
counts, done = [0, 0, 0], threading.Event()
def turn():
    while not done.is_set():
        for old, new in (("a", "t"), ("b", "a"), ("c", "b"), ("t", "c")):
            os.rename(f"{old}.log", f"{new}.log")
        for place, file in enumerate(files):
            if counts[place] < 2000:
                file.write(f"{place} {counts[place]}\n")
                counts[place] += 1
        time.sleep(0.0005)
def poll():
    agent.stdin.write("poll\n")
    return agent.stdout.readline()
turning = threading.Thread(target=turn)
turning.start()
polls, gone, began = 0, 0, time.monotonic()
while polls < 20 or (time.monotonic() - began < 3 and polls < 1000):
    gone += " gone=0 " not in poll()
    polls += 1
done.set()
turning.join()
poll()
assert " lines=0 left=0 gone=0 failed=0 " in poll()
agent.stdin.close()
assert agent.wait() == 0
ids, taken = {}, [0, 0, 0]
for line in open("output.jsonl"):
    scope = json.loads(line)["resourceLogs"][0]["scopeLogs"][0]
    id, number = (int(it["value"]["intValue"]) for it in scope["scope"]["attributes"])
    place, count = map(int, scope["logRecords"][0]["body"]["stringValue"].split())
    assert ids.setdefault(id, place) == place and taken[place] == count == number - 1, line
    taken[place] += 1
assert taken == counts, (taken, counts)
print(f"{polls} polls, {gone} with names that were gone, {taken} lines")
PY
}

# Two files that begin the same are taken for one.
check_same_fronts() {
    a_folder '*.log'
    echo same >a.log
    echo same >b.log
    once 0 "$(summary 2 1 0 323)$LF" && tells '1 1 a.log same'
}

check_fingerprint_size() {
    printf '{"include":["*.log"],"start_at":"beginning","fingerprint_size":16}' >settings.json
    printf '0123456789abcdef\na\n' >a.log
    printf '0123456789abcdef\nb\n' >b.log
    quietly && tells '1 1 a.log 0123456789abcdef' '1 2 a.log a' || return 1
    anew
    printf '{"include":["*.log"],"start_at":"beginning","fingerprint_size":18}' >settings.json
    quietly && tells '1 1 a.log 0123456789abcdef' '1 2 a.log a' '2 1 b.log 0123456789abcdef' '2 2 b.log b'
}

# A file that was cut where it is known by more bytes than it lost.
check_shrunk() {
    a_folder '*.log'
    seq -f '%099g' 1 20 >a.log
    quietly && truncate -s 1200 a.log || return 1
    once 0 "$(summary 1 0 0 "$(stat -c %s output.jsonl)" shrunk=1)$LF" && [ "$(wc -l <output.jsonl)" = 20 ]
}

# What was taken is out of the way before all begins anew with other settings.
check_beginning_anew() {
    a_folder 'app.log*'
    printf 'a1\na2\n' >app.log
    quietly && mv app.log app.log-1 && echo b1 >app.log && echo a3 >>app.log-1 && quietly || return 1
    mkdir old && mv app.log app.log-1 old && mv output.jsonl consumed && rm checkpoint.? || return 1
    echo c1 >app.log
    printf '{"include":["app.log*"],"start_at":"beginning","resource":{"a":"b"}}' >settings.json
    once 0 "$(summary 1 1 0 362)$LF" && tells '1 1 app.log c1' && mv consumed output.jsonl &&
        tells '1 1 app.log a1' '1 2 app.log a2' '2 1 app.log b1' '1 3 app.log a3'
}

# With logrotate itself, where it is there, several nights on one day.
check_logrotate() {
    command -v logrotate >/dev/null || {
        skip "there is no logrotate"
        return 0
    }
    local day
    a_folder 'logs/app.log*'
    mkdir -m 755 logs
    sed "s#/var/log/app/#$PWD/logs/#;s#systemctl .*#true#;/dateext/d" "$root/examples/rotated/logrotate.conf" >config
    exec 3>>logs/app.log
    for day in 1 2 3 4; do
        echo "day $day" >&3
        quietly && wait_for logrotate -f -s "$PWD/rotated" config 2>errors || {
            cat errors
            return 1
        }
        echo "late $day" >&3
        exec 3>>logs/app.log
    done
    exec 3>&-
    quietly && grep -q '^files=4 lines=1 .* compressed=3 ' "$work/report" || return 1
    tells '1 1 app.log day 1' '2 1 app.log day 2' '1 2 app.log late 1' '3 1 app.log day 3' '2 2 app.log late 2' \
        '4 1 app.log day 4' '3 2 app.log late 3' '4 2 app.log late 4'
}
