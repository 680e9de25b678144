# What is kept from run to run, and what is refused of it.

# line NAME BODY FILE NUMBER: a line of the output, byte for byte.
line() {
    printf '{"resourceLogs":[{"resource":{"attributes":[]},"scopeLogs":[{"logRecords":[{"attributes":[{"key":"log.file.name","value":{"stringValue":"%s"}}],"body":{"stringValue":"%s"}}],"scope":{"attributes":[{"key":"agent.file","value":{"intValue":"%s"}},{"key":"agent.line","value":{"intValue":"%s"}}],"name":"stanza_agent"}}]}]}\n' "$@"
}

# frame SEQUENCE PAYLOAD: the bytes of a frame, open, with a payload in hexadecimal.
frame() { python3 -c 'import sys; sys.stdout.buffer.write(bytes.fromhex(sys.argv[1]))' "a5$(printf '%016x%016x' "$1" $((${#2} / 2)))$2"; }

# no_rows: a checkpoint of version 1 with these settings and nothing more, in hexadecimal.
no_rows() { printf '01%08x%s%016x%08x%08x' "$(stat -c %s settings.json)" "$(od -An -v -tx1 settings.json | tr -d ' \n')" 0 1 0; }

check_next_line() {
    a_log 'hello\nwor'
    run 0 "0$LF" committed && once 0 "$(one_line)$LF" && run 0 "326$LF" committed || return 1
    local before
    before=$(stat -c %s checkpoint.a)
    printf 'ld\n' >>app.log
    once 0 "$(summary 1 1 0 652)$LF" && run 0 "652$LF" committed || return 1
    cmp output.jsonl <(line app.log hello 1 1 && line app.log world 1 2) || return 1
    [ "$(stat -c %s checkpoint.a)" = $((before + 128)) ] && [ ! -e checkpoint.b ]
}

check_committed_writes_nothing() {
    a_log
    untouched run 0 "0$LF" committed && once 0 "$(one_line)$LF" || return 1
    printf x >>output.jsonl
    printf x >>checkpoint.a
    untouched run 0 "326$LF" committed && rm settings.json output.jsonl && untouched run 0 "326$LF" committed
}

# What a run that was stopped left behind what is kept.
check_leftovers() {
    a_log
    once 0 "$(one_line)$LF" || return 1
    printf '{"resourceLogs":' >>output.jsonl
    printf '\0\0\0\0\0\0\0\0\2\0\0\0' >>checkpoint.a
    printf 'world\n' >>app.log
    once 0 "$(summary 1 1 0 652)$LF" && bodies '["hello", "world"]' && run 0 "652$LF" committed
}

check_leftovers_without_a_checkpoint() {
    a_log
    printf 'old\n' >output.jsonl
    printf '\0\0\0\0' >checkpoint.a
    once 0 "$(one_line)$LF" && bodies '["hello"]' && run 0 "326$LF" committed
}

check_start_at_the_end() {
    printf '{"include":["*.log"]}' >settings.json
    printf 'old\nunfin' >a.log
    once 0 "$(summary 1 0 0 0)$LF" && untouched once 0 "$(summary 1 0 0 0)$LF" || return 1
    printf 'ished\nnew\n' >>a.log
    printf 'all\n' >b.log
    quietly && tells '1 1 a.log ished' '1 2 a.log new' '2 1 b.log all'
}

check_settings_changed() {
    a_log 'hello\nwor'
    once 0 "$(one_line)$LF" || return 1
    printf '{"include":["app.lox"],"start_at":"beginning"}' >settings.json
    untouched once 5 "fault 5 changed 19$LF" && untouched run 5 "fault 5 changed 19$LF" follow || return 1
    printf '%s ' "$settings" >settings.json
    untouched once 5 "fault 5 changed ${#settings}$LF" && run 0 "326$LF" committed || return 1
    printf '%s' "$settings" >settings.json
    untouched once 0 "$(summary 1 0 0 326)$LF"
}

check_damaged_checkpoint() {
    a_log
    frame 1 02 >checkpoint.a
    untouched once 4 "fault 4 checkpoint 1$LF" && untouched run 4 "fault 4 checkpoint 1$LF" committed || return 1
    frame 1 09 >checkpoint.a
    untouched once 4 "fault 4 checkpoint 0$LF" && untouched run 4 "fault 4 checkpoint 0$LF" committed || return 1
    frame 1 "$(no_rows)ff" >checkpoint.a
    untouched once 4 "fault 4 checkpoint $(($(stat -c %s settings.json) + 21))$LF"
}

check_record_that_is_no_change() {
    printf '{}' >settings.json
    frame 1 "$(no_rows)" >checkpoint.a
    frame 2 00000000000000000000000000000000 >>checkpoint.a
    run 4 "fault 4 checkpoint 48$LF" committed || return 1
    frame 1 "$(no_rows)" >checkpoint.a
    frame 3 00000000000000000000000000000000 >>checkpoint.a
    run 0 "0$LF" committed
}

check_output_too_short() {
    a_log
    once 0 "$(one_line)$LF" || return 1
    truncate -s 300 output.jsonl
    untouched once 6 "fault 6 short 326 300$LF" && untouched run 6 "fault 6 short 326 300$LF" follow || return 1
    rm output.jsonl
    untouched once 6 "fault 6 short 326 0$LF" && run 0 "326$LF" committed
}

check_worn() {
    a_log ''
    frame -1 "$(no_rows)" >checkpoint.a
    once 0 "$(summary 0 0 0 0)$LF" || return 1
    printf 'hello\n' >app.log
    cp checkpoint.a before
    once 13 "fault 13 worn$LF" && cmp before checkpoint.a && [ ! -e checkpoint.b ] && run 0 "0$LF" committed
}

# The slot with the greater number counts, and the first of two that are equal.
check_slot_that_counts() {
    a_log
    frame 7 "$(no_rows)" >checkpoint.a
    frame 8 09 >checkpoint.b
    once 4 "fault 4 checkpoint 0$LF" && frame 7 09 >checkpoint.b && once 0 "$(one_line)$LF"
}

# The whole checkpoint is written anew once the changes behind it are longer than twice it and 64 KiB.
check_whole_checkpoints() {
    a_log ''
    printf 'x%.0s' $(seq 1200) >app.log
    echo >>app.log
    once 0 "$(summary 1 1 0 1521)$LF" || return 1
    wait_long python3 - "$agent" <<'PY' || return 1
import os, subprocess, sys
agent = subprocess.Popen([sys.argv[1], "follow"], stdin=subprocess.PIPE, stdout=subprocess.PIPE, text=True, bufsize=1)
used, written = set(), 0
for number in range(200):
    with open("app.log", "a") as log:
        log.write(f"{number}\n")
    agent.stdin.write("poll\n")
    assert " lines=1 " in agent.stdout.readline()
    for slot in ("checkpoint.a", "checkpoint.b"):
        if os.path.exists(slot):
            used.add(slot)
            written = max(written, os.stat(slot).st_size)
agent.stdin.close()
assert agent.wait() == 0
assert used == {"checkpoint.a", "checkpoint.b"}, used
assert 65536 < written < 65536 + 5 * 1200, written
PY
    run 0 "$(stat -c %s output.jsonl)$LF" committed && untouched once 0 "$(summary 1 0 0 "$(stat -c %s output.jsonl)")$LF" || return 1
    diff <(told | tail -n +2) <(paste -d ' ' <(seq -f '1 %g app.log' 2 201) <(seq 0 199))
}

# An older checkpoint tells no observed time. A run goes on from it, and its lines have the time of the run.
check_observed_time_behind_an_older_checkpoint() {
    local began ended taken
    a_log
    printf '%s' "${settings%\}},\"include_observed_time\":true}" >settings.json
    frame 1 "$(no_rows)" >checkpoint.a
    began=$(date +%s%N)
    quietly || return 1
    ended=$(date +%s%N)
    diff <(sed 's/,"observedTimeUnixNano":"[0-9]*"//' output.jsonl) <(line app.log hello 1 1) || return 1
    taken=$(sed 's/.*,"observedTimeUnixNano":"\([0-9]*\)".*/\1/' output.jsonl)
    [ "$began" -le "$taken" ] && [ "$taken" -le "$ended" ]
}
