# Audits: whether what is kept is what the files give.

# audits ROWS ABSENT LINES
audits() { untouched run 0 "audit rows=$1 absent=$2 lines=$3$LF" audit; }

# differs FILE LINE
differs() { untouched run 20 "fault 20 differs $1 $2$LF" audit; }

# Two lines, and an unfinished one.
two_lines() { a_log 'hello\nworld\nand' && quietly; }

check_two_lines() { two_lines && audits 1 0 2; }

# Another letter, the lines the other way round, one twice, and one that is missing at the end.
check_changed_lines() {
    two_lines && cp output.jsonl whole || return 1
    sed -i s/hello/hallo/ output.jsonl && differs 1 1 && tac whole >output.jsonl && differs 1 1 &&
        head -n 1 whole >output.jsonl && head -n 1 whole >>output.jsonl && differs 1 2 || return 1
    sed 2s/world/worle/ whole >output.jsonl && differs 1 2 && sed 1d whole >output.jsonl && printf '%326s' '' >>output.jsonl && differs 1 1 || return 1
    cp whole output.jsonl && printf 'half a li' >>output.jsonl && audits 1 0 2
}

check_absent() {
    two_lines && mv app.log elsewhere && audits 1 1 0 && mv elsewhere app.log && audits 1 0 2 && truncate -s 3 app.log && audits 1 1 0
}

# A log that was changed in place behind its first bytes; where these are others it is another log.
check_changed_log() {
    a_log "$(printf '%01100d' 0)\nworld\n" && quietly && audits 1 0 2 && sed -i s/world/worle/ app.log && differs 1 2 && sed -i 1s/0/1/ app.log && audits 1 1 0
}

# A file under its new name, which the patterns include.
check_rotated() {
    printf '{"include":["app.log*"],"start_at":"beginning"}' >settings.json && printf 'hello\n' >app.log && quietly && mv app.log app.log.1 &&
        printf 'another\n' >app.log && quietly && audits 2 0 2
}

check_refusals() {
    a_log
    untouched run 16 "fault 16 nothing-kept$LF" audit && quietly && printf '{' >settings.json && audits 1 0 1 && truncate -s 2 output.jsonl &&
        untouched run 6 "fault 6 short 326 2$LF" audit && rm output.jsonl && untouched run 6 "fault 6 short 326 0$LF" audit && mkdir output.jsonl &&
        run 7 "fault 7 disk$LF" audit && untouched run 2 "fault 2 usage$LF" audit x
}

# The settings of a checkpoint of version 1 are an empty object.
check_kept_settings_refused() {
    printf '\xa5\0\0\0\0\0\0\0\1\0\0\0\0\0\0\0\x17\1\0\0\0\2{}\0\0\0\0\0\0\0\0\0\0\0\1\0\0\0\0' >checkpoint.a
    untouched run 19 "fault 19 kept settings missing include$LF" audit
}

check_flush() {
    a_log
    printf '%s' "${settings%\}},\"flush_after_polls\":2}" >settings.json && quietly && untouched run 21 "fault 21 flush-on$LF" audit &&
        printf '%s' "$settings" >settings.json && run 0 "adopted rows=1 lines=0 eras=2 output=326$LF" adopt && untouched run 21 "fault 21 flush-on$LF" audit
}

# Each part is judged by its own settings.
check_after_adopting() {
    a_log 'hello\nwor'
    quietly && printf '%s' "${settings%\}},\"operators\":[{\"type\":\"add\",\"field\":\"attributes.e\",\"value\":\"x\"}]}" >settings.json &&
        run 0 "adopted rows=1 lines=0 eras=2 output=326$LF" adopt && echo ld >>app.log && quietly && audits 1 0 2
}

check_over_parts() {
    a_log
    wait_for "$agent" segments once >"$work/report" && untouched run 0 "audit rows=1 absent=0 lines=1$LF" segments audit &&
        sed -i s/hello/hallo/ output.0.jsonl && untouched run 20 "fault 20 differs 1 1$LF" segments audit
}

# It writes to nothing.
check_writes_nothing() {
    can_trace && two_lines || return 0
    strace -f -e trace=openat,open,ftruncate,fsync,fdatasync,pwrite64 -o "$work/calls" "$agent" audit >"$work/report" &&
        ! grep -q -e 'O_CREAT' -e ftruncate -e fsync -e fdatasync -e pwrite "$work/calls"
}

# Folders made at random.
check_generated() { is_quick || return 0; wait_long "$root/tests/audit/run" "$agent" "$(much 40)" 1; }
