# Lines of standard input.

# line BODY NUMBER: a line that is printed, byte for byte.
line() {
    printf '{"resourceLogs":[{"resource":{"attributes":[]},"scopeLogs":[{"logRecords":[{"attributes":[{"key":"log.file.name","value":{"stringValue":"stdin"}}],"body":{"stringValue":"%s"}}],"scope":{"attributes":[{"key":"agent.file","value":{"intValue":"1"}},{"key":"agent.line","value":{"intValue":"%s"}}],"name":"stanza_agent"}}]}]}\n' "$@"
}

# piped STATUS REPORT INPUT: `pipe` ends with the status on this input, and reports exactly these lines.
piped() {
    printf "$3" | wait_for "$agent" pipe >"$work/report" 2>"$work/errors"
    ended "${PIPESTATUS[1]}" "$1" "$2"
}

check_lines() {
    a_log
    untouched piped 0 "$(line hello 1 wor 2)$LF" 'hello\nwor' && untouched piped 0 "$(line hello 1)$LF" 'hello\r\n' && untouched piped 0 '' ''
}

# Each line is there before the next one is read.
check_lines_that_come_one_by_one() {
    a_log
    (
        for number in 1 2 3; do
            echo "line $number"
            grown report "$number" || exit 1
        done
    ) | wait_for "$agent" pipe >report || return 1
    diff report <(line 'line 1' 1 'line 2' 2 'line 3' 3)
}

check_many_lines() {
    a_log
    local count
    count=$(much 20000)
    diff <(seq "$count" | wait_for "$agent" pipe) <(for number in $(seq "$count"); do line "$number" "$number"; done)
}

# The same bytes in pieces of one byte, of 64 KiB, and as they are read from a file.
check_pieces() {
    echo '{"include":["app.log"],"multiline":{"line_start_pattern":"^[^ ]"},"operators":[{"type":"recombine","combine_field":"body","is_last_entry":"body contains \"7\""}]}' >settings.json
    local number
    for number in $(seq 3000); do
        printf 'line %s\n  at a place of it\r\n' "$number"
    done >app.log
    printf 'the last one' >>app.log
    wait_for "$agent" pipe <app.log >whole
    [ "$(wc -l <whole)" -gt 500 ] && diff whole <(dd bs=1 if=app.log 2>/dev/null | wait_for "$agent" pipe) && diff whole <(dd bs=65536 if=app.log 2>/dev/null | wait_for "$agent" pipe)
}

# All lines of a run have one time.
check_observed_time() {
    local began ended times
    a_log
    printf '%s' "${settings%\}},\"include_observed_time\":true}" >settings.json
    began=$(date +%s%N)
    printf 'a\nb\n' | wait_for "$agent" pipe >report || return 1
    ended=$(date +%s%N)
    mapfile -t times < <(sed -n 's/.*},"observedTimeUnixNano":"\([0-9]*\)"}],"scope":.*/\1/p' report)
    [ "${#times[@]}" = 2 ] && [ "$began" -le "${times[0]}" ] && [ "${times[0]}" = "${times[1]}" ] && [ "${times[1]}" -le "$ended" ] &&
        diff <(sed 's/,"observedTimeUnixNano":"[0-9]*"//' report) <(line a 1 b 2)
}

check_beside_what_is_kept() {
    a_log
    once 0 "$(one_line)$LF" || return 1
    printf x >>output.jsonl
    untouched piped 0 "$(line more 1)$LF" 'more\n' && rm output.jsonl && untouched piped 0 "$(line more 1)$LF" 'more'
}

check_refused_settings() {
    printf '{' >settings.json
    untouched piped 3 "fault 3 settings not-json$LF" 'hello\n'
}

check_input_that_fails() {
    a_log
    wait_for "$agent" pipe <. >"$work/report" 2>"$work/errors"
    ended $? 8 "fault 8 control$LF"
}

check_report_that_is_full() {
    a_log
    printf 'hello\n' | wait_for "$agent" pipe >/dev/full
    [ "${PIPESTATUS[1]}" = 9 ]
}

# The tool shows the records of a log or of standard input, and a fault as the program says it.
check_try_settings() {
    echo '{"include":["app.log"],"operators":[{"type":"recombine","combine_field":"body","is_last_entry":"body == \"z\""}]}' >grouping.json
    a_log
    printf 'one\n\ntwo' >sample
    diff <(AGENT=$agent "$root/tools/try-settings" settings.json sample) - <<<$'1 | one | log.file.name=stdin\n2 | two | log.file.name=stdin' || return 1
    diff <(AGENT=$agent "$root/tools/try-settings" grouping.json <sample) - <<<'1 | "one\ntwo" | log.file.name=stdin' || return 1
    printf '{' >bad.json
    [ "$(AGENT=$agent "$root/tools/try-settings" bad.json sample)" = 'fault 3 settings not-json' ] || return 1
    AGENT=$agent "$root/tools/try-settings" bad.json sample >said
    [ $? = 3 ] && ! AGENT=$agent "$root/tools/try-settings" settings.json none 2>said && grep -q '^none: ' said
}
