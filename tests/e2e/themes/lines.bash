# What the lines of a log become.

check_first_run() {
    a_log 'hello\nwor'
    once 0 "$(one_line)$LF" || return 1
    printf '%s\n' '{"resourceLogs":[{"resource":{"attributes":[]},"scopeLogs":[{"logRecords":[{"attributes":[{"key":"log.file.name","value":{"stringValue":"app.log"}}],"body":{"stringValue":"hello"}}],"scope":{"attributes":[{"key":"agent.file","value":{"intValue":"1"}},{"key":"agent.line","value":{"intValue":"1"}}],"name":"stanza_agent"}}]}]}' | cmp - output.jsonl
}

check_unfinished_line() {
    a_log 'no line end'
    once 0 "$(summary 1 0 0 0)$LF" && bodies '[]'
}

check_empty_file() {
    a_log ''
    once 0 "$(summary 0 0 0 0)$LF" && bodies '[]'
}

check_crlf() {
    a_log 'a\r\n\r\nb c\r\n\rd\r\n'
    once 0 "$(summary 1 3 0 968)$LF" && bodies '["a", "b c", "d"]'
}

check_invalid_utf8() {
    a_log '  a\r\n\r\n \t\n\xff\xfe\nx\xe2\x82y\n'
    quietly && bodies '["a", "\ufffd\ufffd", "x\ufffdy"]'
}

check_nul_bytes() {
    a_log 'a\0b\n\0\n'
    quietly && bodies '["a\u0000b", "\u0000"]' && ! grep -q -a "$(printf '\001')" output.jsonl
}

check_escapes() {
    a_log '"\\/\b\f\t\x01\x1f\x7f\xc3\xa9\xe2\x80\xa8\xf0\x9f\x98\x80\n'
    quietly && bodies '["\"\\/\b\f\t\u0001\u001f\u007f\u00e9\u2028\ud83d\ude00"]' &&
        grep -q -F '\"\\/\b\f\t\u0001\u001f' output.jsonl
}

check_long_line() {
    a_log ''
    head -c 5000000 /dev/zero | tr '\0' x >app.log
    echo >>app.log
    quietly || return 1
    python3 - <<'PY'
import json
sizes = [len(json.loads(line)["resourceLogs"][0]["scopeLogs"][0]["logRecords"][0]["body"]["stringValue"]) for line in open("output.jsonl")]
assert sizes == [1048576] * 4 + [5000000 - 4 * 1048576], sizes
PY
}

check_many_lines() {
    a_log ''
    seq 1 200000 >app.log
    quietly || return 1
    grep -q "^files=1 lines=200000 .* output=$(stat -c %s output.jsonl)$" "$work/report" || return 1
    python3 - <<'PY'
import json
for number, line in enumerate(open("output.jsonl"), 1):
    scope = json.loads(line)["resourceLogs"][0]["scopeLogs"][0]
    assert scope["logRecords"][0]["body"]["stringValue"] == str(number)
    assert scope["scope"]["attributes"][1]["value"]["intValue"] == str(number)
assert number == 200000
PY
}

check_sizes_of_a_line() {
    local a64
    a64=$(printf 'a%.0s' $(seq 64))
    gives '"include_file_name":false,"max_log_size":64' "$a64\n" "[\"$a64\", {}, {}]" &&
        gives '"include_file_name":false,"max_log_size":64' "${a64}a\n" "[\"$a64\", {}, {}]" '["a", {}, {}]'
}

check_trimmed_and_lossy() {
    gives '"include_file_name":false,"include_file_record_number":true' '  a\r\n\r\n \t\n\xff\xfe\n' \
        '["a", {"log.file.record_number": 1}, {}]' '["\ufffd\ufffd", {"log.file.record_number": 4}, {}]'
}

# In one poll 16 MiB are taken of a file, and the rest in the next ones.
check_more_than_a_poll_takes() {
    is_quick || return 0
    a_log ''
    head -c 16777215 /dev/zero | tr '\0' '\n' >app.log
    printf 'z\n' >>app.log
    once 0 "$(summary 1 0 0 0 left=1)$LF" && once 0 "$(summary 1 1 0 322)$LF" && bodies '["z"]' || return 1
    untouched once 0 "$(summary 1 0 0 322)$LF"
}

check_what_a_poll_takes() {
    a_log ''
    head -c 16777215 /dev/zero | tr '\0' '\n' >app.log
    printf z >>app.log
    once 0 "$(summary 1 0 0 0)$LF" && bodies '[]'
}

# A line that three polls see grow is taken once it has its end.
check_line_that_grows() {
    a_log 'hel'
    once 0 "$(summary 1 0 0 0)$LF" && printf 'lo' >>app.log && once 0 "$(summary 1 0 0 0)$LF" || return 1
    printf '\nwor' >>app.log
    once 0 "$(one_line)$LF" && bodies '["hello"]'
}

check_compressed() {
    a_log '\x1f\x8b\x08\x00'
    once 0 "$(summary 1 0 0 0 compressed=1)$LF" && bodies '[]'
}

check_one_byte_of_gzip() {
    a_log '\x1f\n'
    quietly && bodies '["\u001f"]'
}

# observed: the observed time of each line of the output, a line each, with `none` for one that has none.
observed() {
    python3 - <<'PY'
import json
for line in open("output.jsonl", newline="\n"):
    record = json.loads(line)["resourceLogs"][0]["scopeLogs"][0]["logRecords"][0]
    print(record.get("observedTimeUnixNano", "none"))
PY
}

check_no_observed_time() {
    takes '' 'a\nb\n' && [ "$(observed)" = "none${LF}none" ] &&
        takes '"include_observed_time":false' 'a\n' && [ "$(observed)" = none ] && ! grep -q -i observed output.jsonl
}

# Each line has the time of the poll that took it, in nanoseconds, as a text of digits behind the body.
check_observed_time() {
    local began between ended times
    began=$(date +%s%N)
    takes '"include_observed_time":true' 'a\nb\n' || return 1
    between=$(date +%s%N)
    echo c >>app.log && quietly || return 1
    ended=$(date +%s%N)
    observed >times && [ "$(grep -c -x '[1-9][0-9]*' times)" = 3 ] || return 1
    mapfile -t times <times
    [ "$began" -le "${times[0]}" ] && [ "${times[0]}" = "${times[1]}" ] && [ "${times[1]}" -le "$between" ] &&
        [ "$between" -le "${times[2]}" ] && [ "${times[2]}" -le "$ended" ] || return 1
    grep -q -F '"body":{"stringValue":"c"},"observedTimeUnixNano":"'"${times[2]}"'"}],"scope":' output.jsonl
}

# What operators and parsers set stands beside it, in the order of the names.
check_observed_time_beside_others() {
    takes '"include_file_name":false,"include_observed_time":true,"operators":[
        {"type":"time_parser","parse_from":"body","layout_type":"epoch","layout":"s"},
        {"type":"severity_parser","parse_from":"body","mapping":{"info":5}}]' '5\n' &&
        sed 's/\("observedTimeUnixNano":"\)[0-9]*/\1NOW/' output.jsonl |
        grep -q -F '"logRecords":[{"attributes":[],"body":{"stringValue":"5"},"observedTimeUnixNano":"NOW","severityNumber":9,"severityText":"5","timeUnixNano":"5000000000"}]'
}

# has_clock: the machine's clock may be set for the program by clock.c, in "$work". Else this check isn't made.
has_clock() {
    if ! command -v cc >/dev/null; then
        ! skip "cc isn't there"
    elif ! cc -O2 -shared -fPIC -o "$work/clock.so" "$root/tests/e2e/clock.c"; then
        ! skip "cc doesn't build clock.c"
    elif ! LD_PRELOAD=$work/clock.so LD_TRACE_LOADED_OBJECTS=1 "$agent" 2>/dev/null </dev/null | grep -q -F clock.so; then
        ! skip "nothing can be loaded into the program"
    fi
}

# once_at SECONDS: `once` goes through while the clock stands so many seconds behind 1970.
once_at() { wait_for env LD_PRELOAD="$work/clock.so" CLOCK_AT="$1" "$agent" once >"$work/report"; }

# Where the clock goes back, lines keep the last time until it has passed it again.
check_clock_goes_back() {
    local seconds
    has_clock || return 0
    printf '{"include":["app.log"],"start_at":"beginning","include_observed_time":true}' >settings.json
    for seconds in 1000 2000 1500 1999 2000 2001 7; do
        echo "$seconds" >>app.log && once_at "$seconds" || return 1
    done
    diff <(observed) <(printf '%s000000000\n' 1000 2000 2000 2000 2000 2001 2001)
}

# Of a poll that finds nothing new no time is kept.
check_clock_of_an_idle_poll() {
    has_clock || return 0
    printf '{"include":["app.log"],"start_at":"beginning","include_observed_time":true}' >settings.json
    echo a >app.log && once_at 1000 && untouched once_at 3000 && echo b >>app.log && once_at 2000 || return 1
    diff <(observed) <(printf '%s000000000\n' 1000 2000)
}
