# Control lines.

# follow STATUS REPORT CONTROL: `follow` ends with the status on this control input, and reports exactly these lines.
follow() {
    [ -e app.log ] || a_log
    printf "$3" | wait_for "$agent" follow >"$work/report" 2>"$work/errors"
    ended "${PIPESTATUS[1]}" "$1" "$2"
}

check_polls() { follow 0 "$(one_line)$LF" 'poll\nquit\n' && bodies '["hello"]'; }

check_polls_to_the_end() { follow 0 "$(one_line)$LF" 'poll\n' && bodies '["hello"]'; }

check_carriage_returns() { follow 0 "$(one_line)$LF" 'poll\r\nquit\r\npoll\npoll\n' && bodies '["hello"]'; }

check_last_line_without_an_end() { follow 0 "$(one_line)$LF" 'poll' && bodies '["hello"]'; }

check_no_lines() { a_log && untouched follow 0 '' '' && untouched follow 0 '' 'quit\npoll\n'; }

check_garbage() {
    follow 12 "fault 12 control-line 1$LF" 'frob\npoll\n' &&
        follow 12 "fault 12 control-line 1$LF" '\npoll\n' &&
        follow 12 "fault 12 control-line 1$LF" 'poll \n' &&
        follow 12 "fault 12 control-line 1$LF" 'poll\r' &&
        follow 12 "fault 12 control-line 1$LF" 'POLL\n' &&
        [ "$(ls)" = "app.log${LF}settings.json" ] &&
        follow 12 "$(one_line)${LF}fault 12 control-line 2$LF" 'poll\nfrob\n' && bodies '["hello"]'
}

check_long_line() {
    a_log
    head -c 1000000 /dev/zero | tr '\0' p | wait_for "$agent" follow >"$work/report"
    [ "${PIPESTATUS[2]}" = 12 ] && [ "$(cat "$work/report")" = 'fault 12 control-line 1' ]
}

check_several_polls() {
    follow 12 "$(one_line)$LF$(summary 1 0 0 326)${LF}fault 12 control-line 3$LF" 'poll\npoll\nnow\n' && bodies '["hello"]'
}

# What comes while it waits for the next control line is in the next poll.
check_polls_of_a_log_that_grows() {
    a_log
    (
        echo poll
        for number in 1 2 3; do
            grown report "$number" || exit 1
            echo "more $number" >>app.log
            echo poll
        done
    ) | wait_for "$agent" follow >report || return 1
    diff report <(one_line && summary 1 1 0 653 && summary 1 1 0 980 && summary 1 1 0 1307) &&
        bodies '["hello", "more 1", "more 2", "more 3"]'
}

# The settings are read once, before the first control line.
check_refusals_before_the_first_line() {
    printf '{' >settings.json
    printf 'hello\n' >app.log
    untouched follow 3 "fault 3 settings not-json$LF" 'poll\n'
}

check_broken_input() {
    a_log
    wait_for "$agent" follow <. >"$work/report"
    [ $? = 8 ] && [ "$(cat "$work/report")" = 'fault 8 control' ] || return 1
    wait_for "$agent" follow <&- >"$work/report"
    [ $? = 8 ] && [ "$(cat "$work/report")" = 'fault 8 control' ]
}

# What stands where a standard stream is closed is none of the agent's own files.
check_closed_streams() {
    a_log
    once 0 "$(one_line)$LF" && echo world >>app.log || return 1
    wait_for "$agent" once <&- >&-
    [ $? = 9 ] && run 0 "652$LF" committed && bodies '["hello", "world"]' || return 1
    wait_for "$agent" follow <&- >&-
    [ $? = 8 ] && untouched once 0 "$(summary 1 0 0 652)$LF"
}

check_byte_by_byte() {
    a_log
    python3 - "$agent" <<'PY' && bodies '["hello"]'
import subprocess, sys, time
agent = subprocess.Popen([sys.argv[1], "follow"], stdin=subprocess.PIPE, stdout=subprocess.PIPE, bufsize=0)
for byte in b"poll\r\n":
    agent.stdin.write(bytes([byte]))
    time.sleep(0.01)
assert agent.stdout.readline().endswith(b"output=326\n")
assert agent.poll() is None
for byte in b"quit\n":
    agent.stdin.write(bytes([byte]))
assert agent.wait(timeout=60) == 0
assert agent.stdout.read() == b""
PY
}
