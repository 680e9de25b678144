# What waits of a file and is flushed.

# standing COUNT: the settings flush after so many polls, and the log is `hello` and a line that has no end.
standing() {
    a_log 'hello\nwor'
    printf '%s' "${settings%\}},\"flush_after_polls\":$1}" >settings.json
}

# The last line comes out at the second poll that finds the file as it was, and what is written of it later is a line of its own.
check_last_line() {
    standing 2
    once 0 "$(summary 1 1 0 326)$LF" &&
        once 0 "$(summary 1 0 0 326)$LF" &&
        once 0 "$(summary 1 1 0 650)$LF" &&
        bodies '["hello", "wor"]' &&
        once 0 "$(summary 1 0 0 650)$LF" &&
        printf 'ld\n' >>app.log &&
        once 0 "$(summary 1 1 0 973)$LF" &&
        bodies '["hello", "wor", "ld"]' &&
        tells '1 1 app.log hello' '1 2 app.log wor' '1 3 app.log ld'
}

# One command counts as many do.
check_polls_of_one_command() {
    standing 2
    printf 'poll\npoll\npoll\nquit\n' | wait_for "$agent" follow >report &&
        diff report <(summary 1 1 0 326; summary 1 0 0 326; summary 1 1 0 650) &&
        bodies '["hello", "wor"]'
}

# Without the key, and with 0, the line waits as long as it takes.
check_line_that_waits() {
    standing 0
    for _ in 1 2 3 4 5; do quietly || return 1; done
    bodies '["hello"]' && printf 'ld\n' >>app.log && quietly && bodies '["hello", "world"]'
}

# A file that grows isn't flushed, however little comes.
check_file_that_grows() {
    standing 1
    local part
    for part in l d 1 2; do
        quietly && printf %s "$part" >>app.log || return 1
    done
    quietly && bodies '["hello"]' && quietly && bodies '["hello", "world12"]'
}

# What isn't opened in a poll isn't counted: here the file has another name meanwhile, which isn't to be read.
check_file_that_is_away() {
    standing 2
    quietly && quietly && mv app.log away && quietly && quietly && bodies '["hello"]' &&
        mv away app.log && quietly && bodies '["hello", "wor"]'
}

# A file that was renamed without an end of its last line, and its successor.
check_rotated_file() {
    standing 1
    printf '%s' '{"include":["app.log*"],"start_at":"beginning","flush_after_polls":1}' >settings.json
    quietly && mv app.log app.log.1 && echo next >app.log && quietly &&
        tells '1 1 app.log hello' '2 1 app.log next' '1 2 app.log wor'
}

# The end of a trace, a group and a part of a container's line.
check_entries_of_several_lines() {
    a_log 'first\n at a\n at b\n'
    printf '%s' "${settings%\}},\"flush_after_polls\":1,\"multiline\":{\"line_start_pattern\":\"^[a-z]\"}}" >settings.json
    quietly && bodies '[]' && quietly && bodies '["first\n at a\n at b"]' || return 1
    anew
    printf '%s' "${settings%\}},\"flush_after_polls\":1,\"operators\":[{\"type\":\"recombine\",\"combine_field\":\"body\",\"is_first_entry\":\"body startsWith \\\"f\\\"\"}]}" >settings.json
    quietly && bodies '[]' && quietly && bodies '["first\nat a\nat b"]' || return 1
    anew
    printf '2024-01-01T00:00:00Z stdout P half\n' >app.log
    printf '%s' "${settings%\}},\"flush_after_polls\":1,\"operators\":[{\"type\":\"container\"}]}" >settings.json
    quietly && [ ! -s output.jsonl ] && quietly && told | grep -q half
}

# The key is changed as others are.
check_key_that_is_adopted() {
    standing 0
    quietly && printf '%s' "${settings%\}},\"flush_after_polls\":1}" >settings.json &&
        once 5 "fault 5 changed 66$LF" && wait_for "$agent" adopt >report && quietly && quietly &&
        bodies '["hello", "wor"]'
}

check_kills_amid_flushes() { wait_long "$root/tests/e2e/kills" "$agent" $((10 + 90 / slow)) 20261202 flush; }
