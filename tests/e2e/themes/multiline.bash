# Entries of several lines.

lines_of() { printf '"multiline":{"%s":"%s"}' "$1" "$2"; }

check_lines_that_begin_entries() {
    local trace='2024-01-02 boom\n\tat A\n\tat B'
    takes "$(lines_of line_start_pattern '^\\d{4}-')" "$trace\n" && [ ! -s output.jsonl ] || return 1
    diff <(summary 1 0 0 0) "$work/report" || return 1
    printf '2024-01-03 next\n' >>app.log
    quietly && bodies "[\"$trace\"]"
}

check_lines_that_end_entries() {
    takes "$(lines_of line_end_pattern 'B$')" '2024-01-02 boom\n\tat A\n\tat B\n' && bodies '["2024-01-02 boom\n\tat A\n\tat B"]' || return 1
    printf 'open\r\n' >>app.log
    quietly && bodies '["2024-01-02 boom\n\tat A\n\tat B"]' || return 1
    printf 'B\r\nmore\n' >>app.log
    quietly && bodies '["2024-01-02 boom\n\tat A\n\tat B", "open\r\nB"]'
}

# A file that grows line by line, with a new run for each, gives what it gives at once.
check_entries_that_grow() {
    local pattern line
    for pattern in line_start_pattern line_end_pattern; do
        takes "$(lines_of "$pattern" '^[ae]'),\"max_log_size\":64" 'a\nb\n\nc\ne\ne\nf\n' && cp output.jsonl all || return 1
        anew && : >app.log
        for line in a b '' c e e f; do
            printf '%s' "$line" >>app.log && quietly && printf '\n' >>app.log && quietly || return 1
        done
        cmp output.jsonl all || return 1
    done
}

check_long_entries_are_cut() {
    local long
    long=$(printf '%063d' 0)
    takes "$(lines_of line_end_pattern z),\"max_log_size\":64" "$long\nab\nz\n" && bodies "[\"$long\", \"ab\nz\"]"
}

check_multiline_refused() {
    local front='{"include":["app.log"],"multiline":'
    ends 3 'multiline pattern' "$front{\"line_start_pattern\":\"(\"}}" &&
        ends 3 'exclude 0 glob' "$front{\"line_start_pattern\":\"(\"},\"exclude\":[\"/\"]}" &&
        ends 3 'multiline pattern' "$front{\"line_end_pattern\":\"(\"},\"operators\":[{\"type\":\"remove\",\"field\":\"x\"}]}" &&
        ends 3 'settings out-of-range multiline' "$front{\"line_start_pattern\":\"a\",\"line_end_pattern\":\"b\"}}" &&
        ends 3 'settings missing multiline.line_start_pattern' "$front{}}" &&
        ends 3 'settings unknown multiline.pattern' "$front{\"pattern\":\"a\"}}"
}
