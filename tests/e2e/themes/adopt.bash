# Settings that are adopted.

# with MEMBERS: the usual settings with these members behind.
with() { printf '%s' "${settings%\}},$1}" >settings.json; }

added='"operators":[{"type":"add","field":"attributes.e","value":"x"}]'
joined='"operators":[{"type":"recombine","combine_field":"body","is_last_entry":"body == '"'z'"'"}]'

# adopts ROWS LINES ERAS OUTPUT
adopts() { run 0 "adopted rows=$1 lines=$2 eras=$3 output=$4$LF" adopt; }

# Polls go on by the settings in force, and by others once they are adopted.
check_operators_added() {
    a_log 'hello\nwor'
    once 0 "$(one_line)$LF" && with "$added" && untouched once 5 "fault 5 changed 45$LF" && untouched run 5 "fault 5 changed 45$LF" follow &&
        adopts 1 0 2 326 && echo ld >>app.log && once 0 "$(summary 1 1 0 692)$LF" && tells '1 1 app.log hello' '1 2 app.log world' || return 1
}

# The new lines have the attribute, and the numbers go on.
check_lines_of_two_settings() {
    a_log
    quietly && with "$added" && adopts 1 0 2 326 && echo world >>app.log && quietly || return 1
    diff <(entries) - <<'END' && [ "$(grep -c '"agent.line","value":{"intValue":"2"}' output.jsonl)" = 1 ]
["hello", {"log.file.name": "app.log"}, {}]
["world", {"e": "x", "log.file.name": "app.log"}, {}]
END
}

# What an operator holds back comes out by the settings that it was read by.
check_held_back() {
    a_log 'a\nb\n'
    with "$joined" && once 0 "$(summary 1 0 0 0)$LF" && printf '%s' "$settings" >settings.json && adopts 1 1 2 325 && bodies '["a\nb"]' &&
        echo c >>app.log && quietly && bodies '["a\nb", "c"]'
}

# What waits behind the last line that was taken is read by the new settings.
check_what_waits() {
    a_log '#1\nx\ny'
    with '"multiline":{"line_start_pattern":"^#"}' && once 0 "$(summary 1 0 0 0)$LF" && printf '%s' "$settings" >settings.json && adopts 1 0 2 0 &&
        quietly && bodies '["#1", "x"]' && echo >>app.log && quietly && bodies '["#1", "x", "y"]'
}

# The same settings, as often as one likes, and nothing is written.
check_same_settings() {
    a_log
    once 0 "$(one_line)$LF" && untouched adopts 1 0 1 326 && with "$added" && adopts 1 0 2 326 && untouched adopts 1 0 2 326
}

# Lines of a poll that was stopped are cut off, as at each start.
check_cut_behind() {
    a_log
    quietly && printf 'half a li' >>output.jsonl && adopts 1 0 1 326 && [ "$(stat -c %s output.jsonl)" = 326 ] &&
        printf 'half a li' >>output.jsonl && with "$added" && adopts 1 0 2 326 && [ "$(stat -c %s output.jsonl)" = 326 ]
}

check_nothing_kept() {
    a_log
    untouched run 16 "fault 16 nothing-kept$LF" adopt && once 0 "$(one_line)$LF"
}

# A checkpoint of no settings, of version 1.
check_kept_settings_refused() {
    a_log
    printf '\xa5\0\0\0\0\0\0\0\1\0\0\0\0\0\0\0\x17\1\0\0\0\2{}\0\0\0\0\0\0\0\0\0\0\0\1\0\0\0\0' >checkpoint.a
    untouched run 19 "fault 19 kept settings missing include$LF" adopt && untouched once 5 "fault 5 changed 1$LF"
}

check_fingerprint() {
    a_log
    quietly && with '"fingerprint_size":16' && untouched run 18 "fault 18 fingerprint 1000 16$LF" adopt && with '"fingerprint_size":1000' && adopts 1 0 2 326
}

# Settings that are refused leave all as it is, and the old ones go on.
check_refused() {
    a_log
    quietly || return 1
    local said
    for said in '{' '{"include":["app.log"],"includes":[]}' '{"include":["["]}' "${settings%\}},\"operators\":[{\"type\":\"filter\",\"expr\":\"body =\"}]}"; do
        printf '%s' "$said" >settings.json
        untouched wait_for "$agent" adopt >"$work/report"
        [ "$(grep -c '^fault 3 ' "$work/report")" = 1 ] || return 1
    done
    head -c 1048577 /dev/zero >settings.json
    untouched run 3 "fault 3 settings too-long 1048577$LF" adopt && a_log 'hello\nworld\n' && once 0 "$(summary 1 1 0 652)$LF"
}

check_damaged() {
    a_log
    quietly && with "$added" && cp output.jsonl output && head -c 300 output >output.jsonl &&
        untouched run 6 "fault 6 short 326 300$LF" adopt && cp output output.jsonl && rm output || return 1
    printf zz | dd of=checkpoint.a bs=1 seek=17 conv=notrunc status=none
    untouched run 4 "fault 4 checkpoint 0$LF" adopt
}

check_disk() {
    a_log
    quietly && with "$added" && mkdir checkpoint.b || return 1
    run 7 "fault 7 disk$LF" adopt && rmdir checkpoint.b && adopts 1 0 2 326
}

# What can't be told is done all the same.
check_full_report() {
    a_log
    quietly && with "$added" || return 1
    wait_for "$agent" adopt >/dev/full
    [ $? = 9 ] && untouched adopts 1 0 2 326
}

# 64 settings one after another, and no more.
check_eras() {
    local number
    is_quick || return 0
    a_log && quietly || return 1
    for number in $(seq 2 64); do
        with "\"attributes\":{\"number\":\"$number\"}" && adopts 1 0 "$number" 326 || return 1
    done
    with "$added" && untouched run 17 "fault 17 eras$LF" adopt && with '"attributes":{"number":"64"}' && untouched adopts 1 0 64 326
}

# New files come from their beginning, and those that no pattern matches any more are left where they were read up to.
check_other_files() {
    mkdir -p new
    printf '{"include":["*.log"]}' >settings.json
    echo old >app.log && once 0 "$(summary 1 0 0 0)$LF" && echo passed over >>app.log && echo new >new/b.log || return 1
    printf '{"include":["new/*.log"]}' >settings.json
    adopts 1 0 2 0 && quietly && tells '2 1 b.log new' || return 1
    printf '{"include":["*.log","new/*.log"]}' >settings.json
    adopts 2 0 3 "$(stat -c %s output.jsonl)" && quietly && tells '2 1 b.log new' '1 1 app.log passed over'
}

# Runs that are killed. Fewer where the program is slow.
check_kills() { wait_long "$root/tests/e2e/adoptions" "$agent" $((10 + 190 / slow)) 20261130; }
