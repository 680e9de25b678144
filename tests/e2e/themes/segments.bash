# The output in Parts of 16 MiB: `segments` and a command.

# full: how many bytes a full Part has.
full=16777216

# segments STATUS REPORT [COMMAND]: `segments once`, or another command.
segments() { run "$1" "$2" segments "${3-once}"; }

# joined: the Parts in order, as one file.
joined() {
    local number=0
    while [ -e "output.$number.jsonl" ]; do
        cat "output.$number.jsonl"
        number=$((number + 1))
    done
}

# many_lines: a log of 60,000 lines, whose output fills one Part.
many_lines() {
    a_log ''
    yes hello | head -n 60000 >app.log
}

check_words_of_segments() {
    a_log
    run 2 "fault 2 usage$LF" segments &&
        segments 2 "fault 2 usage$LF" pipe &&
        segments 2 "fault 2 usage$LF" segments &&
        run 2 "fault 2 usage$LF" segments once x &&
        run 2 "fault 2 usage$LF" segments demo 1 &&
        run 2 "fault 2 usage$LF" segments --help &&
        run 2 "fault 2 usage$LF" once segments &&
        [ "$(ls)" = "app.log${LF}settings.json" ]
}

check_one_part() {
    a_log
    segments 0 "$(one_line)$LF" && [ "$(ls)" = "$(printf '%s\n' app.log checkpoint.a output.0.jsonl settings.json)" ] || return 1
    segments 0 "326$LF" committed && segments 0 "$(summary 1 0 0 326)$LF" && joined >output.jsonl && tells '1 1 app.log hello'
}

check_follow_over_parts() {
    a_log
    printf 'poll\nquit\n' | "$agent" segments follow >"$work/report" && [ "$(cat "$work/report")" = "$(one_line)" ] &&
        [ "$(stat -c %s output.0.jsonl)" = 326 ]
}

# The Parts together are the output that a run without Parts writes.
check_two_parts() {
    many_lines
    wait_long "$agent" segments once >"$work/report" || return 1
    grep -q '^files=1 lines=60000 ' "$work/report" || return 1
    [ "$(ls output.*)" = "output.0.jsonl${LF}output.1.jsonl" ] && [ "$(stat -c %s output.0.jsonl)" = "$full" ] || return 1
    mkdir whole && cp app.log settings.json whole || return 1
    (cd whole && wait_long "$agent" once >"$work/whole") && cmp "$work/report" "$work/whole" || return 1
    joined | cmp - whole/output.jsonl || return 1
    segments 0 "$(stat -c %s whole/output.jsonl)$LF" committed
}

# What was shipped of a full Part is given back to the disk, and the agent goes on behind it.
check_punched_part() {
    local kept
    many_lines
    wait_long "$agent" segments once >"$work/report" || return 1
    kept=$("$agent" segments committed)
    fallocate -p -o 0 -l "$full" output.0.jsonl 2>/dev/null || {
        skip "this disk has no holes"
        return 0
    }
    echo more >>app.log
    segments 0 "$(summary 1 1 0 $((kept + 329)))$LF" && [ "$(stat -c %s output.0.jsonl)" = "$full" ] || return 1
    tail -n 1 output.1.jsonl >output.jsonl && tells '1 60001 app.log more'
}

# A Part that is gone ends the output there.
check_part_gone() {
    local kept
    many_lines
    wait_long "$agent" segments once >"$work/report" || return 1
    kept=$("$agent" segments committed)
    mv output.0.jsonl away
    echo more >>app.log
    segments 6 "fault 6 short $kept 0$LF" || return 1
    mv away output.0.jsonl && mv output.1.jsonl away
    segments 6 "fault 6 short $kept $full$LF" || return 1
    mv away output.1.jsonl
    segments 0 "$(summary 1 1 0 $((kept + 329)))$LF"
}

# Without a checkpoint nothing is kept: each Part that is there is emptied.
check_parts_without_a_checkpoint() {
    many_lines
    wait_long "$agent" segments once >"$work/report" || return 1
    rm checkpoint.?
    echo hello >app.log
    segments 0 "$(one_line)$LF" && [ "$(stat -c %s output.0.jsonl output.1.jsonl)" = "326${LF}0" ]
}

# An output of the other kind is another output.
check_parts_beside_a_whole_output() {
    a_log
    once 0 "$(one_line)$LF" && segments 6 "fault 6 short 326 0$LF" && [ ! -e output.0.jsonl ]
}

# Changed settings are adopted by `segments adopt`: what an operator held back comes out, and the file is read on. `adopt` alone finds
# no output.
check_adopt_over_parts() {
    local joining='"operators":[{"type":"recombine","combine_field":"body","is_last_entry":"body == '"'z'"'"}]'
    a_log 'a\nb\n'
    printf '%s' "${settings%\}},$joining}" >settings.json
    segments 0 "$(summary 1 0 0 0)$LF" && printf '%s' "$settings" >settings.json && untouched segments 5 "fault 5 changed 45$LF" &&
        segments 0 "adopted rows=1 lines=1 eras=2 output=325$LF" adopt && untouched run 6 "fault 6 short 325 0$LF" adopt &&
        untouched segments 0 "adopted rows=1 lines=0 eras=2 output=325$LF" adopt || return 1
    echo c >>app.log
    segments 0 "$(summary 1 1 0 647)$LF" && [ ! -e output.jsonl ] && joined >output.jsonl && bodies '["a\nb", "c"]'
}

check_parts_are_not_read() {
    a_folder '*'
    echo hello >app.log
    segments 0 "$(one_line)$LF" && segments 0 "$(summary 1 0 0 326)$LF"
}

# Killed while the second Part is begun: the lines of the Parts, joined, are each line once.
check_kills_over_parts() { wait_long "$root/tests/e2e/kills" "$agent" $((20 + 80 / slow)) 20261201 segments; }

check_hand_over_of_parts() {
    local kept
    mkdir spool
    many_lines
    wait_long "$agent" segments once >"$work/report" && PATH=$work/bin:$PATH "$root/examples/rotated/hand_over" spool || return 1
    kept=$("$agent" segments committed)
    [ "$(ls spool)" = 0000000000000.jsonl ] && [ "$(stat -c %s spool/*)" = "$kept" ] && [ "$(cat handed)" = "$kept" ] || return 1
    echo more >>app.log
    segments 0 "$(summary 1 1 0 $((kept + 329)))$LF" && PATH=$work/bin:$PATH "$root/examples/rotated/hand_over" spool || return 1
    [ "$(ls spool | wc -l)" = 2 ] && cat spool/* >output.jsonl && [ "$(wc -l <output.jsonl)" = 60001 ] || return 1
    told | awk '$2 != NR { exit 1 }' && [ "$(told | tail -n 1)" = '1 60001 app.log more' ]
}
