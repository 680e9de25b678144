# Which files are taken, in the working folder and in others.

check_empty_folder() {
    printf '%s' "$settings" >settings.json
    once 0 "$(summary 0 0 0 0)$LF" && bodies '[]' && [ "$(ls)" = "checkpoint.a${LF}settings.json" ]
}

check_own_files() {
    a_folder '*'
    printf 'hello\n' >output.7.jsonl
    printf 'hello\n' >checkpoint.b
    once 0 "$(summary 0 0 0 0)$LF" || return 1
    printf 'a\n' >output.x.jsonl
    mkdir logs
    printf 'b\n' >logs/output.jsonl
    once 0 "$(summary 1 1 0 329)$LF" && tells '1 1 output.x.jsonl a' || return 1
    anew
    a_folder 'logs/*'
    once 0 "$(summary 1 1 0 327)$LF" && tells '1 1 output.jsonl b'
}

check_log_is_a_folder() {
    printf '%s' "$settings" >settings.json
    mkdir app.log
    once 0 "$(summary 0 0 0 0)$LF"
}

check_log_is_a_link() {
    printf '%s' "$settings" >settings.json
    printf 'hello\n' >other.log
    ln -s other.log app.log
    once 0 "$(summary 0 0 0 0)$LF" && bodies '[]'
}

check_log_is_a_pipe() {
    printf '%s' "$settings" >settings.json
    mkfifo app.log
    once 0 "$(summary 0 0 0 0)$LF"
}

check_names_not_utf8() {
    a_log
    : >"$(printf 'x\xff')"
    : >"$(printf '\xfe')"
    once 0 "$(summary 1 1 2 326)$LF" && bodies '["hello"]'
}

check_big_folder() {
    a_log
    seq -f 'file-%g' 1 3000 | xargs touch
    once 0 "$(one_line)$LF"
}

check_several_files() {
    a_folder '*.log' 'zz'
    printf 'b1\nb2\n' >b.log
    printf 'a1\n' >a.log
    printf 'no\n' >a.txt
    : >empty.log
    once 0 "$(summary 2 3 0 963)$LF" && tells '1 1 a.log a1' '2 1 b.log b1' '2 2 b.log b2' || return 1
    printf 'c1\n' >a0.log
    printf 'b3\n' >>b.log
    printf 'z1\n' >zz
    once 0 "$(summary 4 3 0 1924)$LF" &&
        tells '1 1 a.log a1' '2 1 b.log b1' '2 2 b.log b2' '3 1 a0.log c1' '2 3 b.log b3' '4 1 zz z1'
}

check_excluded_files() {
    printf '{"include":["*.log"],"exclude":["b*","c.log"],"start_at":"beginning"}' >settings.json
    for name in a b bb c; do echo "$name" >"$name.log"; done
    once 0 "$(summary 1 1 0 320)$LF" && tells '1 1 a.log a'
}

check_folders_below() {
    mkdir -p "logs/a/b" logs/c
    a_folder 'logs/**/*.log'
    echo 1 >logs/x.log
    echo 2 >logs/a/x.log
    echo 3 >logs/a/b/x.log
    echo 4 >logs/c/x.txt
    echo 5 >x.log
    quietly && tells '1 1 x.log 3' '2 1 x.log 2' '3 1 x.log 1'
}

check_absolute_paths() {
    mkdir -p state logs/deep
    echo 1 >logs/a.log
    echo 2 >logs/deep/b.log
    (
        cd state || exit 1
        printf '{"include":["%s/**"],"exclude":["%s/state/**"],"start_at":"beginning","include_file_path":true}' "${PWD%/state}" "${PWD%/state}" >settings.json
        quietly && diff <(entries) <(
            printf '["1", {"log.file.name": "a.log", "log.file.path": "%s/logs/a.log"}, {}]\n' "${PWD%/state}"
            printf '["2", {"log.file.name": "b.log", "log.file.path": "%s/logs/deep/b.log"}, {}]\n' "${PWD%/state}"
        )
    )
}

# The agent's own files are left out under their names in its folder, not under absolute paths.
check_absolute_path_to_itself() {
    a_folder "$PWD/*.jsonl"
    echo hello >a.jsonl
    once 0 "$(summary 1 1 0 326)$LF" && wait_for "$agent" once | grep -q '^files=2 lines=1 '
}

check_hard_links() {
    a_folder '*.log'
    echo hello >a.log
    ln a.log b.log
    once 0 "$(summary 2 1 0 324)$LF" && echo world >>b.log && once 0 "$(summary 2 1 0 648)$LF" &&
        tells '1 1 a.log hello' '1 2 a.log world'
}

check_links_to_folders() {
    mkdir logs
    echo 1 >logs/a.log
    ln -s logs linked
    ln -s ../logs logs/up
    a_folder '**/*.log'
    once 0 "$(summary 1 1 0 320)$LF" && tells '1 1 a.log 1'
}

# Those that a pattern names before its first special character are followed.
check_links_in_a_pattern() {
    mkdir -p logs/deep
    echo 1 >logs/a.log
    echo 2 >logs/deep/b.log
    ln -s logs linked
    a_folder 'linked/*.log' 'linked/deep/b.log'
    once 0 "$(summary 2 2 0 640)$LF" && tells '1 1 a.log 1' '2 1 b.log 2'
}

check_folder_is_a_file() {
    a_folder 'logs/*.log' 'logs/**/*.txt'
    : >logs
    once 0 "$(summary 0 0 0 0)$LF"
}

# 32 components are listed, and a folder with one more is counted.
check_deep_folders() {
    local folder=.
    a_folder '**/*.log'
    for place in $(seq 33); do
        folder=$folder/d
        mkdir "$folder"
        [ "$place" -lt 32 ] || echo "$place" >"$folder/x.log"
    done
    once 0 "$(summary 1 1 0 321 deep=1)$LF" && tells '1 1 x.log 32'
}

check_names() {
    a_folder '*.log' '* *'
    echo 1 >'a b.log'
    echo 2 >'ä€😀.log'
    echo 3 >$'tab\t.log'
    echo 4 >$'line\nend.log'
    echo 5 >'quote".log'
    echo 6 >'-once.log'
    echo 7 >' '
    echo 8 >$'no\xff.log'
    wait_for "$agent" once | grep -q '^files=7 lines=7 .* failed=1 ' || return 1
    diff <(entries | sort) <(printf '["%s", {"log.file.name": "%s"}, {}]\n' 1 'a b.log' 2 '\u00e4\u20ac\ud83d\ude00.log' 3 'tab\t.log' \
        4 'line\nend.log' 5 'quote\".log' 6 '-once.log' 7 ' ' | sort)
}

check_names_with_special_characters() {
    a_folder 'a\\[1\\].log'
    echo 1 >'a[1].log'
    echo 2 >a1.log
    quietly && tells '1 1 a[1].log 1'
}

# many_files COUNT: a folder of so many, each of one line, its name.
many_files() {
    a_folder 'logs/**'
    mkdir logs
    (cd logs && seq -f '%06g' 1 "$1" | while read -r name; do echo "$name" >"$name"; done)
}

check_many_files() {
    many_files 5000
    once 0 "$(summary 5000 5000 0 $((5000 * 325 + 9 + 2 * 90 + 3 * 900 + 4 * 4001)))$LF" || return 1
    diff <(told | cut -d ' ' -f 4) <(seq -f '%06g' 1 5000) || return 1
    rm logs/0000* logs/0049*
    echo more >>logs/001024 && echo more >>logs/002048
    quietly && grep -q "^files=$(ls logs | wc -l) lines=2 " "$work/report" && [ "$(told | tail -n 2)" = "1024 2 001024 more${LF}2048 2 002048 more" ]
}

# 65,536 files are known at most, and for good. What is more is counted.
check_most_files() {
    is_quick || return 0
    local names
    many_files 65600
    wait_for "$agent" once >"$work/report" || return 1
    grep -q "^files=65600 lines=65536 left=0 gone=0 failed=0 compressed=0 shrunk=0 full=64 deep=0 output=$(stat -c %s output.jsonl)$" "$work/report" || return 1
    diff <(told | cut -d ' ' -f 4) <(seq -f '%06g' 1 65536) || return 1
    rm logs/0000* logs/0655[5-9]*
    for name in 000100 065536 065537; do echo more >>"logs/$name"; done
    wait_for "$agent" once >"$work/report" || return 1
    cat "$work/report"
    names=$(ls logs | wc -l)
    grep -q "^files=$names lines=2 .* full=$((names - 65437)) " "$work/report" && [ "$(told | tail -n 2)" = "100 2 000100 more${LF}65536 2 065536 more" ]
}
