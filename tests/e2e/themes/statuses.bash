# Words, the output that is there already, and files and reports that fail.

check_words() {
    a_log
    run 2 "fault 2 usage$LF" &&
        run 2 "fault 2 usage$LF" frob &&
        run 2 "fault 2 usage$LF" once x &&
        run 2 "fault 2 usage$LF" follow x &&
        run 2 "fault 2 usage$LF" adopt x &&
        run 2 "fault 2 usage$LF" committed x &&
        run 2 "fault 2 usage$LF" pipe x &&
        run 2 "fault 2 usage$LF" --help &&
        run 2 "fault 2 usage$LF" once -- &&
        run 2 "fault 2 usage$LF" ONCE &&
        run 2 "fault 2 usage$LF" '' &&
        [ "$(ls)" = "app.log${LF}settings.json" ]
}

check_words_that_are_not_utf8() {
    a_log
    run 2 "fault 2 usage$LF" $'\xff' &&
        run 2 "fault 2 usage$LF" $'once\xff' &&
        run 2 "fault 2 usage$LF" once $'\xff' &&
        run 2 "fault 2 usage$LF" $'\xff' once &&
        run 2 "fault 2 usage$LF" demo $'1\xff' &&
        [ "$(ls)" = "app.log${LF}settings.json" ]
}

# Without a checkpoint nothing of the output is kept.
check_output_not_empty() {
    a_log
    printf 'x%.0s' $(seq 1000) >output.jsonl
    once 0 "$(one_line)$LF" && bodies '["hello"]'
}

check_output_empty() {
    a_log
    : >output.jsonl
    once 0 "$(one_line)$LF" && bodies '["hello"]'
}

check_second_run() {
    a_log
    once 0 "$(one_line)$LF" && untouched once 0 "$(summary 1 0 0 326)$LF" && bodies '["hello"]'
}

check_pattern_too_large() {
    a_log
    ends 10 memory "${settings%\}},\"operators\":[{\"type\":\"filter\",\"expr\":\"body matches '(?:(?:a{1000}){1000}){1000}'\"}]}"
}

check_output_is_a_folder() {
    a_log
    mkdir output.jsonl
    once 7 "fault 7 disk$LF"
}

check_checkpoint_is_a_folder() {
    a_log
    mkdir checkpoint.b
    once 7 "fault 7 disk$LF" && run 7 "fault 7 disk$LF" committed && [ ! -e output.jsonl ]
}

check_full_report() {
    a_log
    wait_for "$agent" once >/dev/full
    [ $? = 9 ] && bodies '["hello"]' && untouched once 0 "$(summary 1 0 0 326)$LF" || return 1
    wait_for "$agent" committed >/dev/full
    [ $? = 9 ] || return 1
    wait_for "$agent" frob >/dev/full
    [ $? = 2 ]
}

# to_a_closed_pipe WORD CONTROL: with a report that nobody reads, the command with this control input ends with status 9.
to_a_closed_pipe() {
    a_log
    python3 - "$agent" "$1" "$2" <<'PY' && bodies '["hello"]'
import os, signal, subprocess, sys
agent, word, control = sys.argv[1:]
read, write = os.pipe()
os.close(read)
default = lambda: signal.signal(signal.SIGPIPE, signal.SIG_DFL)
ended = subprocess.run([agent, word], input=control.encode(), stdout=write, preexec_fn=default)
assert ended.returncode == 9, ended.returncode
PY
}

check_broken_pipe() { to_a_closed_pipe once ''; }

check_follow_to_a_closed_pipe() { to_a_closed_pipe follow $'poll\nquit\n'; }
