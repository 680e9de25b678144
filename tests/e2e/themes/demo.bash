# The demonstration: rounds that are played in memory.

# demo LINE ROUNDS: so many rounds show this, and nothing comes into the folder.
demo() { run 0 "$1$LF" demo "$2" && [ -z "$(ls -A)" ]; }

check_few_rounds() {
    demo 'rounds=1 polls=1 stops=0 files=1 lines=1 output=325' 1 &&
        demo 'rounds=10 polls=11 stops=1 files=3 lines=10 output=3251' 10
}

# In five seconds at most, with no more than 64 MiB, and more of both where the program is slow.
check_most_rounds() {
    is_quick || return 0
    local most='rounds=1000 polls=1142 stops=142 files=102 lines=1000 output=328331'
    demo "$most" 1000 && LIMIT=5 wait_for python3 - "$agent" $((slow * 65536)) <<'PY'
import resource, subprocess, sys
subprocess.run([sys.argv[1], "demo", "1000"], stdout=subprocess.DEVNULL, check=True)
taken = resource.getrusage(resource.RUSAGE_CHILDREN).ru_maxrss
assert taken <= int(sys.argv[2]), f"{taken} KiB"
PY
}

check_no_rounds() {
    local word
    run 2 "fault 2 usage$LF" demo &&
        run 2 "fault 2 usage$LF" demo 1 2 &&
        run 2 "fault 2 usage$LF" demo 1 '' &&
        run 2 "fault 2 usage$LF" demo -- 1 || return 1
    for word in '' 0 00 01 07 +1 -1 1001 ' 1' '1 ' 1.0 1e3 0x1 one 65537 18446744073709551617; do
        run 2 "fault 2 usage$LF" demo "$word" || return 1
    done
    [ -z "$(ls -A)" ]
}

# A word may be long.
check_long_words() {
    local long
    long=$(printf '1%.0s' $(seq 10000))
    run 2 "fault 2 usage$LF" "$long" &&
        run 2 "fault 2 usage$LF" demo "$long" &&
        run 2 "fault 2 usage$LF" once "$long" &&
        run 2 "fault 2 usage$LF" "-$long"
}

# The folder's own files have no part in it.
check_folder_untouched() {
    a_log
    quietly || return 1
    local before
    before=$(sha256sum output.jsonl checkpoint.? settings.json)
    run 0 "rounds=10 polls=11 stops=1 files=3 lines=10 output=3251$LF" demo 10 &&
        [ "$before" = "$(sha256sum output.jsonl checkpoint.? settings.json)" ]
}

check_report_that_fails() {
    wait_for "$agent" demo 10 >/dev/full
    [ $? = 9 ]
}
