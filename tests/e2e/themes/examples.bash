# Each folder of examples/, run as a person runs it.

# shows NAME: `examples/run NAME` shows what the example's file `expected` has.
shows() {
    TMPDIR=$PWD AGENT=$agent wait_for "$root/examples/run" "$1" >"$work/shown" || return 1
    diff "$root/examples/$1/expected" <(sed 1,2d "$work/shown")
}

check_every_example() {
    local steps count=0
    for steps in "$root"/examples/*/steps; do
        shows "$(basename "$(dirname "$steps")")" || return 1
        count=$((count + 1))
    done
    [ "$count" -gt 0 ] && [ "$count" = "$(find "$root/examples" -mindepth 1 -maxdepth 1 -type d ! -name out | wc -l)" ]
}

check_first_run_without_a_name() {
    TMPDIR=$PWD AGENT=$agent wait_for "$root/examples/run" >"$work/shown" &&
        diff "$root/examples/first-run/expected" <(sed 1,2d "$work/shown")
}

check_unknown_example() {
    AGENT=$agent "$root/examples/run" zz 2>"$work/shown"
    [ $? = 2 ] && grep -q '^  first-run$' "$work/shown"
}

hand_over() { PATH=$work/bin:$PATH "$root/examples/rotated/hand_over" spool; }

# handed LINE..: the files of the spool have these lines together, as `told` prints them.
handed() { mkdir -p all && cat spool/*.jsonl >all/output.jsonl && (cd all && tells "$@"); }

check_hand_over() {
    local before
    mkdir spool logs
    a_folder 'logs/app.log*'
    hand_over && [ "$(ls spool)" = '' ] || return 1
    echo a1 >logs/app.log
    quietly && hand_over && hand_over && handed '1 1 app.log a1' || return 1
    seq 1 1000 >>logs/app.log
    quietly && hand_over && echo b1 >logs/app.log-1 && quietly && hand_over || return 1
    [ "$(ls spool | wc -l)" = 3 ] && [ "$(cat handed)" = "$(stat -c %s output.jsonl)" ] || return 1
    mapfile -t before < <(paste -d ' ' <(seq -f '1 %g app.log' 2 1001) <(seq 1 1000))
    handed '1 1 app.log a1' "${before[@]}" '2 1 app.log-1 b1'
}

# A run of `hand_over` that was stopped anywhere is made good by the next.
check_hand_over_after_a_stop() {
    mkdir spool
    a_log 'one\n'
    quietly && hand_over && echo two >>app.log && quietly || return 1
    # It has looked how much is kept, and more is kept since.
    "$agent" committed >handing && echo three >>app.log && quietly || return 1
    printf '{"res' >spool/new
    hand_over && handed '1 1 app.log one' '1 2 app.log two' || return 1
    # The file is in the spool, and that isn't noted yet.
    "$agent" committed >handing && cp -R . ../copy && hand_over || return 1
    handed '1 1 app.log one' '1 2 app.log two' '1 3 app.log three' || return 1
    cp spool/* ../copy/spool && cd ../copy && hand_over && handed '1 1 app.log one' '1 2 app.log two' '1 3 app.log three' || return 1
    cd - >/dev/null && rm -r ../copy && [ ! -e handing ]
}

# Where the output can't be read nothing is handed on.
check_hand_over_of_nothing() {
    mkdir spool
    a_log
    quietly && mv output.jsonl away && ! hand_over 2>/dev/null && [ "$(ls spool)" = new ] && [ ! -e handed ] || return 1
    mv away output.jsonl && hand_over && handed '1 1 app.log hello' && [ "$(ls spool)" = 0000000000000.jsonl ]
}
