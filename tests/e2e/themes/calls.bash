# Calls that fail, or at which the agent is killed, one at a time: strace puts them in.

# The options of strace for calls on these files alone, by any name.
own_files=(settings.json output.jsonl checkpoint.a checkpoint.b .)
logs=(logs logs/a.log logs/b.log)
on_files() {
    local file
    for file in "$@"; do
        on+=(-P "$file" -P "$(pwd -P)/$file")
    done
}

# traced CALL [WHAT]: `once` as strace sees its calls of this kind, with this put in. A sanitizer can't look for leaks there.
traced() {
    ASAN_OPTIONS=detect_leaks=0 wait_for strace -qq -o "$work/calls" "${on[@]}" -e trace="$1" ${2+-e inject="$1:$2"} \
        "$agent" once </dev/null >"$work/report" 2>"$work/errors"
}

# before_the_poll: one poll went through, what is behind it is to be cut off, and there are lines for the next one.
before_the_poll() {
    anew
    rm -rf logs && mkdir logs
    a_folder 'logs/*'
    printf 'a1\na2\n' >logs/a.log
    quietly || return 1
    printf x >>output.jsonl
    printf x >>checkpoint.a
    printf 'a3\n' >>logs/a.log
    printf 'b1\n' >logs/b.log
}

# before_the_first: there are the same lines, and no poll was made.
before_the_first() {
    before_the_poll && anew
}

# all_there: a poll makes good what was left undone, and each line is there once, those of a file in order.
all_there() {
    quietly && diff <(told | cut -d ' ' -f 2- | LC_ALL=C sort -s -k 2,2) <(printf '%s\n' '1 a.log a1' '2 a.log a2' '3 a.log a3' '1 b.log b1')
}

# each_call BEGIN CALL WHAT CHECK: with this put in at the first call of the kind, at the second and so on, the function
# CHECK, which is given the status, finds what is wanted, and the next poll makes it good. `count` counts the calls.
each_call() {
    local number=1
    while "$1" || return 1; do
        traced "$2" "$3:when=$number" 2>/dev/null
        "$4" $? && all_there || {
            echo "at call $number of $2 by $1"
            return 1
        }
        grep -q -e INJECTED -e SIGKILL "$work/calls" || break
        number=$((number + 1))
        count=$((count + 1))
    done
}

# each_begin CALL WHAT CHECK: with the first poll, and with a later one.
each_begin() { each_call before_the_poll "$@" && each_call before_the_first "$@"; }

# The first three opens keep the places of standard streams that are closed. These are open, so nothing comes of a failure.
holds_no_place() { [ "$1" = 0 ] && head -n 3 "$work/calls" | grep -q '^openat([^"]*"\.".*INJECTED'; }

is_disk_fault() { [ "$1 $(cat "$work/report")" = '7 fault 7 disk' ] || holds_no_place "$1" || went_through "$1"; }

is_counted() { went_through "$1" || { [ "$1" = 0 ] && grep -q ' failed=1 ' "$work/report"; }; }

is_killed() { [ "$1 $(cat "$work/report")" = '137 ' ] || went_through "$1"; }

# went_through STATUS: nothing was put in.
went_through() {
    [ "$1" = 0 ] && grep -q ' gone=0 failed=0 ' "$work/report" && ! grep -q -e INJECTED -e SIGKILL "$work/calls" || {
        echo "status $1, $(cat "$work/report" "$work/errors"), $(tail -n 3 "$work/calls")"
        return 1
    }
}

check_failing_calls_on_the_disk() {
    can_trace || return 0
    local on=() count=0 call
    on_files "${own_files[@]}"
    for call in openat pread64 pwrite64 fsync ftruncate; do
        each_begin "$call" error=EIO is_disk_fault || return 1
    done
    echo "$count calls"
    [ "$count" -ge 40 ]
}

check_full_disk_at_each_call() {
    can_trace || return 0
    local on=() count=0
    on_files "${own_files[@]}"
    each_begin pwrite64 error=ENOSPC is_disk_fault && [ "$count" -ge 8 ]
}

check_failing_calls_on_logs() {
    can_trace || return 0
    local on=() count=0 call
    on_files "${logs[@]}"
    for call in openat pread64 getdents64; do
        each_begin "$call" error=EIO is_counted || return 1
    done
    echo "$count calls"
    [ "$count" -ge 10 ]
}

check_killed_at_each_call() {
    can_trace || return 0
    local on=() count=0 call
    on_files "${own_files[@]}"
    for call in pwrite64 fsync ftruncate; do
        each_begin "$call" signal=KILL is_killed || return 1
    done
    echo "$count calls"
    [ "$count" -ge 20 ]
}

# A read that a signal interrupts is made again.
check_interrupted_reads() {
    can_trace || return 0
    local on=()
    on_files "${own_files[@]}" "${logs[@]}"
    before_the_first && traced pread64 error=EINTR:when=1+2 || return 1
    grep -q 'EINTR.*INJECTED' "$work/calls" && diff "$work/report" <(summary 2 4 0 1284) && all_there
}

# Where one row grew, 129 bytes are written: the byte that keeps the record closed, the record behind it, and the byte that opens it.
check_bytes_of_a_checkpoint() {
    can_trace || return 0
    a_log 'hello\nwor'
    quietly && printf 'ld\n' >>app.log || return 1
    local on=()
    on_files checkpoint.a
    traced write,pwrite64 && [ "$(sed -n 's/.*) *= \([0-9]*\)$/\1/p' "$work/calls" | paste -s -d ' ')" = '1 127 1' ]
}
