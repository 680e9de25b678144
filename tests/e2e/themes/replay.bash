# Disks that a crash might have left, made of the agent's own calls.

# replayed IMAGES [OPTION..]: in a folder of its own.
replayed() {
    local folder
    folder=$(mktemp -d "$PWD/replay.XXXXXX")
    (cd "$folder" && wait_long "$root/tests/e2e/replay" "$agent" "$1" 20261130 "${@:2}")
}

# Fewer images where the program is slow, and no round of them is begun once a third of the time is over.
check_replayed_calls() {
    can_trace || return 0
    replayed $((5 + 295 / slow)) --seconds $((slow * 5 * ${LIMIT:-60} / 3))
}

# An agent that makes no sync of the output, or opens a frame before what is in it is synced, is found: by the first few images.
check_replayed_calls_of_less() {
    is_quick && can_trace || return 0
    local part
    for part in sync gate; do
        if replayed 300 --without "$part" 2>found || ! grep '^call ' found; then
            cat found
            echo "an agent without this is not found: $part"
            return 1
        fi
    done
}
