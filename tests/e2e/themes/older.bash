# Folders that an older version of the agent left, which tests/e2e/older has. Their checkpoint is read, and each line is taken once.

# goes_on NAME [AGENT]: from this one, in a folder of its own.
goes_on() {
    local folder
    folder=$(mktemp -d "$PWD/older.XXXXXX")
    (cd "$folder" && wait_long "$root/tests/e2e/go_on" "${2:-$agent}" "$root/tests/e2e/older/$1")
}

# A checkpoint alone, and lines behind what is kept, of a run that was killed.
check_older_base() { goes_on base; }

# A checkpoint with changes behind it: of a log that was renamed, of a line without its end, and of an entry that isn't whole yet.
check_older_journal() { goes_on journal; }

# The second of two checkpoints counts.
check_older_slots() { goes_on slots; }

# An agent that loses a line, or writes one twice, is found.
check_older_lines_lost_or_repeated() {
    local wrong
    for wrong in '$d' '$p'; do
        printf '#!/bin/sh\n"%s" "$1" || exit\n[ "$1" = committed ] || sed -i '"'%s'"' output.jsonl\n' "$agent" "$wrong" >agent
        chmod +x agent
        if goes_on journal "$PWD/agent" 2>found || ! grep -q "the output isn't what one run gives" found; then
            cat found
            return 1
        fi
    done
}
