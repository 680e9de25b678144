# What tools/check-settings answers to typical mistakes in settings: tests/e2e/mistakes/GROUP/NAME has the settings, the files
# beside them, a log log.txt where one is looked at, and in `wanted` what the tool prints and its status. @HERE@ is the folder.
# Each line of links.txt is a link that is made there, and what it leads to.

# answers FOLDER: the tool says of these settings what is wanted.
answers() {
    local log=() link target
    rm -rf one && cp -R "$1" one || return 1
    if [ -e one/links.txt ]; then
        while read -r link target; do ln -s "$target" "one/$link"; done <one/links.txt
        rm one/links.txt
    fi
    sed -i "s#@HERE@#$PWD/one#g" one/wanted
    [ ! -e one/settings.json ] || sed -i "s#@HERE@#$PWD/one#g" one/settings.json
    [ ! -e one/log.txt ] || log=(log.txt)
    (cd one && AGENT=$agent wait_for "$root/tools/check-settings" settings.json "${log[@]}" 2>&1; echo "status $?") | diff one/wanted - || {
        echo "in $1"
        return 1
    }
}

# answered GROUP NUMBER: so it is for each of the group, which has at least so many.
answered() {
    local folder count=0 wrong=0
    for folder in "$root/tests/e2e/mistakes/$1"/*/; do
        answers "$folder" || wrong=1
        count=$((count + 1))
    done
    [ "$wrong" = 0 ] && [ "$count" -ge "$2" ]
}

check_json() { answered json 16; }

check_keys() { answered keys 25; }

check_texts() { answered texts 32; }

check_files() { answered files 12; }

# The package's settings have the package's folder, in which relative patterns begin, and what was handed on is its own too.
check_folder_of_the_package() {
    printf '{"include":["/var/**"]}' >settings.json
    AGENT=$agent checked 1 --folder /var/lib/stanza_agent settings.json || return 1
    diff <(grep -o '/var/[a-z]*/stanza_agent/[a-z0-9.]* is the agent.*' said) - <<'END' || return 1
/var/lib/stanza_agent/output.jsonl is the agent's own file: exclude /var/lib/stanza_agent/**, or let the agent run in another folder
/var/spool/stanza_agent/0000000000000.jsonl is the agent's own file: exclude /var/spool/stanza_agent/**, or let the agent run in another folder
END
    AGENT=$agent checked 0 --folder /var/lib/stanza_agent "$root/packaging/debian/settings.json"
}

check_logs() { answered logs 3; }

# checked STATUS WORD..: the tool ends with this status, and what it prints is in `said`.
checked() {
    local want=$1 status
    shift
    wait_for "$root/tools/check-settings" "$@" >said 2>&1
    status=$?
    [ "$status" = "$want" ] || { echo "status $status, not $want" && cat said && return 1; }
}

# Where nothing is wrong it says nothing but notes.
check_examples() {
    local folder
    for folder in "$root"/examples/{first-run,json,nginx,routing,syslog}; do
        AGENT=$agent checked 0 "$folder/settings.json" && ! grep -v ': note: ' said || return 1
    done
}

check_calls() {
    a_log
    checked 2 && grep -q '^usage: check-settings' said &&
        AGENT=$PWD/none checked 2 settings.json &&
        [ "$(cat said)" = "There is no program at $PWD/none.${LF}check-settings: there is no program that could be asked" ] &&
        checked 2 settings.json none.log && [ "$(cat said)" = 'check-settings: none.log: No such file or directory' ]
}

# What it reads by itself agrees with what the program accepts and refuses.
check_accepted() { "$root/tests/e2e/findings" --not "$root/tests/e2e/schema/accepted.jsonl"; }

check_refused() { "$root/tests/e2e/findings" "$root/tests/e2e/schema/refused.jsonl"; }
