# tools/from-filelog, and whole configurations of Collectors that it converts.

from_filelog() { "$root/tests/e2e/from_filelog" "$@"; }

# has_yaml: whether this machine has what reads YAML.
has_yaml() { python3 -c 'import yaml' 2>/dev/null || ! skip "python3 has no yaml"; }

check_rows() { ! has_yaml || from_filelog rows "$root/tests/e2e/filelog/rows.yaml"; }

# The patterns that it writes find in the program what Go's find.
check_regexes() {
    local dropping found other count=0
    has_yaml || return 0
    from_filelog regexes "$root/tests/e2e/filelog/regexes.yaml" >pairs || { cat pairs && return 1; }
    while IFS=$'\x1f' read -r dropping found other; do
        printf '{"include":["app.log"],"start_at":"beginning","operators":[%s]}' "$dropping" >settings.json
        printf '%s\n' "$found" "$other" >app.log
        anew
        quietly && bodies "$(python3 -c 'import json, sys; print(json.dumps(sys.argv[1:]))' "$found")" || {
            echo "$dropping on $found and $other"
            return 1
        }
        count=$((count + 1))
    done <pairs
    [ "$count" -gt 10 ]
}

# converts STATUS WORD..: the tool ends with the status; what it prints is in `given`, and what it tells in `said`.
converts() {
    local want=$1 status
    shift
    wait_for "$root/tools/from-filelog" "$@" >given 2>said
    status=$?
    [ "$status" = "$want" ] || { echo "status $status, not $want" && cat said && return 1; }
}

# is_observed NAME..: nothing is told but of the observed time of these receivers.
is_observed() {
    diff said <(printf 'receivers.%s: note: each record of the receiver has an observed time, so include_observed_time is set: a line has the time of the poll that read it\n' "$@")
}

# A folder of tests/e2e/filelog has a Collector's configuration collector.yaml, the words in `arguments` that the tool is given
# beside it, and either the settings that it gives, with logs and the records in `expected` that are made of them, or in `told`
# what can't be had.
converts_as_wanted() {
    local words=()
    [ ! -e "$1/arguments" ] || read -ra words <"$1/arguments"
    if [ -e "$1/told" ]; then
        converts 1 "${words[@]}" "$1/collector.yaml" && [ ! -s given ] && grep ': left out: ' said | diff "$1/told" -
    else
        converts 0 "${words[@]}" "$1/collector.yaml" && from_filelog same given "$1/settings.json"
    fi || {
        echo "in $1"
        return 1
    }
}

check_conversions() {
    local folder wrong=0 whole=0 refused=0
    has_yaml || return 0
    for folder in "$root"/tests/e2e/filelog/*/; do
        converts_as_wanted "${folder%/}" || wrong=1
        [ ! -e "$folder/settings.json" ] || whole=$((whole + 1))
        [ ! -e "$folder/told" ] || refused=$((refused + 1))
    done
    [ "$wrong" = 0 ] && [ "$whole" = 30 ] && [ "$refused" = 6 ]
}

# becomes FOLDER: the configuration's settings make of its logs the entries that they should.
becomes() {
    # The logs lie in this folder in place of the root.
    sed -E 's#"/(var|srv)/#"\1/#g' "$1/settings.json" >settings.json
    find "$1" -mindepth 1 -maxdepth 1 -type d -exec cp -R {} . \;
    quietly && "$root/examples/show" | diff "$1/expected" -
}

check_records() {
    local folder wrong=0
    for folder in "$root"/tests/e2e/filelog/*/; do
        [ -e "$folder/settings.json" ] || continue
        rm -rf one && mkdir one && (cd one && becomes "${folder%/}") || {
            echo "in $folder"
            wrong=1
        }
    done
    [ "$wrong" = 0 ]
}

check_notes() {
    has_yaml || return 0
    converts 0 "$root/tests/e2e/filelog/nginx/collector.yaml" && from_filelog same given "$root/tests/e2e/filelog/nginx/settings.json" || return 1
    diff said - <<'T'
receivers.filelog/nginx.include: note: a log that was renamed is read only where a pattern matches its new name too, as app.log* does
receivers.filelog/nginx.poll_interval: note: the agent polls when it is told to: let what tells it do so each 0.5 seconds
receivers.filelog/nginx.storage: note: the agent always keeps its place in each file, in its folder
receivers.filelog/nginx.operators[0].timestamp.layout: note: it reads no time with a fraction of a second: write %S.%L where the log has one
receivers.filelog/nginx.operators[0]: note: a line whose time or severity isn't read stays unparsed; the receiver keeps what else is parsed
receivers.filelog/nginx: note: each record of the receiver has an observed time, so include_observed_time is set: a line has the time of the poll that read it
T
}

check_left_out() {
    has_yaml || return 0
    cat >some.yaml <<'Y'
receivers:
  filelog/nginx:
    include: [/l/*]
    encoding: utf-16
    operators:
      - {type: noop}
      - {type: uri_parser}
      - {type: regex_parser, regex: '(?P<1st>x)', parse_from: message}
Y
    converts 1 some.yaml && [ ! -s given ] && cp said first && converts 0 --partly some.yaml || return 1
    diff <(cat said; echo "from-filelog: it can't be had as a whole, so nothing was written; --partly gives the rest") first || return 1
    diff said - <<'T' || return 1
receivers.filelog/nginx.encoding: left out: logs are read as UTF-8: let the program log so
receivers.filelog/nginx.operators[1]: left out: there is no operator uri_parser: let a regex_parser cut it, or the Collector behind
receivers.filelog/nginx.operators[2].regex: left out: the name 1st begins with a digit: let it begin with a letter or _
receivers.filelog/nginx.operators[2].parse_from: left out: a field begins with body, attributes or resource
receivers.filelog/nginx: note: each record of the receiver has an observed time, so include_observed_time is set: a line has the time of the poll that read it
T
    echo '{"include": ["/l/*"], "operators": [{"type": "noop"}, {"type": "noop", "id": "uri_parser"}, {"type": "noop", "id": "regex_parser"}], "include_observed_time": true}' >wanted
    from_filelog same given wanted
}

check_receivers() {
    has_yaml || return 0
    printf 'receivers: {filelog/a: {include: [/a*]}, otlp: {}, filelog: {include: [/b*]}}' >some.yaml
    converts 0 --receiver filelog some.yaml && [ "$(tr -d ' \n' <given)" = '{"include":["/b*"],"include_observed_time":true}' ] && is_observed filelog &&
        converts 2 --receiver filelog/c some.yaml && [ "$(cat said)" = 'from-filelog: there is no receiver filelog/c' ] &&
        converts 2 - <<<'receivers: {otlp: {}}' && [ "$(cat said)" = 'from-filelog: there is no receiver filelog' ] &&
        converts 1 - <<<'receivers: {filelog: }' && [ ! -s given ] &&
        [ "$(cat said)" = "receivers.filelog.include: left out: this key has to be there${LF}from-filelog: nothing can be had of it" ] &&
        converts 2 - <<<'{' && grep -q '^from-filelog: this is no YAML' said &&
        converts 2 zz.yaml && converts 2
}

# Several receivers are never printed behind one another: each comes into a folder of its own.
check_several_receivers() {
    has_yaml || return 0
    printf 'receivers: {filelog/a: {include: [/a*]}, otlp: {}, filelog: {include: [/b*]}}' >some.yaml
    converts 2 some.yaml && [ ! -s given ] && [ "$(cat said)" = 'from-filelog: there are 2 receivers, and each wants a folder of its own: --receiver NAME prints one of filelog/a, filelog, --into FOLDER writes them all' ] &&
        converts 0 --into agents some.yaml && [ ! -s given ] && is_observed filelog/a filelog &&
        [ "$(cd agents && echo *)" = 'filelog filelog-a' ] &&
        [ "$(tr -d ' \n' <agents/filelog-a/settings.json)" = '{"include":["/a*"],"include_observed_time":true}' ] &&
        [ "$(tr -d ' \n' <agents/filelog/settings.json)" = '{"include":["/b*"],"include_observed_time":true}' ] || return 1
    # What can't be had of one leaves nothing of any.
    printf 'receivers: {filelog/a: {include: [/a*], header: {}}, filelog: {include: [/b*]}}' >some.yaml
    converts 1 --into none some.yaml && [ ! -e none ] && tail -n 1 said | grep -q -- '--partly gives the rest$' &&
        converts 0 --into none --partly some.yaml && [ "$(cd none && echo *)" = 'filelog filelog-a' ]
}

# What a receiver_creator starts is told of, and isn't passed over.
check_receiver_creator() {
    has_yaml || return 0
    cat >some.yaml <<'Y'
receivers:
  receiver_creator/logs:
    watch_observers: [k8s_observer]
    receivers:
      filelog/pod:
        rule: type == "pod.container"
        config: {include: ['/var/log/pods/`pod.namespace`_`pod.name`_`pod.uid`/*/*.log']}
      redis: {rule: port == 6379}
Y
    converts 1 some.yaml && [ ! -s given ] && diff said - <<'T' || return 1
receivers.receiver_creator/logs.receivers.filelog/pod: left out: receivers are started by what an observer finds, which the agent doesn't ask: write a receiver filelog whose include has /var/log/pods/*/*/*.log, with routes by k8s.pod.name and what else the operator container tells
from-filelog: nothing can be had of it
T
    echo '  filelog: {include: [/b*]}' >>some.yaml
    converts 1 some.yaml && [ ! -s given ] && grep -q '^receivers.receiver_creator/logs.receivers.filelog/pod: left out' said &&
        converts 0 --partly some.yaml && [ "$(tr -d ' \n' <given)" = '{"include":["/b*"],"include_observed_time":true}' ]
}

# The program has each type of operators that the tool writes.
check_types() {
    local name count=0
    for name in $(from_filelog types); do
        printf '{"include":["zz"],"operators":[{"type":"%s"}]}' "$name" >settings.json
        anew
        if [ "$(wait_for "$agent" once </dev/null)" = 'fault 3 settings out-of-range operators[0].type' ]; then
            echo "the program has no $name"
            return 1
        fi
        count=$((count + 1))
    done
    [ "$count" -gt 15 ]
}

# The table of what converts in docs/MIGRATION.md is that of the configurations, and so is what it shows of ten of them.
check_table() {
    from_filelog table >rows && diff rows <(grep '^| \[[a-z0-9_]*\](../tests/e2e/filelog/' "$root/docs/MIGRATION.md") &&
        grep -q "$(grep -c '| whole' rows) of $(wc -l <rows) convert whole\." "$root/docs/MIGRATION.md"
}

check_ten() {
    local names
    mapfile -t names < <(sed -n 's/^#### //p' "$root/docs/MIGRATION.md")
    [ "${#names[@]}" = 10 ] && diff <(from_filelog shown "${names[@]}") <(sed -n '/^#### /,/^## /p' "$root/docs/MIGRATION.md" | sed '/^## /d')
}

# Each receiver that docs/MIGRATION.md shows gives the settings behind it.
check_documented() {
    local block number count=0
    has_yaml || return 0
    mkdir blocks && "$root/tests/e2e/document" blocks "$root/docs/MIGRATION.md" blocks || return 1
    for block in blocks/*.yaml; do
        number=$((10#$(basename "$block" .yaml) + 1))
        converts 0 "$block" && from_filelog same given "$(printf 'blocks/%03d.settings' "$number")" || return 1
        count=$((count + 1))
    done
    [ "$count" -gt 0 ]
}
