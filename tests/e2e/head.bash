# What the themes have in common. A check is run in a new folder, with $agent as the program and $root as the repository.
# It leaves what it wants to look at in "$work".

settings='{"include":["app.log"],"start_at":"beginning"}'

# The LF at the end of a report, which command substitution drops.
LF=$'\n'

# wait_for COMMAND..: it has a minute, or the seconds that LIMIT gives, and more where the program is slow.
wait_for() { timeout $((slow * ${LIMIT:-60})) "$@"; }

# wait_long COMMAND..: five times as long, for what runs the program many times.
wait_long() { timeout $((5 * slow * ${LIMIT:-60})) "$@"; }

# much COUNT: so many, or a part of them where the program is slow.
much() { echo $(($1 / (slow < 20 ? slow : 20))); }

# grown FILE LINES: waits until the file has so many lines, as long as a run may take.
grown() { wait_for bash -c 'until [ -e "$1" ] && [ "$(wc -l <"$1")" -ge "$2" ]; do sleep 0.05; done' - "$@"; }

# skip REASON: this check can't be made on this machine. It ends there.
skip() { echo "$*" >"$work/skipped"; }

# is_quick: the program isn't as slow as one that checks its memory, which would take minutes here. Else this check isn't made.
is_quick() {
    [ "$slow" -le 20 ] || {
        skip "the program is $slow times slower here"
        return 1
    }
}

# can_trace: strace may tell the calls of what it runs. Else this check isn't made.
can_trace() {
    strace -o /dev/null true 2>/dev/null || {
        skip "strace isn't there, or may not trace"
        return 1
    }
}

# run STATUS REPORT WORD..: these words end with the status, and report exactly these lines.
run() {
    local want=$1 report=$2 status
    shift 2
    wait_for "$agent" "$@" </dev/null >"$work/report" 2>"$work/errors"
    status=$?
    ended "$status" "$want" "$report"
}

# ended STATUS WANTED REPORT: what ran ended with the status that is wanted, and reported exactly these lines.
ended() {
    [ "$1" = "$2" ] || {
        echo "status $1, not $2"
        return 1
    }
    [ "$(cat "$work/report"; echo .)" = "$(printf '%s' "$3"; echo .)" ] || {
        echo "reported: $(cat "$work/report")"
        return 1
    }
    [ ! -s "$work/errors" ] || {
        echo "on standard error: $(cat "$work/errors")"
        return 1
    }
}

# once STATUS REPORT
once() { run "$1" "$2" once; }

# quietly: `once` goes through, whatever it reports.
quietly() { wait_for "$agent" once >"$work/report"; }

# summary FILES LINES FAILED OUTPUT [FIELD=NUMBER..]: all other fields are 0.
summary() {
    local line="files=$1 lines=$2 left=0 gone=0 failed=$3 compressed=0 shrunk=0 full=0 deep=0 output=$4" field
    for field in "${@:5}"; do
        line=${line/"${field%=*}=0"/$field}
    done
    printf '%s\n' "$line"
}

# one_line: the summary of the log `hello`.
one_line() { summary 1 1 0 326; }

# a_log [TEXT]: the usual settings, and a log of this text.
a_log() {
    printf '%s' "$settings" >settings.json
    printf "${1-hello\n}" >app.log
}

# bodies TEXT: the output, read by another JSON reader, has these bodies in order, numbered from 1, and nothing else.
bodies() {
    python3 - "$1" <<'PY'
import json, os, sys
want = json.loads(sys.argv[1])
raw = open("output.jsonl", "rb").read() if os.path.exists("output.jsonl") else b""
assert raw == b"" or raw.endswith(b"\n"), "the last line is cut"
lines = [json.loads(line) for line in raw.split(b"\n")[:-1]]
assert len(lines) == len(want), f"{len(lines)} lines, not {len(want)}"
for number, (line, body) in enumerate(zip(lines, want), 1):
    scope = line["resourceLogs"][0]["scopeLogs"][0]
    record = scope["logRecords"][0]
    assert record["body"] == {"stringValue": body}, (number, record["body"])
    assert record["attributes"] == [{"key": "log.file.name", "value": {"stringValue": "app.log"}}]
    assert scope["scope"]["name"] == "stanza_agent"
    told = {a["key"]: a["value"]["intValue"] for a in scope["scope"]["attributes"]}
    assert told == {"agent.file": "1", "agent.line": str(number)}, told
PY
}

# entries: the output, as `[body, attributes, resource]` in JSON, a line each.
entries() {
    python3 - <<'PY'
import json
def value(v):
    (kind, inner), = v.items() if v else (("nullValue", None),)
    if kind == "kvlistValue":
        return {m["key"]: value(m["value"]) for m in inner["values"]}
    if kind == "arrayValue":
        return [value(m) for m in inner["values"]]
    return int(inner) if kind == "intValue" else inner
def members(list):
    return {m["key"]: value(m["value"]) for m in list}
for line in open("output.jsonl"):
    resource, = json.loads(line)["resourceLogs"]
    record = resource["scopeLogs"][0]["logRecords"][0]
    body = value(record["body"]) if "body" in record else None
    print(json.dumps([body, members(record["attributes"]), members(resource["resource"]["attributes"])]))
PY
}

# stamps: the output, as `[attributes, severity, its text, time]` in JSON, a line each, with null for what isn't told.
stamps() {
    python3 - <<'PY'
import json
for line in open("output.jsonl"):
    record = json.loads(line)["resourceLogs"][0]["scopeLogs"][0]["logRecords"][0]
    attributes = {a["key"]: next(iter(a["value"].values())) for a in record["attributes"]}
    print(json.dumps([attributes, *map(record.get, ["severityNumber", "severityText", "timeUnixNano"])]))
PY
}

# told: the output, a line each: agent.file, agent.line, log.file.name and the body.
told() {
    python3 - <<'PY'
import json
for line in open("output.jsonl", newline="\n"):
    scope = json.loads(line)["resourceLogs"][0]["scopeLogs"][0]
    record = scope["logRecords"][0]
    numbers = {a["key"]: a["value"]["intValue"] for a in scope["scope"]["attributes"]}
    names = [a["value"]["stringValue"] for a in record["attributes"] if a["key"] == "log.file.name"]
    print(numbers["agent.file"], numbers["agent.line"], *names, record["body"]["stringValue"])
PY
}

# tells LINE..: the output is exactly these lines, as `told` prints them.
tells() { diff <([ ! -e output.jsonl ] || told) <([ $# = 0 ] || printf '%s\n' "$@"); }

# a_folder PATTERN..: settings that include these, from their beginning.
a_folder() {
    local texts
    texts=$(printf '"%s",' "$@")
    printf '{"include":[%s],"start_at":"beginning"}' "${texts%,}" >settings.json
}

# anew: what the agent has kept in this folder is gone, so that its next run is as the first.
anew() { rm -f output.jsonl checkpoint.a checkpoint.b; }

# as_it_is: a sum of the folder's names and bytes.
as_it_is() { (ls -Al --time-style=+; cat -- *) 2>/dev/null | cksum; }

# untouched COMMAND..: it holds, and leaves the folder as it was.
untouched() {
    local before
    before=$(as_it_is)
    "$@" || return 1
    [ "$before" = "$(as_it_is)" ] || {
        echo "the folder isn't as it was"
        return 1
    }
}

# takes KEYS LOG: the settings with these keys take the log.
takes() {
    printf '{"include":["app.log"],"start_at":"beginning"%s}' "${1:+,$1}" >settings.json
    printf "$2" >app.log
    anew
    quietly
}

# makes KEYS LOG: the entries that the settings with these keys make of the log.
makes() { takes "$1" "$2" && entries; }

# gives KEYS LOG ENTRY..: the settings with these keys make exactly these entries of the log.
gives() {
    local keys=$1 log=$2
    shift 2
    diff <(makes "$keys" "$log") <([ $# = 0 ] || printf '%s\n' "$@")
}

# stamped KEYS LOG LINE..: the settings with these keys make exactly these of the log, as `stamps` prints them.
stamped() {
    local keys=$1 log=$2
    shift 2
    diff <(takes "$keys" "$log" && stamps) <(printf '%s\n' "$@")
}

# ends STATUS WORDS SETTINGS: these settings end `once` so, and nothing is written.
ends() {
    printf '%s' "$3" >settings.json
    untouched once "$1" "fault $1 $2$LF"
}
