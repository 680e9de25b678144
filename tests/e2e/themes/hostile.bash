# Lines and settings that are made to cost much. They cost no more than their size tells.

# long KEYS: settings with these keys, which take lines of up to 4 MiB.
long() { printf '{"include":["app.log"],"start_at":"beginning","max_log_size":4194304,"include_file_name":false,"operators":[%s]}' "$1" >settings.json; }

# spent: a first run takes the log. Tells its processor time in milliseconds.
spent() {
    anew
    local TIMEFORMAT='%U %S' times
    times=$({ time quietly 2>"$work/errors"; } 2>&1) || return 1
    awk '{ printf "%d\n", ($1 + $2) * 1000 }' <<<"$times"
}

# twice_as_long HALF WHOLE: what is twice as large takes at most three times as long, where it takes more than a moment.
twice_as_long() {
    echo "$1 ms, and $2 ms for twice as much"
    [ "$2" -le $((3 * $1 + 300)) ]
}

# a_line COUNT TEXT: a log whose one line is the text so many times.
a_line() {
    yes "$2" | head -n "$1" | tr -d '\n' >app.log
    echo >>app.log
}

check_quotes() {
    local count half whole
    count=$(much 2097152)
    long ''
    a_line "$count" '"'
    half=$(spent) || return 1
    a_line $((2 * count)) '"'
    whole=$(spent) || return 1
    twice_as_long "$half" "$whole" &&
        python3 -c 'import json, sys
record, = [json.loads(line) for line in open("output.jsonl")]
body = record["resourceLogs"][0]["scopeLogs"][0]["logRecords"][0]["body"]["stringValue"]
assert body == int(sys.argv[1]) * chr(34), len(body)' $((2 * count))
}

# an_object COUNT: a log whose one line is an object with so many members, the greatest name first.
an_object() { python3 -c 'import json, sys; print(json.dumps({f"k{n:06}": n for n in reversed(range(int(sys.argv[1])))}))' "$1" >app.log; }

check_members() {
    local count half whole
    count=$(much 50000)
    long '{"type":"json_parser"},{"type":"move","from":"attributes.k000000","to":"attributes.first"},{"type":"move","from":"body","to":"attributes.text"}'
    an_object "$count"
    half=$(spent) || return 1
    an_object $((2 * count))
    whole=$(spent) || return 1
    twice_as_long "$half" "$whole" &&
        python3 -c 'import json, sys
count = int(sys.argv[1])
record, = [json.loads(line) for line in open("output.jsonl")]
attributes = record["resourceLogs"][0]["scopeLogs"][0]["logRecords"][0]["attributes"]
keys = [a["key"] for a in attributes]
assert keys == sorted(keys) and len(keys) == count + 1, len(keys)
assert attributes[0] == {"key": "first", "value": {"intValue": "0"}} and keys[-2:] == [f"k{count - 1:06}", "text"], keys[-2:]' $((2 * count))
}

# patterns COUNT: a router of so many patterns, of which the last one alone is found.
patterns() {
    long "$(python3 -c 'import json, sys
count = int(sys.argv[1])
routes = [{"expr": f"body matches \"x{n}$\"", "output": "found"} for n in range(count)]
print(json.dumps({"type": "router", "routes": routes})[:-1] + "},{\"type\":\"noop\",\"id\":\"found\"}")' "$1")"
    for number in $(seq 100); do echo "$number x$(($1 - 1))"; done >app.log
}

check_patterns() {
    local count half whole
    count=$(much 500)
    patterns "$count"
    half=$(spent) || return 1
    patterns $((2 * count))
    whole=$(spent) || return 1
    twice_as_long "$half" "$whole" && [ "$(wc -l <output.jsonl)" = 100 ]
}
