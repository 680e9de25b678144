# Entries that are joined, and lines of containers. What is open waits for the next run, and each run is a restart.

joining() { printf '"include_file_name":false,"operators":[{"type":"recombine","combine_field":"body",%s}]' "$1"; }

check_parts_of_a_line() {
    local t=2024-01-01T00:00:00.00000000
    takes '"operators":[{"type":"container"}]' "${t}1Z stdout P ab\n${t}2Z stdout P cd\n" && diff <(summary 1 0 0 0) "$work/report" || return 1
    printf '%s\n' "${t}3Z stderr F err" "${t}4Z stdout F ef" >>app.log
    quietly && tells '1 1 app.log err' '1 2 app.log abcdef' && diff <(stamps) <(
        echo '[{"log.file.name": "app.log", "log.iostream": "stderr"}, null, null, "1704067200000000003"]'
        echo '[{"log.file.name": "app.log", "log.iostream": "stdout"}, null, null, "1704067200000000001"]'
    )
}

check_pods() {
    local path=var/log/pods/ns_pod_0a-1/app/3.log
    local said='"log.file.name": "3.log", "log.file.path": "'$path'", "log.iostream": "stdout"'
    local pod='"k8s.container.name": "app", "k8s.container.restart_count": "3", "k8s.namespace.name": "ns", "k8s.pod.name": "pod", "k8s.pod.uid": "0a-1"'
    mkdir -p "$(dirname $path)" && printf '{"log":"hi\\n","stream":"stdout","time":"2024-01-01T00:00:00.5Z"}\n' >$path
    printf '{"include":["%s"],"start_at":"beginning","include_file_path":true,"operators":[{"type":"container"}]}' $path >settings.json
    quietly && diff <(entries) <(echo '["hi\n", {'"$said"'}, {'"$pod"'}]') &&
        diff <(stamps) <(echo '[{'"$said"'}, null, null, "1704067200500000000"]')
}

check_containers() {
    local n='"include_file_name":false,"operators":[{"type":"container"'
    local cri='2024-01-01T00:00:00Z stdout F a b\n' other='x stdout F a\n'
    gives "$n}]" "$cri$other" '["a b", {"log.iostream": "stdout"}, {}]' '["x stdout F a", {}, {}]' &&
        gives "$n,\"on_error\":\"drop\"}]" "$other$cri" '["a b", {"log.iostream": "stdout"}, {}]' &&
        gives "$n,\"format\":\"docker\"}]" "$cri" '["2024-01-01T00:00:00Z stdout F a b", {}, {}]' &&
        gives "$n,\"format\":\"crio\"}]" "$cri" '["a b", {"log.iostream": "stdout"}, {}]'
}

check_joined_entries() {
    gives "$(joining '"max_batch_size":2,"is_last_entry":"false"')" 'a\nb\nc\n' '["a\nb", {}, {}]' &&
        gives "$(joining "\"is_first_entry\":\"body startsWith '*'\",\"combine_with\":\"\"")" 'a\n*b\nc\n*d\n*e\n' '["a", {}, {}]' '["*bc", {}, {}]' '["*d", {}, {}]' &&
        gives "$(joining "\"is_last_entry\":\"body == 'z'\",\"if\":\"body != 'x'\"")" 'a\nx\nz\n' '["x", {}, {}]' '["a\nz", {}, {}]' &&
        gives "$(joining '"is_last_entry":"body > 1","on_error":"drop"')" 'a\n' &&
        gives "$(joining '"is_last_entry":"body > 1"')" 'a\n' '["a", {}, {}]'
}

# Entries that two ways lead to one operator are joined there, in the order in which they come.
check_joined_behind_a_router() {
    gives '"include_file_name":false,"operators":[{"type":"router","id":"n","routes":[{"expr":"true","output":["p","q"]}]},{"type":"add","id":"p","field":"attributes.w","value":"p","output":"r"},{"type":"add","id":"q","field":"attributes.w","value":"q","output":"r"},{"type":"recombine","id":"r","combine_field":"body","combine_with":"+","is_last_entry":"body == '"'b'"'"}]' \
        'a\nb\n' '["a+a+b", {"w": "p"}, {}]' '["b", {"w": "q"}, {}]'
}

# grows KEYS LOG: the log that comes line by line, with a run for each half of a line, gives what it gives at once.
grows() {
    local line
    takes "$1" "$2" && [ -s output.jsonl ] && cp output.jsonl all && cp app.log whole || return 1
    anew && : >app.log
    while IFS= read -r line; do
        printf '%s' "$line" >>app.log && quietly && printf '\n' >>app.log && quietly || return 1
    done <whole
    cmp output.jsonl all
}

check_restarts() {
    local t=2024-01-01T00:00:0
    grows '"operators":[{"type":"container"}]' "${t}1Z stdout P a\n${t}2Z stderr P b\n${t}3Z stdout P c\n${t}4Z stderr F d\n${t}5Z stdout F e\n" &&
        grows "$(joining "\"is_first_entry\":\"body startsWith '*'\",\"overwrite_with\":\"newest\"")" '*1\n2\n*3\n4\n*5\n6\n' &&
        grows '"operators":[{"type":"recombine","combine_field":"body","is_last_entry":"body contains '"'.'"'"},{"type":"noop"},{"type":"recombine","combine_field":"body","combine_with":"-","is_last_entry":"body contains '"'z'"'","if":"body != '"'x.'"'"}]' \
            'a\nb.\nx.\nc\nz.\nd.\n' &&
        grows '"operators":[{"type":"json_parser"},{"type":"recombine","combine_field":"attributes.t","is_last_entry":"attributes.l","source_identifier":"attributes.s","on_error":"drop"}]' \
            '{"s":"a","t":"1","l":false}\n{"s":"b","t":"2","l":false}\nno\n{"s":"b","t":"3","l":true}\n{"s":"a","t":"4","l":true}\n'
}

check_groups_refused() {
    local front='{"include":["app.log"],"operators":[{"type":"recombine"'
    ends 3 'settings missing operators[0].combine_field' "$front}]}" &&
        ends 3 'settings missing operators[0].is_first_entry' "$front,\"combine_field\":\"body\"}]}" &&
        ends 3 'settings out-of-range operators[0]' "$front,\"combine_field\":\"body\",\"is_first_entry\":\"(\",\"is_last_entry\":\"(\"}]}" &&
        ends 3 'operator 0 expr' "$front,\"combine_field\":\"body\",\"is_first_entry\":\"(\"}]}" &&
        ends 3 'operator 0 path' "$front,\"combine_field\":\"body\",\"is_first_entry\":\"(\",\"source_identifier\":\"x\"}]}" &&
        ends 3 'settings out-of-range operators[0].format' '{"include":["app.log"],"operators":[{"type":"container","format":"cri"}]}'
}
