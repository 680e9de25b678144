# What operators do, and how they are wired.

check_operators() {
    local n='"include_file_name":false'
    gives "$n,\"operators\":[{\"type\":\"noop\"},{\"type\":\"noop\"}]" 'a\n' '["a", {}, {}]' &&
        gives "$n,\"operators\":[{\"type\":\"move\",\"from\":\"body\",\"to\":\"attributes.msg\"}]" 'a\n' '[null, {"msg": "a"}, {}]' &&
        gives "$n,\"operators\":[{\"type\":\"copy\",\"from\":\"body\",\"to\":\"resource[\\\"a b\\\"]\"}]" 'a\n' '["a", {}, {"a b": "a"}]' &&
        gives "$n,\"operators\":[{\"type\":\"add\",\"field\":\"attributes.tags\",\"value\":[\"x\",1,null]}]" 'a\n' '["a", {"tags": ["x", 1, null]}, {}]' &&
        gives "\"operators\":[{\"type\":\"remove\",\"field\":\"attributes[\\\"log.file.name\\\"]\"}]" 'a\n' '["a", {}, {}]' &&
        gives "$n,\"attributes\":{\"x\":\"1\",\"y\":\"2\"},\"operators\":[{\"type\":\"retain\",\"fields\":[\"attributes.x\"]}]" 'a\n' '["a", {"x": "1"}, {}]' &&
        gives "$n,\"operators\":[{\"type\":\"add\",\"field\":\"attributes.m\",\"value\":{\"m\":1,\"k\":2}},{\"type\":\"flatten\",\"field\":\"attributes.m\"}]" 'a\n' '["a", {"k": 2, "m": 1}, {}]' &&
        gives "$n,\"operators\":[{\"type\":\"move\",\"from\":\"body\",\"to\":\"body.a\"},{\"type\":\"copy\",\"from\":\"body.a\",\"to\":\"body.b\"}]" 'a\n' '[{"a": "a", "b": "a"}, {}, {}]'
}

check_errors_of_operators() {
    local n='"include_file_name":false'
    local move='"type":"move","from":"attributes.zz","to":"body"'
    gives "$n,\"operators\":[{$move}]" 'a\n' '["a", {}, {}]' &&
        gives "$n,\"operators\":[{$move,\"on_error\":\"send\"}]" 'a\n' '["a", {}, {}]' &&
        gives "$n,\"operators\":[{$move,\"on_error\":\"drop\"}]" 'a\n' &&
        gives "$n,\"operators\":[{$move,\"on_error\":\"drop_quiet\"}]" 'a\n' &&
        gives "$n,\"operators\":[{$move,\"on_error\":\"send_quiet\"},{\"type\":\"add\",\"field\":\"body\",\"value\":7}]" 'a\n' '[7, {}, {}]'
}

check_conditions() {
    local n='"include_file_name":false'
    local add='"type":"add","field":"attributes.w","value":1'
    gives "$n,\"operators\":[{$add,\"if\":\"body contains \\\"b\\\"\"}]" 'a\nab\n' '["a", {}, {}]' '["ab", {"w": 1}, {}]' &&
        gives "$n,\"operators\":[{$add,\"if\":\"attributes.zz == nil\"}]" 'a\n' '["a", {"w": 1}, {}]' &&
        gives "$n,\"operators\":[{$add,\"if\":\"7\",\"on_error\":\"drop\"}]" 'a\n' '["a", {}, {}]' &&
        gives "$n,\"operators\":[{$add,\"if\":\"body > 1\"}]" 'a\n' '["a", {}, {}]' &&
        gives "$n,\"operators\":[{$add,\"if\":\"body > 1\",\"on_error\":\"drop\"}]" 'a\n' &&
        gives "$n,\"operators\":[{\"type\":\"noop\",\"if\":\"body > 1\",\"on_error\":\"drop\"}]" 'a\n' '["a", {}, {}]'
}

check_filters() {
    local n='"include_file_name":false'
    gives "$n,\"operators\":[{\"type\":\"filter\",\"expr\":\"body matches '^#'\"}]" '#a\nb\n#c\n' '["b", {}, {}]' &&
        gives "$n,\"operators\":[{\"type\":\"filter\",\"expr\":\"body > 1\"}]" 'x\n' '["x", {}, {}]' &&
        gives "$n,\"operators\":[{\"type\":\"filter\",\"expr\":\"body > 1\",\"on_error\":\"drop\"}]" 'x\n'
}

# router ROUTE..: settings of a router with these routes, and two operators that it can send to, which send to one.
router() {
    local routes
    routes=$(printf '{"expr":"%s","output":%s},' "$@")
    printf '"include_file_name":false,"operators":[{"type":"router","id":"n","routes":[%s]%s},' "${routes%,}" "${default:+,\"default\":$default}"
    printf '{"type":"add","id":"p","field":"attributes.w","value":"p","output":"r"},'
    printf '{"type":"add","id":"q","field":"attributes.w","value":"q","output":"r"},{"type":"noop","id":"r"}]'
}

check_routers() {
    local default=
    gives "$(router true '["p","q"]')" 'a\nb\n' '["a", {"w": "p"}, {}]' '["a", {"w": "q"}, {}]' '["b", {"w": "p"}, {}]' '["b", {"w": "q"}, {}]' &&
        gives "$(router true '["q","p"]')" 'a\n' '["a", {"w": "q"}, {}]' '["a", {"w": "p"}, {}]' &&
        gives "$(router "body == 'a'" '"p"' true '"q"')" 'a\nb\n' '["a", {"w": "p"}, {}]' '["b", {"w": "q"}, {}]' &&
        gives "$(router true '"p"' true '"q"')" 'a\n' '["a", {"w": "p"}, {}]' &&
        gives "$(router "body > 1" '"p"')" 'a\n' || return 1
    default='"q"'
    gives "$(router "body > 1" '"p"')" 'a\n' '["a", {"w": "q"}, {}]'
}

# doubling N: settings with N operators, each of which sends twice to the next, and one more.
doubling() {
    printf '"include_file_name":false,"operators":['
    for place in $(seq 0 $(($1 - 1))); do
        printf '{"type":"noop","id":"n%d","output":["n%d","n%d"]},' "$place" $((place + 1)) $((place + 1))
    done
    printf '{"type":"noop","id":"n%d"}]' "$1"
}

check_many_routes() {
    [ "$(makes "$(doubling 10)" 'a\n' | uniq -c | sed 's/^ *//')" = '1024 ["a", {}, {}]' ] || return 1
    anew
    ends 3 'graph too-many-paths' "{\"include\":[\"app.log\"],\"start_at\":\"beginning\",$(doubling 11)}"
}

check_graph_refused() {
    printf 'hello\n' >app.log
    ends 3 'graph cycle 0' "${settings%\}},\"operators\":[{\"type\":\"noop\",\"id\":\"a\",\"output\":\"b\"},{\"type\":\"noop\",\"id\":\"b\",\"output\":\"a\"}]}" &&
        ends 3 'graph no-such-node 0' "${settings%\}},\"operators\":[{\"type\":\"noop\",\"output\":\"zz\"}]}" &&
        ends 3 'same-id 1' "${settings%\}},\"operators\":[{\"type\":\"noop\",\"id\":\"a\",\"output\":\"zz\"},{\"type\":\"noop\",\"id\":\"a\"}]}" &&
        ends 3 'operator 0 expr' "${settings%\}},\"operators\":[{\"type\":\"filter\",\"expr\":\"1 ==\"}]}" &&
        ends 3 'operator 1 expr' "${settings%\}},\"operators\":[{\"type\":\"noop\"},{\"type\":\"noop\",\"if\":\"body matches '('\"}]}" &&
        ends 3 'operator 0 path' "${settings%\}},\"operators\":[{\"type\":\"remove\",\"field\":\"x\",\"if\":\"(\"}]}" &&
        ends 3 'settings unknown operators[0].if' "${settings%\}},\"operators\":[{\"type\":\"router\",\"if\":\"true\",\"routes\":[{\"expr\":\"true\",\"output\":\"a\"}]}]}" &&
        ends 3 'settings out-of-range operators[0].routes' "${settings%\}},\"operators\":[{\"type\":\"router\",\"routes\":[]}]}" &&
        ends 3 'settings missing operators[0].routes[1].output' "${settings%\}},\"operators\":[{\"type\":\"router\",\"routes\":[{\"expr\":\"true\",\"output\":\"a\"},{\"expr\":\"true\"}]}]}"
}
