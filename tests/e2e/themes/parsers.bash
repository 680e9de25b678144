# What parsers make of texts, where they put it, and how they stamp entries.

# one TYPE [KEYS]: settings of one parser with these keys, for entries without attributes of their own.
one() { printf '"include_file_name":false,"operators":[{"type":"%s"%s}]' "$1" "${2:+,$2}"; }

check_json_parser() {
    gives '"operators":[{"type":"json_parser"}]' '{"a":1,"b":1.50,"c":9223372036854775808}\n' \
        '["{\"a\":1,\"b\":1.50,\"c\":9223372036854775808}", {"a": 1, "b": "1.50", "c": "9223372036854775808", "log.file.name": "app.log"}, {}]' &&
        gives "$(one json_parser)" ' {"k":[true,null,{"x":-7}],"k2":"","k2":"last"} \n' \
            '["{\"k\":[true,null,{\"x\":-7}],\"k2\":\"\",\"k2\":\"last\"}", {"k": [true, null, {"x": -7}], "k2": "last"}, {}]' &&
        gives "$(one json_parser)" '[1]\n{"a":1\n{}x\n7\n' '["[1]", {}, {}]' '["{\"a\":1", {}, {}]' '["{}x", {}, {}]' '["7", {}, {}]' &&
        gives "$(one json_parser '"on_error":"drop"')" 'x\n{"a":1}\n' '["{\"a\":1}", {"a": 1}, {}]'
}

check_regex_parser() {
    local pattern='"regex":"(?P<t>\\S+) (?P<sev>\\w+) (?P<m>.*)"'
    local blocks='"timestamp":{"parse_from":"attributes.t","layout":"%Y-%m-%dT%H:%M:%S%z"},"severity":{"parse_from":"attributes.sev"}'
    stamped "$(one regex_parser "$pattern,$blocks")" '2024-01-01T00:00:00Z warn disk low\n' \
        '[{"m": "disk low", "sev": "warn", "t": "2024-01-01T00:00:00Z"}, 13, "warn", "1704067200000000000"]' &&
        # Where one of the three can't be done none is.
        stamped "$(one regex_parser "$pattern,$blocks")" 'x warn disk low\nwarn\n' '[{}, null, null, null]' '[{}, null, null, null]' &&
        gives "$(one regex_parser '"regex":"(?P<k>a+)|(?P<other>b)"')" 'xaab\n' '["xaab", {"k": "aa", "other": ""}, {}]' &&
        gives "$(one regex_parser "$pattern,\"on_error\":\"drop\"")" 'one\n'
}

check_csv_parser() {
    local header='"header":"id,msg"'
    gives "$(one csv_parser "$header")" '7,"a,b"\n, b\n"""x""",\n' \
        '["7,\"a,b\"", {"id": "7", "msg": "a,b"}, {}]' '[", b", {"id": "", "msg": " b"}, {}]' '["\"\"\"x\"\"\",", {"id": "\"x\"", "msg": ""}, {}]' &&
        gives "$(one csv_parser "$header")" '7\na,b,c\n1,2\r3,4\n' '["7", {}, {}]' '["a,b,c", {}, {}]' '["1,2\r3,4", {}, {}]' &&
        gives "$(one csv_parser "$header,\"on_error\":\"drop\"")" '7\n1,2\n' '["1,2", {"id": "1", "msg": "2"}, {}]' &&
        gives "$(one csv_parser '"header":"a;b,c","delimiter":";","parse_to":"body"')" '1;2,3\n' '[{"a": "1", "b,c": "2,3"}, {}, {}]' &&
        stamped "$(one csv_parser '"header":"t,s","timestamp":{"parse_from":"attributes.t","layout_type":"epoch","layout":"s"},"severity":{"parse_from":"attributes.s"}')" \
            '1704067200,warn\nx,warn\n' '[{"s": "warn", "t": "1704067200"}, 13, "warn", "1704067200000000000"]' '[{}, null, null, null]'
}

check_key_value_parser() {
    gives "$(one key_value_parser)" "a=1 b=\"x y\" c='z=1'\na=1\ta=2 \"k k\"= d=e=f\n" \
        "[\"a=1 b=\\\"x y\\\" c='z=1'\", {\"a\": \"1\", \"b\": \"x y\", \"c\": \"z=1\"}, {}]" \
        '["a=1\ta=2 \"k k\"= d=e=f", {"a": "2", "d": "e=f", "k k": ""}, {}]' &&
        gives "$(one key_value_parser)" 'a=1 b\na=1 b="x\n=1\n""=1\n' '["a=1 b", {}, {}]' '["a=1 b=\"x", {}, {}]' '["=1", {}, {}]' '["\"\"=1", {}, {}]' &&
        gives "$(one key_value_parser '"delimiter":": ","pair_delimiter":";"')" 'a: 1 ; b: 2;;a: x y;\na: 1;b\n' \
            '["a: 1 ; b: 2;;a: x y;", {"a": "x y", "b": "2"}, {}]' '["a: 1;b", {}, {}]' &&
        gives "$(one key_value_parser '"on_error":"drop"')" 'b\na=1\n' '["a=1", {"a": "1"}, {}]' &&
        stamped "$(one key_value_parser '"parse_to":"body","timestamp":{"parse_from":"body.t","layout_type":"epoch","layout":"s"},"severity":{"parse_from":"body.s"}')" \
            't=1704067200 s=warn\nt=x s=warn\n' '[{}, 13, "warn", "1704067200000000000"]' '[{}, null, null, null]'
}

check_where_members_are_put() {
    local log='{"a":1,"b":{"c":2}}\n' text='"{\"a\":1,\"b\":{\"c\":2}}"'
    local add='"include_file_name":false,"operators":[{"type":"add","field":"attributes.m","value":%s},{"type":"json_parser","parse_to":"%s"}]'
    gives "$(printf "$add" '{"a":0,"z":9}' attributes.m)" "$log" "[$text, {\"m\": {\"a\": 1, \"b\": {\"c\": 2}, \"z\": 9}}, {}]" &&
        gives "$(printf "$add" '"text"' attributes.m)" "$log" "[$text, {\"m\": {\"a\": 1, \"b\": {\"c\": 2}}}, {}]" &&
        gives "$(printf "$add" '"text"' attributes.m.x)" "$log" "[$text, {\"m\": \"text\"}, {}]" &&
        gives "$(one json_parser '"parse_to":"resource"')" "$log" "[$text, {}, {\"a\": 1, \"b\": {\"c\": 2}}]" &&
        gives "$(one json_parser '"parse_to":"body"')" "$log" '[{"a": 1, "b": {"c": 2}}, {}, {}]' &&
        gives "$(one json_parser '"parse_to":"attributes.x.y"')" '{"a":null}\n' '["{\"a\":null}", {"x": {"y": {"a": null}}}, {}]' &&
        gives "$(one json_parser '"parse_from":"attributes.zz"')" "$log" "[$text, {}, {}]"
}

check_parsers_refused() {
    local front='{"include":["app.log"],"operators":[{"type":"regex_parser",'
    ends 3 'operator 0 pattern' "$front\"regex\":\"(\"}]}" &&
        ends 3 'operator 0 no-names' "$front\"regex\":\"(a)\"}]}" &&
        ends 3 'operator 0 path' "$front\"regex\":\"(\",\"parse_from\":\"x\"}]}" &&
        ends 3 'operator 0 pattern' "$front\"regex\":\"(\",\"timestamp\":{\"parse_from\":\"body\",\"layout\":\"%q\"}}]}" &&
        ends 3 'operator 0 layout' "$front\"regex\":\"a\",\"timestamp\":{\"parse_from\":\"body\",\"layout\":\"%q\"}}]}" &&
        ends 3 'settings missing operators[0].regex' "${front%,}}]}" &&
        ends 3 'settings missing operators[0].timestamp.layout' "$front\"regex\":\"(\",\"timestamp\":{\"parse_from\":\"body\"}}]}"
}

check_delimiters_refused() {
    local csv='{"include":["app.log"],"operators":[{"type":"csv_parser"' pairs='{"include":["app.log"],"operators":[{"type":"key_value_parser"'
    ends 3 'settings missing operators[0].header' "$csv}]}" &&
        ends 3 'settings out-of-range operators[0].header' "$csv,\"header\":\"a,b,a\"}]}" &&
        ends 3 'settings out-of-range operators[0].header' "$csv,\"header\":\"a,,b\"}]}" &&
        ends 3 'settings out-of-range operators[0].delimiter' "$csv,\"header\":1,\"delimiter\":\"::\"}]}" &&
        ends 3 'settings out-of-range operators[0].delimiter' "$csv,\"header\":\"a\",\"delimiter\":\"\\n\"}]}" &&
        ends 3 'settings wrong-kind operators[0].delimiter' "$pairs,\"delimiter\":7}]}" &&
        ends 3 'settings out-of-range operators[0].delimiter' "$pairs,\"delimiter\":\"\"}]}" &&
        ends 3 'settings out-of-range operators[0].delimiter' "$pairs,\"delimiter\":\"'\"}]}" &&
        ends 3 'settings out-of-range operators[0].pair_delimiter' "$pairs,\"pair_delimiter\":\"=\"}]}" &&
        ends 3 'settings unknown operators[0].header' "$pairs,\"header\":\"a\"}]}" &&
        ends 3 'operator 0 path' "$csv,\"header\":\"a\",\"parse_from\":\"x\"}]}" &&
        ends 3 'operator 0 layout' "$pairs,\"timestamp\":{\"parse_from\":\"body\",\"layout\":\"%q\"}}]}"
}
