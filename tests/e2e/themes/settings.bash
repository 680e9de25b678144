# Settings, and their refusals.

check_settings_refused() {
    printf 'hello\n' >app.log
    ends 3 'settings not-json' '' &&
        ends 3 'settings missing include' '{}' &&
        ends 3 'settings unknown zz' '{"include":["a"],"zz":1}' &&
        ends 3 'settings wrong-kind include' '{"include":"a"}' &&
        ends 3 'settings out-of-range fingerprint_size' '{"include":["a"],"fingerprint_size":15}' &&
        ends 3 'settings fraction fingerprint_size' '{"include":["a"],"fingerprint_size":16.5}' &&
        ends 3 'settings wrong-kind include_observed_time' '{"include":["a"],"include_observed_time":"true"}' &&
        ends 3 'settings out-of-range flush_after_polls' '{"include":["a"],"flush_after_polls":1001}' &&
        ends 3 'settings wrong-kind operators' '{"include_observed_time":1,"include":["a"],"operators":1}' &&
        ends 3 'settings missing operators[0].field' '{"include":["a"],"operators":[{"type":"remove"}]}' &&
        ends 3 'same-id 1' "${settings%\}},\"operators\":[{\"type\":\"noop\",\"id\":\"a\"},{\"type\":\"noop\",\"id\":\"a\"}]}" &&
        ends 3 'operator 0 path' "${settings%\}},\"operators\":[{\"type\":\"remove\",\"field\":\"bodyx\"}]}"
}

check_settings_too_long() {
    head -c 1048577 /dev/zero | tr '\0' ' ' >settings.json
    once 3 "fault 3 settings too-long 1048577$LF"
}

check_settings_of_the_greatest_length() {
    a_log
    head -c $((1048576 - ${#settings})) /dev/zero | tr '\0' ' ' >>settings.json
    once 0 "$(one_line)$LF"
}

check_patterns_refused() {
    for include in '[""]' '["."]' '["./app.log"]' '["logs/"]' '["a//b"]' '["../app.log"]' '["/"]' '["app.lo["]' '["app.{log"]' '["a{b/c}"]' '["app.log\\"]'; do
        ends 3 'include 0 glob' "{\"include\":$include}" || return 1
    done
    ends 3 'include 1 glob' '{"include":["a","["],"exclude":["["]}' &&
        ends 3 'exclude 1 glob' '{"include":["a","b"],"exclude":["a","["]}'
}

# The words come before the settings, and the settings before the checkpoint and the output.
check_refusals_in_order() {
    printf 'hello\n' >app.log
    printf x >checkpoint.a
    mkdir output.jsonl
    printf '{' >settings.json
    once 3 "fault 3 settings not-json$LF" || return 1
    printf '%s' '{"include":["["],"operators":[{"type":"remove","field":"bodyx"}]}' >settings.json
    once 3 "fault 3 include 0 glob$LF" || return 1
    printf '%s' "${settings%\}},\"operators\":[{\"type\":\"remove\",\"field\":\"bodyx\"},{\"type\":\"noop\",\"output\":\"zz\"}]}" >settings.json
    once 3 "fault 3 operator 0 path$LF" || return 1
    printf '%s' "$settings" >settings.json
    once 7 "fault 7 disk$LF"
}

check_no_settings() {
    printf 'hello\n' >app.log
    untouched once 3 "fault 3 settings not-json$LF"
}

check_settings_is_a_folder() {
    mkdir settings.json
    once 7 "fault 7 disk$LF"
}

check_keys_of_a_file() {
    gives '"include_file_name":false' 'a\n' '["a", {}, {}]' &&
        gives '"include_file_path":true' 'a\n' '["a", {"log.file.name": "app.log", "log.file.path": "app.log"}, {}]' &&
        gives '"include_file_name":false,"include_file_record_number":true' 'a\n\nb\n' \
            '["a", {"log.file.record_number": 1}, {}]' '["b", {"log.file.record_number": 3}, {}]' &&
        gives '"include_file_name":false,"attributes":{"env":"test"},"resource":{"host":"h"}' 'a\n' '["a", {"env": "test"}, {"host": "h"}]' &&
        gives '"attributes":{"log.file.name":"x"}' 'a\n' '["a", {"log.file.name": "app.log"}, {}]' &&
        gives '"include_file_name":false,"preserve_leading_whitespaces":true' ' a \n' '[" a", {}, {}]' &&
        gives '"include_file_name":false,"preserve_trailing_whitespaces":true' ' a \n' '["a ", {}, {}]' &&
        gives '"include_file_name":false,"fingerprint_size":16' 'a\n' '["a", {}, {}]' &&
        gives '"include_file_name":false,"include_observed_time":true' 'a\n' '["a", {}, {}]' &&
        gives '"include_file_name":false,"flush_after_polls":2' 'a\n' '["a", {}, {}]'
}

# To switch a key on is to change the settings, and so it is to write its default.
check_observed_time_switched() {
    local said
    a_log
    once 0 "$(one_line)$LF" || return 1
    for said in true false; do
        printf '%s' "${settings%\}},\"include_observed_time\":$said}" >settings.json
        untouched once 5 "fault 5 changed $((${#settings} - 1))$LF" || return 1
    done
}
