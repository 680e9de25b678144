# How operators stamp entries with times and severities, and what they make of messages of syslog.

# one TYPE KEYS: settings of one operator with these keys, for entries without attributes of their own.
one() { printf '"include_file_name":false,"operators":[{"type":"%s",%s}]' "$1" "$2"; }

check_time_parser() {
    stamped "$(one time_parser '"parse_from":"body","layout":"%Y-%m-%d %H:%M:%S.%L"')" '2015-08-05 21:58:59.693\n2015-02-30 00:00:00.0\n' \
        '[{}, null, null, "1438811939693000000"]' '[{}, null, null, null]' &&
        stamped "$(one time_parser '"parse_from":"body","layout":"%Y-%m-%dT%H:%M:%S%z"')" '2024-01-01T02:00:00+02:00\nx\n' \
            '[{}, null, null, "1704067200000000000"]' '[{}, null, null, null]' &&
        stamped "$(one time_parser '"parse_from":"body","layout":"%d %b %y %I:%M %p","location":"-08:00"')" '31 DEC 23 04:00 pm\n' \
            '[{}, null, null, "1704067200000000000"]' &&
        stamped "$(one time_parser '"parse_from":"body","layout_type":"epoch","layout":"s.ms"')" '1136214245.123\n1136214245\n-1\n' \
            '[{}, null, null, "1136214245123000000"]' '[{}, null, null, "1136214245000000000"]' '[{}, null, null, null]' &&
        gives "$(one time_parser '"parse_from":"body","layout":"%Y-%m-%d","on_error":"drop"')" 'x\n2024-01-01\n2024-01-01 \n2024-1-1\n' \
            '["2024-01-01", {}, {}]' '["2024-01-01", {}, {}]'
}

check_severity_parser() {
    stamped "$(one severity_parser '"parse_from":"body"')" 'WARNING\nodd\n' '[{}, 13, "WARNING", null]' '[{}, null, "odd", null]' &&
        stamped "$(one severity_parser '"parse_from":"body","mapping":{"error":"5xx","warn":404}')" '503\n404\n200\n' \
            '[{}, 17, "503", null]' '[{}, 13, "404", null]' '[{}, null, "200", null]' &&
        stamped "$(one severity_parser '"parse_from":"body","preset":"none","overwrite_text":true,"mapping":{"fatal":"error","info2":"ERROR"}')" \
            'error\nwarn\n' '[{}, 10, "INFO2", null]' '[{}, null, "warn", null]' &&
        gives "$(one severity_parser '"parse_from":"attributes","on_error":"drop"')" 'error\n'
}

check_syslog_parser() {
    local line='<86>1 2015-08-05T21:58:59.693Z 192.168.1.132 SecureAuth0 23108 ID52020 [SecureAuth@27389 Realm="x\\"y"] Found\n'
    local members='"appname": "SecureAuth0", "facility": 10, "hostname": "192.168.1.132", "message": "Found", "msg_id": "ID52020", "priority": 86, "proc_id": "23108", "structured_data": {"SecureAuth@27389": {"Realm": "x\"y"}}, "version": 1'
    gives "$(one syslog_parser '"protocol":"rfc5424","parse_to":"body"')" "$line" "[{$members}, {}, {}]" &&
        stamped "$(one syslog_parser '"protocol":"rfc5424","parse_to":"body"')" "$line<0>1 - - - - - -\n<192>1 - - - - - -\n" \
            '[{}, 9, "info", "1438811939693000000"]' '[{}, 21, "emerg", null]' '[{}, null, null, null]' &&
        gives "$(one syslog_parser '"protocol":"rfc5424"')" '<0>1 - - - - - -\n' '["<0>1 - - - - - -", {"facility": 0, "priority": 0, "version": 1}, {}]' || return 1
    line="<34>Oct 11 22:14:15 mymachine su: 'su root' failed\n"
    members='"appname": "su", "facility": 4, "hostname": "mymachine", "message": "'"'su root' failed"'", "priority": 34'
    gives "$(one syslog_parser '"protocol":"rfc3164","year":2003,"parse_to":"body"')" "$line" "[{$members}, {}, {}]" &&
        stamped "$(one syslog_parser '"protocol":"rfc3164","year":2003,"parse_to":"body"')" "$line" '[{}, 18, "crit", "1065910455000000000"]' &&
        gives "$(one syslog_parser '"protocol":"rfc3164","year":2023,"on_error":"drop"')" '<13>Feb 29 22:30:00 h t: m\n'
}

# A message without a time leaves the entry's own.
check_time_that_stays() {
    stamped "$(one time_parser '"parse_from":"attributes.at","layout_type":"epoch","layout":"s"},{"type":"syslog_parser","protocol":"rfc5424","parse_to":"body"')" \
        '<14>1 - - - - - -\n' '[{}, 9, "info", null]' &&
        stamped "$(one add '"field":"attributes.at","value":1},{"type":"time_parser","parse_from":"attributes.at","layout_type":"epoch","layout":"s"},{"type":"syslog_parser","protocol":"rfc5424","parse_to":"body"')" \
            '<14>1 - - - - - -\n<15>1 2015-08-05T21:58:59.693Z - - - - -\n' \
            '[{"at": "1"}, 9, "info", "1000000000"]' '[{"at": "1"}, 5, "debug", "1438811939693000000"]'
}

check_stamps_refused() {
    local front='{"include":["app.log"],"operators":[{"type":'
    ends 3 'operator 0 layout' "$front\"time_parser\",\"parse_from\":\"body\",\"layout\":\"%Y-%q\"}]}" &&
        ends 3 'operator 0 layout' "$front\"time_parser\",\"parse_from\":\"body\",\"layout\":\"%H\"}]}" &&
        ends 3 'operator 0 path' "$front\"time_parser\",\"parse_from\":\"x\",\"layout\":\"%H\"}]}" &&
        ends 3 'operator 0 path' "$front\"syslog_parser\",\"protocol\":\"rfc5424\",\"parse_to\":\"x\"}]}" &&
        ends 3 'settings unknown operators[0].mapping.zz' "$front\"severity_parser\",\"parse_from\":\"body\",\"mapping\":{\"zz\":1}}]}" &&
        ends 3 'settings out-of-range operators[0].layout' "$front\"time_parser\",\"parse_from\":\"body\",\"layout_type\":\"epoch\",\"layout\":\"m\"}]}" &&
        ends 3 'settings missing operators[0].year' "$front\"syslog_parser\",\"protocol\":\"rfc3164\"}]}" &&
        ends 3 'settings unknown operators[0].year' "$front\"syslog_parser\",\"protocol\":\"rfc5424\",\"year\":2024}]}" &&
        ends 3 'settings unknown operators[0].timestamp' "$front\"syslog_parser\",\"protocol\":\"rfc5424\",\"timestamp\":{}}]}"
}
