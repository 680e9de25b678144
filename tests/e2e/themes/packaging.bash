# What packaging/ has, as far as this machine can try it.

# has COMMAND: whether this machine has it.
has() { command -v "$1" >/dev/null || ! skip "there is no $1"; }

# poll_each: it is compiled.
poll_each() { [ -e "$work/poll_each" ] || cc -O2 -Wall -Wextra -Werror -o "$work/poll_each" "$root/packaging/poll_each.c"; }

# with_programs: text in which the installed programs are those that are checked.
with_programs() {
    sed "s#/usr/bin/stanza_agent#$work/bin/stanza_agent#; s#/usr/lib/stanza_agent/poll_each#$work/poll_each#
        s#/usr/lib/stanza_agent/hand_over#$root/examples/rotated/hand_over#; s#/usr/lib/stanza_agent/adopt_changed#$root/packaging/adopt_changed#"
}

# local_units: the units here, with the programs that are checked.
local_units() {
    local unit
    has cc && poll_each || return 1
    for unit in "$root"/packaging/systemd/*; do
        with_programs <"$unit" >"$(basename "$unit")" || return 1
    done
}

check_units() {
    has systemd-analyze && has cc || return 0
    local_units || return 1
    systemd-analyze verify --man=no "$PWD"/stanza-agent*.{service,timer} 2>shown
    ! grep stanza-agent shown || return 1
    # Each timer has its service, and what is stopped for another is there.
    local timer unit
    for timer in *.timer; do [ -e "${timer%.timer}.service" ] || return 1; done
    for unit in $(sed -n 's/^Conflicts=//p' ./*.service); do [ -e "$unit" ] || return 1; done
}

# They run with few rights: of an exposure from 0 to 10, as systemd counts it, with at most 1.0.
check_units_have_few_rights() {
    local unit
    has systemd-analyze && has cc || return 0
    systemd-analyze security --help | grep -q -e --offline || {
        skip "systemd-analyze can't weigh units that aren't loaded"
        return 0
    }
    local_units || return 1
    for unit in *.service; do
        systemd-analyze security --no-pager --offline=true --threshold=10 "$PWD/$unit" >shown 2>&1 || { cat shown && return 1; }
    done
}

# command_of UNIT KEY [WORD]: the command that a unit has at this key, where OUTPUT is this word, with the programs that are checked.
command_of() { sed -n "s/^$2=-\?//p" "$root/packaging/systemd/$1.service" | with_programs | sed "s# [$]OUTPUT#${3:+ $3}#"; }

# loop_of_unit, loop_of_pod: the command of the service, and that of the container, with the programs that are checked.
loop_of_unit() { command_of stanza-agent ExecStart; }
loop_of_pod() { sed -n 's/^ *command: \[\(.*poll_each.*\)\]$/\1/p' "$root/packaging/kubernetes/daemonset.yaml" | tr -d '",' | with_programs; }

# It takes what a log has and what it gets, until SIGTERM comes to all of it. The agent passes that over: it ends by the end of
# its input, when its poll is done. Of the polls only those are told that have something new.
check_polling_loop() {
    local group number status
    has cc || return 0
    poll_each && a_log && [ "$(loop_of_pod)" = "$(loop_of_unit)" ] || return 1
    setsid $(loop_of_unit) >report 2>errors &
    group=$!
    grown report 1 && sleep 2.5 && [ "$(wc -l <report)" = 1 ] && echo world >>app.log && grown report 2 &&
        number=$(pgrep -g "$group" -x stanza_agent) && passes_over 15 "$number"
    status=$?
    kill -TERM -- "-$group"
    wait "$group" && [ "$status" = 0 ] && [ ! -e "/proc/$number" ] && bodies '["hello", "world"]' &&
        diff report <(one_line && summary 1 1 0 652) && [ ! -s errors ]
}

# passes_over SIGNAL PROCESS: the process ignores this signal.
passes_over() { [ $((0x$(sed -n 's/^SigIgn:\t//p' "/proc/$2/status") >> ($1 - 1) & 1)) = 1 ]; }

# A refusal ends the loop with the agent's status, which systemd knows not to start anew, and so does a signal.
check_polling_loop_tells_the_status() {
    local group
    has cc || return 0
    poll_each && printf '{' >settings.json
    wait_for $(loop_of_unit) >report 2>errors
    [ $? = 3 ] && [ "$(cat report)" = 'fault 3 settings not-json' ] && [ ! -s errors ] || return 1
    grep '^RestartPreventExitStatus=' "$root/packaging/systemd/stanza-agent.service" | grep -q -w 3 || return 1
    a_log
    setsid $(loop_of_unit) >told &
    group=$!
    grown told 1 && pkill -KILL -g "$group" -x stanza_agent && ! wait "$group" && [ "$(cat told)" = "$(one_line)" ]
}

check_polling_loop_wants_words() {
    has cc || return 0
    poll_each || return 1
    local words
    for words in '' 1 '0 true' 'x true' '1x true'; do
        "$work/poll_each" $words 2>errors
        [ $? = 2 ] && grep -q '^usage: ' errors || return 1
    done
}

# rotate: logrotate rotates the logs here, as it does at night.
rotate() { logrotate --force --state "$PWD/state" nginx; }

check_logrotate() {
    local settings
    has logrotate || return 0
    settings=$(sed -n 's/^#   \("include".*\)/{\1, "start_at": "beginning"}/p' "$root/packaging/logrotate/nginx")
    sed "s#/var/log/#$PWD/log/#; s#/run/nginx.pid#$PWD/nginx.pid#; s#create 0640 www-data adm#create 0640 $(id -un) $(id -gn)#
        s#dateext#dateext\n    dateformat -%Y%m%d-%s#" "$root/packaging/logrotate/nginx" >nginx
    chmod 644 nginx
    mkdir -p log/nginx
    sed 's#/var/log/#log/#g' <<<"$settings" >settings.json
    echo one >log/nginx/access.log && quietly || return 1
    echo two >>log/nginx/access.log && rotate && echo three >log/nginx/access.log && quietly || return 1
    # The next night compresses what was rotated first.
    sleep 1 && rotate && echo four >log/nginx/access.log && ls log/nginx/*.gz && quietly || return 1
    [ "$(told | awk '{ print $NF }' | sort | tr '\n' ' ')" = 'four one three two ' ]
}

# handed_on: what is kept of the output here is handed on into this folder.
handed_on() { PATH=$work/bin:$PATH "$root/examples/rotated/hand_over" "$1"; }

# Each unit that polls keeps an output in many files where its OUTPUT says so, adopts changed settings for it, and its lines are handed on.
check_units_with_an_output_in_many_files() {
    local unit
    has cc && poll_each || return 0
    for unit in stanza-agent stanza-agent-once; do
        grep -q -x 'Environment=ADOPT=no OUTPUT=' "$root/packaging/systemd/$unit.service" || return 1
        [ "$(command_of "$unit" ExecStartPre segments)" = "$root/packaging/adopt_changed segments" ] || return 1
        anew && rm -rf spool handed output.*.jsonl && mkdir spool && a_log || return 1
        polled_by "$unit" >report && [ "$(cat report)" = "$(one_line)" ] && handed_on spool || return 1
        with_an_attribute && echo world >>app.log && [ "$(polled_by "$unit")" = 'fault 5 changed 45' ] || return 1
        [ "$(PATH=$work/bin:$PATH ADOPT=yes $(command_of "$unit" ExecStartPre segments))" = 'adopted rows=1 lines=0 eras=2 output=326' ] || return 1
        [ "$(polled_by "$unit" | grep -c '^files=1 lines=1 ')" = 1 ] && handed_on spool && [ "$(ls spool | wc -l)" = 2 ] && [ ! -e output.jsonl ] || return 1
        cat spool/*.jsonl >output.jsonl && tells '1 1 app.log hello' '1 2 app.log world' && [ "$(grep -c '"test"' output.jsonl)" = 1 ] || return 1
    done
}

# polled_by UNIT: what a run of the unit prints, with an output in many files. A service that goes on is ended after its first poll.
polled_by() {
    local group
    # What an earlier run printed would tell that this one has begun.
    rm -f polled
    setsid $(command_of "$1" ExecStart segments) >polled 2>&1 &
    group=$!
    grown polled 1
    [ "$1" = stanza-agent-once ] || kill -TERM -- "-$group" 2>/dev/null
    wait "$group"
    cat polled
}

# with_an_attribute: the settings that a_log wrote, with one key more.
with_an_attribute() { printf '%s' "${settings%\}},\"attributes\":{\"env\":\"test\"}}" >settings.json; }

# What hand_over keeps beside the agent's own files is a file as any other.
check_handed_is_read_by_a_pattern() {
    a_folder '*'
    mkdir spool && echo hello >app.log && quietly && handed_on spool && quietly && handed_on spool && cat spool/* >output.jsonl &&
        tells '1 1 app.log hello' '2 1 handed 326'
}

# absolute_patterns_spare: settings from standard input exclude the agent's folder and its spool, if a pattern is absolute.
absolute_patterns_spare() {
    python3 -c '
import json, sys
settings = json.load(sys.stdin)
own = {"/var/lib/stanza_agent/**", "/var/spool/stanza_agent/**"}
sys.exit(any(it.startswith("/") for it in settings["include"]) and not own <= set(settings.get("exclude", [])))'
}

# No settings that are shipped take the agent's own files: relative patterns pass them over, and absolute ones are looked at here.
check_own_files_are_excluded() {
    local file count=0
    ! absolute_patterns_spare <<<'{"include": ["/var/**"]}' || return 1
    for file in "$root"/examples/*/settings.json "$root"/packaging/debian/settings.json; do
        absolute_patterns_spare <"$file" || { echo "$file" && return 1; }
        count=$((count + 1))
    done
    python3 -c 'import yaml' 2>/dev/null || { skip "python3 has no yaml"; return 0; }
    settings_of_pods | absolute_patterns_spare && [ "$count" -gt 9 ]
}

# polls_of_all WORD..: how many lines each of four polls reads, which these words begin. The settings are those of standard input, but
# that they include all below var/ here, where the agent's folder is and its output is handed on.
polls_of_all() {
    rm -rf var && mkdir -p var/lib/stanza_agent var/spool/stanza_agent var/log && echo hello >var/log/app.log || return 1
    python3 -c '
import json, sys
here, said = sys.argv[1], json.load(sys.stdin)
exclude = [here + it for it in said.get("exclude", []) if it.startswith("/")]
print(json.dumps({"include": [here + "/var/**"], "exclude": exclude, "start_at": "beginning"}))' "$PWD" >var/lib/stanza_agent/settings.json
    (
        cd var/lib/stanza_agent || exit 1
        for _ in 1 2 3 4; do
            wait_for "$agent" "$@" once | grep -o ' lines=[0-9]*' && handed_on "$PWD/../../spool/stanza_agent" || exit 1
        done
    ) | tr -d 'lines=\n'
}

# The excludes that are shipped leave out whatever the agent and its hand-over write, with the output in one file and in many. Without
# them each poll reads what the one before wrote.
check_excludes_spare_what_is_written() {
    local words lines
    for words in '' segments; do
        [ "$(polls_of_all $words <"$root/packaging/debian/settings.json")" = ' 1 0 0 0' ] || return 1
        lines=$(echo '{}' | polls_of_all $words) && [ "$lines" != '' ] && ! grep -q ' 0' <<<"$lines" || return 1
        ! python3 -c 'import yaml' 2>/dev/null || [ "$(settings_of_pods | polls_of_all $words)" = ' 1 0 0 0' ] || return 1
    done
}

# settings_of_pods: the settings in the ConfigMap. What the containers are handed is what they look for.
settings_of_pods() {
    python3 -c '
import sys, yaml
(config, pods) = yaml.safe_load_all(open(sys.argv[1]))
assert (config["kind"], pods["kind"]) == ("ConfigMap", "DaemonSet")
spec = pods["spec"]["template"]["spec"]
assert pods["spec"]["selector"]["matchLabels"].items() <= pods["spec"]["template"]["metadata"]["labels"].items()
volumes = {it["name"]: it for it in spec["volumes"]}
assert volumes["settings"]["configMap"]["name"] == config["metadata"]["name"]
assert pods["metadata"]["name"] == "stanza-agent"
named = {}
for it in spec["initContainers"] + spec["containers"]:
    assert it["workingDir"] == "/var/lib/stanza_agent"
    assert it["securityContext"]["capabilities"]["drop"] == ["ALL"] and it["securityContext"]["readOnlyRootFilesystem"]
    wants = {"settings": 16, "hand-over": 160}.get(it["name"], 320)
    assert int(it["resources"]["limits"]["memory"].removesuffix("Mi")) >= wants, it["name"]
    named[it["name"]] = {mount["name"]: mount for mount in it["volumeMounts"]}
    assert named[it["name"]].keys() <= volumes.keys()
    for name, mount in named[it["name"]].items():
        host = volumes[name].get("hostPath", {"path": "/etc/stanza_agent"})
        assert mount["mountPath"] == host["path"], (it["name"], name)
assert [*named] == ["settings", "adopt", "stanza-agent", "hand-over"] and named["adopt"].keys() == {"state"}
assert named["stanza-agent"].keys() == {"logs", "state"} and named["stanza-agent"]["logs"]["readOnly"]
assert named["hand-over"].keys() == {"state", "spool"} and named["settings"].keys() == {"state", "settings"}
if len(sys.argv) > 2:
    (it,) = [it for it in spec["initContainers"] + spec["containers"] if it["name"] == sys.argv[2]]
    print(it["command"][-1], end="")
else:
    print(config["data"]["settings.json"], end="")' "$root/packaging/kubernetes/daemonset.yaml" "$@"
}

# a_node: the folder is a node, with the settings that the first container writes.
a_node() {
    python3 -c 'import yaml' 2>/dev/null || { skip "python3 has no yaml"; return 1; }
    mkdir -p etc && settings_of_pods | sed 's#"/var/#"var/#g' >etc/settings.json && [ -s etc/settings.json ] || return 1
    NODE_NAME=node-7 sh -euc "$(settings_of_pods settings | sed 's#/etc/stanza_agent/#etc/#')" && [ ! -e settings.json.new ]
}

check_daemon_set() {
    local pods=var/log/pods/shop_web-1_0a1b/nginx
    a_node || { [ -e "$work/skipped" ]; return; }
    mkdir -p "$pods"
    echo '2024-05-01T10:00:00.5Z stdout F {"level":"warn","msg":"low"}' >"$pods/0.log.20240501-100001"
    # The blank at the end of a part stays where the parts are joined.
    printf '2024-05-01T10:00:0%s\n' '1Z stderr P half ' '2Z stderr F plain' >"$pods/0.log"
    echo '2024-05-01T09:00:00Z stdout F old' | gzip >"$pods/0.log.20240501-090001.gz"
    quietly && "$root/examples/show" | sed 's/, k8s.namespace.*0a1b | / | /; s/, k8s.namespace.*0a1b$//' | diff - <(
        printf '1 | half plain | log.file.name=0.log, log.file.path=%s/0.log, log.iostream=stderr' "$pods"
        echo ' | k8s.container.name=nginx, k8s.container.restart_count="0" | time=2024-05-01T10:00:01.000000000Z'
        printf '1 | "{\\"level\\":\\"warn\\",\\"msg\\":\\"low\\"}" | level=warn, log.file.name=0.log.20240501-100001, '
        printf 'log.file.path=%s/0.log.20240501-100001, log.iostream=stdout, msg=low' "$pods"
        echo ' | k8s.container.name=nginx, k8s.container.restart_count="0" | severity=13 warn, time=2024-05-01T10:00:00.500000000Z'
    ) && [ "$(grep -c '"k8s.node.name","value":{"stringValue":"node-7"}' output.jsonl)" = 2 ]
}

# adopted_by ADOPT [WORD]: what the command that comes before the agent prints, where ADOPT is this, and its status.
adopted_by() {
    PATH=$work/bin:$PATH ADOPT=$1 wait_for "$root/packaging/adopt_changed" ${2:+"$2"}
    echo "status $?"
}

# Settings that are the same, and a folder in which nothing is kept, are left to the agent, and so are settings that are refused. With
# changed ones the agent refuses to poll, but where they are to be adopted.
check_changed_settings() {
    a_log && [ "$(adopted_by yes)" = 'status 0' ] && once 0 "$(one_line)$LF" && [ "$(untouched adopted_by yes)" = 'status 0' ] || return 1
    sed -i 's/}$/,"operators":[]}/' settings.json && echo world >>app.log
    [ "$(untouched adopted_by no)" = 'status 0' ] && [ "$(unset ADOPT && PATH=$work/bin:$PATH "$root/packaging/adopt_changed")" = '' ] &&
        once 5 "fault 5 changed 45$LF" && [ "$(adopted_by yes)" = "adopted rows=1 lines=0 eras=2 output=326${LF}status 0" ] &&
        once 0 "$(summary 1 1 0 652)$LF" && bodies '["hello", "world"]' || return 1
    sed -i 's/}$/,"fingerprint_size":16}/' settings.json
    [ "$(untouched adopted_by yes)" = "fault 18 fingerprint 1000 16${LF}status 18" ] && printf '{' >settings.json &&
        [ "$(untouched adopted_by yes)" = 'status 0' ] || return 1
    # Both units that poll do so, each before it polls, and neither unless it is told to.
    local unit
    for unit in stanza-agent stanza-agent-once; do
        [ "$(grep -c -x -e 'Environment=ADOPT=no OUTPUT=' -e 'ExecStartPre=-/usr/lib/stanza_agent/adopt_changed $OUTPUT' \
            "$root/packaging/systemd/$unit.service")" = 2 ] || return 1
    done
}

# A node adopts a changed ConfigMap: each line comes once, and those that come later are made by the new settings.
check_daemon_set_adopts_changed_settings() {
    local log=var/log/pods/shop_web-1_0a1b/nginx/0.log command
    a_node || { [ -e "$work/skipped" ]; return; }
    command=$(settings_of_pods adopt) && [ "$command" = /usr/lib/stanza_agent/adopt_changed ] || return 1
    grep -A 6 'name: adopt$' "$root/packaging/kubernetes/daemonset.yaml" | grep -q -x ' *- {name: ADOPT, value: "yes"}' || return 1
    mkdir -p "$(dirname "$log")" && echo '2024-05-01T10:00:00Z stdout F one' >"$log" && [ "$(adopted_by yes)" = 'status 0' ] && quietly || return 1
    sed -i 's/"operators": \[/&{"type": "add", "field": "attributes.env", "value": "test"},/' etc/settings.json
    NODE_NAME=node-7 sh -euc "$(settings_of_pods settings | sed 's#/etc/stanza_agent/#etc/#')"
    echo '2024-05-01T10:00:01Z stdout F two' >>"$log"
    [ "$(adopted_by yes | sed 's/output=.*//')" = "adopted rows=1 lines=0 eras=2 ${LF}status 0" ] && quietly && entries >said &&
        [ "$(cut -d , -f 1 said | tr -d '[\n')" = '"one""two"' ] && [ "$(grep -c '"env": "test"' said)" = 1 ] && tail -n 1 said | grep -q '"env": "test"'
}

# ten_polls WORD..: what the agent prints comes into its own pod's log, as the kubelet writes it, and what is handed on into the spool.
# The length of the output after each poll, which the words begin, on one line.
ten_polls() {
    local own=var/log/pods/logging_stanza-agent-x7k2p_0a1c number lengths=()
    mkdir -p "$own"/{settings,stanza-agent,hand-over} var/spool/stanza_agent var/log/pods/shop_web-1_0a1b/nginx
    echo '2024-05-01T10:00:00Z stderr F output.jsonl keeps its room' >"$own/hand-over/0.log"
    echo '2024-05-01T10:00:00Z stdout F hello' >var/log/pods/shop_web-1_0a1b/nginx/0.log
    for number in 0 1 2 3 4 5 6 7 8 9; do
        wait_for "$agent" "$@" once >"$work/report" && handed_on var/spool/stanza_agent || return 1
        sed "s/^/2024-05-01T10:00:1${number}Z stdout F /" "$work/report" >>"$own/stanza-agent/0.log"
        lengths+=("$("$agent" "$@" committed)")
    done
    echo "${lengths[*]}"
}

# Its own output is left alone: ten polls read the one line of the other pod. Without the excludes each poll would read more.
check_daemon_set_leaves_its_own_output_alone() {
    leaves_alone
}

# The same with the words that the head of the file has for an output in many files.
check_daemon_set_with_an_output_in_many_files() {
    grep -q 'put `segments` behind `adopt_changed` and before `follow`' "$root/packaging/kubernetes/daemonset.yaml" || return 1
    leaves_alone segments || return 1
    [ ! -e "$work/skipped" ] || return 0
    [ ! -e output.jsonl ] && [ -s output.0.jsonl ] && sed -i 's/"operators": \[/&{"type": "noop"},/' settings.json &&
        adopted_by yes segments | grep -q '^adopted rows=3 lines=0 eras=2 '
}

# leaves_alone WORD..: ten polls, which the words begin.
leaves_alone() {
    local lengths
    a_node || { [ -e "$work/skipped" ]; return; }
    lengths=$(ten_polls "$@") || return 1
    [ "$(tr ' ' '\n' <<<"$lengths" | sort -u | wc -l)" = 1 ] && [ "$(cat var/spool/stanza_agent/*.jsonl | wc -l)" = 1 ] || {
        echo "$lengths"
        return 1
    }
    anew && rm -rf handed output.*.jsonl var/spool && sed -i '/stanza-agent-?????/d' settings.json && lengths=$(ten_polls "$@") &&
        [ "$(tr ' ' '\n' <<<"$lengths" | sort -u | wc -l)" = 10 ]
}
