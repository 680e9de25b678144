# What the documents show: each fenced block of a kind that can be run is run, and so are the rows of their examples.

documents=("$root"/README.md "$root"/docs/*.md)

document() { "$root/tests/e2e/document" "$@"; }

# each_document FUNCTION: calls it with the fenced blocks of each document in the folder `blocks`, and says which failed.
each_document() {
    local file
    for file in "${documents[@]}"; do
        rm -rf blocks && mkdir blocks && document blocks "$file" blocks || return 1
        "$1" || {
            echo "in $(basename "$file")"
            return 1
        }
    done
}

# Blocks of other kinds than these would go unnoticed. Those of the second line aren't run here: commands that the theme
# `examples` runs, other programs' settings, and pictures.
kinds_are_known() {
    ! find blocks -type f ! -name '*.settings' ! -name '*.log' ! -name '*.report' ! -name '*.output' ! -name '*.console' \
        ! -name '*.filelog' ! -name '*.converted' ! -name '*.sh' ! -name '*.yaml' ! -name '*.text' | grep .
}

check_kinds_of_blocks() { each_document kinds_are_known; }

# block NUMBER KIND: the block with this number, which has to be of this kind.
block() { printf 'blocks/%03d.%s' "$1" "$2"; }

# settings_give: blocks with settings are followed by a log, by what is reported, where that is shown, and by the output as
# examples/show shows it.
settings_give() {
    local said number
    for said in blocks/*.settings; do
        [ -e "$said" ] || return 0
        number=$((10#$(basename "$said" .settings)))
        rm -rf one && mkdir one && cp "$said" one/settings.json && cp "$(block $((number + 1)) log)" one/app.log || return 1
        (cd one && quietly) || return 1
        if [ -e "$(block $((number + 2)) report)" ]; then
            number=$((number + 1))
            diff "$(block $((number + 1)) report)" "$work/report" || return 1
        fi
        "$root/examples/show" one/output.jsonl | diff "$(block $((number + 2)) output)" - || {
            cat "$said"
            return 1
        }
    done
}

check_settings() { each_document settings_give; }

# consoles_show: each line that begins with a dollar is a command, and what follows is what it shows.
consoles_show() {
    local block
    for block in blocks/*.console; do
        [ -e "$block" ] || return 0
        rm -rf one && mkdir one && (cd one && a_log) || return 1
        sed -n 's/^\$ //p' "$block" | while IFS= read -r command; do
            printf 'printf "%%s\n" %q\n(exit $status)\n%s\nstatus=$?\n' "\$ $command" "$command"
        done >script
        (cd one && PATH=$work/bin:$PATH status=0 wait_for bash ../script 2>&1) | diff "$block" - || return 1
    done
}

check_consoles() { each_document consoles_show; }

# shell_blocks DOCUMENT: its blocks of commands, a line each: the section, and the block's number there.
shell_blocks() { awk '/^## / { section = substr($0, 4); count = 0 } /^```sh$/ { print section "|" ++count }' "$1"; }

# Each block of commands in the README is run as it is written: by packaging/debian/check, or it is of the repository itself.
check_commands_are_run() {
    local section number count=0
    while IFS='|' read -r section number; do
        [ "$section" = 'Building it' ] || tr -d "'" <"$root/packaging/debian/check" | grep -q "as_written $section $number\>" || {
            echo "nothing runs block $number of $section"
            return 1
        }
        count=$((count + 1))
    done < <(shell_blocks "$root/README.md")
    [ "$count" -gt 8 ] || return 1
    # Of the repository itself: the theme `examples` runs the first, and the gate the last two.
    sed -n '/^## Building it/,/^## What/p' "$root/README.md" | sed -n '/^```sh$/,/^```$/p' | grep -v '^```' >commands
    diff <(sed 2d commands) <(printf '%s\n' examples/run .ci/run tests/run) || return 1
    sed -n 2p commands >command && (cd "$root" && AGENT=$agent wait_for bash) <command >shown && grep -q '^1 | .*GET / HTTP/1.1.*, status="200" | ' shown
}

# So are those of the other documents, with logs that are here.
check_commands_of_other_documents() {
    python3 -c 'import yaml' 2>/dev/null || { skip "python3 has no yaml"; return 0; }
    ln -s "$root/tools" tools && cp "$root/examples/nginx/settings.json" settings.json || return 1
    cat "$root"/docs/*.md | sed -n '/^```sh$/,/^```$/p' | grep -v '^```' | sed "s#/var/log/nginx/#$root/examples/nginx/log/#
        s#/etc/otelcol/config.yaml >#$root/tests/e2e/filelog/nginx/collector.yaml >converted-#" >commands
    diff <(cut -d ' ' -f 1 commands | sort) <(printf '%s\n' tail tools/check-settings tools/from-filelog) || return 1
    AGENT=$agent wait_for bash -eux commands >shown 2>said || { cat shown said && return 1; }
    [ "$(grep -c '^1 | ' shown)" = 2 ] && [ -s converted-settings.json ]
}

# A loop of a shell as the README has it, with a `sleep` that is shorter. It ends when the agent can't report any more.
check_loop_of_a_shell() {
    local loop='while echo poll; do sleep 10; done | stanza_agent follow'
    a_log && grep -q -F "\`$loop\`" "$root/README.md" && mkdir bin && printf '#!/bin/sh\nexec %s 0.1\n' "$(command -v sleep)" >bin/sleep && chmod +x bin/sleep &&
        PATH=$PWD/bin:$work/bin:$PATH wait_for bash -c "$loop" 2>&1 | head -n 3 >report
    diff report <(one_line && summary 1 0 0 326 && summary 1 0 0 326)
}

check_keys() {
    local keys body attributes resource count=0
    while IFS=$'\x1f' read -r keys body attributes resource; do
        gives "$keys" ' hello \n' "[$body, $attributes, $resource]" || return 1
        count=$((count + 1))
    done < <(document rows "$root/docs/SETTINGS.md" Settings Body)
    [ "$count" -gt 10 ]
}

# Each key of the first table has a row with an example, and each type of operators one of its own.
check_keys_have_examples() {
    local key type
    document rows "$root/docs/SETTINGS.md" Settings Body >examples || return 1
    while IFS=$'\x1f' read -r key _; do
        [ "$key" = include ] || [ "$key" = start_at ] || grep -q -F "\"$key\": " examples || {
            echo "there is no example of $key"
            return 1
        }
    done < <(document rows "$root/docs/SETTINGS.md" Key Value Default 'What it says' | sed '/^flush_after_polls/q')
    mkdir blocks && document blocks "$root/docs/SETTINGS.md" blocks || return 1
    for type in $(sed -n 's/^### `\(.*\)`$/\1/p' "$root/docs/SETTINGS.md"); do
        grep -q -F "\"type\": \"$type\"" blocks/*.settings || {
            echo "there is no example of $type"
            return 1
        }
    done
}

# what_it_gives EXPRESSION: as the document says it.
what_it_gives() {
    local quoted
    quoted=$(python3 -c 'import json, sys; print(json.dumps(sys.argv[1]), json.dumps(f"not ({sys.argv[1]})"), sep="\x1f")' "$1")
    IFS=$'\x1f' read -r is not <<<"$quoted"
    case $(makes '"include_file_name":false,"operators":[
        {"type":"add","field":"attributes","value":{"status":404,"user":"ann"}},
        {"type":"add","field":"resource.is","value":true,"if":'"$is"',"on_error":"drop"},
        {"type":"add","field":"resource.is","value":false,"if":'"$not"'}]' 'GET /cart took 12 ms\n') in
    *'{"is": true}]') echo true ;;
    *'{"is": false}]') echo false ;;
    '') echo a fault ;;
    *) echo no truth ;;
    esac
}

check_expressions() {
    local expression wanted found count=0
    while IFS=$'\x1f' read -r expression wanted; do
        found=$(what_it_gives "$expression")
        [ "$found" = "$wanted" ] || {
            echo "$expression gives $found"
            return 1
        }
        count=$((count + 1))
    done < <(document rows "$root/docs/SETTINGS.md" Expression)
    [ "$count" -gt 10 ]
}

check_refused_settings() {
    local said line count=0
    printf 'hello\n' >app.log
    while IFS=$'\x1f' read -r said line _; do
        ends 3 "${line#fault 3 }" "$said" || return 1
        count=$((count + 1))
    done < <(document rows "$root/docs/STATUSES.md" Settings Line)
    [ "$count" -gt 10 ]
}

# matches PATTERN PATH: whether a file of this path is taken by the pattern.
matches() {
    rm -rf one && mkdir -p "one/$(dirname "$2")" && echo hello >"one/$2" || return 1
    (
        cd one || exit 1
        python3 -c 'import json, sys; print(json.dumps({"include": sys.argv[1:], "start_at": "beginning"}))' "$1" >settings.json
        quietly && case $(cat "$work/report") in
        'files=1 lines=1 '*) echo yes ;;
        'files=0 lines=0 '*) echo no ;;
        esac
    )
}

check_patterns() {
    local pattern path wanted count=0
    while IFS=$'\x1f' read -r pattern path wanted; do
        [ "$(matches "$pattern" "$path")" = "$wanted" ] || {
            echo "$pattern and $path"
            return 1
        }
        count=$((count + 1))
    done < <(document rows "$root/docs/SETTINGS.md" Pattern Path)
    [ "$count" -gt 10 ]
}

# The statuses are those of the definition, and each has a section, to which its number leads.
check_statuses_have_sections() {
    local status place
    sed -n 's/^- \*\*\[\([0-9]*\)\](#\([a-z0-9-]*\))\*\*.*/\1 \2/p' "$root/docs/STATUSES.md" >statuses
    diff <(cut -d ' ' -f 1 statuses) <({ printf '0\n9\n'; sed -n 's/^status_of .* = \([0-9]*\)$/\1/p' "$root"/crates/*/specs/Status.antt; } | sort -n -u) || return 1
    while read -r status place; do
        grep -q -i -x "## ${place//-/ }" "$root/docs/STATUSES.md" || {
            echo "there is no section $place of $status"
            return 1
        }
    done <statuses
}

# What documents name is there: paths, crates, functions, units, commands, and what their links lead to.
check_names() {
    document names "$root" "${documents[@]}" "$root"/{CONTRIBUTING,CHANGELOG}.md >names && [ ! -s names ] || {
        echo "what documents name and what isn't there:"
        cat names
        return 1
    }
}

# What isn't there is told.
check_names_that_are_gone() {
    printf '%s\n' '`docs/NONE.md` `stanza_agent::no_such_name` `stanza_agent frob` `stanza_agent segments pipe` `examples/run none`' '[none](none.md)' >text.md
    printf '```sh\ntools/none x\nsystemctl start stanza-agent-none.timer\n```\n' >>text.md
    cp text.md DECISIONS.md && echo '`no_such_name` `NoSuchName`' >>DECISIONS.md
    document names "$root" text.md DECISIONS.md >names
    [ "$(grep -c '^text.md: ' names)" = 8 ] && [ "$(grep -c '^DECISIONS.md: ' names)" = 10 ]
}

# The indexes of the long documents lead to each of their sections.
check_indexes() {
    local file heading place
    for file in PROMISES DECISIONS; do
        sed -n '/^## Where to find/,/^## /p' "$root/docs/$file.md" >index
        while read -r heading; do
            place=$(tr -d "',." <<<"${heading,,}" | tr ' ' -)
            grep -q -F "](#$place)" index || {
                echo "$file.md: the index doesn't have: $heading"
                return 1
            }
        done < <(sed -n 's/^## //p' "$root/docs/$file.md" | grep -v -e '^In one page$' -e '^Where to find')
    done
}

# The table has each crate once, the map each whose name doesn't tell that it is for cases or tests, and the README each of the toolchain's crates, of which some come in parts.
check_crates_are_told() {
    local known library crate
    known=$(sed -n 's/^\([a-z_0-9]*\):.*/\1/p' "$root/crates.txt" | sort)
    diff <(echo "$known") <(document rows "$root/docs/ARCHITECTURE.md" Crate 'Stands on' | cut -d $'\x1f' -f 1 | grep -o '[a-z_0-9]*' | sort) || return 1
    sed -n '/^## The layers/,/^## A poll/p' "$root/docs/ARCHITECTURE.md" >map
    for crate in $(grep -v '_cases$\|_tests$' <<<"$known"); do
        grep -q -w "$crate" map || {
            echo "the map doesn't have $crate"
            return 1
        }
    done
    for library in $(sed -n 's/^[a-z_0-9]*: //p' "$root/crates.txt" | tr ' ' '\n' | sort -u | grep -v -x -F "$known" | grep -v -x 'jiff_.*\|regex_.*'); do
        sed -n '/^Proved with/,/^$/p' "$root/README.md" | grep -q -F "\`$library\`" || {
            echo "the README doesn't name $library"
            return 1
        }
    done
}
