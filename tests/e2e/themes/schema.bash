# docs/settings.schema.json: what it finds valid, and what not.

valid() { "$root/tests/e2e/schema/valid" "$@"; }

# has_schemas: whether this machine has what checks by schemas.
has_schemas() { python3 -c 'import jsonschema' 2>/dev/null || ! skip "python3 has no jsonschema"; }

# lines FILE..: the JSON of each file, a line each.
lines() { python3 -c 'import json, sys; [print(json.dumps(json.load(open(file)))) for file in sys.argv[1:]]' "$@"; }

# described: the types of operators that the schema has.
described() {
    python3 -c 'import json, sys
print(*json.load(open(sys.argv[1]))["properties"]["operators"]["items"]["properties"]["type"]["enum"], sep="\n")' "$root/docs/settings.schema.json"
}

# each_example: the settings that documents, examples and packages show, a line each.
each_example() {
    local file block keys
    for file in "$root"/README.md "$root"/docs/*.md; do
        rm -rf blocks && mkdir blocks && "$root/tests/e2e/document" blocks "$file" blocks || return 1
        for block in blocks/*.settings; do
            [ ! -e "$block" ] || lines "$block" || return 1
        done
    done
    lines "$root"/examples/*/settings.json || return 1
    while IFS=$'\x1f' read -r keys _; do
        printf '{"include":["app.log"],"start_at":"beginning"%s}\n' "${keys:+,$keys}"
    done < <("$root/tests/e2e/document" rows "$root/docs/SETTINGS.md" Settings Body)
}

check_examples_are_valid() {
    has_schemas || return 0
    each_example >examples.jsonl && [ "$(wc -l <examples.jsonl)" -gt 20 ] && valid examples.jsonl
}

# So is what tools/from-filelog makes of whole configurations.
check_conversions_are_valid() { ! has_schemas || valid "$root"/tests/e2e/filelog/*/settings.json; }

check_what_is_accepted() { ! has_schemas || valid "$root/tests/e2e/schema/accepted.jsonl"; }

check_what_is_refused() { ! has_schemas || valid --not "$root/tests/e2e/schema/refused.jsonl"; }

# What docs/STATUSES.md says of settings by themselves a schema can say too, but that they are no JSON.
check_statuses() {
    local said line
    has_schemas || return 0
    while IFS=$'\x1f' read -r said line _; do
        case $line in
        *not-json) ;;
        'fault 3 settings '*) printf '%s\n' "$said" ;;
        esac
    done < <("$root/tests/e2e/document" rows "$root/docs/STATUSES.md" Settings Line) >refused.jsonl
    [ "$(wc -l <refused.jsonl)" -gt 4 ] && valid --not refused.jsonl
}

# refusal SETTINGS: what the program refuses in them, or nothing.
refusal() {
    printf '%s' "$1" >settings.json
    wait_for "$agent" once </dev/null | grep -v '^files='
    anew
}

# has_type NAME: whether the program has operators of this type.
has_type() { [ "$(refusal "{\"include\":[\"zz\"],\"operators\":[{\"type\":\"$1\"}]}")" != 'fault 3 settings out-of-range operators[0].type' ]; }

# The program accepts what the schema does, and refuses what it refuses; types that the program hasn't yet are named.
check_program_agrees() {
    local said word type waiting=
    for type in $(described); do
        has_type "$type" || waiting+=" $type"
    done
    while IFS= read -r said; do
        for type in $waiting; do
            [[ $said != *"\"$type\""* ]] || continue 2
        done
        word=$(refusal "$said")
        case $word in
        '' | 'fault 3 graph no-such-node '*) ;;
        *) echo "$said: $word" && return 1 ;;
        esac
    done <"$root/tests/e2e/schema/accepted.jsonl"
    while IFS= read -r said; do
        for type in $waiting; do
            [[ $said != *"\"$type\""* ]] || continue 2
        done
        word=$(refusal "$said")
        case $word in
        'fault 3 graph '* | '') echo "$said: ${word:-is accepted}" && return 1 ;;
        esac
    done <"$root/tests/e2e/schema/refused.jsonl"
    [ -z "$waiting" ] || skip "the program has no$waiting; the rest holds"
}

# keys: the names in the first column of the tables of keys in docs/SETTINGS.md.
keys() {
    awk '/^\|/ { if (!inside) { named = /^\| Key /; inside = 1 } else if (named && !/^\|--/) { split($0, cell, "|"); print cell[2] } next } { inside = 0 }' \
        "$root/docs/SETTINGS.md" | grep -o '`[a-z_]*`' | tr -d '`'
}

# The schema has what docs/SETTINGS.md has, and no type of operators more; types that wait for their section are named.
check_schema_is_whole() {
    local key type waiting=
    [ "$(keys | wc -l)" -gt 20 ] || return 1
    for key in $(keys); do
        grep -q "\"$key\": {" "$root/docs/settings.schema.json" || {
            echo "the schema has no key $key"
            return 1
        }
    done
    sed -n 's/^### `\(.*\)`$/\1/p' "$root/docs/SETTINGS.md" | sort >documented
    described | sort >types
    [ -z "$(comm -23 documented types)" ] || return 1
    waiting=$(comm -13 documented types | tr '\n' ' ')
    [ -z "$waiting" ] || skip "docs/SETTINGS.md has no section of ${waiting% }; the rest holds"
}
