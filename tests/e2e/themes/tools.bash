# The tools for whoever changes the agent, but for those with a theme of their own.

# a_copy: what a type of operators stands in, as a repository here.
a_copy() {
    local crate
    for crate in settings_text field_ops op_kinds; do
        mkdir -p "crates/$crate" && cp -R "$root/crates/$crate"/{src,specs,proofs} "crates/$crate/" || return 1
    done
    cp -R "$root/tools" "$root/docs" .
}

# The new type has its own files, in which nothing is of the old one, and each file of the table in CONTRIBUTING.md is spoken of.
check_new_operator() {
    local files file
    a_copy && tools/new-operator trim trimming >said || return 1
    for file in settings_text/src/types/trimming.rt settings_text/specs/Types/Trimming.antt field_ops/src/trimming.rt op_kinds/src/types/trimming.rt; do
        grep -q -x "written: crates/$file" said && [ -s "crates/$file" ] && ! grep -i -w 'retain\|retaining' "crates/$file" || return 1
    done
    grep -q -x 'pub mod trimming;' crates/settings_text/src/types.rt && grep -q '^pub mod Trimming$' crates/settings_text/specs/Types.antt || return 1
    sed 's/: crates\//: /' said | sed 's/^[a-z ]*: //; s/:.*//; s/trimming/retaining/; s/Trimming/Retaining/' | sort -u >spoken
    sed -n '/^## A type of operators more/,/^What a type does/p' "$root/CONTRIBUTING.md" | sed -n 's/^| \(`.*\) |.*|$/\1/p' >table
    files=$(python3 -c '
import re, sys
for line in sys.stdin:
    above = ""
    for path in re.findall("`([^`]+)`", line):
        if path.startswith("specs/"):
            path = above + path
        elif "/" in path:
            above = path.split("/")[0] + "/"
        print(path)' <table | sort -u)
    [ "$(wc -w <<<"$files")" -gt 15 ] && for file in $files; do
        grep -q -x "$file" spoken || { echo "nothing is said of $file" && return 1; }
    done
}

check_new_operator_that_is_there() {
    local before
    a_copy || return 1
    before=$(find crates tools docs -type f -exec cksum {} + | sort)
    ! tools/new-operator move moving 2>errors && grep -q '^move: there is one: ' errors || return 1
    ! tools/new-operator Move moving 2>errors && grep -q '^usage: ' errors && [ "$before" = "$(find crates tools docs -type f -exec cksum {} + | sort)" ]
}
