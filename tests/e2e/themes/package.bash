# The Debian package, as its builder makes it of the program that is checked, and the root of the container image. What it does on
# a system is tried by packaging/debian/check, which wants a network.

# a_package: the package here, and what it has in the folder `files`.
a_package() {
    local tool
    for tool in dpkg-deb dpkg-shlibdeps cc; do
        command -v "$tool" >/dev/null || { skip "there is no $tool" && return 1; }
    done
    if [ ! -e "$work/package" ]; then
        AGENT=$agent wait_long "$root/packaging/debian/build" "$work/built" >"$work/package" 2>"$work/log.build" || {
            cat "$work/log.build"
            rm "$work/package"
            return 1
        }
    fi
    dpkg-deb -R "$(cat "$work/package")" files
}

# names_of FOLDER: the plain files and links in it.
names_of() { (cd "$1" && find . ! -type d | sed 's#^\./##' | LC_ALL=C sort); }

check_contents() {
    a_package || { [ -e "$work/skipped" ]; return; }
    names_of files | grep -v -e ^DEBIAN/ -e ^usr/share/doc/ | diff - <(
        {
            (cd "$root/packaging/systemd" && ls | sed 's#^#lib/systemd/system/#')
            printf '%s\n' etc/stanza_agent/settings.json usr/bin/stanza_agent usr/lib/stanza_agent/{adopt_changed,hand_over,poll_each} \
                usr/share/bash-completion/completions/stanza_agent usr/share/lintian/overrides/stanza-agent \
                usr/share/man/man5/stanza_agent.settings.5.gz usr/share/man/man8/stanza_agent.8.gz var/lib/stanza_agent/settings.json
        } | LC_ALL=C sort
    ) && cmp files/usr/bin/stanza_agent "$(realpath "$agent")" && [ -d files/var/spool/stanza_agent ] || return 1
    [ "$(readlink files/var/lib/stanza_agent/settings.json)" = "$(cat files/DEBIAN/conffiles)" ] || return 1
    [ "$(dpkg-deb -f "$(cat "$work/package")" Version)" = "$(cat "$root/VERSION")-1" ] || return 1
    (cd files && md5sum --quiet -c DEBIAN/md5sums) && [ "$(wc -l <files/DEBIAN/md5sums)" = \
        "$(names_of files | grep -v -c -e ^DEBIAN/ -e ^var/)" ]
}

# Each path that units and scripts name is in the package, or of the system.
check_paths_of_units() {
    local path
    a_package || { [ -e "$work/skipped" ]; return; }
    for path in $(sed -n 's/^Exec[A-Za-z]*=//p' files/lib/systemd/system/*.service | grep -o '/[a-z_/]*stanza_agent[a-z_/]*' | sort -u); do
        [ -e "files$path" ] || { echo "$path" && return 1; }
    done
    for path in files/DEBIAN/{postinst,prerm,postrm}; do sh -n "$path" || return 1; done
    # What is enabled is stopped before the package goes, and forgotten after it.
    for path in files/lib/systemd/system/*; do
        grep -q -w "$(basename "$path")" files/DEBIAN/prerm || { echo "$path isn't stopped" && return 1; }
        ! grep -q '^\[Install\]' "$path" || grep -q -w "$(basename "$path")" files/DEBIAN/postrm || { echo "$path stays" && return 1; }
    done
}

# The settings that come with the package are taken, and leave out what isn't a log.
check_settings() {
    mkdir -p state var/log/apt
    echo 'in a log' >var/log/dpkg.log
    echo 'in a rotated log' >var/log/dpkg.log.1
    echo packed | gzip >var/log/dpkg.log.2.gz
    echo 'of apt' >var/log/apt/history.log
    sed "s#\"/var/#\"$PWD/var/#" "$root/packaging/debian/settings.json" >state/settings.json
    (cd state && quietly && grep -q '^files=3 lines=3 .* compressed=0 ' "$work/report")
}

# pages: the two pages of the manual.
pages() {
    local page
    for page in stanza_agent.8 stanza_agent.settings.5; do
        "$root/packaging/debian/manual" "$page" >"$page" && grep -q '^\.SH NAME$' "$page" || return 1
    done
}

check_manual() {
    local word
    pages || return 1
    for word in $(sed -n 's/^- \*\*\[\([0-9]*\)\].*/\1/p' "$root/docs/STATUSES.md"); do
        grep -q "^\\\\fB$word\\\\fR" stanza_agent.8 || { echo "status $word" && return 1; }
    done
    # Each key of a table, and each type of operators.
    for word in $(sed -n 's/^| `\([a-z_]*\)` | .*/\1/p; s/^### `\(.*\)`$/\1/p' "$root/docs/SETTINGS.md" | sort -u); do
        grep -q -F "\\fB$word\\fR" stanza_agent.settings.5 || { echo "setting $word" && return 1; }
    done
    grep -q -x -F '.IP 1. 4' stanza_agent.8 && grep -q -x -F '.IP \(bu 2' stanza_agent.8 || return 1
    # Each command of the README's table, and what it says of changed settings and of an output in many files.
    diff <(sed -n '/^.SH SYNOPSIS/,/^.SH "DESC/s/^\.B //p' stanza_agent.8) <(sed -n 's/^| `\(stanza_agent [^`]*\)` |.*/\1/p' "$root/README.md") || return 1
    for word in 'CHANGING SETTINGS' 'AN OUTPUT IN MANY FILES'; do
        grep -q -x -F ".SH \"$word\"" stanza_agent.8 || { echo "no section $word" && return 1; }
    done
    ! "$root/packaging/debian/manual" other.1 2>/dev/null
}

# roff reads the pages without a complaint, and nothing of Markdown is left in them.
check_manual_is_formatted() {
    command -v groff >/dev/null || { skip 'there is no groff'; return 0; }
    local page
    pages || return 1
    for page in stanza_agent.8 stanza_agent.settings.5; do
        groff -man -Tutf8 -ww "$page" >shown 2>complaints && [ ! -s complaints ] || { cat complaints && return 1; }
        sed 's/\x1b\[[0-9;]*m//g' shown | sed '/EXAMPLE/d' >text
        ! grep -n -e ']([a-z.#/]' -e '^ *```' -e '\*\*[A-Za-z]' text || return 1
    done
}

# completed WORD..: what bash offers in the place of the last word.
completed() {
    bash -c '. "$1"; shift; COMP_WORDS=("$@"); COMP_CWORD=$(($# - 1)); _stanza_agent; echo "${COMPREPLY[*]}"' - \
        "$root/packaging/completion/stanza_agent" "$@"
}

check_completion() {
    local commands
    commands=$(sed -n 's/^| `stanza_agent \([a-z]*\).*/\1/p' "$root/README.md")
    [ "$(completed stanza_agent '' | tr ' ' '\n' | sort)" = "$(sort <<<"$commands")" ] && [ "$(completed stanza_agent f)" = follow ] &&
        [ "$(completed stanza_agent once '')" = '' ] || return 1
    # Behind `segments` those that the README's row of it names.
    commands=$(sed -n 's/^| `stanza_agent segments COMMAND` | is \(.*\) with .*/\1/p' "$root/README.md" | grep -o '`[a-z]*`' | tr -d '`')
    [ "$(completed stanza_agent segments '' | tr ' ' '\n' | sort)" = "$(sort <<<"$commands")" ] && [ "$(completed stanza_agent segments ad)" = adopt ] &&
        [ "$(completed stanza_agent segments once '')" = '' ]
}

# The tools of the package find what they call, and the program that is installed.
check_tools() {
    local documents=files/usr/share/doc/stanza-agent sample='{"include":["*.log"],"start_at":"beginning"}'
    a_package || { [ -e "$work/skipped" ]; return; }
    echo "$sample" >settings.json && echo hello >app.log
    [ "$(AGENT=$agent wait_for "$documents/tools/try-settings" settings.json app.log)" = '1 | hello | log.file.name=stdin' ] || return 1
    [ "$(AGENT=$agent wait_for "$documents/tools/check-settings" settings.json app.log | grep hello)" = '1 | hello | log.file.name=app.log' ] || return 1
    [ ! -e "$documents/tools/new-operator" ] || return 1
    if [ ! -e /usr/bin/stanza_agent ]; then
        env -u AGENT "$documents/examples/program" 2>said
        [ $? = 1 ] && [ "$(cat said)" = 'There is no program at /usr/bin/stanza_agent.' ] || return 1
    fi
    printf 'receivers: {filelog: {include: [/var/log/app.log*], start_at: beginning}}\n' >collector.yaml
    ! python3 -c 'import yaml' 2>/dev/null || wait_for "$documents/tools/from-filelog" collector.yaml 2>said | grep -q -F '"/var/log/app.log*"'
}

# The image has the program, the loop and their libraries, and nothing else that can be run; and the program runs there.
check_image() {
    local file
    a_package || { [ -e "$work/skipped" ]; return; }
    cp files/usr/lib/stanza_agent/poll_each poll_each && cp -L "$agent" stanza_agent || return 1
    "$root/packaging/container/image_root" "$PWD/image" "$PWD/stanza_agent" "$PWD/poll_each" || return 1
    for file in $(names_of image); do
        case /$file in
        "$PWD"/stanza_agent | "$PWD"/poll_each | */lib*.so.* | */ld-*.so.*) ;;
        *) echo "$file" && return 1 ;;
        esac
    done
    grep -q '^RUN .*/image_root .* /usr/bin/stanza_agent /usr/lib/stanza_agent/poll_each$' "$root/packaging/container/Containerfile" || return 1
    [ "$(id -u)" = 0 ] || { skip 'only root may change its root'; return 0; }
    [ "$(wait_for chroot image "$PWD/stanza_agent" demo 10 2>/dev/null)" = 'rounds=10 polls=11 stops=1 files=3 lines=10 output=3251' ]
}

# VERSION alone has the version, the changelog has a heading for it or for what comes next, and the license is whole.
check_version_and_license() {
    grep -q -x '[0-9]*\.[0-9]*\.[0-9]*' "$root/VERSION" && [ "$(wc -l <"$root/VERSION")" = 1 ] || return 1
    grep -q -e "^## \[$(cat "$root/VERSION")\]" -e '^## \[Unreleased\]$' "$root/CHANGELOG.md" || return 1
    ! git -C "$root" grep -n -F "$(cat "$root/VERSION")" -- packaging README.md docs tests || return 1
    grep -q 'Version 2.0, January 2004' "$root/LICENSE" && grep -q '^   END OF TERMS AND CONDITIONS$' "$root/LICENSE"
}
