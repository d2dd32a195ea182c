# Which program a checkout runs: `choose_program` sets `program`, or ends the script with status 70. It is sourced by ./cide and by the
# benches, where `top` is the top of the repository.

. "$top/release/sources.sh"

# how long the first build takes
price="from nothing that takes some 20 minutes on four idle processors, and less where rt has checked these crates before"

# says why no program is run, and ends
refuse() {
    echo "cide: $1" >&2
    exit 70
}

# Whether a program was found to be that of its record, and the record to be of the sources, and nothing has changed since. The time of
# a change is the system's own, which no copying sets back.
is_known() {
    local found
    [ -e "$1" ] && [ -x "$2" ] || return 1
    found=$(find "$2" "$3" "$top/crates.txt" "$top/HANDLES" "$top/crates" \( -name out -o -name must-fail -o -name data \) -prune \
        -o -newercm "$1" -print -quit 2>&1) && [ -z "$found" ]
}

# Notes that this was found at a time, where it can be noted.
note() {
    mkdir -p "$(dirname "$1")" 2>/dev/null && touch -d "@$2" "$1" 2>/dev/null
    return 0
}

# whether a record is of the sources as they are
is_of_sources() {
    [ -e "$1" ] && [ "$(sums_in "$1")" = "${sums:=$(sums_of_sources)}" ]
}

# whether the program built here is that of its record
is_built() {
    [ -x "$built" ] && is_of_sources "$built_record" && [ "$(sum_of "$built")" = "$(told_of "$built_record" program)" ]
}

# whether this machine can run the released program
can_run_released() {
    local here
    [ "$(uname -s) $(uname -m)" = "Linux x86_64" ] || return 1
    here=$(getconf GNU_LIBC_VERSION 2>/dev/null) || return 1
    printf '%s\n' "$(told_of "$manifest" "C library")" "${here#* }" | sort -VC
}

# Whether the released program is of the sources as they are; where its manifest is of them and it isn't the manifest's, that is told.
is_released() {
    [ -e "$released" ] && is_of_sources "$manifest" && can_run_released || return 1
    [ "$(sum_of "$released")" = "$(told_of "$manifest" program)" ] ||
        refuse "release/cide-x86_64-linux isn't the program of release/MANIFEST, so it isn't run; \`git checkout release\` gives it back"
}

# Proves and builds the program, and notes what it was built from. `rt run` then runs it on a stored export, which ends with status
# 0, so any other status is a failure to prove or build.
build() {
    local log
    command -v rt >/dev/null || refuse "there is no program of these sources here, and no rt that could prove and build one"
    echo "cide: there is no program of these sources here, so it is proved and built first; $price" >&2
    sums=$(sums_of_sources) log=$(mktemp)
    if ! (cd "$top/crates/cide" && rt run -- export data/T2 .) >/dev/null 2>"$log"; then
        cat "$log" >&2
        rm -f "$log"
        refuse "the program was not proved and built"
    fi
    rm -f "$log"
    [ "$(sums_of_sources)" = "$sums" ] || refuse "a source changed while the program was built"
    write_record "rt run" "$sums"
}

# The program built here, where it is current; else the released one, where that is; else one that is proved and built now.
choose_program() {
    local folder=$top/crates/cide/out sums="" began
    is_known "$folder/built.known" "$built" "$built_record" && program=$built && return
    is_known "$folder/released.known" "$released" "$manifest" && program=$released && return
    began=$(($(date +%s) - 1))
    is_built && note "$folder/built.known" "$began" && program=$built && return
    is_released && note "$folder/released.known" "$began" && program=$released && return
    build
    program=$built
}
