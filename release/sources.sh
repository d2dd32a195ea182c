# What ./cide, release/make, release/check and .ci/run share: which files the program is built from, the sums of these, and where
# the program built here and the released one lie, each with its record. It is sourced where `top` is the top of the repository.
#
# A record says what a program is: how it was built, by which kit, the least version of the C library that it needs and its own
# sum, a line for each, and behind them the sum of each file that it was built from, as `sha256sum` writes and reads it.

released=$top/release/cide-x86_64-linux
manifest=$top/release/MANIFEST
built=$top/crates/cide/out/cide
built_record=$top/crates/cide/out/cide.record

# the crates of this repository that the program is made of
crates_of_program() {
    awk '
        { sub(/#.*/, "") }
        /[^ \t]/ { split($0, sides, ":"); split(sides[1], head, " "); uses[head[1]] = sides[2] }
        function reach(name, parts, count, at) {
            if (!(name in uses) || name in reached) return
            reached[name] = 1
            count = split(uses[name], parts, /[ \t,]+/)
            for (at = 1; at <= count; at++) reach(parts[at])
        }
        END { reach("cide"); for (name in reached) print name }' "$top/crates.txt"
}

# the files that the program is built from, each ended by a byte 0
sources() {
    local crate part
    printf '%s\0' HANDLES crates.txt
    for crate in $(crates_of_program); do
        for part in src specs proofs; do
            if [ -d "crates/$crate/$part" ]; then find "crates/$crate/$part" -type f -print0; fi
        done
    done
}

# the sums of these files
sums_of_sources() (
    cd "$top" && sources | LC_ALL=C sort -z | xargs -0 sha256sum
)

# the sums of the sources in a record
sums_in() {
    grep '^[0-9a-f]\{64\}  ' "$1"
}

# the sum of one file
sum_of() {
    sha256sum <"$1" | cut -d ' ' -f 1
}

# what a record says under this head
told_of() {
    sed -n "s/^$2: //p" "$1"
}

# the least version of the C library that has all that a program wants of it
libc_of() {
    LC_ALL=C grep -aoE 'GLIBC_[0-9]+(\.[0-9]+)+' "$1" | sort -Vu | tail -n 1 | cut -d _ -f 2
}

# writes the record of the program built here, which was built so from sources with these sums; in one step, so that no half of it is read
write_record() {
    {
        printf 'built by: %s\nkit: %s\n' "$1" "$(rt version)"
        printf 'C library: %s\nprogram: %s\n%s\n' "$(libc_of "$built")" "$(sum_of "$built")" "$2"
    } >"$built_record.new" && mv "$built_record.new" "$built_record"
}
