#!/usr/bin/env bash
# Times `cide check` on product lines of one to four features in which nothing breaks, and beside it javac, which compiles all their
# variants, one after another, in one run: check.sh [RUNS]. Each time is the best of so many runs. Of javac there are two: from its
# first text to its last, and with the start of its machine; the smaller is compared. Writing the variants isn't timed. Where there
# is no javac, it says so and times the check alone.
# Ends with status 1 where something is found in a line, where javac refuses a variant, or where the check takes longer than javac.
set -eu

. "$(dirname "$(readlink -f "${BASH_SOURCE[0]}")")/timing.sh"

classes=300
clean=$'model valid []\nsummary broken 0 undecided 0'

# the names of the selection whose number has these bits, of so many features
names_of() {
    local names="" feature
    for ((feature = 0; feature < $2; feature++)); do
        if (($1 >> feature & 1)); then names+=${names:+,}F$feature; fi
    done
    echo "${names:-.}"
}

# writes each variant of a line with so many features into a folder of its own
write_variants() {
    local number folder
    for ((number = 0; number < 1 << $1; number++)); do
        folder=$work/variants.$1/$number
        mkdir -p "$folder"
        "$program" export "$work/line.$1" "$(names_of "$number" "$1")" >"$folder/Variant.java"
    done
}

# the least time in microseconds that javac says it took from the first text to the last, of the variants of so many features
told_time() {
    local best="" took
    for _ in $(seq "$runs"); do
        took=$("${all_variants[@]}" "$work/variants.$1") || return 1
        if [ -z "$best" ] || [ "$took" -lt "$best" ]; then best=$took; fi
    done
    echo "$best"
}

# javac's times of a line with so many features, beside the check's
compare() {
    local told whole least
    write_variants "$1"
    told=$(told_time "$1")
    whole=$(best_of "${all_variants[@]}" "$work/variants.$1")
    least=$((told < whole ? told : whole))
    printf ', javac %8d us, with its start %8d us: %d.%02d times the check\n' \
        "$told" "$whole" $((least / $2)) $((least * 100 / $2 % 100))
    check "the check takes at most what javac takes" "$2" "$least"
}

# a line with so many features
measure() {
    local file=$work/line.$1 took
    python3 "$top/bench/make_line.py" "$1" "$classes" >"$file"
    took=$(best_of "$program" check "$file")
    [ "$(cat "$work/written")" = "$clean" ] || check "nothing is found with $1 features" 1 0
    printf '%d features, %d classes, %7d bytes: check %8d us' "$1" "$classes" "$(stat -c %s "$file")" "$took"
    if [ -n "$javac" ]; then compare "$1" "$took"; else echo; fi
}

javac=""
if command -v javac >/dev/null; then
    javac=yes
    javac -d "$work" "$top/bench/AllVariants.java"
    all_variants=(java -cp "$work" AllVariants)
else
    echo "there is no javac here: no comparison"
fi

for features in 1 2 3 4; do measure "$features"; done
exit "$failed"
