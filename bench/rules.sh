#!/usr/bin/env bash
# Times `cide check` on the sample's variant of all features, a project without features, at a quarter, half and the whole of 1,000
# classes, and beside it javac, which reads the same text and stops behind its checks, before it makes classes. The check reads the
# text, parses it and judges it by the rules of Featherweight Java. Each time is the best of so many runs: rules.sh [RUNS]. Where
# there is no javac, it says so and times the check alone.
# Ends with status 1 where something breaks in the sample, where the whole takes more than five times the quarter, or where it
# takes longer than javac, of whose time its time for one empty class is taken away first.
set -eu

. "$(dirname "$(readlink -f "${BASH_SOURCE[0]}")")/timing.sh"

clean=$'model valid []\nsummary broken 0 undecided 0'
javac_checks=(javac -proc:none -XDshould-stop.ifNoError=FLOW -d "$work")

# the time of javac for a text
javac_time() {
    best_of "${javac_checks[@]}" "$1"
}

# so many classes
measure() {
    local file=$work/Sample$1.java
    python3 "$top/bench/make_sample.py" "$1" --plain >"$file"
    times[$1]=$(best_of "$program" check "$file")
    [ "$(cat "$work/written")" = "$clean" ] || check "nothing breaks in $1 classes" 1 0
    printf '%5d classes, %7d bytes: check %7d us' "$1" "$(stat -c %s "$file")" "${times[$1]}"
    if [ -n "$start" ]; then
        javac_times[$1]=$(javac_time "$file")
        printf ', javac %8d us' "${javac_times[$1]}"
    fi
    echo
}

# javac's time for one empty class, or nothing where there is no javac
start=""
if command -v javac >/dev/null; then
    echo "class Empty {}" >"$work/Empty.java"
    start=$(javac_time "$work/Empty.java")
    printf 'javac for one empty class: %8d us\n' "$start"
else
    echo "there is no javac here: no comparison"
fi

declare -A times javac_times
for classes in 250 500 1000; do measure "$classes"; done
check "the whole takes at most 5 times the quarter" "${times[1000]}" $((5 * times[250]))
if [ -n "$start" ]; then
    check "the whole takes at most what javac takes beyond an empty class" "${times[1000]}" $((javac_times[1000] - start))
fi
exit "$failed"
