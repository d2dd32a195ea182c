#!/usr/bin/env bash
# Times `cide export` on projects of a quarter, half and the whole of the largest size, and beside it a run of Python that
# reads the same file, splits it into words and writes them back: first without features, then with 128 of them, of which half
# are selected, then with methods too, and at last with a constraint that excludes every selection, where an export ends once the
# project is read. Each time is the best of so many runs: export.sh [RUNS]. Where strace is there, it also counts the reads and writes
# that the system sees.
# Ends with status 1 where the whole takes more than five times the quarter, or longer than Python, or where there are more
# writes than one for each 4 KiB of output and ten, or more reads than one for each 16 KiB of input and ten.
set -eu

. "$(dirname "$(readlink -f "${BASH_SOURCE[0]}")")/timing.sh"

# the interpreter itself, so that no launcher in front of it is timed
python=$(python3 -c 'import sys; print(sys.executable)')
python_words='import sys; text = open(sys.argv[1], encoding="utf-8").read(); sys.stdout.write(" ".join(text.split()))'

# makes the project of so many classes, which is a size, with so many features; with methods where a third word stands, and one that
# is only read where a fourth does
make_project() {
    python3 "$top/bench/make_project.py" "$1" "$(($1 * 4096))" "$2" ${3:+"$3"} ${4:+"$4"} >"$work/project.$1"
}

# times one export of the size under these names, and one run of Python
measure() {
    local file=$work/project.$1
    times[$1]=$(least "${times[$1]}" "$(time_of "$program" export "$file" "$2")")
    python_times[$1]=$(least "${python_times[$1]}" "$(time_of "$python" -c "$python_words" "$file")")
}

# the number of calls of this kind that an export makes
calls() {
    strace -f -e trace="$1" -o "$work/calls" "$program" export "$2" "$3" >/dev/null
    grep -c "^[0-9]* *$1(" "$work/calls"
}

# the reads and writes of the whole, under these names
count_calls() {
    local file=$work/project.1024
    command -v strace >/dev/null || return 0
    "$program" export "$file" "$1" >"$work/written"
    check "one read for each 16 KiB, and ten" "$(calls read "$file" "$1")" $(($(stat -c %s "$file") / 16384 + 11))
    check "one write for each 4 KiB, and ten" "$(calls write "$file" "$1")" $(($(stat -c %s "$work/written") / 4096 + 11))
}

# the three sizes with so many features, under these names; with methods where a third word stands, and only read where a fourth does.
# The sizes take turns, so that a slow spell of the machine falls on all of them alike.
measure_sizes() {
    local sizes=(256 512 1024) classes
    for classes in "${sizes[@]}"; do
        make_project "$classes" "$1" ${3:+"$3"} ${4:+"$4"}
        times[$classes]="" python_times[$classes]=""
    done
    for _ in $(seq "$runs"); do
        for classes in "${sizes[@]}"; do measure "$classes" "$2"; done
    done
    for classes in "${sizes[@]}"; do
        printf '%5d classes, %3d features, %8d bytes: export %7d us, python %7d us\n' \
            "$classes" "$1" "$(stat -c %s "$work/project.$classes")" "${times[$classes]}" "${python_times[$classes]}"
    done
    check "the whole takes at most 5 times the quarter" "${times[1024]}" $((5 * times[256]))
    check "the whole takes at most what python takes" "${times[1024]}" "${python_times[1024]}"
}

declare -A times python_times
measure_sizes 0 .
half=$(seq -s , -f 'F%g' 0 2 126)
measure_sizes 128 "$half"
count_calls "$half"
measure_sizes 128 "$half" methods
count_calls "$half"
measure_sizes 128 "$half" methods void
exit "$failed"
