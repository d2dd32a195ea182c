# What the benches share: the number of runs of each command, which is their first word, the top of the repository, the program that
# ./cide runs, a folder for what they write, and whether a check has failed.

runs=${1:-9}
top=$(dirname "$(dirname "$(readlink -f "${BASH_SOURCE[0]}")")")
. "$top/release/choose.sh"
choose_program
work=$(mktemp -d)
trap 'rm -rf "$work"' EXIT
failed=0

# the time in microseconds that a command takes once
time_of() {
    local began
    began=$(date +%s%N)
    "$@" >"$work/written" 2>"$work/said" || true
    echo $((($(date +%s%N) - began) / 1000))
}

# the lesser of two times, of which the first may be missing
least() {
    if [ -z "$1" ] || [ "$2" -lt "$1" ]; then echo "$2"; else echo "$1"; fi
}

# the least time in microseconds that a command took
best_of() {
    local best=""
    for _ in $(seq "$runs"); do best=$(least "$best" "$(time_of "$@")"); done
    echo "$best"
}

# says whether a number is at most another
check() {
    if [ "$2" -le "$3" ]; then echo "yes: $1"; else echo "no: $1"; failed=1; fi
}
