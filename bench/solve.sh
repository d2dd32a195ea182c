#!/usr/bin/env bash
# How long the solver takes: for each problem the answer, the clauses that were learned, the processor time, and beside them the
# conflicts and the time of minisat, where it is installed, and the ratio of the times. Then how long it takes to check a refutation
# of 20,000 clauses over 500 variables. Ends with status 1 where that is refused, or takes a second or more.
#
# usage: bench/solve.sh PROGRAM
#
# PROGRAM is that of the crate dimacs_solver (`rt run` in its folder leaves it at out/dimacs_solver). The problems are made by
# bench/make_cnf.py: feature models with constraints across the tree, chains of parities, clauses of three literals that look random at
# 4.26 clauses to a variable, and many clauses over few variables.
set -eu

[ $# -eq 1 ] || { sed -n '2,11s/^# \{0,1\}//p' "$0" >&2; exit 2; }
program=$(readlink -f "$1")
here=$(dirname "$(readlink -f "$0")")
work=$(mktemp -d)
trap 'rm -rf "$work"' EXIT

# The processor time of a run, in milliseconds.
milliseconds() {
    local TIMEFORMAT='%U %S'
    { time "$@" >"$work/out" 2>/dev/null || true; } 2>"$work/time"
    awk '{ printf "%d", ($1 + $2) * 1000 }' "$work/time"
}

printf '%-14s %-9s %8s %8s %10s %8s %6s\n' problem answer learned ms conflicts ms ratio
for problem in model64 model128 parity40 parity48 random100 random115 random128 random128b many60; do
    python3 "$here/make_cnf.py" "$problem" >"$work/problem.cnf"
    ours=$(milliseconds "$program" <"$work/problem.cnf")
    answer=$(sed 's/,.*//' "$work/out")
    learned=$(sed 's/^[^,]*, \([0-9]*\) .*/\1/' "$work/out")
    conflicts=- theirs=- ratio=-
    if command -v minisat >/dev/null; then
        theirs=$(milliseconds minisat "$work/problem.cnf")
        conflicts=$(sed -n 's/^conflicts *: *\([0-9]*\).*/\1/p' "$work/out")
        ratio=$((ours / (theirs > 0 ? theirs : 1)))
    fi
    printf '%-14s %-9s %8s %8s %10s %8s %6s\n' "$problem" "$answer" "$learned" "$ours" "$conflicts" "$theirs" "$ratio"
done

python3 "$here/make_cnf.py" counted >"$work/problem.cnf"
python3 "$here/make_cnf.py" log >"$work/log"
took=$(milliseconds "$program" "$work/log" <"$work/problem.cnf")
echo "log: $(cat "$work/out"), $took ms"
[ "$(cat "$work/out")" = "refutes it, 20000 clauses" ] && [ "$took" -lt 1000 ]
