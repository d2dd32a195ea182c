#!/usr/bin/env bash
# Times the reading of projects whose classes have 256 methods of one name each, at a quarter, half and the whole of 1,000 classes. The
# constraint excludes every selection, so that a check ends once the project is read. Each time is the best of so many runs:
# alternatives.sh [RUNS].
# Ends with status 1 where the check finds anything else, or where the whole takes more than five times the quarter.
set -eu

. "$(dirname "$(readlink -f "${BASH_SOURCE[0]}")")/timing.sh"

void=$'model void\nsummary broken 0 undecided 0'
make_text='import sys
print("features F; constraint F & !F;")
for number in range(int(sys.argv[1])):
    name = f"C{number}"
    print(f"class {name} extends Object{{{name}(){{super();}}" + "A m(){return x;}" * 256 + "}")'

declare -A times
for classes in 250 500 1000; do
    python3 -c "$make_text" "$classes" >"$work/project.$classes"
    times[$classes]=$(best_of "$program" check "$work/project.$classes")
    [ "$(cat "$work/written")" = "$void" ] || check "no selection is valid in $classes classes" 1 0
    printf '%5d classes, %8d bytes: check %7d us\n' "$classes" "$(stat -c %s "$work/project.$classes")" "${times[$classes]}"
done
check "the whole takes at most 5 times the quarter" "${times[1000]}" $((5 * times[250]))
exit "$failed"
