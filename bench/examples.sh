#!/usr/bin/env bash
# Compiles with javac what the program says of the examples: examples.sh [NAME..], all at the top of examples/ where none is named.
# Every valid variant of a clean example is exported, up to 200 of each, and has to compile. All sets of features are gone through in
# order; an export refuses those that aren't valid, and one that it refuses leaves out all others that agree with it on the features of
# the constraint that it tells. Of a broken example each variant that a finding names has to be refused by javac.
# Says how many variants there were. Where there is no javac, it says so and does nothing. Ends with status 1 where something fails.
set -eu

top=$(dirname "$(dirname "$(readlink -f "${BASH_SOURCE[0]}")")")
if ! command -v javac >/dev/null; then
    echo "there is no javac here: nothing is compiled"
    exit 0
fi
. "$top/release/choose.sh"
choose_program
work=$(mktemp -d)
trap 'rm -rf "$work"' EXIT
most=200
failed=0

fail() {
    echo "no: $1"
    failed=1
}

# the example without comments, each of its statements on a line of its own
statements() {
    sed 's#//.*##' "$example" | tr '\n;' ' \n'
}

# sets `features`, and `bits`: the bit of each, the first feature's the highest
read_features() {
    local at
    mapfile -t features < <(statements | sed -n 's/^ *features //p' | tr -s ', ' '\n')
    bits=()
    for at in "${!features[@]}"; do bits[${features[at]}]=$((1 << (${#features[@]} - at - 1))); done
}

# sets `names` to the names of the set with this number
name_set() {
    local feature
    names=""
    for feature in "${features[@]}"; do
        if (($1 & bits[$feature])); then names+=${names:+,}$feature; fi
    done
    names=${names:-.}
}

# the bits of the features of the constraint with this number
bits_of_constraint() {
    local word mask=0
    for word in $(statements | sed -n 's/^ *constraint //p' | sed -n "$(($1 + 1))p" | tr -cs 'A-Za-z0-9_' ' '); do
        mask=$((mask | ${bits[$word]:-0}))
    done
    echo "$mask"
}

# whether a set with this number is known not to be valid
is_left_out() {
    local mask
    for mask in "${!refused[@]}"; do
        case ${refused[$mask]} in *" $(($1 & mask)) "*) return 0 ;; esac
    done
    return 1
}

# exports the variant of these names into a folder; what the program says where it refuses stands in $work/said
write_variant() {
    "$program" export "$example" "$1" >"$work/variant" 2>"$work/said" || return 1
    mkdir -p "$2"
    mv "$work/variant" "$2/Variant.java"
}

# exports all valid variants of the example, and sets `found` to their number
write_variants() {
    local -A bits refused=()
    local features names number mask
    found=0
    read_features
    for ((number = 0; number < 1 << ${#features[@]} && found < most; number++)); do
        if is_left_out "$number"; then continue; fi
        name_set "$number"
        if write_variant "$names" "$work/$name/$found"; then
            found=$((found + 1))
        else
            mask=$(bits_of_constraint "$(sed -n 's/^invalid selection: constraint //p' "$work/said")")
            refused[$mask]="${refused[$mask]:- }$((number & mask)) "
        fi
    done
}

# compiles them, in one run of the compiler
compile_all() {
    local found
    write_variants
    if [ "$found" = 0 ]; then
        fail "$name has no valid variant"
    elif java -cp "$work" AllVariants "$work/$name" >"$work/took" 2>"$work/said"; then
        echo "yes: $name: $found valid variants, and javac compiles each"
    else
        fail "$name: javac refuses one of $found variants"
        head -n 5 "$work/said"
    fi
}

# has the compiler refuse each variant that a finding names
refuse_all() {
    local names found=0 agreed=0
    while IFS= read -r names; do
        found=$((found + 1))
        if ! write_variant "${names:-.}" "$work/$name/$found"; then
            fail "$name: $names isn't valid"
        elif javac -proc:none -d "$work/$name/$found" "$work/$name/$found/Variant.java" >/dev/null 2>&1; then
            fail "$name: javac compiles the variant of $names"
        else
            agreed=$((agreed + 1))
        fi
    done < <("$program" check "$example" | sed -n 's/^broken .*\[\(.*\)\]$/\1/p' | tr ' ' ',' | sort -u)
    if [ "$found" = 0 ]; then
        fail "$name: nothing is found"
    elif [ "$found" = "$agreed" ]; then
        echo "yes: $name: javac refuses each variant that a finding names, $found in all"
    fi
}

javac -d "$work" "$top/bench/AllVariants.java"
cd "$top/examples"
if [ $# = 0 ]; then set -- *.fj; fi
for example in "$@"; do
    name=${example%.fj} example=${example%.fj}.fj
    case $name in
        *-broken) refuse_all ;;
        *) compile_all ;;
    esac
done
exit "$failed"
