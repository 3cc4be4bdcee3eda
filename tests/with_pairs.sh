#!/bin/bash
# The owner's certificate in the administrator's view, with and without pairs, as a program of the office lends them.
# usage: with_pairs.sh WITH_PAIRS, from the top of the repository
set -euo pipefail
program=$1
refused=$(cat examples/owner_certifies.refused)
issued=$(cat examples/owner_above.procap)
passed=0

# Holds what is printed for the case with these pairs to what is expected.
expect() { # WHAT EXPECTED PAIRS..
    local what=$1 expected=$2 printed
    shift 2
    printed=$("$program" examples/owner_certifies.case "$@")
    if [ "$printed" != "$expected" ]; then
        echo "with_pairs: $what: printed \"$printed\" and not \"$expected\"" >&2
        exit 1
    fi
    passed=$((passed + 1))
}

# The same pair so many times.
times() { # COUNT
    for ((i = 0; i < $1; i++)); do echo 5 1; done
}

expect "no pairs" "$refused"
expect "the owner above the administrator" "$issued" 5 1
expect "a chain" "$issued" 5 6 6 1
expect "a chain, the last pair first" "$issued" 6 1 5 6
expect "a ring on the way" "$issued" 5 6 6 5 6 1
expect "a pair that leads the other way" "$refused" 1 5
expect "a chain that is broken" "$refused" 5 6 7 1
expect "each above itself" "$refused" 5 5 1 1
# shellcheck disable=SC2046
expect "128 times the same pair" "$issued" $(times 128)
# shellcheck disable=SC2046
expect "129 times the same pair" $'refused=21\nplace=0' $(times 129)
echo "with_pairs: $passed lists of pairs, each answered as expected"
