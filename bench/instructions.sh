#!/bin/bash
# Instructions for each call, counted by valgrind's callgrind: the difference of two runs, so that all that is done once drops out.
# usage: instructions.sh BENCH
set -euo pipefail
bench=$1
command -v valgrind > /dev/null || { echo "no valgrind on this machine: nothing was counted" >&2; exit 1; }

# The instructions of a run with so many calls.
counted() { # ROW SIDE CALLS
    valgrind --tool=callgrind --callgrind-out-file=/dev/null "$bench" count "$1" "$2" "$3" 2>&1 | sed -n 's/.*Collected : //p'
}
each() { # ROW SIDE
    echo $((($(counted "$1" "$2" 30) - $(counted "$1" "$2" 10)) / 20))
}

printf '%-66s %10s %10s %8s\n' "instructions for each call" Rattle Rust ratio
row=0
"$bench" names | while IFS= read -r name; do
    rattle=$(each "$row" rattle) rust=$(each "$row" rust)
    printf '%-66s %10d %10d %8s\n' "$name" "$rattle" "$rust" "$(awk "BEGIN { printf \"%.2f\", $rattle / $rust }")"
    row=$((row + 1))
done
