#!/bin/bash
# Runs the program `check` on cases with less and less stack, and prints the least that each comes out with, in steps of 16 KiB.
# Fails where that is above the limit.
# usage: stack.sh CHECK LIMIT_IN_KIB NAME.., with NAME.case and NAME.procap for each
set -euo pipefail
check=$1 limit=$2
shift 2

# Runs the program with so much stack: the system keeps to it, or, where the Makefile says EMULATED, the emulator.
with_stack() { # KIB
    if [ -z "${EMULATED:-}" ]; then ulimit -s "$1"; else export QEMU_STACK_SIZE=$(($1 * 1024)); fi
    "$check"
}

# Whether a case comes out with so much stack.
comes_out_with() { # NAME KIB
    (with_stack "$2" < "$1.case") 2> /dev/null | cmp -s - "$1.procap"
}

for name; do
    if ! comes_out_with "$name" "$limit"; then
        echo "$name.case does not come out with a stack of $limit KiB" >&2
        exit 1
    fi
    least=$limit
    while [ "$least" -gt 16 ] && comes_out_with "$name" $((least - 16)); do
        least=$((least - 16))
    done
    echo "$name.case: a stack of $least KiB is enough (limit: $limit KiB)"
done
