#!/bin/bash
# Makes of a program for x86-64 one that this machine can start. Where the Makefile says EMULATED, a script takes its place that starts it under
# the emulator that is on the path.
# usage: run_here.sh PROGRAM
set -euo pipefail
program=$1
if [ -z "${EMULATED:-}" ]; then exit; fi
libraries=$(dirname "$(rt doc)")/toolchain/lib
emulator=$(command -v qemu-x86_64) || { echo "no qemu-x86_64 on the path: nothing starts $program here" >&2; exit 1; }
under=("$emulator")
# A program that names a loader, which stands near its front, is not linked statically: it runs with the kit's C library.
if head -c 4096 "$program" | grep -q ld-linux-x86-64; then under+=("$libraries/ld-linux-x86-64.so.2" --library-path "$libraries"); fi
mv "$program" "$program.x86-64"
printf '#!/bin/sh\nexec %s "$0.x86-64" "$@"\n' "${under[*]@Q}" > "$program"
chmod +x "$program"
