#!/bin/bash
# Compiles the proved code of an archive once more, into target/native: where the Makefile says EMULATED for the machine at hand, good for comparing
# and measuring, while the archive that is shipped is the one for x86-64; with the word `covered` so that a fuzzer sees which branches are taken, as
# libNAME_covered.a. It is the same module of LLVM, compiled by the kit's clang with the kit's options, but for those that only x86-64 has.
# usage: archive_here.sh NAME CRATE [covered], CRATE being the static library that libNAME.a is made of
set -euo pipefail
name=$1 crate=$2 machine=$(uname -m)
native=$PWD/target/native
kit=$(cd "$(dirname "$(rt doc)")" && pwd -P)
mkdir -p "$native"

# A kit beside the kit, whose clang also keeps the module that it is given.
beside=$(mktemp -d)
trap 'rm -rf "$beside"' EXIT
mkdir -p "$beside/toolchain/bin"
link_all() { # FROM TO BUT..
    for part in "$1"/*; do [[ " ${*:3} " == *" $(basename "$part") "* ]] || ln -s "$part" "$2/"; done
}
link_all "$kit" "$beside" bin toolchain
cp -r "$kit/bin" "$beside/bin"
link_all "$kit/toolchain" "$beside/toolchain" bin
link_all "$kit/toolchain/bin" "$beside/toolchain/bin" clang
cat > "$beside/toolchain/bin/clang" << SCRIPT
#!/bin/sh
if [ -f module.bc ]; then cp module.bc '$native/$name.bc'; fi
exec '$kit/toolchain/bin/clang' "\$@"
SCRIPT
chmod +x "$beside/toolchain/bin/clang"
rm -f "$native/$name.bc" "crates/$crate/out/lib$crate.a"
(cd "crates/$crate" && "$beside/bin/rt" lib)

archive=$native/lib$name${3:+_$3}.a
covers=()
if [ "${3:-}" = covered ]; then covers=(-fsanitize-coverage=inline-8bit-counters,pc-table,trace-cmp); fi
"$kit/toolchain/bin/clang" "--target=$machine-unknown-linux-gnu" -ffunction-sections -fdata-sections -fPIC -O3 -w "${covers[@]}" -c -x ir "$native/$name.bc" -o "${archive%.a}.o"
rm -f "$archive"
ar rcs "$archive" "${archive%.a}.o"
