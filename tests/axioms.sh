#!/usr/bin/env bash
# What the proofs assume, told from the prover's verdicts: on each crate in what `rt ci` printed, and, as that leaves out what an earlier run of it has
# proved of the same files, on the crates that are compiled, which are checked here once more. It fails where a crate of crates.txt has no verdict and
# is not kept, where one declares a function that nothing proves (foreign=), and where anything else is assumed than the calls by which the program
# reads and writes.
# usage: axioms.sh LOG, LOG being what `rt ci` printed, from the top of the repository
set -euo pipefail
log=$1

# The crates that are compiled: the static libraries and the program.
compiled() { for crate in crates/*/; do if [ -f "${crate}src/main.rt" ] || grep -q "^$(basename "$crate") staticlib:" crates.txt; then basename "$crate"; fi; done; }

# Every verdict, each below a line `== CRATE`.
verdicts() {
    cat "$log"
    for crate in $(compiled); do
        echo "== $crate"
        (cd "crates/$crate" && rt check) || true
    done
}

verdicts | awk -v compiled="$(compiled | paste -sd ' ')" '
FILENAME == "crates.txt" { if (!/^#/ && NF) { sub(/[ :].*/, ""); wanted[$0]; crates++ } next }
/^== [a-z_]+$/ { crate = $2; assumed = "" }
/^rt: [a-z_]+ is kept: / { delete wanted[$2]; kept++ }
/^axioms / && !/: none reached/ { line = $0; sub(/^axioms /, "", line); assumed = assumed (assumed == "" ? "" : ", ") line }
/^logic=/ {
    delete wanted[crate]
    if ($0 !~ /^logic=proved / || $0 ~ / foreign=/) fault = crate ": " $0
    if ($0 ~ / axioms=/ || assumed != "") {
        said[crate] = assumed
        if (crate != "check_case" || assumed !~ /^libc: libc::read, libc::write \([^)]*\), os: os::c::rattle_errno \([^)]*\)$/) fault = crate ": " assumed
    }
    verdict[crate]
    assumed = ""
}
END {
    for (crate in wanted) fault = crate ": no verdict"
    count = split(compiled, name, " ")
    for (i = 1; i <= count; i++) if (!(name[i] in verdict)) fault = name[i] ": no verdict"
    if (fault != "") { print "axioms: " fault > "/dev/stderr"; exit 1 }
    for (crate in said) printf "%s assumes %s\n", crate, said[crate]
    printf "%d crates proved, and nothing else is assumed\n", crates
}' crates.txt -
