#!/usr/bin/env bash
# What C calls promises what the library promises: each function that a crate NAME_c exports has the parameters, the answer and the clauses of the
# function of this name in the crate NAME, word for word. So what `demands` holds of the library's contracts holds of the exports' too.
set -euo pipefail
cd "$(dirname "$0")/.."

# The functions of the files, each on a line: the name, then parameters, answer and clauses, with one space for each gap and no comma before a bracket.
contracts() {
    cat "$@" | awk '
    /^pub (extern "C" )?fn / { sub(/^pub (extern "C" )?fn /, ""); text = ""; inside = 1 }
    inside && /^\{/ { gsub(/[ \t]+/, " ", text); gsub(/, ?\)/, ")", text); gsub(/\( /, "(", text); print text; inside = 0 }
    inside && /\{$/ && !/^ / { sub(/ \{$/, "") }
    inside { text = text " " $0 }' | sed 's/^ //' | sort
}

faults=0
count=0
for crate in crates/*_c; do
    library=${crate%_c}
    [ -d "$library" ] || continue
    while read -r contract; do
        count=$((count + 1))
        contracts "$library"/src/*.rt | grep -qxF -- "$contract" || { echo "exports: $crate: the library has no such contract: $contract" >&2; faults=$((faults + 1)); }
    done < <(contracts "$crate"/src/*.rt)
done
[ "$count" -gt 0 ] && [ "$faults" -eq 0 ] || { echo "exports: $faults faults in $count exports" >&2; exit 1; }
echo "exports: $count functions for C have the contracts of the library"
