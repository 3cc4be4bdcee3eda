#!/usr/bin/env bash
# The pages and the comments name each other: every definition, file and decision that a page names is there, every tag in a comment names an entry of
# docs/SCOPE.md or a point of docs/DECISIONS.md, the tables of tags and numbers are those of the definitions, and no line of a page is too long.
set -euo pipefail
cd "$(dirname "$0")/.."
. tests/defined.sh

SCOPE=docs/SCOPE.md
PAGES=(README.md CONTRIBUTING.md examples/README.md docs/*.md docs/changes/*.md)
LONGEST=140
faults=0
scratch=$(mktemp -d)
trap 'rm -rf "$scratch"' EXIT

# Runs a command that prints a line for each fault, and says with which words it is one.
none_of() {
    "${@:2}" > "$scratch/faults"
    while read -r fault; do
        echo "pages: $1: $fault" >&2
        faults=$((faults + 1))
    done < "$scratch/faults"
}

# The lines of the input that the file does not have, in capitals or not; and those that only one of two lists has.
not_in() { awk 'NR == FNR { have[tolower($0)]; next } !(tolower($0) in have)' "$1" -; }
not_in_both() { comm -3 <("$1" "${@:3}" | sort -u) <("$2" | sort -u) | tr -d '\t'; }

# The code spans of the pages, one on a line. A span may go over the end of a line.
spans() { awk '!/^    /' "${PAGES[@]}" | tr '\n' ' ' | each '`[^`]+`' | tr -d '`' | sort -u; }

# `bl/specs/Rules.antt: rule_26, rule_27` on a page: the file is there and defines each of the names. Without names, the file is there.
definitions_missing() {
    spans | sed -nE 's/^([a-z_]+\/(specs|proofs|src)\/[A-Za-z_+\/]+\.(antt|rt))(: (.*))?$/\1|\5/p' > "$scratch/cited"
    while IFS='|' read -r file names; do
        if [ -f "crates/$file" ]; then
            defined "crates/$file" > "$scratch/defined"
            tr -d ' ' <<< "$names" | tr ',' '\n' | awk 'NF' | not_in "$scratch/defined" | sed "s|^|$file: |"
        else
            echo "$file"
        fi
    done < "$scratch/cited"
}

# Files and folders that a page names by their path.
files_missing() {
    each '(docs|tests|include|examples|bench|crates)/[A-Za-z0-9_./*+-]*[A-Za-z0-9_*]' "${PAGES[@]}" | sort -u > "$scratch/paths"
    while read -r path; do
        [[ $path =~ NAME|NN ]] || compgen -G "$path" > /dev/null || echo "$path"
    done < "$scratch/paths"
}

# What a tag may name, one on a line: the sections of the scope, their parts, the codes in the first column of their tables, and the points of the decisions.
entries() {
    awk '/^## / { section = substr($0, 4); print section }
         /^### / { print section ", " substr($0, 5) }
         /^\| [0-9A-F][0-9A-F]?[ |]/ { print section " " $2 }' $SCOPE
    each '^- \*\*[DE][0-9]+\.' docs/DECISIONS.md | each '[DE][0-9]+'
}

# The tags in comments, taken apart: `[Rules 20, 21; D3]` names Rules 20, Rules 21 and D3.
tags() {
    grep -rhE '^ *(--|//)' crates --include='*.antt' --include='*.rt' | each '\[([A-Z][a-z]|[DE][0-9])[^]]*\]' | sed -E 's/^\[//; s/\]$//; s/(; |, ([DE][0-9]))/\n\2/g' |
        awk '{ section = $0; if (!sub(/ [0-9A-F][0-9A-F]?(, .*)?$/, "", section)) { print; next }
               codes = substr($0, length(section) + 2); n = split(codes, code, ", "); for (i = 1; i <= n; i++) print section " " code[i] }' | sort -u
}

tags_without_entry() { not_in "$scratch/entries" < "$scratch/tags"; }
points_missing() { each '\b[DE][0-9]+\b' "${PAGES[@]}" | sort -u | not_in "$scratch/entries"; }
codes_on_page() { awk -v wanted="## $1" '/^## / { here = ($0 == wanted) } here && /^\| [0-9A-F][0-9A-F]?[ |]/ { print $2 }' $SCOPE; }
tags_defined() { each 'eqb b 0x[0-9a-f]{2}' crates/bl/specs/Tags.antt crates/procap/specs/Bytes.antt | each '..$' | tr a-f A-F; }
steps_defined() { tags_defined | each '^[23].'; }
numbers_explained() { each '^\| \*\*[0-9]+\*\*' docs/ANSWERS.md | each '[0-9]+'; }
limits_on_page() { sed -nE '/^## Limits/,/^## Presses/s/^\| .* \| ([0-9,]+) \| `([^:]+): ([^`]+)` \|$/\2: \3 = \1/p' $SCOPE | tr -d ','; }
limits_defined() {
    limits_on_page | while IFS=': ' read -r file name _; do sed -nE "s/^($name = [0-9_]+)\$/\1/p" "crates/$file" | sed -E 's/([0-9])_([0-9])/\1\2/g' | sed "s|^|$file: |"; done
}
long_lines() { awk -v most=$LONGEST 'length > most && !/^\|/ { print FILENAME ":" FNR }' "${PAGES[@]}"; }

# Lists that must not be empty: a test that finds nothing to compare finds no fault.
empty_lists() { for list in spans limits_on_page tags_defined numbers_defined numbers_explained; do [ -n "$($list)" ] || echo "$list"; done; }

entries > "$scratch/entries"
tags > "$scratch/tags"
none_of "nothing was found to look at" empty_lists
[ -s "$scratch/tags" ] || none_of "nothing was found to look at" echo tags
none_of "a page names a definition that is not there" definitions_missing
none_of "a page names a file that is not there" files_missing
none_of "a tag in a comment names no entry of $SCOPE and no point of docs/DECISIONS.md" tags_without_entry
none_of "a page cites a point that docs/DECISIONS.md does not have" points_missing
none_of "a tag stands in $SCOPE or in the definitions, and not in both" not_in_both codes_on_page tags_defined Bytes
none_of "a step has a rule in $SCOPE or a tag, and not both" not_in_both codes_on_page steps_defined Rules
none_of "a number stands in $SCOPE or in the definitions, and not in both" not_in_both codes_on_page numbers_defined Numbers
none_of "a number stands in docs/ANSWERS.md or in the definitions, and not in both" not_in_both numbers_explained numbers_defined
none_of "a limit is not the same in $SCOPE and in its definition" not_in_both limits_on_page limits_defined
none_of "a line of more than $LONGEST characters" long_lines

[ $faults -eq 0 ] || exit 1
echo "pages: $(wc -l < "$scratch/cited") places of the crates that pages name are there, $(wc -l < "$scratch/tags") entries that comments name, and $(limits_on_page | wc -l) limits"
