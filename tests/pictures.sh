#!/bin/bash
# The pictures of docs/pictures, held to what they show: the crates and what they use, the numbers of the answers, the definitions. Draws nothing.
# usage: pictures.sh, from the top of the repository
set -euo pipefail
. tests/defined.sh
pictures=docs/pictures

fail() { # WORD..
    echo "pictures: $*" >&2
    exit 1
}

# ── Every source is drawn ──

for source in "$pictures"/*.dot "$pictures"/*.sh; do
    [ -f "${source%.*}.svg" ] || fail "${source%.*}.svg is missing: make pictures"
done

# ── The crates ──

# The titles of the boxes and of the arrows in crates.svg, after the lines of crates.txt. A use must be an arrow, or follow from arrows.
crates=$(awk '
function stop(word) { print "pictures: " word > "/dev/stderr"; stopped = 1; exit 1 }
function leads(from, to, i) {
    if ((from, to) in arrow) return 1
    for (i = 1; i <= count; i++) if ((from, name[i]) in arrow && leads(name[i], to)) return 1
    return 0
}
FNR == NR {
    if (/^#/ || NF == 0) next
    sub(/ staticlib:/, ":"); sub(/:$/, "", $1); name[++count] = $1; crate[$1] = 1
    for (i = 2; i <= NF; i++) if ($i in crate) uses[$1, $i] = 1
    next
}
/class="node"/ { part = "node"; next }
/class="edge"/ { part = "edge"; next }
/<title>/ {
    gsub(/.*<title>|<\/title>.*/, ""); gsub(/&#45;/, "-"); gsub(/&gt;/, ">")
    if (part == "node") {
        if (!($0 in crate)) stop("crates.svg names a crate " $0 " that is not in crates.txt")
        drawn[$0] = 1
    }
    if (part == "edge") {
        split($0, end, "->")
        if (!((end[1], end[2]) in uses)) stop("crates.svg has an arrow from " end[1] " to " end[2] ", and crates.txt no such use")
        arrow[end[1], end[2]] = 1
    }
    part = ""
}
END {
    if (stopped) exit 1
    for (i = 1; i <= count; i++) if (!(name[i] in drawn)) stop("the crate " name[i] " of crates.txt is not in crates.svg: make pictures")
    for (use in uses) {
        split(use, end, SUBSEP)
        if (!leads(end[1], end[2])) stop("that " end[1] " uses " end[2] " is not in crates.svg: make pictures")
    }
    print count
}' crates.txt "$pictures/crates.svg")

# ── The definitions ──

# What is written in a picture or its source, as one line: no comments, no tags, one blank where a line ends.
written() { # FILE
    sed -e '/^ *\/\//d' -e 's/\\[nlr]/ /g' -e 's/<[^>]*>/ /g' -e 's/&#45;/-/g' -e 's/&#160;/ /g' "$1" | tr -s '\n ' ' '
}

# Each `CRATE/specs/FILE.antt: NAME, NAME` in it, on a line of its own.
definitions() { # FILE
    written "$1" | grep -oE '[a-z_]+/(specs|proofs)/[A-Za-z]+\.antt: [A-Za-z0-9_]+(, [A-Za-z0-9_]+)*' || true
}

found=$(definitions "$pictures/readings.dot")
[ "$(wc -l <<< "$found")" = "$(written "$pictures/readings.dot" | grep -oF .antt | wc -l)" ] || fail "readings.dot names a file .antt, but not as CRATE/specs/FILE.antt: NAME"
[ "$(sort <<< "$found")" = "$(definitions "$pictures/readings.svg" | sort)" ] || fail "readings.svg has other definitions than readings.dot: make pictures"
named=0
while IFS=' ' read -r file names; do
    file=crates/${file%:}
    [ -f "$file" ] || fail "readings.dot names $file, which is not there"
    for name in ${names//,/}; do
        grep -qxF -- "$name" <<< "$(defined "$file")" || fail "readings.dot names $name, which $file does not define"
        named=$((named + 1))
    done
done <<< "$found"

# ── The numbers of the answers ──

numbers=$(numbers_defined)
[ -n "$numbers" ] || fail "no list of numbers in crates/procap/specs/Answers.antt"
# In the source what is bold and begins with a digit; and the same as it is drawn.
in_source=$(sed '/^ *\/\//d' "$pictures/press.dot" | grep -oE '<B>[0-9][^<]*</B>' | grep -oE '[0-9]+' | sort -n) || true
in_drawing=$(sed -n 's/.*font-weight="bold"[^>]*>\([0-9][^<]*\)<.*/\1/p' "$pictures/press.svg" | grep -oE '[0-9]+' | sort -n) || true
[ "$in_source" = "$in_drawing" ] || fail "press.svg has other numbers than press.dot: make pictures"
for number in $in_source; do
    grep -qx "$number" <<< "$numbers" || fail "press.dot has the number $number, which is no answer's"
done
for number in $numbers; do
    [ "$number" = 13 ] || grep -qx "$number" <<< "$in_source" || fail "the answer $number is nowhere in press.dot"
done
# No other text has a number that could be taken for an answer's.
plain=$(grep '<text' "$pictures/press.svg" | grep -v 'font-weight="bold"' | sed -e 's/<[^>]*>//g' -e 's/&#[0-9]*;/ /g' -e 's/demand [0-9]//' | grep '[0-9]') || true
[ -z "$plain" ] || fail "press.svg has a number that is not bold: $plain"
# The door's stand in the order of include/procap.h.
door=$(grep -oE '^ *PROCAP_[A-Z_]+ = [0-9]+' include/procap.h | grep -oE '[0-9]+$' | grep -vx 0 | paste -sd ' ')
grep -qF "<B>$door</B>" "$pictures/press.dot" || fail "press.dot has no arrow with the door's numbers in the order of include/procap.h: $door"

echo "pictures: $crates crates, $named definitions and $(sort -nu <<< "$in_source" | wc -l) numbers stand as the files have them"
