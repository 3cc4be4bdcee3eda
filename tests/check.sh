#!/bin/bash
# The program `check`, run: every example, the edges of its input and of its output, and what it prints shown at the door.
# usage: check.sh CHECK [PRESS], from the top of the repository; without PRESS nothing is shown at the door
set -euo pipefail
check=$1 press=${2:-}
room=$(mktemp -d)
trap 'rm -rf "$room"' EXIT
passed=0

# Holds what stands in a file to what is expected.
expect() { # WHAT FILE EXPECTED
    if ! cmp -s "$2" "$3"; then
        echo "check: $1: printed" >&2
        head -c 400 "$2" >&2
        echo "and not" >&2
        head -c 400 "$3" >&2
        exit 1
    fi
    passed=$((passed + 1))
}

# Holds what is printed for a case on standard input to a refusal.
refuses() { # WHAT NUMBER PLACE
    "$check" > "$room/printed"
    printf 'refused=%s\nplace=%s\n' "$2" "$3" > "$room/expected"
    expect "$1" "$room/printed" "$room/expected"
}

# Holds what is printed for a case on standard input to case P's procap.
issues() { # WHAT
    "$check" > "$room/printed"
    expect "$1" "$room/printed" examples/p.procap
}

# So many bytes 0.
zeros() { head -c "$1" /dev/zero; }

# A case that is so many bytes long, an even number: the formula has as many hex digits as it takes.
case_of() { # BYTES
    local front=$'who=22\nwhat=7\nright=9\ncerts=1\nby=1\nfrom=1000\nto=2000\nsays=' back=$'\nproof=25\n'
    printf '%s' "$front"
    zeros $(($1 - ${#front} - ${#back})) | tr '\0' '1'
    printf '%s' "$back"
}

# ── The examples ──

for case in examples/*.case; do
    name=${case%.case}
    "$check" < "$case" > "$room/printed"
    if [ -f "$name.procap" ]; then expected=$name.procap; else expected=$name.refused; fi
    expect "$case" "$room/printed" "$expected"
done
expect "the case that the gate runs is case P" crates/check_case/stdin examples/p.case

# ── What comes in ──

refuses "an empty input" 14 1 < /dev/null
refuses "a closed input" 14 1 <&-
refuses "a folder as input" 14 1 < examples
issues "an input in two pieces" < <(head -c 1 examples/p.case; sleep 0.1; tail -c +2 examples/p.case)
length=$(wc -c < examples/p.case)
issues "an input byte by byte" < <(for ((i = 1; i <= length; i++)); do tail -c +"$i" examples/p.case | head -c 1; done)
for ((i = 0; i < length; i++)); do
    line=$(head -c "$i" examples/p.case | wc -l)
    refuses "case P cut after $i bytes" 14 $((line + 1)) < <(head -c "$i" examples/p.case)
done
refuses "carriage returns" 14 1 < <(sed 's/$/\r/' examples/p.case)
refuses "a byte 0" 14 1 < <(tr 'w' '\0' < examples/p.case)
refuses "a byte after the proof's line" 14 10 < <(cat examples/p.case; zeros 1)

# ── How much comes in ──

refuses "65,536 bytes of a case: the certificate is too long" 1 0 < <(case_of 65536)
refuses "65,538 bytes of a case" 14 0 < <(case_of 65538)
refuses "65,536 bytes, the first of them case P" 14 10 < <(cat examples/p.case; zeros $((65536 - length)))
refuses "65,537 bytes, the first of them case P" 14 0 < <(cat examples/p.case; zeros $((65537 - length)))
refuses "an input that never ends" 14 0 < /dev/zero

# ── What goes out ──

for out in /dev/full closed; do
    if [ "$out" = closed ]; then
        "$check" < examples/p.case 2> "$room/said" >&-
    else
        "$check" < examples/p.case 2> "$room/said" > "$out"
    fi
    echo "check: the answer could not be written" > "$room/expected"
    expect "an output that takes nothing ($out)" "$room/said" "$room/expected"
done
timeout 10 bash -c "'$check' < examples/p.case 2> /dev/null | true" || [ $? -ne 124 ]
passed=$((passed + 1))
# By the time that the case comes in, nobody reads what is printed.
(sleep 0.5; cat examples/p.case) | "$check" 2> "$room/said" | true
expect "an output whose reader has gone" "$room/said" "$room/expected"

# ── From the office to the desk ──

# Presses Start with what is printed for a case, and holds what the door says to what is expected.
presses() { # CASE MOMENT STATE EXPECTED
    "$check" < "examples/$1.case" > "$room/printed"
    "$press" "$room/printed" 2 7 9 "$2" "$3" > "$room/said" || true
    printf '%b' "$4" > "$room/expected"
    expect "$1 shown at the door at $2" "$room/said" "$room/expected"
}

if [ -z "$press" ]; then
    echo "check: $passed runs came out as expected; nothing was shown at the door, which takes a C compiler for x86-64"
    exit
fi
presses p 1000 examples/loaded.state 'open\n'
presses p 2001 examples/loaded.state 'refused=9\nplace=0\n'
presses p 1500 /dev/null 'refused=10\nplace=0\n'
presses ctime_in_a_fact 1500 examples/logged_at_1500.state 'open\n'
presses ctime_in_a_fact 1501 examples/logged_at_1500.state 'refused=10\nplace=0\n'
# The trainee's certificate is of March 2026: the second before it, its last, the one after it, and the first of June.
presses trainee_in_march 1772323199 /dev/null 'refused=9\nplace=0\n'
presses trainee_in_march 1775001599 /dev/null 'open\n'
presses trainee_in_march 1775001600 /dev/null 'refused=9\nplace=0\n'
presses trainee_in_march 1780272000 /dev/null 'refused=9\nplace=0\n'
# By cases the facts of both are wanted, whichever blender is on duty.
presses whoever_is_on_duty 1500 examples/loaded_and_idle.state 'open\n'
presses whoever_is_on_duty 1500 examples/loaded.state 'refused=10\nplace=1\n'
presses no_moment_left 1500 examples/loaded.state 'refused=12\nplace=0\n'
# What is no number is no press, in none of the four places: the status is 2, and nothing is said of the door.
for word in x '' -1 ' 7' 7x 0x7 18446744073709551616; do
    for numbers in "$word|7|9|1500" "2|$word|9|1500" "2|7|$word|1500" "2|7|9|$word"; do
        IFS='|' read -r who what right moment <<< "$numbers"
        status=0
        "$press" examples/p.procap "$who" "$what" "$right" "$moment" examples/loaded.state > "$room/said" 2> /dev/null || status=$?
        echo "status $status" >> "$room/said"
        echo "status 2" > "$room/expected"
        expect "a press with the numbers $numbers" "$room/said" "$room/expected"
    done
done

echo "check: $passed runs came out as expected"
