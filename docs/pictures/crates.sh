#!/bin/bash
# Prints the crates in the language of dot: the two halves, what is below both, what is above both, and for each crate what it uses.
# usage: crates.sh CRATES.TXT | tred | dot -Tsvg; `tred` drops the arrows that follow from others
set -euo pipefail

# Where each crate stands, what it is (code, paper: no code but for tags, shipped), its name, and its words on two lines.
places() {
    cat << 'END'
above   code     kept        demands 2 and 3,|as calls
above   paper    demands     three demands|and fifteen presses
above   code     from_c_c    the same calls,|for C
above   code     from_c      every call on numbers|and bytes
desk    shipped  door_c      the door for C:|archive for firmware
desk    code     door        opens or|refuses
desk    code     text        reads and writes|the procap text
desk    code     state       which facts stand|in a state
office  shipped  check_case  reads, answers, writes:|the program bin/check
office  code     cases       what is printed|for a case
office  code     verifier    verify and|the direct check
office  code     walk        a proof walked,|step by step
office  code     judging     what each step|makes of goals
office  code     formula     formulas in bytes,|taken apart, compared
office  code     steps       proof bytes,|read and taken apart
office  code     ledger      what a walk|keeps and asks
office  code     strength    who is as strong|as whom
office  paper    bl          the logic on paper;|in code the tags
below   code     rising      numbers in|rising order
below   code     front       the front of an array:|so many of its items
below   code     procap      the data that|both halves share
below   paper    by_hand     laws for proofs by hand,|used by no crate
END
}

awk '
function stop(word) { print "crates.sh: " word > "/dev/stderr"; stopped = 1; exit 1 }
function box(crate) {
    split(words[crate], line, "|")
    printf "%s [label=<<B>%s</B><BR/>%s<BR/>%s>%s%s]\n", crate, crate, line[1], line[2], look[kind[crate]], column[crate]
}
function boxes(place, i) { for (i = 1; i <= listed; i++) if (half[name[i]] == place) box(name[i]) }
function cluster(place, title, fill) {
    printf "subgraph cluster_%s {\nlabel=<<B>%s</B>>; labeljust=l; fontsize=13; style=\"filled,rounded\"; fillcolor=\"%s\"; color=\"#8a8a8a\"; margin=14\n", place, title, fill
    boxes(place)
    print "}"
}

# The places.
FNR == NR {
    half[$3] = $1; kind[$3] = $2; name[++listed] = $3
    sub(/^[^ ]+ +[^ ]+ +[^ ]+ +/, ""); words[name[listed]] = $0
    next
}
# crates.txt: `NAME: what it uses`, or `NAME staticlib: what it uses`. No arrow may lead from the desk to the office, nor up from below both.
/^#/ || NF == 0 { next }
{
    sub(/ staticlib:/, ":")
    sub(/:$/, "", $1)
    if (!($1 in half)) stop("the crate " $1 " of crates.txt stands in no half: give it a line here")
    seen[$1] = 1
    for (i = 2; i <= NF; i++) {
        if (!($i in half)) stop("the crate " $i ", which " $1 " uses, stands in no half: give it a line here")
        if (half[$1] == "desk" && half[$i] == "office") stop($1 " of the desk uses " $i " of the office")
        if (half[$1] == "below" && half[$i] != "below") stop($1 " is below both halves and uses " $i)
        arrows = arrows $1 " -> " $i (half[$1] == "above" && half[$i] != "above" ? " [minlen=2]" : "") "\n"
    }
}
END {
    if (stopped) exit 1
    for (i = 1; i <= listed; i++) if (!(name[i] in seen)) stop("no crate " name[i] " in crates.txt: take its line out here")
    # The crates of the office stand under each other, but for steps and strength.
    for (crate in seen) if (half[crate] == "office" && crate != "steps" && crate != "strength") column[crate] = ", group=office"
    look["paper"] = ", fillcolor=\"#d6d6d6\""
    look["shipped"] = ", penwidth=3"
    print "digraph \"The crates in two halves: the desk uses nothing of the office\" {"
    print "graph [bgcolor=white, fontname=\"Helvetica,Arial,sans-serif\", fontsize=13, nodesep=0.24, ranksep=0.28, pad=0.15, newrank=true]"
    print "node [shape=box, style=filled, fillcolor=white, fontname=\"Helvetica,Arial,sans-serif\", fontsize=11, margin=\"0.13,0.08\"]"
    print "edge [color=\"#404040\", arrowsize=0.7]"
    print "label=<<BR/>An arrow leads from a crate to what it uses; what follows from other arrows is left out.<BR ALIGN=\"LEFT\"/>" \
        "No arrow leads from the desk to the office: the door knows nothing of proofs.<BR ALIGN=\"LEFT\"/>" \
        "Thick border: shipped. Grey: on paper, with no code but the tags of bl.<BR ALIGN=\"LEFT\"/>>; labeljust=l; fontsize=11"
    boxes("above")
    cluster("desk", "the desk", "#e8f0f8")
    cluster("office", "the office", "#f8f2e2")
    boxes("below")
    # What stands side by side.
    print "{ rank=same; kept; demands; from_c }\n{ rank=same; door; formula; steps }\n{ rank=same; text; ledger }\n{ rank=same; state; bl }\n{ rank=same; procap; by_hand; front }"
    printf "%s", arrows
    print "}"
}' <(places) "$1"
