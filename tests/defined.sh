# What the tests of pages and pictures both look up in the definitions. To be sourced, at the top of the repository.

# What matches, one on a line; nothing is no failure.
each() { grep -ohE "$@" || true; }

# The words that a file defines: in antt what stands before a colon and before any parameter; in Rattle functions, types, variants and constants.
defined() { # FILE
    case $1 in
    *.antt) awk '!/^ *--/ && / : / { sub(/(^| )[({].*/, ""); sub(/ : .*/, ""); for (i = 1; i <= NF; i++) print $i }' "$1" ;;
    *.rt) each '(fn|struct|enum|const|mod) [A-Za-z_0-9]+|^ +[A-Z][A-Za-z0-9]*[,(]' "$1" | sed -E 's/^(fn|struct|enum|const|mod) //; s/[ ,(]//g' ;;
    esac
}

# The numbers that the answers have.
numbers_defined() { sed -nE 's/^numbers = (.*) ∷ \[\]$/\1/p' crates/procap/specs/Answers.antt | sed 's/ ∷ /\n/g'; }
