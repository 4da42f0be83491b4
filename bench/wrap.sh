#!/usr/bin/env bash
# What splitting and wrapping cost, by callgrind's instructions, and whether the number of siblings shows in it.
# Usage: bench/wrap.sh [PROGRAM]   (valgrind is needed; PROGRAM is crates/edit_bench/out/edit_bench unless given)
# A round is one command: it begins, splits or wraps, is committed, and is undone. A figure is the difference of two runs over
# one page of which the second has twice as many rounds, so that reading the page doesn't count. It ends with status 1 if a
# target is missed.
set -euo pipefail
cd "$(dirname "$0")/.."
program=$(realpath "${1:-crates/edit_bench/out/edit_bench}")
work=$(mktemp -d)
trap 'rm -rf "$work"' EXIT
missed=0
source bench/measure.sh

# A page whose host holds so many times the first text, the second, and so many times the third.
page() { # TIMES BEFORE MIDDLE TIMES AFTER
  awk -v m="$1" -v b="$2" -v mid="$3" -v n="$4" -v a="$5" '
    function repeat(text, times,  k) { for (k = 0; k < times; k++) printf "%s", text }
    BEGIN { printf "<div contenteditable=\"true\">"; repeat(b, m); printf "%s", mid; repeat(a, n); printf "</div>" }'
}

# A page whose host holds one element with so many paragraphs.
list_page() { # ELEMENT TIMES BEFORE AFTER
  awk -v e="$1" -v n="$2" -v b="$3" -v a="$4" 'BEGIN {
    printf "<div contenteditable=\"true\">%s<%s id=\"x\">", b, e
    for (k = 0; k < n; k++) printf "<p>a</p>"
    printf "</%s>%s</div>", e, a }'
}

# The instructions of so many rounds of an act on the node of a label.
instructions() { # ACT LABEL ROUNDS
  counted "$work/reply" "$program" "$1" "$2" "$3" < "$work/page"
  if ! grep -q '^edits [1-9]' "$work/reply"; then
    echo "bench/wrap.sh: no edits: $1 $2" >&2
    exit 2
  fi
}

# The instructions of one round.
round() { # ACT LABEL ROUNDS
  local few many
  few=$(instructions "$1" "$2" "$3")
  many=$(instructions "$1" "$2" $(($3 * 2)))
  echo $(((many - few) / $3))
}

# ---- how many siblings there are

few=3
many=100000

compare() { # WORDS SMALL LARGE
  echo "$1: $2 instructions of $few siblings, $3 of 100,000"
  told "growth" "$(ratio "$3" "$2")" 1.3
}

list_page div $few '' '' > "$work/page"
small=$(round split 5 500)
list_page div $many '' '' > "$work/page"
large=$(round split 5 500)
compare "split the parent of the second child" "$small" "$large"
told "instructions" "$large" 30000

list_page div $few '' '' > "$work/page"
small=$(round split $((2 * few + 1)) 500)
list_page div $many '' '' > "$work/page"
large=$(round split $((2 * many + 1)) 500)
compare "split the parent of the last child" "$small" "$large"

page $few '<p>a</p>' '<div><p>b</p><p>c</p></div>' $few '<p>a</p>' > "$work/page"
small=$(round split $((2 * few + 3)) 500)
page $many '<p>a</p>' '<div><p>b</p><p>c</p></div>' $many '<p>a</p>' > "$work/page"
large=$(round split $((2 * many + 3)) 500)
compare "split a parent of two amid its siblings" "$small" "$large"

list_page div $few '' '' > "$work/page"
small=$(round wrap 5 500)
list_page div $many '' '' > "$work/page"
large=$(round wrap 5 500)
compare "wrap the second child in a new element" "$small" "$large"

list_page div $few '' '' > "$work/page"
small=$(round wrap $((2 * few + 1)) 500)
list_page div $many '' '' > "$work/page"
large=$(round wrap $((2 * many + 1)) 500)
compare "wrap the last child in a new element" "$small" "$large"

list_page blockquote $few '' '<p>b</p>' | sed 's/ id="x"//' > "$work/page"
small=$(round join $((2 * few + 3)) 500)
list_page blockquote $many '' '<p>b</p>' | sed 's/ id="x"//' > "$work/page"
large=$(round join $((2 * many + 3)) 500)
compare "wrap in the element before it, which has the siblings" "$small" "$large"

list_page blockquote $few '<p>b</p>' '' | sed 's/ id="x"//' > "$work/page"
small=$(round join 2 500)
list_page blockquote $many '<p>b</p>' '' | sed 's/ id="x"//' > "$work/page"
large=$(round join 2 500)
compare "wrap in the element after it, which has the siblings" "$small" "$large"

# ---- how many nodes go along

list_page div 1000 '' '' > "$work/page"
small=$(round unwrap 2 5)
list_page div 4000 '' '' > "$work/page"
large=$(round unwrap 2 5)
echo "remove an element, and its children stay: $small instructions of 1,000 children, $large of 4,000"
told "growth at four times as many" "$(ratio "$large" "$small")" 4.5

page 1000 '<!--x-->' '<p>a</p>' 0 '' > "$work/page"
small=$(round wrap 1002 5)
page 4000 '<!--x-->' '<p>a</p>' 0 '' > "$work/page"
large=$(round wrap 4002 5)
echo "wrap a node with the invisible ones before it: $small instructions with 1,000 comments, $large with 4,000"
told "growth at four times as many" "$(ratio "$large" "$small")" 4.5

exit "$missed"
