#!/usr/bin/env bash
# What the acts of an editing session cost, by callgrind's instructions, and whether the page's size shows in it.
# Usage: bench/session.sh [PROGRAM]   (valgrind is needed; PROGRAM is crates/hedit/out/hedit unless given)
# A figure is the difference of two sessions over one page of which the second has the acts twice as often, so that reading
# the page and beginning the session don't count. It ends with status 1 if a target is missed.
set -euo pipefail
cd "$(dirname "$0")/.."
program=$(realpath "${1:-crates/hedit/out/hedit}")
work=$(mktemp -d)
trap 'rm -rf "$work"' EXIT
missed=0
source bench/measure.sh

# A page of so many paragraphs of two nodes each, with one more in their middle that is in so many elements. In that one
# a link, with further attributes, is between so many elements on either side.
linked_page() { # PARAGRAPHS DEPTH BESIDE ATTRIBUTES
  awk -v n="$1" -v d="$2" -v s="$3" -v a="$4" '
    function repeat(text, times,  k) { for (k = 0; k < times; k++) printf "%s", text }
    BEGIN {
      printf "<div contenteditable=\"true\">"
      repeat("<p>x</p>", n / 2); repeat("<div>", d)
      printf "<p>"; repeat("<br>", s); printf "<a href=\"x\"%s>link</a>", a; repeat("<br>", s); printf "</p>"
      repeat("</div>", d); repeat("<p>x</p>", n / 2)
      printf "</div>"
    }'
}

# A caret in that link.
caret() { # PARAGRAPHS DEPTH BESIDE
  local path
  path=$(awk -v n="$1" -v d="$2" -v s="$3" 'BEGIN { printf "0/%d", n / 2; for (k = 0; k < d; k++) printf "/0"; printf "/%d/0", s }')
  echo "select $path:1 $path:1"
}

# The instructions of a session on a page, of the acts in a file. An act that is refused ends the bench.
instructions() { # PAGE ACTS
  { echo 'page <<END'; cat "$1"; printf '\nEND\n'; cat "$2"; } > "$work/session"
  counted "$work/replies" "$program" run < "$work/session"
  if grep -m 1 -q '^!' "$work/replies"; then
    echo "bench/session.sh: refused: $(grep -m 1 '^!' "$work/replies")" >&2
    exit 2
  fi
}

# The instructions of one round of acts on a page, after the acts of a text.
round() { # PAGE FIRST ROUNDS ACT..
  local page=$1 first=$2 rounds=$3 few many k
  shift 3
  { printf '%b\n' "$first"; for ((k = 0; k < rounds; k++)); do printf '%s\n' "$@"; done; } > "$work/acts"
  few=$(instructions "$page" "$work/acts")
  for ((k = 0; k < rounds; k++)); do printf '%s\n' "$@"; done >> "$work/acts"
  many=$(instructions "$page" "$work/acts")
  echo $(((many - few) / rounds))
}

# What a round costs on a page of some 1,000 nodes and on one of some 300,000, and the ratio.
growth() { # WORDS ATTRIBUTES FIRST ROUNDS ACT..
  local words=$1 attributes=$2 first=$3 rounds=$4 small large
  shift 4
  linked_page 500 4 0 "$attributes" > "$work/page"
  small=$(round "$work/page" "$(caret 500 4 0)$first" "$rounds" "$@")
  linked_page 150000 4 0 "$attributes" > "$work/page"
  large=$(round "$work/page" "$(caret 150000 4 0)$first" "$rounds" "$@")
  echo "$words: $small instructions on 1,000 nodes, $large on 300,000"
  told "growth" "$(ratio "$large" "$small")" 1.3
}

# ---- selecting

# A millisecond is counted as so many instructions, as of a processor that ends 2,500,000,000 in a second.
per_millisecond=2500000

awk 'BEGIN { printf "<div contenteditable=\"true\">"; for (k = 0; k < 299998; k++) printf "<br>"; printf "</div>" }' > "$work/page"
near=$(round "$work/page" stat 200 'select 0/0:0 0/0:0')
far=$(round "$work/page" stat 20 'select 0/250000:0 0/250000:0')
echo "select 0/250000:0 of 299,998 siblings: $far instructions; select 0/0:0: $near"
told "instructions for each sibling before the place" "$(ratio $((far - near)) 250000)" 15
told "milliseconds, at $per_millisecond instructions each" "$(ratio "$far" $per_millisecond)" 2
growth "select 0/200:0, 10,000 times" '' '' 10000 'select 0/200:0 0/200:0'

# ---- commands, undo and redo

growth "exec unlink at a caret, and undo 1" '' '' 1000 'exec unlink' 'undo 1'
growth "the same of a link that loses its href and stays" ' class="y"' '' 1000 'exec unlink' 'undo 1'
growth "undo 1 and redo 1 of it" '' '\nexec unlink' 1000 'undo 1' 'redo 1'
growth "exec styleWithCSS" '' '' 1000 'exec styleWithCSS true'
growth "stat" '' '' 1000 stat

# What a command costs below so many ancestors, and next to so many siblings.
unlinking() { # DEPTH BESIDE
  linked_page 20 "$1" "$2" '' > "$work/page"
  round "$work/page" "$(caret 20 "$1" "$2")" 200 'exec unlink' 'undo 1'
}

low=$(unlinking 40 0)
high=$(unlinking 160 0)
echo "exec unlink at a caret, and undo 1: $low instructions below 40 elements, $high below 160"
told "growth" "$(ratio "$high" "$low")" 4.4
few=$(unlinking 4 50)
many=$(unlinking 4 5000)
echo "the same: $few instructions beside 100 siblings, $many beside 10,000"
told "growth" "$(ratio "$many" "$few")" 1.3

# ---- the links of a wide selection

# So many links in one list, and the selection from the one to the other.
selected_links() { # LINKS FIRST LAST
  awk -v n="$1" 'BEGIN { printf "<div contenteditable=\"true\">"; for (k = 0; k < n; k++) printf "<p><a href=\"x\">l</a></p>"; printf "</div>" }' > "$work/page"
  round "$work/page" "select 0/$2/0/0:0 0/$3/0/0:1" 2 'exec unlink' 'undo 1'
}

few=$(selected_links 500 0 499)
many=$(selected_links 2000 0 1999)
echo "exec unlink of a whole list, and undo 1: $few instructions for 500 links, $many for 2,000"
told "growth at four times the links" "$(ratio "$many" "$few")" 4.5
few=$(selected_links 600 200 399)
many=$(selected_links 2400 800 1599)
echo "of the middle third of one: $few instructions for 200 links, $many for 800"
told "growth at four times the links" "$(ratio "$many" "$few")" 4.5

# ---- the act probe

# Sections of 50 groups of 50 paragraphs of two nodes each, and the act on each of their nodes. 60 make 303,061 nodes.
sectioned_page() { # SECTIONS
  awk -v n="$1" '
    function repeat(text, times,  all, k) { for (k = 0; k < times; k++) all = all text; return all }
    BEGIN { printf "<div contenteditable=\"true\">%s</div>", repeat("<section>" repeat("<div>" repeat("<p>x</p>", 50) "</div>", 50) "</section>", n) }'
}

probes() { # SECTIONS
  awk -v n="$1" 'BEGIN {
    print "probe 0"
    for (a = 0; a < n; a++) {
      print "probe 0/" a
      for (b = 0; b < 50; b++) {
        print "probe 0/" a "/" b
        for (c = 0; c < 50; c++) { print "probe 0/" a "/" b "/" c; print "probe 0/" a "/" b "/" c "/0" }
      }
    }
  }'
}

probing() { # SECTIONS
  local none all
  sectioned_page "$1" > "$work/page"
  echo stat > "$work/acts"
  none=$(instructions "$work/page" "$work/acts")
  probes "$1" > "$work/acts"
  all=$(instructions "$work/page" "$work/acts")
  echo $((all - none))
}

few=$(probing 15)
many=$(probing 60)
echo "probe on each node: $few instructions on 75,766 nodes, $many on 303,061"
told "growth at four times the size" "$(ratio "$many" "$few")" 4.5

exit "$missed"
