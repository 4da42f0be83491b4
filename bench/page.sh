#!/usr/bin/env bash
# What a large page costs: instructions by callgrind, peak memory by GNU time, and growth from a page to one of four times the size.
# Usage: bench/page.sh [PROGRAM]   (valgrind and /usr/bin/time are needed; PROGRAM is crates/hedit/out/hedit unless given)
set -euo pipefail
cd "$(dirname "$0")/.."
program=$(realpath "${1:-crates/hedit/out/hedit}")
work=$(mktemp -d)
trap 'rm -rf "$work"' EXIT
source bench/measure.sh

# A page of so many paragraphs, two nodes each: 150,000 make 3.75 MB and 300,002 nodes.
page() {
  awk -v n="$1" 'BEGIN { printf "<div contenteditable=\"true\">"; for (k = 0; k < n; k++) printf "<p>the item no. %05d</p>", k % 100000; printf "</div>" }'
}

# A session with that page and these acts.
session() {
  echo 'page <<END'; page "$1"; printf '\nEND\n'; shift
  for act in "$@"; do echo "$act"; done
}

instructions() { # WORD INPUT
  counted "$work/out" "$program" "$1" < "$2"
}

peak_kilobytes() { /usr/bin/time -f %M "$program" check < "$1" 2>&1 > /dev/null; }

page 37500 > "$work/small"
page 150000 > "$work/large"
bytes=$(stat -c %s "$work/large")
nodes=300002
small=$(instructions check "$work/small")
large=$(instructions check "$work/large")
empty=$(printf '' > "$work/empty"; peak_kilobytes "$work/empty")
peak=$(peak_kilobytes "$work/large")
session 150000 > "$work/read"
session 150000 html > "$work/html"
read=$(instructions run "$work/read")
html=$(instructions run "$work/html")
written=$(stat -c %s "$work/out")

awk -v b="$bytes" -v n="$nodes" -v s="$small" -v l="$large" -v e="$empty" -v p="$peak" -v r="$read" -v h="$html" -v w="$written" 'BEGIN {
  printf "check: %d bytes, %d nodes\n", b, n
  printf "  instructions a byte          %6.1f  (at most 250)\n", l / b
  printf "  bytes a node beside the input %5.1f  (at most 200)\n", ((p - e) * 1024 - b) / n
  printf "  growth at four times the size %5.2f  (at most 4.5)\n", l / s
  printf "html: %d bytes written\n", w
  printf "  instructions a byte written  %6.1f  (at most 60)\n", (h - r) / w
}'
