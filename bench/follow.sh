#!/usr/bin/env bash
# What a host pays that types a character and asks what that changed, by callgrind's instructions, and what it grows with.
# Usage: bench/follow.sh [LIBRARY]   (valgrind, cc and rt are needed; LIBRARY is crates/hedit_c/out/libhedit_c.a unless
# given)
# The figures are those of the last character of a run that is typed into the middle of a text. They should not grow with
# the page. With the text they do: each step of undo keeps all its characters, and what changed is found by comparing them
# with those before. It ends with status 1 where an aim is missed.
set -euo pipefail
cd "$(dirname "$0")/.."
library=$(realpath "${1:-crates/hedit_c/out/libhedit_c.a}")
kit=$(dirname "$(dirname "$(realpath "$(command -v rt)")")")
work=$(mktemp -d)
trap 'rm -rf "$work"' EXIT
missed=0
source bench/measure.sh

cc -std=c11 -O1 -Wall -Wextra -Werror -Iinclude -o "$work/follow" bench/follow.c "$library" "$kit/c/liblibc_c.a"

declare -A figure
measure() { # NODES TEXT RUN
  for call in typed asked; do
    figure["$call $*"]=$(counted "$work/out" "--toggle-collect=$call" "$work/follow" "$@")
  done
  printf '  %7d nodes, a text of %6d, the %5dth character:  exec %10d, changes %10d, of %s\n' \
    "$1" "$2" "$(($3 + 1))" "${figure["typed $*"]}" "${figure["asked $*"]}" "$(cat "$work/out")"
}

growth() { # WORDS CALL FROM TO MOST
  told "$1" "$(ratio "${figure["$2 $4"]}" "${figure["$2 $3"]}")" "$5"
}

echo "instructions of a character, and of asking what it changed"
measure 1000 10 10
measure 300000 10 10
measure 1000 10000 10
measure 1000 100000 10
measure 1000 10 10000

echo "growth"
growth "exec, from 1,000 nodes to 300,000" typed "1000 10 10" "300000 10 10" 1.1
growth "changes, from 1,000 nodes to 300,000" asked "1000 10 10" "300000 10 10" 1.1
growth "exec, from a text of 10,000 to 100,000" typed "1000 10000 10" "1000 100000 10" 11
growth "changes, from a text of 10,000 to 100,000" asked "1000 10000 10" "1000 100000 10" 11
growth "exec in a run of 10,000, against a text of 10,000" typed "1000 10000 10" "1000 10 10000" 1.1
growth "changes in a run of 10,000, against a text of 10,000" asked "1000 10000 10" "1000 10 10000" 1.1
exit "$missed"
