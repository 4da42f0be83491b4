#!/usr/bin/env bash
# Runs sessions under valgrind's memcheck: no bad access, and no memory left at status 0.
# Usage: bench/leaks.sh [FOLDER..]   (valgrind is needed; the program is $PROGRAM, or crates/hedit/out/hedit)
# A folder has sessions as NAME.stdin, with the program's words a line each in NAME.args. With no folder the
# sessions and the page of examples/ are run. It ends with status 1 where valgrind finds something, and prints
# what it says.
set -euo pipefail
program=$(realpath "${PROGRAM:-$(dirname "$0")/../crates/hedit/out/hedit}")
examples=$(realpath "$(dirname "$0")/../examples")
work=$(mktemp -d)
trap 'rm -rf "$work"' EXIT
ran=0
faulty=0

# A bad access gives the status 99. Memory that is left is reported, and counts only where the program ended with
# status 0.
look() { # INPUT WORD..
  local input=$1 status=0
  shift
  valgrind --quiet --leak-check=full --show-leak-kinds=all --errors-for-leak-kinds=none --error-exitcode=99 \
    --log-file="$work/found" "$program" "$@" < "$input" > /dev/null 2>&1 || status=$?
  ran=$((ran + 1))
  if [ "$status" = 99 ] || { [ "$status" = 0 ] && [ -s "$work/found" ]; }; then
    faulty=$((faulty + 1))
    echo "$input: $*"
    cat "$work/found"
  fi
}

if [ $# = 0 ]; then
  for input in "$examples"/*.session; do look "$input" run; done
  for input in "$examples"/*.html; do look "$input" check; done
fi
for folder in "$@"; do
  for input in "$folder"/*.stdin; do
    mapfile -t words < "${input%.stdin}.args"
    look "$input" "${words[@]}"
  done
done
echo "$ran runs, $faulty with errors or leaks"
[ "$faulty" = 0 ]
