#!/usr/bin/env bash
# Logs stored sessions at their ends, replays the logs on the pages that these began with, and compares.
# Usage: bench/replays.sh PROGRAM FOLDER..
# A folder has sessions as NAME.stdin, with the program's words a line each in NAME.args. Those under `run` that
# end with status 0 are logged as they end, and again with all that was undone at last redone. It ends with status
# 1 where a replay is refused, or gives another page or other counts than the session had.
set -euo pipefail
program=$(realpath "$1")
shift
work=$(mktemp -d)
trap 'rm -rf "$work"' EXIT
sessions=0
passed_over=0
replayed=0
steps=0
cut=0
wrong=0

# The replies of a session with these acts after its own.
replies() { # SESSION ACT..
  { cat "$1"; printf '\n'; printf '%s\n' "${@:2}"; } | "$program" "${words[@]}"
}

# What the last of these acts replies, beyond the replies before it.
last_reply() { # SESSION ACT..
  replies "$1" "${@:2:$#-2}" > "$work/before"
  replies "$@" | tail -c +"$(($(stat -c %s "$work/before") + 1))"
}

# The lines up to the page's closing line.
page_block() { # SESSION
  awk 'NR == 1 { end = substr($0, length("page <<") + 1) } { print } NR > 1 && $0 == end { exit }' "$1"
}

# Whether the log at hand gives the page and the counts that the session has after these acts.
same_page() { # SESSION ACT..
  { page_block "$1"; cat "$work/log"; } > "$work/input"
  "$program" replay < "$work/input" > "$work/replay" || return 1
  last_reply "$@" html > "$work/html"
  tail -n +3 "$work/replay" | cmp -s - "$work/html" || return 1
  [ "$(sed -n '2s/ next .*//p' "$work/replay")" = "$(last_reply "$@" stat | sed 's/ next .*//')" ]
}

# Replays the log of a session after these acts.
replay_log() { # SESSION ACT..
  last_reply "$@" log > "$work/log"
  if [ "$(cat "$work/log")" = '! 8 log cut' ]; then
    cut=$((cut + 1))
  elif same_page "$@"; then
    replayed=$((replayed + 1))
    steps=$((steps + $(grep -cvE '^(entry$|make )' "$work/log" || true)))
  else
    wrong=$((wrong + 1))
    echo "$* gives: $(head -n 2 "$work/replay" | tr '\n' ';')"
  fi
}

export LC_ALL=C
redo='redo 999999999'
for folder in "$@"; do
  for session in "$folder"/*.stdin; do
    mapfile -t words < "${session%.stdin}.args"
    if [ "${words[0]:-}" != run ] || ! "$program" "${words[@]}" < "$session" > /dev/null; then
      passed_over=$((passed_over + 1))
      continue
    fi
    sessions=$((sessions + 1))
    replay_log "$session"
    if [ "$(last_reply "$session" "$redo")" != 'redo 0' ]; then replay_log "$session" "$redo"; fi
  done
done
echo "$sessions sessions, $passed_over passed over: $replayed logs replayed, of $steps steps; $cut cut; $wrong wrong"
[ "$wrong" = 0 ]
