# What the bench scripts have in common. They take it in by `source`; `missed` is 1 once an aim was missed, and
# `work` is a folder for files that go when the script ends.

# The instructions that callgrind counts of a command, whose output goes to a file.
counted() { # OUTPUT COMMAND..
  local output=$1
  shift
  valgrind --tool=callgrind --callgrind-out-file=/dev/null "$@" 2>&1 > "$output" | awk '/Collected/ { print $NF }'
}

# A figure, and the most that it should be.
told() { # WORDS FIGURE MOST
  awk -v w="$1" -v f="$2" -v m="$3" 'BEGIN {
    printf "  %-60s %11.2f  (at most %s)%s\n", w, f, m, f <= m ? "" : "  MISSED"
    exit !(f <= m) }' || missed=1
}

ratio() { awk -v a="$1" -v b="$2" 'BEGIN { print a / b }'; }
