#!/usr/bin/env bash
# Refuses requests for memory, each in a run of its own, and looks at what the program says.
# Usage: bench/refused_memory.sh [PROGRAM]   (cc is needed; PROGRAM is crates/hedit/out/hedit unless given)
# Four sessions that edit and then print `tree`, `points` and `stat` have each of their requests refused in
# turn. A refused run ends with status 5, and what it wrote is a beginning of the whole transcript: no reply
# comes from a state that was changed in part. More can't be seen from here, as the program ends at the refusal;
# that a refused call leaves the editor as before is proved.
# Then a page of 5,000 paragraphs is counted: typing a character into it, and undoing that, has to make less
# than 2,000 requests more than selecting in it. A copy of the page would make 5,000. That takes 15,000 runs.
# The script ends with status 1 where this doesn't hold. Besides, `rt try --fail-alloc 1.. -- run < SESSION` in
# crates/hedit looks for bad accesses after a refusal.
set -euo pipefail
cd "$(dirname "$0")/.."
program=$(realpath "${1:-crates/hedit/out/hedit}")
work=$(mktemp -d)
trap 'rm -rf "$work"' EXIT
failed=0

# Loaded before the C library: its calls for memory, of which the one whose number REFUSED gives answers that
# there is none. The number of calls goes to the file that COUNTED names.
cat > "$work/refuse.c" <<'END'
#include <fcntl.h>
#include <stdio.h>
#include <stdlib.h>
#include <unistd.h>

void *__libc_malloc(size_t size);
void *__libc_realloc(void *old, size_t size);

static unsigned long made, refused;

__attribute__((constructor)) static void begin(void) {
  const char *number = getenv("REFUSED");
  refused = number ? strtoul(number, 0, 10) : 0;
}

void *malloc(size_t size) { return ++made == refused ? 0 : __libc_malloc(size); }
void *realloc(void *old, size_t size) { return ++made == refused ? 0 : __libc_realloc(old, size); }

__attribute__((destructor)) static void end(void) {
  const char *name = getenv("COUNTED");
  int file = name ? open(name, O_WRONLY | O_CREAT | O_TRUNC, 0600) : -1;
  if (file >= 0) dprintf(file, "%lu\n", made);
}
END
cc -shared -fPIC -O1 -o "$work/refuse.so" "$work/refuse.c"

# Runs a session with its request of that number refused, 0 for none, and prints the status.
status_refusing() { # NUMBER SESSION OUTPUT
  local status=0
  REFUSED=$1 COUNTED="$work/count" LD_PRELOAD="$work/refuse.so" "$program" run < "$2" > "$3" || status=$?
  echo "$status"
}

# How many requests a session makes.
requests() { # SESSION
  if [ "$(status_refusing 0 "$1" "$work/whole")" != 0 ]; then
    echo "bench/refused_memory.sh: $1 doesn't end with status 0" >&2
    exit 2
  fi
  cat "$work/count"
}

wrong() { # WORDS
  echo "  WRONG: $1"
  failed=1
}

begins() { # PART WHOLE
  cmp -s -n "$(stat -c %s "$1")" "$1" "$2"
}

# Refuses each request of a session.
refuse_each() { # NAME SESSION
  local total number status
  total=$(requests "$2")
  for ((number = 1; number <= total; number++)); do
    status=$(status_refusing "$number" "$2" "$work/part")
    case $status in
      5) begins "$work/part" "$work/whole" || wrong "request $number: no beginning of the transcript" ;;
      0) cmp -s "$work/part" "$work/whole" || wrong "request $number: status 0 with another transcript" ;;
      *) wrong "request $number: status $status" ;;
    esac
  done
  echo "$1: $total requests for memory, each refused in turn"
}

session() { # NAME PAGE ACT..
  local name=$1
  printf 'page <<END\n<div contenteditable="true">%s</div>\nEND\n' "$2" > "$work/$name"
  shift 2
  printf '%s\n' "$@" >> "$work/$name"
}

views=(tree points stat)
session bold '<p>foobar</p>' 'select 0/0/0:1 0/0/0:4' 'exec bold' html "${views[@]}"
session paragraph '<p>foobar</p>' 'select 0/0/0:3 0/0/0:3' 'exec insertParagraph' "${views[@]}"
session deleting '<p>foo</p><p>bar</p>' 'select 0/0/0:1 0/1/0:2' 'exec delete' "${views[@]}" \
  'exec insertText o' "${views[@]}"
session indenting '<ul><li>a</li><li>b</li></ul>' 'select 0/0/1/0:0 0/0/1/0:0' 'exec indent' "${views[@]}" \
  'exec outdent' "${views[@]}"

refuse_each 'a word made bold' "$work/bold"
refuse_each 'a paragraph parted' "$work/paragraph"
refuse_each 'two paragraphs deleted into one' "$work/deleting"
refuse_each 'an item indented and outdented' "$work/indenting"

# The least number of a request of a session with whose refusal it ends with status 0; some hundred runs a
# second.
least_spared() { # SESSION
  local number=1
  while [ "$(status_refusing "$number" "$1" "$work/part")" != 0 ]; do number=$((number + 1)); done
  echo "$number"
}

paragraphs=$(for ((k = 1; k <= 5000; k++)); do printf '<p>item %d</p>' "$k"; done)
session selecting "$paragraphs" 'select 0/0/0:0 0/0/0:0'
session typing "$paragraphs" 'select 0/0/0:0 0/0/0:0' 'exec insertText x' 'undo 1'
spared=$(least_spared "$work/selecting")
status=$(status_refusing $((spared + 2000)) "$work/typing" "$work/part")
[ "$status" = 0 ] || wrong "typing ends with status $status where request $((spared + 2000)) is refused"
echo "selecting among 5,000 paragraphs is spared by the refusal of request $spared; typing and undo make" \
  "$(($(requests "$work/typing") - $(requests "$work/selecting"))) requests more (less than 2,000)"

exit "$failed"
