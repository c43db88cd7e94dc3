#!/bin/bash
# Time of 'serial' and 'play 4' of a client's lines, n and 2n of them, beside 10 publishers and beside 1,000 that have nothing to
# do. Wants the proved program (./mama --version builds it).
#
#   bench/idle.sh [N]     N lines, 20,000 if it is not given
. "$(dirname "$0")/scratch.sh"
proved_program
lines=${1:-20000}

# script PUBLISHERS LINES
script() {
  awk -v p="$1" -v n="$2" 'BEGIN {
    print "mama script 1"; print "queues 1"; print "topic \"T\""
    for (i = 0; i < p; i++) print "publisher 0 1:bid:u32:0"
    print "client"; print "timer 0 1"
    for (i = 0; i < n; i++) print "now " i }'
}

# seconds COMMAND..: how long it takes to read $scratch/script.
seconds() {
  /usr/bin/env time -f '%e' -o "$scratch/cost" "$program" "$@" < "$scratch/script" > "$scratch/log" || echo "$*: status $?" >&2
  cat "$scratch/cost"
}

for publishers in 10 1000; do
  for times in 1 2; do
    script "$publishers" $((lines * times)) > "$scratch/script"
    printf '%s publishers, %s lines: serial %s s, play 4 %s s\n' "$publishers" $((lines * times)) "$(seconds serial)" "$(seconds play 4)"
  done
done
