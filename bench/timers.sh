#!/bin/bash
# Time and memory of 'mama_run serial' on timers at n and 2n lines 'now': a thousand timers of which none is ever due; and
# one timer that is due at each. Wants the proved program (./mama --version builds it). Prints seconds and their ratio.
. "$(dirname "$0")/scratch.sh"
proved_program

none_due() {
  awk -v n="$1" 'BEGIN {
    print "mama script 1"; print "queues 4"; print "client"
    for (t = 0; t < 1000; t++) print "timer any 4000000000"
    for (i = 1; i <= n; i++) print "now " i }'
}

one_due() {
  awk -v n="$1" 'BEGIN {
    print "mama script 1"; print "queues 1"; print "client"; print "timer 0 1"
    for (t = 0; t < 999; t++) print "timer any 4000000000"
    for (i = 1; i <= n; i++) print "now " i }'
}

compare() {
  name=$1 make=$2 n=$3
  $make "$n" > "$scratch/script"; read -r first _ < <(play "$scratch/script")
  $make $((2 * n)) > "$scratch/script"; read -r second _ < <(play "$scratch/script")
  awk -v name="$name" -v n="$n" -v a="$first" -v b="$second" 'BEGIN {
    printf "%s: n=%d %.2f s, 2n %.2f s, ratio %.2f\n", name, n, a, b, (a > 0 ? b / a : 0) }'
}

compare 'a thousand timers, none due' none_due 500000
compare 'a thousand timers, one due at each line' one_due 100000
