#!/bin/bash
# Time of 'mama_run serial' and of 'mama_run play W' for 1, 2 and 4 workers, in one run, each the least of five: k topics, k queues,
# k publishers of n updates each, k subscriptions, each to a topic and a queue of its own. Then the same with 4 k queues, of which
# each fourth has a subscription: all queues with something to do begin with one thread, and the others take them from it. Wants the
# proved program (./mama --version builds it).
#
# Parse and print are on one thread in both. Their shares are those of the instructions that `serial` makes of a script of a
# fiftieth of the updates, which valgrind counts; where it is not there, nothing is said of what is between them.
#
#   bench/play.sh [K] [N]     4 and 50,000 where they are not given
. "$(dirname "$0")/scratch.sh"
proved_program
k=${1:-4} n=${2:-50000}

# script K N STEP: each STEP-th queue has a subscription.
script() {
    awk -v k="$1" -v n="$2" -v step="$3" 'BEGIN {
        print "mama script 1"; print "queues " k * step
        for (t = 0; t < k; t++) print "topic \"T" t "\""
        for (t = 0; t < k; t++) { print "publisher " t " 1:bid:u32:0"; for (i = 1; i <= n; i++) print "update 1:bid:u32:" i }
        print "client"; for (t = 0; t < k; t++) print "sub " t " market " t * step " 10 1000" }'
}

# seconds WORD..: the least of five runs over the script.
seconds() {
    for _ in 1 2 3 4 5; do
        /usr/bin/env time -f '%e' -o "$scratch/cost" "$program" "$@" < "$scratch/script" > "$scratch/log" 2> "$scratch/said"
        tail -1 "$scratch/cost"
    done | sort -n | head -1
}

# shares: how much of the instructions of serial is for parse and print, each from 0 to 1.
shares() {
    command -v valgrind > /dev/null && command -v callgrind_annotate > /dev/null || return
    script "$k" $((n / 50 + 1)) 1 > "$scratch/small"
    valgrind --tool=callgrind --callgrind-out-file="$scratch/counts" "$program" serial < "$scratch/small" > /dev/null 2>&1 || return
    callgrind_annotate --inclusive=yes "$scratch/counts" | awk '
        { gsub(",", "", $1) }
        /PROGRAM TOTALS/ { all = $1 }
        /mama_script::parsing::read_parts/ { parse = $1 }
        /mama_record::log::print_log/ { print_ = $1 }
        END { if (all > 0) printf "%.3f %.3f\n", parse / all, print_ / all }'
}

script "$k" "$n" 1 > "$scratch/script"
serial=$(seconds serial)
read -r parse print <<< "$(shares)"
echo "$k topics, queues, publishers and subscriptions, $n updates each; $(nproc) processors"
awk -v s="$serial" -v p="$parse" -v q="$print" 'BEGIN {
    printf "serial: %.2f s", s
    if (p) printf "; parse has %.0f %% of it, print %.0f %%, and %.2f s are between them", 100 * p, 100 * q, s * (1 - p - q)
    print "" }'
for w in 1 2 4; do
    awk -v w=$w -v t="$(seconds play $w)" -v s="$serial" -v p="$parse" -v q="$print" 'BEGIN {
        printf "play %d: %.2f s, %.2f of serial", w, t, t / s
        if (p) printf "; between parse and print %.2f s, %.2f of it", t - s * (p + q), (t - s * (p + q)) / (s * (1 - p - q))
        print "" }'
done

script "$k" "$n" 4 > "$scratch/script"
serial=$(seconds serial)
echo "the same with $((4 * k)) queues, each fourth with a subscription"
awk -v s="$serial" 'BEGIN { printf "serial: %.2f s\n", s }'
for w in 1 2 4; do
    awk -v w=$w -v t="$(seconds play $w)" -v s="$serial" 'BEGIN { printf "play %d: %.2f s, %.2f of serial\n", w, t, t / s }'
done
