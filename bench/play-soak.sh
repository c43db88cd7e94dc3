#!/bin/bash
# Plays scripts on threads, and has each log judged: the scripts that `gen` writes of the seeds 1, 2, 3 and so on, each by 1, 2, 4,
# 8 and 64 workers in turn, a tenth as many plays of scripts whose queues have unlike loads, and each script in the folders that
# follow the number. Each log has to be legal; causal it need not be.
# One that is causal is followed again on one thread, and has to come out as it was; any other has to be told as not causal.
# Wants the proved program (./mama --version builds it). Ends with 1 where a log is not legal, a play ends with another status, or
# a log is followed again otherwise.
#
#   bench/play-soak.sh RUNS [FOLDER..]     RUNS plays of generated scripts; of a FOLDER every file that `serial` accepts
. "$(dirname "$0")/scratch.sh"
proved_program
runs=${1:-100}
shift
workers=(1 2 4 8 64)
played=0 failed=0 causal=0

# judge NAME SCRIPT W: plays the script by W workers and has its log judged.
judge() {
    timeout 120 "$program" play "$3" < "$2" > "$scratch/log" 2> "$scratch/said"
    status=$?
    played=$((played + 1))
    if [ $status != 0 ]; then
        echo "$1 by $3 workers: status $status, $(head -1 "$scratch/said")"
        failed=$((failed + 1))
        return
    fi
    { cat "$2"; echo log; cat "$scratch/log"; } > "$scratch/both"
    verdict=$(timeout 120 "$program" check < "$scratch/both" 2>&1 | tr '\n' ' ')
    case $verdict in
    'legal causal yes ')
        causal=$((causal + 1))
        again "$1" "$3" 0 "$scratch/log"
        ;;
    'legal causal no ') again "$1" "$3" 10 /dev/null ;;
    *)
        echo "$1 by $3 workers: $verdict"
        failed=$((failed + 1))
        ;;
    esac
}

# again NAME W STATUS LOG: follows the log that was judged again, which has to end with this status and to come to this log.
again() {
    timeout 120 "$program" replay < "$scratch/both" > "$scratch/steps" 2> "$scratch/said"
    status=$?
    if [ $status != "$3" ] || { [ "$3" != 0 ] && [ -s "$scratch/steps" ]; } ||
        ! grep -v '^step ' "$scratch/steps" | cmp -s - "$4"; then
        echo "$1 by $2 workers: status $status or another log when it was followed again"
        failed=$((failed + 1))
    fi
}

# uneven RUN: sixteen queues, of which one or each second, fourth or eighth has all the subscriptions.
uneven() {
    awk -v step=$((2 << $1 % 4)) -v updates=$((50 + $1 * 37 % 400)) 'BEGIN {
        print "mama script 1"; print "queues 16"
        for (t = 0; t < 4; t++) print "topic \"T" t "\""
        for (t = 0; t < 4; t++) { print "publisher " t " 1:bid:u32:0"; for (i = 1; i <= updates; i++) print "update 1:bid:u32:" i }
        print "client"
        for (q = 0; q < 16; q += step) for (t = 0; t < 4; t++) print "sub " t " market " q " 10 1000" }'
}

began=$SECONDS
for ((run = 0; run < runs; run++)); do
    seed=$((run / ${#workers[@]} + 1)) w=${workers[run % ${#workers[@]}]}
    [ "$w" != 1 ] || "$program" gen "$seed" > "$scratch/script"
    judge "seed $seed" "$scratch/script" "$w"
done
for ((run = 0; run < runs / 10; run++)); do
    uneven "$run" > "$scratch/script"
    judge "uneven $run" "$scratch/script" "${workers[run % ${#workers[@]}]}"
done
for folder; do
    for file in "$folder"/*; do
        [ -f "$file" ] && "$program" serial < "$file" > /dev/null 2>&1 || continue
        for w in "${workers[@]}"; do judge "$file" "$file" "$w"; done
    done
done
echo "$played plays in $((SECONDS - began)) s: $((played - failed)) as they should be, $causal of them causal; $failed failed"
[ $failed = 0 ]
