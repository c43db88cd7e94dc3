#!/bin/bash
# Time and memory of 'mama_run check' and 'mama_run replay' at n and 2n: the log of many publishers with 50 updates each and
# two subscriptions for five of them, and the log of one publisher's updates. Wants the proved program (./mama --version builds
# it). Prints seconds, their ratio, and peak bytes of memory for each byte of input.
. "$(dirname "$0")/scratch.sh"
proved_program

many_publishers() {
  awk -v p="$1" 'BEGIN {
    print "mama script 1"; print "queues 4"
    for (t = 0; t < p; t++) print "topic \"T" t "\""
    for (t = 0; t < p; t++) { print "publisher " t " 1:bid:u32:0"; for (i = 1; i <= 50; i++) print "update 1:bid:u32:" i }
    print "client"; for (s = 0; s < p * 4 / 10; s++) print "sub " s " market any 10 1000" }'
}

one_publisher() {
  awk -v n="$1" 'BEGIN {
    print "mama script 1"; print "queues 1"; print "topic \"T\""; print "publisher 0 1:bid:u32:0"
    for (i = 1; i <= n; i++) print "update 1:bid:u32:" i
    print "client"; print "sub 0 market 0 10 1000" }'
}

# with_log MAKE N: a script, a line 'log', and its log.
with_log() {
  "$1" "$2" > "$scratch/script"
  "$program" serial < "$scratch/script" > "$scratch/its_log" || echo "serial: status $?" >&2
  { cat "$scratch/script"; echo log; cat "$scratch/its_log"; } > "$scratch/input"
}

# judged: seconds and peak memory in KiB of the check of that input, which has to be legal and causal.
judged() {
  /usr/bin/env time -f '%e %M' -o "$scratch/cost" "$program" check < "$scratch/input" > "$scratch/verdict" || echo "status $?" >&2
  printf 'legal\ncausal yes\n' | cmp -s - "$scratch/verdict" || echo "another verdict: $(head -c 80 "$scratch/verdict")" >&2
  cat "$scratch/cost"
}

# followed: seconds and peak memory in KiB of the replay of that input, whose log has to come out as it was.
followed() {
  /usr/bin/env time -f '%e %M' -o "$scratch/cost" "$program" replay < "$scratch/input" > "$scratch/steps" || echo "status $?" >&2
  grep -v '^step ' "$scratch/steps" | cmp -s - "$scratch/its_log" || echo 'another log' >&2
  cat "$scratch/cost"
}

compare() {
  name=$1 make=$2 n=$3 judged=$4
  with_log "$make" "$n"; read -r first _ < <("$judged")
  with_log "$make" $((2 * n)); bytes=$(wc -c < "$scratch/input"); read -r second peak < <("$judged")
  awk -v name="$name" -v n="$n" -v a="$first" -v b="$second" -v kb="$peak" -v bytes="$bytes" 'BEGIN {
    printf "%s: n=%d %.2f s, 2n %.2f s, ratio %.2f, input %d bytes, peak %.1f bytes for each byte of input\n", name, n, a, b, (a > 0 ? b / a : 0), bytes, kb * 1024 / bytes }'
}

for command in judged followed; do
  compare "$command: publishers with 50 updates each" many_publishers 500 "$command"
  compare "$command: updates of one publisher" one_publisher 100000 "$command"
done
