#!/bin/bash
# Time and memory of 'serial' and 'check' over four scripts, against `LC_ALL=C sort` of the same log: the middle of five runs
# of each in turn. Wants the proved program (./mama --version builds it). Prints a table with the bound of each, and exits 1
# where one is above its bound; machines are noisy, so it is no part of the gate. With a number N, scripts are N times
# shorter: bench/speed.sh 10 tells in seconds whether growth is right.
. "$(dirname "$0")/scratch.sh"
proved_program
part=${1:-1}
above=0

one_publisher() {
  awk -v n="$1" 'BEGIN {
    print "mama script 1"; print "queues 1"; print "topic \"T\""; print "publisher 0 1:bid:u32:0"
    for (i = 1; i <= n; i++) print "update 1:bid:u32:" i
    print "client"; print "sub 0 market 0 10 1000" }'
}

# Ten publishers and four subscriptions a topic, and updates of three fields.
many_publishers() {
  awk -v p="$1" 'BEGIN {
    print "mama script 1"; print "queues 4"; topics = p / 10
    for (t = 0; t < topics; t++) print "topic \"T" t "\""
    for (i = 0; i < p; i++) {
      print "publisher " i % topics " 1:bid:u32:0 2:ask:u32:0"
      for (k = 1; k <= 50; k++) print "update 1:bid:u32:" k " 2:ask:u32:" k + 1 " 3:size:u16:" k % 7 }
    print "client"; for (s = 0; s < topics * 4; s++) print "sub " s % topics " market any 10 1000" }'
}

# Subscriptions of one topic, each of which is stopped by its client. A script has 10,000 at most.
many_stops() {
  awk -v n="$1" 'BEGIN {
    print "mama script 1"; print "queues 4"; print "topic \"T\""; print "publisher 0 1:bid:u32:0"
    for (i = 1; i <= 20; i++) print "update 1:bid:u32:" i
    print "client"; for (i = 0; i < n; i++) print "sub 0 market any 10 1000"
    for (i = 0; i < n; i++) print "stop s0." i }'
}

many_inboxes() {
  awk -v n="$1" 'BEGIN {
    print "mama script 1"; print "queues 4"; print "topic \"T\""; print "publisher 0 1:bid:u32:0"
    for (c = 0; c < 64; c++) { print "client"; for (i = 0; i < n / 64; i++) { print "inbox any"; print "ask i" c "." i " 0 1" } } }'
}

# cost NAME COMMAND..: appends the seconds and the peak memory in KiB of a command that reads $input and writes $output.
cost() {
  name=$1; shift
  /usr/bin/env time -f '%e %M' -o "$scratch/cost" "$@" < "$input" > "$output" || echo "$name: status $?" >&2
  cat "$scratch/cost" >> "$scratch/$name"
}

# middle NAME COLUMN: the middle of what was appended.
middle() { awk -v c="$2" '{ print $c }' "$scratch/$1" | sort -g | sed -n 3p; }

# told NAME WHAT SORTS BYTES: a row of the table, and whether it is within its bounds.
told() {
  awk -v name="$1" -v what="$2" -v s="$(middle "$2" 1)" -v kb="$(middle "$2" 2)" -v sort="$(middle sort 1)" -v bytes="$bytes" -v sorts="$3" -v most="$4" 'BEGIN {
    times = s / (sort > 0.005 ? sort : 0.005); each = kb * 1024 / bytes
    printf "| %s | `%s` | %.2f s | %.1f sorts of at most %.1f | %.1f bytes a byte of at most %d |\n", name, what, s, times, sorts, each, most
    exit (times > sorts || each > most) }' || above=1
}

# measure NAME MAKE N SERIAL CHECK BYTES: plays, judges and sorts, five times in turn.
measure() {
  "$2" $(($3 / part)) > "$scratch/script"
  "$program" serial < "$scratch/script" > "$scratch/its_log" || echo "serial: status $?" >&2
  { cat "$scratch/script"; echo log; cat "$scratch/its_log"; } > "$scratch/both"
  bytes=$(cat "$scratch/script" "$scratch/its_log" | wc -c)
  rm -f "$scratch"/serial "$scratch"/check "$scratch"/sort
  for _ in 1 2 3 4 5; do
    input=$scratch/script output=$scratch/log cost serial "$program" serial
    input=$scratch/both output=$scratch/verdict cost check "$program" check
    input=$scratch/its_log output=$scratch/sorted cost sort env LC_ALL=C sort
  done
  printf 'legal\ncausal yes\n' | cmp -s - "$scratch/verdict" || { echo "another verdict: $(head -c 80 "$scratch/verdict")" >&2; above=1; }
  cmp -s "$scratch/log" "$scratch/its_log" || { echo "another log" >&2; above=1; }
  told "$1" serial "$4" "$6"
  told "$1" check "$5" "$6"
}

# grows NAME MAKE N BOUND: whether 2n takes at most so many times n, by 'serial' and by 'check'.
grows() {
  for what in serial check; do
    rm -f "$scratch/first" "$scratch/second"
    for size in first second; do
      n=$(($3 / part)); [ $size = first ] || n=$((2 * n))
      "$2" $n > "$scratch/script"; input=$scratch/script
      if [ $what = check ]; then
        "$program" serial < "$scratch/script" > "$scratch/its_log"
        { cat "$scratch/script"; echo log; cat "$scratch/its_log"; } > "$scratch/both"; input=$scratch/both
      fi
      for _ in 1 2 3 4 5; do output=$scratch/log cost $size "$program" $what; done
    done
    awk -v name="$1" -v what=$what -v a="$(middle first 1)" -v b="$(middle second 1)" -v most="$4" 'BEGIN {
      ratio = b / (a > 0.005 ? a : 0.005)
      printf "| %s, and twice as many | `%s` | %.2f and %.2f s | %.2f times of at most %.1f | |\n", name, what, a, b, ratio, most
      exit (ratio > most) }' || above=1
  done
}

echo '| script | | time | against the bound | peak memory for each byte of script and log |'
echo '|---|---|---|---|---|'
measure '200,000 updates of one publisher' one_publisher 200000 2.0 3.0 8
measure '1,000 publishers of 50 updates' many_publishers 1000 2.0 3.0 8
measure '10,000 subscriptions of one topic, each stopped' many_stops 10000 3.0 3.0 12
grows '5,000 subscriptions of one topic, each stopped' many_stops 5000 2.3
measure '8,192 inboxes that ask' many_inboxes 8192 3.0 3.0 12
exit $above
