#!/bin/bash
# Time and memory of 'mama_run serial' at n and 2n: updates of one publisher to one subscription; and many publishers,
# subscriptions, topics and inboxes. Wants the proved program (./mama --version builds it). Prints seconds, their ratio, and
# peak bytes of memory for each byte of input.
. "$(dirname "$0")/scratch.sh"
proved_program

one_publisher() {
  awk -v n="$1" 'BEGIN {
    print "mama script 1"; print "queues 1"; print "topic \"T\""; print "publisher 0 1:bid:u32:0"
    for (i = 1; i <= n; i++) print "update 1:bid:u32:" i
    print "client"; print "sub 0 market 0 10 1000" }'
}

many_publishers() {
  awk -v p="$1" 'BEGIN {
    print "mama script 1"; print "queues 4"
    for (t = 0; t < p; t++) print "topic \"T" t "\""
    for (t = 0; t < p; t++) { print "publisher " t " 1:bid:u32:0"; for (i = 1; i <= 50; i++) print "update 1:bid:u32:" i }
    print "client"; for (s = 0; s < p * 4 / 10; s++) print "sub " s " market any 10 1000" }'
}

many_subscriptions() {
  awk -v s="$1" 'BEGIN {
    print "mama script 1"; print "queues 4"
    for (t = 0; t < 1000; t++) print "topic \"T" t "\""
    for (t = 0; t < 1000; t++) print "publisher " t " 1:bid:u32:0"
    print "client"; for (i = 0; i < s; i++) print "sub " i % 1000 " market any 10 1000" }'
}

many_inboxes() {
  awk -v n="$1" 'BEGIN {
    print "mama script 1"; print "queues 4"; print "topic \"T\""; print "publisher 0 1:bid:u32:0"
    for (c = 0; c < 64; c++) { print "client"; for (i = 0; i < n / 64; i++) { print "inbox any"; print "ask i" c "." i " 0 1" } } }'
}

compare() {
  name=$1 make=$2 n=$3
  $make "$n" > "$scratch/script"; read -r first _ < <(play "$scratch/script")
  $make $((2 * n)) > "$scratch/script"; bytes=$(wc -c < "$scratch/script"); read -r second peak < <(play "$scratch/script")
  awk -v name="$name" -v n="$n" -v a="$first" -v b="$second" -v kb="$peak" -v bytes="$bytes" 'BEGIN {
    printf "%s: n=%d %.2f s, 2n %.2f s, ratio %.2f, input %d bytes, peak %.1f bytes for each byte of input\n", name, n, a, b, (a > 0 ? b / a : 0), bytes, kb * 1024 / bytes }'
}

compare 'updates of one publisher' one_publisher 100000
compare 'publishers with 50 updates each' many_publishers 500
compare 'subscriptions on 1,000 topics' many_subscriptions 5000
compare 'inboxes that ask' many_inboxes 32768
