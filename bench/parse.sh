#!/bin/sh
# Time and memory of reading a script at n and 2n: one line of many fields, one inbox with many fault rows, and a text of
# many update lines. Prints seconds, their ratio, and peak bytes of memory for each byte of input.
#
# Usage: bench/parse.sh [FIELDS] [ROWS] [MIB]   (the greater sizes; 1000000, 400000 and 64 if left out)
#
# The program is written into a scratch folder and proved there over the crates of this repository. It says how long
# the reading alone took; the memory is the whole program's, with the text itself.
set -eu
fields=${1:-1000000}
rows=${2:-400000}
mib=${3:-64}
. "$(dirname "$0")/scratch.sh"
new_program parse_bench 'parse_bench: mama_script anyhow' \
    mama_memory mama_journal mama_edge mama_msg mama_payload mama_link mama_packet mama_event mama_words mama_script
cat > "$bench/src/main.rt" <<'PROGRAM'
//! Reads the script in the file `input`, and says how long that took and what came of it.
#![tactic(auto)]

use mama_script::parse;
use std::fs;
use std::time::Instant;

fn main(rt: HostRuntime) -> anyhow::Result<()> {
    let text = fs::read_to_string(&rt, "input")?;
    let start = Instant::now(&rt)?;
    let read = parse(rt.alloc(), text.as_bytes());
    let took = start.elapsed(&rt)?.as_micros();
    match read {
        Ok(script) => {
            let clients = script.shape().clients;
            println!(rt; "{took} a script of {clients} clients")?;
        }
        Err(fault) => println!(rt; "{took} {fault}")?,
    }
    Ok(())
}
PROGRAM
cd "$bench"
printf 'mama script 1\n' > input
rt run > "$scratch/built" 2>&1 || { cat "$scratch/built" >&2; exit 1; }
program=$bench/out/parse_bench

one_line() {
    awk -v n="$1" 'BEGIN {
        print "mama script 1"; print "queues 1"; print "topic \"T\""; printf "publisher 0"
        for (i = 1; i <= n; i++) printf " 0:n%d:u32:%d", i, i
        print ""; print "client" }'
}

one_inbox() {
    awk -v n="$1" 'BEGIN {
        print "mama script 1"; print "queues 1"; print "client"; print "inbox 0"
        for (i = n; i >= 1; i--) print "fault hold " i " 7" }'
}

many_updates() {
    awk -v n="$1" 'BEGIN {
        print "mama script 1"; print "queues 1"; print "topic \"T\""; print "publisher 0"
        for (size = 50; size < n * 1048576 - 100; size += length(line) + 1) {
            line = "update 1:bid:u32:" size " 2:ask:u32:" size " 3:last:text:\"no comment\""; print line }
        print "client" }'
}

run_once() {
    (cd "$scratch" && /usr/bin/env time -f '%M' -o cost "$program" > told)
    echo "$(cut -d ' ' -f 1 < "$scratch/told") $(cat "$scratch/cost")"
}

compare() {
    "$2" $(($3 / 2)) > "$scratch/input"
    first=$(run_once)
    "$2" "$3" > "$scratch/input"
    second=$(run_once)
    bytes=$(wc -c < "$scratch/input")
    echo "$first $second" | awk -v name="$1" -v n="$3" -v bytes="$bytes" -v told="$(cut -d ' ' -f 2- < "$scratch/told")" '{
        printf "%s: at %d %.3f s, at %d %.3f s, ratio %.2f; input %d bytes, peak %.1f bytes for each; %s\n", name, n / 2, $1 / 1e6, n, $3 / 1e6, ($1 > 0 ? $3 / $1 : 0), bytes, $4 * 1024 / bytes, told }'
}

compare 'fields of one line' one_line "$fields"
compare 'fault rows of one inbox' one_inbox "$rows"
compare 'MiB of update lines' many_updates "$mib"
