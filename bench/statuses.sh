#!/bin/bash
# What the proved program answers to inputs whose answers are known: each exit status once, with its line on standard error,
# and the logs of the examples and the verdicts on them. Then what ./mama answers before any proof. Wants the proved program
# (./mama --version builds it). Ends with 1 where anything differs.
. "$(dirname "$0")/scratch.sh"
proved_program
examples=$top/examples
bad=0

# differs WHAT
differs() {
  echo "statuses: $1" >&2
  bad=1
}

# told STATUS LINE COMMAND..: the command ends so, and writes this line on standard error, or nothing where it is empty.
told() {
  status=$1 line=$2
  shift 2
  "$@" > "$scratch/out" 2> "$scratch/err"
  ended=$?
  [ "$ended" -eq "$status" ] || differs "$*: ended with $ended, and not $status"
  [ -z "$line" ] || line=$line$'\n'
  printf '%s' "$line" | cmp -s - "$scratch/err" || differs "$*: wrote on standard error: $(head -c 200 "$scratch/err")"
}

# wrote FILE: so did the last command on standard output.
wrote() {
  cmp -s "$1" "$scratch/out" || differs "another output than $1: $(head -c 200 "$scratch/out")"
}

serial() { "$program" serial < "$1"; }
played_by() { "$program" play "$1" < "$2"; }
with_log() { cat "$1"; echo log; cat "$2"; }
check() { with_log "$1" "$2" | "$program" check; }
replay() { with_log "$1" "$2" | "$program" replay; }
rewritten() { with_log "$1" "$2" | "$program" rewrite; }
alone_rewritten() { "$program" rewrite < "$1"; }
checked() { "$program" check < "$1"; }
of_text() { printf "$2" | "$program" "$1"; }
full() { serial "$1" > /dev/full; }
unread() { "$program" serial < "$scratch"; }
play_0() { "$program" play 0 < "$examples/first.script"; }
without_log() { { cat "$examples/first.script"; echo 'pause 1'; } | "$program" check; }
fields_65() {
  awk 'BEGIN { printf "mama script 1\nqueues 1\ntopic \"T\"\npublisher 0"; for (i = 1; i <= 65; i++) printf " %d:f:u8:1", i; print "\nclient" }' | "$program" serial
}
too_long() { head -c 67108866 /dev/zero | "$program" serial; }
help_full() { "$program" --help > /dev/full; }
little_memory() { (ulimit -v 60000; head -c 60000000 /dev/zero | "$program" serial); }

# a legal log without a causal order: the queue leaves for the stop of a callback that follows from that leave
cat > "$scratch/early.script" <<'END'
mama script 1
queues 1
topic "EQ.ABC"
publisher 0 22:bid:u32:100
client
sub 0 market 0 10 1000
at 2 stop s0.0
END
cat > "$scratch/early.log" <<'END'
mama log 1
client 0
publisher 0
want s0.0 initial
done
settle
fin
bridge
c0 join s0.0
q0 leave s0.0
p0 image s0.0 initial 1 0 22:bid:u32:100
c0 done
p0 done
p0 settled
q0 bye
timers
c0 done
b fin
q0 bye
queue 0
b create 0 s0.0
b gone 0 s0.0
b fin
t fin
on s0.0
create
destroy
order stop s0.0
images
end
END
printf 'legal\ncausal no\n' > "$scratch/early.verdict"

printf 'legal\ncausal yes\n' > "$scratch/legal"
printf 'not legal L5 s0.0\n' > "$scratch/late"
for script in "$examples"/*.script; do
  told 0 '' serial "$script"
  wrote "${script%.script}.log"
  told 0 '' check "$script" "${script%.script}.log"
  wrote "$scratch/legal"
  told 0 '' replay "$script" "${script%.script}.log"
  grep -v '^step ' "$scratch/out" > "$scratch/again"
  cmp -s "$scratch/again" "${script%.script}.log" || differs "the replayed log of $script is another"
  told 0 '' rewritten "$script" "${script%.script}.log"
  cp "$scratch/out" "$scratch/two"
  told 0 '' checked "$scratch/two"
  wrote "$scratch/legal"
  told 0 '' alone_rewritten "$script"
  cp "$scratch/out" "$scratch/two.script"
  told 0 '' serial "$scratch/two.script"
  cp "$scratch/out" "$scratch/two.log"
  told 0 '' with_log "$scratch/two.script" "$scratch/two.log"
  wrote "$scratch/two"
  told 0 '' replay "$scratch/two.script" "$scratch/two.log"
  grep -v '^step ' "$scratch/out" > "$scratch/again"
  cmp -s "$scratch/again" "$scratch/two.log" || differs "the replayed log of $script in version 2 is another"
  for workers in 1 3 64; do
    told 0 '' played_by "$workers" "$script"
    cp "$scratch/out" "$scratch/played.log"
    told 0 '' check "$script" "$scratch/played.log"
    [ "$(head -1 "$scratch/out")" = legal ] || differs "play $workers of $script: $(head -1 "$scratch/out")"
  done
done
told 1 'mama_run: not legal' check "$examples/gap.script" "$examples/damaged.log"
wrote "$scratch/late"
told 1 'mama_run: not legal' replay "$examples/gap.script" "$examples/damaged.log"
wrote /dev/null
told 2 'mama_run: bad words' play_0
told 2 'mama_run: bad words' "$program" play 65
told 2 'mama_run: bad words' "$program" play 04
told 2 'mama_run: bad words' "$program" gen 05
told 2 'mama_run: bad words' "$program" soak 5
told 2 'mama_run: bad words' "$program" soak 5 65
told 0 '' "$program" soak 5 2
printf 'sends 4000\nsubscriptions 64\nnotices 64\nlegal\n' > "$scratch/counts"
wrote "$scratch/counts"
told 0 '' "$program" gen 5
cp "$scratch/out" "$scratch/five.script"
told 0 '' serial "$scratch/five.script"
cp "$scratch/out" "$scratch/five.log"
told 0 '' check "$scratch/five.script" "$scratch/five.log"
wrote "$scratch/legal"
told 3 'mama_run: bad script, line 3, fault 3' of_text serial 'mama script 1\nqueues 1\n'
told 4 'mama_run: over limit 8, line 4' fields_65
told 4 'mama_run: over limit 1, line 0' too_long
told 5 'mama_run: read fault' unread
told 6 'mama_run: write fault' full "$examples/first.script"
told 6 'mama_run: write fault' help_full
told 0 '' "$program" --version
printf 'mama_run 1\n' > "$scratch/version"
wrote "$scratch/version"
told 0 '' "$program" --help
told 7 'mama_run: bad log, line 11' without_log
told 7 'mama_run: bad log, line 5' of_text rewrite 'mama script 1\nqueues 1\nclient\nlog\nmama log 2\n'
told 3 'mama_run: bad script, line 3, fault 3' of_text rewrite 'mama script 1\nqueues 1\n'
told 8 'mama_run: out of memory' little_memory
told 0 '' check "$scratch/early.script" "$scratch/early.log"
wrote "$scratch/early.verdict"
told 10 'mama_run: not causal' replay "$scratch/early.script" "$scratch/early.log"
wrote /dev/null

# ./mama where nothing is built and no toolchain is there, so that it could begin no proof
mkdir -p "$scratch/new/crates/mama_run/src"
cp "$top/mama" "$scratch/new/mama"
cp "$top/crates/mama_run/src/main.rt" "$scratch/new/crates/mama_run/src/main.rt"
alone() { PATH=/usr/bin:/bin "$scratch/new/mama" "$@" < /dev/null; }
told 0 '' alone
cp "$scratch/out" "$scratch/usage"
told 0 '' alone --help
wrote "$scratch/usage"
told 0 '' alone -h
wrote "$scratch/usage"
grep -q '^  8  no memory was found$' "$scratch/usage" || differs 'the usage has no exit statuses'
told 2 'mama: no-such-file is no command and no file that can be read; ./mama --help says what it does' alone no-such-file
told 2 'mama: check is of a script and a log; ./mama --help says what it does' alone check "$examples/gap.script"
told 2 'mama: replay is of a script and a log; ./mama --help says what it does' alone replay "$examples/gap.script"
told 2 'mama: 18446744073709551616 is no seed: a seed is a number from 0 to 2^64 - 1; ./mama --help says what it does' alone gen 18446744073709551616
alone gen 18446744073709551615 > "$scratch/out" 2> "$scratch/err"
[ $? -eq 9 ] || differs 'where nothing can be built the status is not 9'

# and where the program is built, the two files of a check are joined
told 1 'mama_run: not legal' "$top/mama" check "$examples/gap.script" "$examples/damaged.log"
wrote "$scratch/late"
printf 'mama script 1\nqueues 1\nclient' > "$scratch/-cut.script"
cut_short() (cd "$scratch" && exec "$top/mama" check -cut.script "$examples/gap.log")
told 3 'mama_run: bad script, line 3, fault 2' cut_short
told 0 '' "$top/mama" rewrite "$examples/gap.script" "$examples/gap.log"
cp "$scratch/out" "$scratch/two"
told 0 '' rewritten "$examples/gap.script" "$examples/gap.log"
wrote "$scratch/two"
told 0 '' "$top/mama" replay "$examples/gap.script" "$examples/gap.log"
cp "$scratch/out" "$scratch/again"
told 0 '' replay "$examples/gap.script" "$examples/gap.log"
wrote "$scratch/again"
told 0 '' "$top/mama" "$examples/gap.script"
wrote "$examples/gap.log"

[ "$bad" -ne 0 ] || echo 'statuses: all as they should be'
exit "$bad"
