#!/bin/bash
# Refuses each request for memory in turn: while the proved program plays a small script, on one thread or on many, judges its
# log, follows it again or writes both in version 2, a script for every kind of line; and while tests make single calls, each of
# which they make again where no memory was found.
#
# It wants the proved program (./mama --version builds it), the tests of mama_tests_calls and mama_tests_queues (rt test in their
# folders builds them), and a C compiler, for a library that is loaded before the C library and answers one
# request of `malloc` or `realloc` with nothing. `rt try --fail-alloc` builds the program anew for each number, which is why it
# is not used.
#
# After a refusal the program has to say that no memory was found, by its line and its status, with nothing written; or else to
# do what it does when nothing is refused; on threads, whose logs differ, to write a log that is legal. A test ends with that error where the refused request was not of its call; else it
# has to pass: the call left all as it was, and came to the same when it was made again. Ends with 1 where anything else comes.
. "$(dirname "$0")/scratch.sh"
proved_program
for name in mama_tests_calls mama_tests_queues; do
    proved_tests "$name"
done
cat > "$scratch/refuse.c" <<'END'
#include <stdio.h>
#include <stdlib.h>
#include <sys/syscall.h>
#include <unistd.h>

void *__libc_malloc(size_t);
void *__libc_realloc(void *, size_t);

static long asked, refused = -1;

// Whether this request is the one to refuse. Before the program's own start nothing is counted.
static int refuses(void) {
  if (refused < 0) return 0;
  return __atomic_add_fetch(&asked, 1, __ATOMIC_SEQ_CST) == refused;
}

void *malloc(size_t size) { return refuses() ? NULL : __libc_malloc(size); }

void *realloc(void *block, size_t size) { return refuses() ? NULL : __libc_realloc(block, size); }

__attribute__((constructor)) static void begin(void) {
  const char *number = getenv("REFUSED");
  if (number) refused = atol(number);
}

// Tells how many requests there were. A program that may start threads ends by _exit, which calls no destructor.
__attribute__((destructor)) static void end(void) {
  long count = asked;
  const char *name = getenv("ASKED");
  refused = -1;
  FILE *to = name ? fopen(name, "w") : NULL;
  if (to) {
    fprintf(to, "%ld\n", count);
    fclose(to);
  }
}

void _exit(int status) {
  end();
  syscall(SYS_exit_group, status);
  __builtin_unreachable();
}
END
cc -O1 -shared -fPIC -o "$scratch/refuse.so" "$scratch/refuse.c" || exit 2
exec python3 - "$program" "$scratch" "$top/crates" <<'PROGRAM'
import os, re, shutil, subprocess, sys

program, scratch, crates = sys.argv[1:]
HEAD = "mama script 1|queues 1|"
MARKET = HEAD + 'topic "A"|publisher 0 22:bid:u32:100|update 22:bid:u32:101|update 25:ask:u32:103|update 22:bid:u32:102|client|sub 0 market 0 10 1000|'
# a script of each kind of line
SCRIPTS = {
    "nobody but a client": HEAD + "client|",
    "updates and an image": MARKET,
    "a lost message": MARKET + "fault lose 3|",
    "a repeated message": MARKET + "fault dup 2|",
    "a message that is held": MARKET + "fault hold 2 1|",
    "two queues, any queue": MARKET.replace("queues 1", "queues 2").replace("market 0", "market any"),
    "a basic subscription": MARKET.replace("market", "basic"),
    "a snapshot": MARKET.replace("market", "snapshot"),
    "stops, of a line and of a callback": MARKET + "at 2 stop s0.0|stop s0.0|",
    "a record sent whole, and pauses": MARKET.replace("|update 25", "|pause 2|recap|update 25") + "pause 3|",
    "timers": HEAD + "client|timer 0 10|at 2 disarm t0.0|timer any 5|now 12|now clock|disarm t0.1|",
    "inboxes": HEAD + 'topic "A"|publisher 0 22:bid:u32:100 1:n:text:"x" 2:b:bytes:x00ff 3:p:price:5/2|client|inbox 0|fault dup 1|at 1 ask i0.0 0 22|at 2 close i0.0|inbox any|ask i0.1 0 1 2 3|close i0.1|',
    "lists of numbers": MARKET.replace("script 1|", "script 2|strategy 2|").replace("22:bid:u32:102", "5:dp:nums:[1,-2]"),
    "a group and a watch": MARKET.replace("script 1|", "script 2|strategy 1|") + "fault lose 1|timer 0 10|now 10|now 20|group s0.0|watch s0.0 t0.0 1|",
    "two publishers and two clients": HEAD + 'topic "A"|topic "B"|publisher 0 1:a:u8:1|recap|publisher 1 1:a:i64:-1|update 1:a:i64:2 2::bool:true|client|sub 0 market 0 10 1000|sub 1 market 0 10 1000|client|sub 0 market 0 0 0|fault hold 1 2|',
}
OUT_OF_MEMORY = (8, b"", b"mama_run: out of memory\n")
# the tests of each call, with their crate
TESTS = {
    "`SerialRun::go`": ("mama_tests_calls", ["going_on::a_run_goes_on", "going_on::a_plain_run_goes_on"]),
    "`parse_log`": ("mama_tests_calls", ["going_on::a_log_is_read"]),
    "`print_log`": ("mama_tests_calls", ["going_on::a_record_is_printed"]),
    "`check`": ("mama_tests_calls", ["going_on::a_record_is_judged"]),
    "`Port::put`": ("mama_tests_calls", ["lanes::a_put_is_made_again"]),
    "`Serving::turn`": (
        "mama_tests_queues",
        [
            "notes::notes_come_in_their_orders",
            "serving::a_muted_subscription_gets_its_notice_alone",
            "serving::one_that_lives_is_stopped_by_another",
            "serving::the_second_fin_says_bye",
        ],
    ),
    "`DqContext::step`": ("mama_tests_queues", ["strategies::each_cell_steps", "strategies::lists_of_messages_are_told", "strategies::kinds_differ"]),
}
# how a test ends where a request was refused that is not of its call
APART = re.compile(rb"error: (AllocError|AllocFailed|OutOfMemory)|not played")


def ended(words, text, number):
    """How a process ends where the request of this number is refused, and how many it made."""
    name = f"{scratch}/asked"
    env = {**os.environ, "LD_PRELOAD": f"{scratch}/refuse.so", "REFUSED": str(number), "ASKED": name}
    if os.path.exists(name):
        os.remove(name)
    ran = subprocess.run(words, input=text, capture_output=True, env=env, timeout=60)
    return ran, int(open(name).read()) if os.path.exists(name) else None


def run(word, text, number):
    """What the program answers where the request of this number is refused, with a letter for each moment of the day's clock, and how many it made."""
    ran, count = ended([program, word], text, number)
    return (ran.returncode, re.sub(rb"\d{12,}", b"M", ran.stdout), ran.stderr), count


def tried(title, word, text):
    """Refuses each request in turn. Tells how many there were, and what went wrong, and gives what is written without a refusal."""
    whole, count = run(word, text, 0)
    wrong, refused, done = 0, 0, 0
    if count is None:
        print(f"{title}: {word} did not end by itself: status {whole[0]}")
        return whole[1], 0, 1
    for number in range(1, count + 1):
        found, _ = run(word, text, number)
        refused += found == OUT_OF_MEMORY
        done += found == whole
        if found not in (OUT_OF_MEMORY, whole):
            wrong += 1
            if wrong <= 3:
                print(f"{title}: {word} with request {number} of {count} refused: status {found[0]}, {len(found[1])} bytes written, {found[2][:200]!r}")
    print(f"| {title}, `{word}` | {count} | {refused} | {done} | {wrong} |", flush=True)
    return whole[1], count, wrong


def played(title, script):
    """Refuses each request of a play on threads in turn, and has each log judged. Tells how many there were, and what went wrong."""
    whole, count = ended([program, "play", "2"], script, 0)
    wrong, refused, legal = 0, 0, 0
    if whole.returncode or count is None:
        print(f"{title}: play did not end by itself: status {whole.returncode}")
        return 0, 1
    for number in range(1, count + 1):
        ran, _ = ended([program, "play", "2"], script, number)
        refused += (ran.returncode, ran.stdout, ran.stderr) == OUT_OF_MEMORY
        if ran.returncode == 0:
            legal += subprocess.run([program, "check"], input=script + b"log\n" + ran.stdout, capture_output=True).returncode == 0
    wrong = count - refused - legal
    print(f"| {title}, `play 2` | {count} | {refused} | {legal} | {wrong} |", flush=True)
    return count, wrong


def tried_again(words):
    """Refuses each request of a test in turn. Tells how many there were, after how many it passed, and how many answers were wrong."""
    whole, count = ended(words, b"", 0)
    if whole.returncode or count is None:
        print(f"{words[1]} does not pass where nothing is refused: status {whole.returncode}, {whole.stderr[:200]!r}")
        return 0, 0, 1
    passed = wrong = 0
    for number in range(1, count + 1):
        ran, _ = ended(words, b"", number)
        passed += ran.returncode == 0
        if ran.returncode and not (ran.returncode == 101 and APART.match(ran.stderr)):
            wrong += 1
            if wrong <= 3:
                print(f"{words[1]} with request {number} of {count} refused: status {ran.returncode}, {ran.stderr[:200]!r}")
    return count, passed, wrong


print("| script | requests, each refused once | no memory, it said | it did all the same | another answer |\n|---|---|---|---|---|")
asked = wrong = 0
for title, row in SCRIPTS.items():
    script = row.replace("|", "\n").encode()
    log, count, bad = tried(title, "serial", script)
    asked, wrong = asked + count, wrong + bad
    if not log:
        print(f"{title}: nothing was played")
        wrong += 1
        continue
    both = script + b"log\n" + log.replace(b"M", b"1000000000000")
    verdict, count, bad = tried(title, "check", both)
    asked, wrong = asked + count, wrong + bad
    for word in ("rewrite", "replay"):
        _, count, bad = tried(title, word, both)
        asked, wrong = asked + count, wrong + bad
    count, bad = played(title, script)
    asked, wrong = asked + count, wrong + bad
    if verdict != b"legal\ncausal yes\n":
        print(f"{title}: another verdict: {verdict[:200]!r}")
        wrong += 1
print("\n| call | requests of its tests, each refused once | not of the call | it went on | another answer |\n|---|---|---|---|---|")
again = 0
for call, (crate, tests) in TESTS.items():
    tries = [tried_again([f"{crates}/{crate}/out/{crate}_tests", test]) for test in tests]
    count, passed, bad = (sum(column) for column in zip(*tries))
    print(f"| {call} | {count} | {count - passed - bad} | {passed} | {bad} |", flush=True)
    asked, again, wrong = asked + count, again + passed, wrong + bad + (passed == 0)
print(f"refuse: {asked} requests refused in turn, after {again} of which a call went on, {wrong} wrong answers")
shutil.rmtree(scratch, ignore_errors=True)
sys.exit(1 if wrong else 0)
PROGRAM
