#!/bin/sh
# What the gate costs: runs `rt ci` at the top of the repository and prints a table of processor minutes by crate, for proof,
# tests and edits, the wall time and the machine. It looks every two seconds at which checks run, and changes nothing of the
# gate; what ends between two looks is missed. Of a kit that keeps what its gate proved it shows only what was proved anew. It
# ends with the gate's status.
#
#   bench/gate.sh
cd "$(dirname "$0")/.." || exit 2
exec python3 - <<'PROGRAM'
import os, re, subprocess, sys, time

TICK = os.sysconf("SC_CLK_TCK")
seen = {}  # by process: crate, kind, processor seconds


def look():
    for pid in filter(str.isdigit, os.listdir("/proc")):
        try:
            with open(f"/proc/{pid}/cmdline", "rb") as it:
                words = it.read().decode(errors="replace").split("\0")
            if not words[0].endswith("/rattle") or "--crate-name" not in words:
                continue
            with open(f"/proc/{pid}/stat") as it:
                fields = it.read().rpartition(")")[2].split()
            where = os.readlink(f"/proc/{pid}/cwd")
        except OSError:
            continue
        text = " ".join(words)
        kind = "tests" if "--test" in words else "edits" if "rt-edit" in text or "rt-edit" in where else "proof"
        seen[pid, fields[19]] = words[words.index("--crate-name") + 1], kind, (int(fields[11]) + int(fields[12])) / TICK


began = time.time()
gate = subprocess.Popen(["rt", "ci"])
while gate.poll() is None:
    look()
    time.sleep(2)
wall = time.time() - began
kinds = ("proof", "tests", "edits")
table = {}
for crate, kind, seconds in seen.values():
    row = table.setdefault(crate, dict.fromkeys(kinds, 0.0))
    row[kind] += seconds / 60
print("| crate | proof | tests | edits | all |\n|---|---|---|---|---|")
for crate, row in sorted(table.items(), key=lambda it: -sum(it[1].values())):
    print(f"| `{crate}` | " + " | ".join(f"{row[kind]:.1f}" for kind in kinds) + f" | {sum(row.values()):.1f} |")
sums = {kind: sum(row[kind] for row in table.values()) for kind in kinds}
print("| all | " + " | ".join(f"{sums[kind]:.1f}" for kind in kinds) + f" | {sum(sums.values()):.1f} |")
model = re.search(r"model name\s*:\s*(.*)", open("/proc/cpuinfo").read())
memory = int(re.search(r"MemTotal:\s*(\d+)", open("/proc/meminfo").read())[1]) >> 20
print(f"\nWall time {wall / 60:.0f} minutes; {os.cpu_count()} processors ({model[1] if model else 'unknown'}), {memory} GB of memory; status {gate.returncode}.")
sys.exit(gate.returncode)
PROGRAM
