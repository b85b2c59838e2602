#!/usr/bin/env python3
"""Says where the time of the gate goes: what the proof, the tests and the edits of each crate took.

At the top of the repository:

    tools/gate_times.py run LOG [--anew]   runs `rt ci`, writes each line that it prints behind its second into LOG, with
                                           what its provers took so far, and then reads LOG
    tools/gate_times.py read LOG           reads such a log

The times of `run` are seconds of processor time, which other work on the machine hardly changes. They are taken every two
seconds, so each is up to two seconds short for each check. The memory is that of the largest check of the crate.

A log without these measures can be made by

    (echo begins; rt ci) 2>&1 | while IFS= read -r l; do printf '%s %s\n' "$(date +%s)" "$l"; done > LOG

Such a log tells when a proof ended and not when it began. Its times are seconds of the clock from the end of the last proof
below the crate to the end of its own, a wait for a processor among them. When the edits of a crate ended it does not tell.
"""

import os
import re
import subprocess
import sys
import threading
import time
from collections import defaultdict

KINDS = ("proof", "tests", "edits")
MEASURE = re.compile(r"@ (\d+) (\w+) (\w+) ([\d.]+) (\d+)$")
TICKS = os.sysconf("SC_CLK_TCK")


def process_table():
    """Returns the parent, and the seconds so far with those of ended children, of each process by its id."""
    table = {}
    for pid in filter(str.isdigit, os.listdir("/proc")):
        try:
            with open(f"/proc/{pid}/stat") as stat:
                fields = stat.read().rpartition(")")[2].split()
        except OSError:
            continue
        table[int(pid)] = int(fields[1]), sum(map(int, fields[11:15])) / TICKS
    return table


def memory_of(pid):
    """Returns the bytes that a process holds, what it shares divided among those that share it."""
    try:
        with open(f"/proc/{pid}/smaps_rollup") as rollup:
            return next((int(it.split()[1]) * 1024 for it in rollup if it.startswith("Pss:")), 0)
    except OSError:
        return 0


def check_of(pid):
    """Returns the kind and the crate of a prover's check, or None for another process."""
    try:
        with open(f"/proc/{pid}/cmdline") as line:
            words = line.read().split("\0")
        folder = os.readlink(f"/proc/{pid}/cwd")
    except OSError:
        return None
    if os.path.basename(words[0]) != "rattle" or "--crate-name" not in words:
        return None
    kind = "edits" if "/rt-edit" in folder else "tests" if "--test" in words else "proof"
    return kind, words[words.index("--crate-name") + 1]


def measures(top):
    """Yields a measure of each check that the process `top` has begun: its first process, kind, crate, seconds and bytes."""
    table = process_table()
    children = defaultdict(list)
    for pid, (parent, _) in table.items():
        children[parent].append(pid)

    def below(pid):
        return [pid, *(it for child in children[pid] for it in below(child))]

    waiting = [top]
    while waiting:
        pid = waiting.pop()
        check = check_of(pid)
        if check:
            parts = below(pid)
            yield pid, *check, sum(table[it][1] for it in parts), sum(map(memory_of, parts))
        else:
            waiting += children[pid]


def run(path, words):
    """Runs the gate, with its lines and the measures of its checks in the file `path`. Returns its status."""
    gate = subprocess.Popen(
        ["rt", "ci", *words], stdout=subprocess.PIPE, stderr=subprocess.STDOUT, text=True, errors="replace"
    )
    with open(path, "w", buffering=1) as log:

        def watch():
            while gate.poll() is None:
                for pid, kind, crate, seconds, size in measures(gate.pid):
                    print(f"{time.time():.0f} @ {pid} {kind} {crate} {seconds:.1f} {size}", file=log)
                time.sleep(2)

        threading.Thread(target=watch, daemon=True).start()
        for line in gate.stdout:
            print(f"{time.time():.0f} {line}", end="", file=log)
        return gate.wait()


def libraries_of(path="crates.txt"):
    """Returns the names behind each crate's in crates.txt."""
    with open(path) as crates:
        lines = [it.partition("#")[0].partition(":") for it in crates]
    return {name.split()[0]: below.split() for name, _, below in lines if name.strip()}


def ends_of(stamped):
    """Returns the second at which each proof and each crate's tests ended, and the number of edits that each crate tries."""
    ends, edits = {}, {}
    for second, line in stamped:
        if found := re.match(r"rt: (\w+)(: its tests are)? (NOT )?PROVED$", line, re.IGNORECASE):
            ends[found[1], "tests" if found[2] else "proof"] = second
        elif found := re.match(r"rt: (\w+) is kept: ", line):
            ends[found[1], "kept"] = second
        elif found := re.match(r"rt: (\w+): trying its must-fail edits \((\d+)\)", line):
            edits[found[1]] = int(found[2])
    return ends, edits


def measured(stamped):
    """Returns the seconds of each kind of each crate, and the bytes of its largest check."""
    seconds, size = defaultdict(float), defaultdict(int)
    last = {}
    for _, line in stamped:
        if found := MEASURE.match(line):
            last[found[1], found[2], found[3]] = max(float(found[4]), last.get((found[1], found[2], found[3]), 0))
            size[found[3]] = max(size[found[3]], int(found[5]))
    for (_, kind, crate), it in last.items():
        seconds[crate, kind] += it
    return seconds, size


def reckoned(stamped, ends):
    """Returns the seconds from the end of the last proof below a crate to the ends of its own proof and tests."""
    begin, below = stamped[0][0], libraries_of()
    ready = lambda crate: max([begin, *(ends.get((it, "proof"), begin) for it in below.get(crate, []))])
    return {(crate, kind): end - ready(crate) for (crate, kind), end in ends.items() if kind in KINDS}


def read(path):
    """Prints the table of a log."""
    with open(path, errors="replace") as log:
        split = [it.rstrip("\n").partition(" ") for it in log]
    stamped = [(int(second), line) for second, _, line in split if second.isdigit()]
    if not stamped:
        sys.exit(f"{path} has no line behind a second")
    ends, edits = ends_of(stamped)
    seconds, size = measured(stamped)
    is_measured = bool(seconds)
    seconds = seconds if is_measured else reckoned(stamped, ends)
    crates = sorted({it for it, _ in [*seconds, *ends]}, key=lambda it: -sum(seconds.get((it, kind), 0) for kind in KINDS))
    print(f"| Crate | Proof, s | Tests, s | Edits, s | Edits | Memory, GB | Proved after, min |\n|{'---|' * 7}")
    for crate in crates:
        took = [f"{seconds[crate, kind]:.0f}" if (crate, kind) in seconds else "" for kind in KINDS]
        end = ends.get((crate, "proof"))
        after = "kept" if (crate, "kept") in ends else f"{(end - stamped[0][0]) / 60:.0f}" if end else ""
        held = f"{size[crate] / 1e9:.1f}" if size[crate] else ""
        print(f"| {crate} | {' | '.join(took)} | {edits.get(crate, '')} | {held} | {after} |")
    sums = [f"{sum(it for (_, kind), it in seconds.items() if kind == which) / 60:.0f} min" for which in KINDS]
    print(f"| all | {' | '.join(sums)} | {sum(edits.values())} | | {(stamped[-1][0] - stamped[0][0]) / 60:.0f} |")
    print(f"\n{'Processor' if is_measured else 'Clock'} time. {stamped[-1][1]}")


def main():
    if len(sys.argv) >= 3 and sys.argv[1] == "run":
        status = run(sys.argv[2], sys.argv[3:])
        read(sys.argv[2])
        sys.exit(status)
    if len(sys.argv) == 3 and sys.argv[1] == "read":
        read(sys.argv[2])
    else:
        sys.exit(__doc__)


if __name__ == "__main__":
    main()
