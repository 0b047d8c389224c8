#!/usr/bin/env python3
"""What the gate takes: `gate_time.py run [COMMAND..]` starts `rt ci` (or COMMAND), samples the processor seconds of each proof
and writes them to docs/gate_seconds.txt; `gate_time.py` alone reads that file and reckons the gate on 4 and 2 idle processors.

A line of the file is `CRATE KIND SECONDS`; KIND is proof, tests, program or edits. Seconds are those of one processor.
"""
import heapq
import os
import subprocess
import sys
import time

ROOT = os.path.dirname(os.path.dirname(os.path.abspath(__file__)))
FILE = f"{ROOT}/docs/gate_seconds.txt"
TICKS = os.sysconf("SC_CLK_TCK")


def lines_below():
    """The crates of crates.txt, each with the repository's crates on its line."""
    below = {}
    with open(f"{ROOT}/crates.txt") as file:
        for line in file:
            name, colon, rest = line.split("#")[0].partition(":")
            if colon:
                below[name.split()[0]] = rest.split()
    return {name: [it for it in names if it in below] for name, names in below.items()}


def kind_of(words, crate):
    """What a process of the prover works on."""
    if "--test" in words:
        return "tests"
    if any("must-fail" in word for word in words):
        return "edits"
    return "program" if "src/main.rt" in words else "proof"


def processes():
    """The prover's processes with crate, kind and processor seconds so far."""
    for pid in filter(str.isdigit, os.listdir("/proc")):
        try:
            with open(f"/proc/{pid}/cmdline") as file:
                words = file.read().split("\0")
            if not words[0].endswith("/rattle") or "--crate-name" not in words:
                continue
            with open(f"/proc/{pid}/stat") as file:
                fields = file.read().rpartition(")")[2].split()
        except OSError:
            continue
        crate = words[words.index("--crate-name") + 1]
        # its own seconds and those of the children that ended
        yield pid + fields[19], crate, kind_of(words, crate), sum(map(int, fields[11:15])) / TICKS


def run(command):
    """Runs the gate and writes the seconds of each proof."""
    seen, began = {}, time.time()
    with subprocess.Popen(command, cwd=ROOT) as gate:
        while gate.poll() is None:
            for key, crate, kind, seconds in processes():
                seen[key] = crate, kind, seconds
            time.sleep(0.5)
    total = {}
    for crate, kind, seconds in seen.values():
        total[crate, kind] = total.get((crate, kind), 0) + seconds
    with open(FILE, "w") as file:
        for (crate, kind), seconds in sorted(total.items(), key=lambda it: -it[1]):
            file.write(f"{crate} {kind} {seconds:.0f}\n")
    print(f"{(time.time() - began) / 60:.0f} minutes; status {gate.returncode}")
    return gate.returncode


def read():
    """The seconds of each proof, by crate and kind."""
    with open(FILE) as file:
        rows = [line.split() for line in file if line.strip() and line[0] != "#"]
    return {(crate, kind): float(seconds) for crate, kind, seconds in rows}


def reckon(seconds, processors):
    """The minutes that the gate takes where no processor waits, and the tasks of the longest chain."""
    below = lines_below()
    tasks = {}
    for crate, names in below.items():
        waits = [(it, "proof") for it in names]
        for kind in ("proof", "tests", "program", "edits"):
            cost = seconds.get((crate, kind), 8 if kind == "proof" else 0)
            if cost:
                behind = waits + [(crate, "proof")] * (kind == "edits")
                tasks[crate, kind] = [it for it in behind if it in seconds or it[1] == "proof"], cost
    for crate in below:
        tasks.setdefault((crate, "proof"), ([(it, "proof") for it in below[crate]], 0))
    above = {key: [] for key in tasks}
    for key, (waits, _) in tasks.items():
        for it in waits:
            above[it].append(key)
    tail = {}

    def tail_of(key):
        if key not in tail:
            tail[key] = tasks[key][1] + max([tail_of(it) for it in above[key]], default=0)
        return tail[key]

    left = {key: len(tasks[key][0]) for key in tasks}
    ready = [(-tail_of(key), key) for key in tasks if not left[key]]
    heapq.heapify(ready)
    now, running = 0.0, []
    while ready or running:
        while ready and len(running) < processors:
            key = heapq.heappop(ready)[1]
            heapq.heappush(running, (now + tasks[key][1], key))
        now, key = heapq.heappop(running)
        for it in above[key]:
            left[it] -= 1
            if not left[it]:
                heapq.heappush(ready, (-tail_of(it), it))
    key, chain = max(tail, key=tail.get), []
    while True:
        chain.append((key[0], key[1], round(tasks[key][1])))
        if not above[key]:
            return now / 60, chain
        key = max(above[key], key=tail_of)


def main(words):
    if words and words[0] == "run":
        return run(words[1:] or ["rt", "ci"])
    seconds = read()
    for kind in ("proof", "tests", "program", "edits"):
        print(f"{kind}: {sum(it for (_, k), it in seconds.items() if k == kind) / 60:.0f} minutes of one processor")
    for processors in (4, 2):
        minutes, chain = reckon(seconds, processors)
        print(f"{processors} idle processors: {minutes:.0f} minutes")
    print(f"longest chain: {sum(it[2] for it in chain) / 60:.0f} minutes: " + ", ".join(f"{c} {k} {s}" for c, k, s in chain))
    return 0


if __name__ == "__main__":
    sys.exit(main(sys.argv[1:]))
