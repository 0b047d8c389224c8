"""Megabytes a second of reading and writing JSON texts, beside Python's json module in the same run.

Usage: json_speed.py PROGRAM FILE ..
PROGRAM is the built program, crates/fleet_bench/out/fleet_bench; each FILE holds one JSON text. Reading is reading and freeing
together. Time is the processor's, of the user, in the best of several runs. A tree's memory is that of the pages which sixteen
more of the same text in an array touch, as a multiple of the text: so neither the program's own pages nor a page that is begun
count.
"""
import json
import os
import resource
import subprocess
import sys

SECONDS = 0.1

RUNS = 7


def ours(program, mode, times, text):
    """The seconds of one run of the program, and the pages that it touched."""
    read, write = os.pipe()
    child = subprocess.Popen([program, *mode.split(), str(times)], stdin=read, stdout=subprocess.DEVNULL)
    os.close(read)
    with os.fdopen(write, "wb") as pipe:
        pipe.write(text)
    _, status, usage = os.wait4(child.pid, 0)
    if status != 0:
        sys.exit(f"{program} ended with {status}")
    return usage.ru_utime, usage.ru_minflt


def python(call):
    def seconds_of(times):
        start = resource.getrusage(resource.RUSAGE_SELF).ru_utime
        for _ in range(times):
            call()
        return resource.getrusage(resource.RUSAGE_SELF).ru_utime - start

    return seconds_of


def enough(seconds_of):
    """How many times take a tenth of a second."""
    times = 1
    while (taken := seconds_of(times)) < SECONDS / 4:
        times *= 4
    return max(times, int(times * SECONDS / taken))


def speeds(ours_of, python_of, size):
    """Bytes a second of both, who take turns: the best of their runs, less what no run takes."""
    idle = min(ours_of(0) for _ in range(RUNS))
    ours_times, python_times = enough(ours_of), enough(python_of)
    best = [float("inf")] * 2
    for _ in range(RUNS):
        best[0] = min(best[0], (ours_of(ours_times) - idle) / ours_times)
        best[1] = min(best[1], python_of(python_times) / python_times)
    return size / best[0], size / best[1]


def pages_of_tree(program, text):
    """The pages that the tree of one more text takes."""

    def pages(count):
        array = b"[" + b",".join([text] * count) + b"]"
        return ours(program, "json read", 1, array)[1] - ours(program, "json read", 0, array)[1]

    return (pages(17) - pages(1)) / 16


def main():
    program, files = os.path.abspath(sys.argv[1]), sys.argv[2:]
    print(f"{'text':<28} {'bytes':>8} | MB/s: read / loads | write / dumps | canonical / dumps(sort_keys) | tree")
    for file in files:
        with open(file, "rb") as it:
            text = it.read()
        tree = json.loads(text)
        compact = dict(ensure_ascii=False, separators=(",", ":"))
        size = len(json.dumps(tree, **compact).encode())
        rows = []
        for mode, length, call in (
            ("read", len(text), lambda: json.loads(text)),
            ("write", size, lambda: json.dumps(tree, **compact).encode()),
            ("canonical", size, lambda: json.dumps(tree, sort_keys=True, **compact).encode()),
        ):
            a, b = speeds(lambda times: ours(program, f"json {mode}", times, text)[0], python(call), length)
            rows.append(f"{a / 1e6:6.0f} / {b / 1e6:5.0f} = {a / b:4.1f}")
        memory = pages_of_tree(program, text) * os.sysconf("SC_PAGESIZE")
        print(f"{os.path.basename(file):<28} {len(text):>8} | {' | '.join(rows)} | {memory / len(text):.1f}", flush=True)


if __name__ == "__main__":
    main()
