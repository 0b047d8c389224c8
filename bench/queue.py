"""Calls a second of the list of commands that wait, filled and drained, and the memory that each command takes there.

Usage: queue.py PROGRAM [COUNT]
PROGRAM is the built program, crates/fleet_bench/out/fleet_bench. Time is the processor's, of the user, in the best of nine runs; what
a start takes is taken off. Memory is the peak of the whole program, without that of an empty list.
"""
import os
import subprocess
import sys

CALLS = 11

RUNS = 9


def run(program, kind, count):
    child = subprocess.Popen([program, "queue", kind, str(count)], stdout=subprocess.PIPE)
    answer = child.stdout.read()
    _, status, usage = os.wait4(child.pid, 0)
    assert status == 0 and answer == f"{count}\n".encode(), (status, answer)
    return usage.ru_utime, usage.ru_maxrss * 1024


def main():
    program = os.path.abspath(sys.argv[1])
    count = int(sys.argv[2]) if len(sys.argv) > 2 else 262144
    print("commands | groups | seconds | calls a second | bytes for each")
    for kind in ["one", "own", "none"]:
        empty, base = min(run(program, kind, 0) for _ in range(RUNS))
        seconds, peak = min(run(program, kind, count) for _ in range(RUNS))
        print(f"{count} | {kind} | {seconds - empty:.2f} | {CALLS * count / (seconds - empty):.0f} | {(peak - base) / count:.0f}", flush=True)


if __name__ == "__main__":
    main()
