"""Appends a second: record_log over a real file, beside a plain script with the same two writes and two syncs.

Usage: appends.py PROGRAM
PROGRAM is the built program, crates/fleet_bench/out/fleet_bench. Each runs in a folder of its own below the current one, on the same disk.
"""
import os
import shutil
import subprocess
import sys
import tempfile
import time

SIZES = [(140, 2000), (4096, 2000), (163840, 300)]


def plain(folder, size, count):
    """The two writes and two syncs of an append, count times: the frame behind its gate, then the gate."""
    frame = bytes([7]) * size
    block = size.to_bytes(4, "little") + frame + b"\0"
    file = os.open(os.path.join(folder, "plain.log"), os.O_RDWR | os.O_CREAT, 0o644)
    os.pwrite(file, b"\1PDBLOG1" + (1).to_bytes(8, "little") + b"\0", 0)
    os.fdatasync(file)
    gate = 16
    start = time.perf_counter()
    for _ in range(count):
        os.pwrite(file, block, gate + 1)
        os.fdatasync(file)
        os.pwrite(file, b"\1", gate)
        os.fdatasync(file)
        gate += 5 + size
    taken = time.perf_counter() - start
    os.close(file)
    return count / taken


def proved(program, folder, size, count):
    """The program's appends a second; its start, measured with no append, is taken off."""

    def run(n):
        start = time.perf_counter()
        answer = subprocess.run([program, "log", str(n), str(size)], cwd=folder, capture_output=True, check=True)
        assert answer.stdout == f"{n}\n".encode(), answer.stdout
        return time.perf_counter() - start

    empty = run(0)
    return count / max(run(count) - empty, 1e-9)


def main():
    program = os.path.abspath(sys.argv[1])
    folder = tempfile.mkdtemp(dir=".")
    try:
        for size, count in SIZES:
            a = proved(program, folder, size, count)
            b = plain(folder, size, count)
            print(f"{size:>7} bytes: record_log {a:9.0f} appends/s, plain script {b:9.0f}, ratio {a / b:.2f}")
    finally:
        shutil.rmtree(folder)


if __name__ == "__main__":
    main()
