"""What `compact` takes of logs in which each node has sent its facts several times, beside a plain script that writes and syncs as many
bytes, and what an opening takes before it and behind it.

Usage: compact.py PROGRAM FOLDER [MEMORY]
PROGRAM is the built program, crates/puppetdb_server/out/puppetdb_server. FOLDER is one on the disk to be timed; the logs are made in
MEMORY, a folder on a disk in memory, /dev/shm if none is given. A checkpoint's time is by the clock, less that of an opening, the best
of three; those of openings are the processor's, the best of three.
"""
import os
import shutil
import sys
import tempfile
import time

import runs

FILES = ("queue.a", "queue.b", "store.a", "store.b")

ROUNDS = 4

SIZES = [(119, 5_000), (10_000, 5_000)]


def spool(path, nodes, size):
    """Facts of each node, so often, each time an hour later."""
    with open(path, "wb") as file:
        for hour in range(ROUNDS):
            for number in range(nodes):
                text = runs.payload(number, size).replace(b"T10:", b"T1%d:" % hour)
                file.write(b"replace_facts 5 %d\n%b\n" % (len(text), text))


def bytes_in(folder):
    return sum(os.path.getsize(os.path.join(folder, name)) for name in FILES)


def opening(program, folder):
    return min(runs.call(program, folder, ["run", "1", runs.NOW])[1] for _ in range(3))


def plain(folder, size):
    """Seconds in which so many bytes are written, in pieces of a mebibyte, and synced."""
    piece = b"\7" * (1 << 20)
    file = os.open(os.path.join(folder, "plain"), os.O_RDWR | os.O_CREAT, 0o644)
    start = time.perf_counter()
    for at in range(0, size, len(piece)):
        os.pwrite(file, piece[: size - at], at)
    os.fdatasync(file)
    taken = time.perf_counter() - start
    os.close(file)
    os.unlink(os.path.join(folder, "plain"))
    return taken


def compacted(program, disk, made):
    """Seconds of one checkpoint of the logs in that folder, its bytes, and the seconds of the script."""
    best, script = None, None
    for _ in range(3):
        folder = tempfile.mkdtemp(dir=disk)
        try:
            for name in FILES:
                shutil.copy(os.path.join(made, name), folder)
            os.sync()
            before = min(runs.call(program, folder, ["run", "1", runs.NOW])[0] for _ in range(2))
            taken = max(runs.call(program, folder, ["compact"])[0] - before, 1e-9)
            size = sum(os.path.getsize(os.path.join(folder, name)) for name in ("queue.b", "store.b"))
            best = min(taken, best or taken)
            script = min(plain(folder, size), script or 1e9)
        finally:
            shutil.rmtree(folder)
    return best, size, script


def main():
    program = os.path.abspath(sys.argv[1])
    disk, memory = sys.argv[2], (sys.argv[3:] or ["/dev/shm"])[0]
    print("nodes | bytes of a command | bytes of the logs | opening, seconds | checkpoint: bytes, seconds | script, seconds | opening behind two, seconds | ratio")
    for size, nodes in SIZES:
        made = tempfile.mkdtemp(dir=memory)
        try:
            source = os.path.join(made, "spool")
            spool(source, nodes, size)
            runs.call(program, made, ["init"])
            runs.call(program, made, ["run", "4", runs.NOW], source)
            os.unlink(source)
            length, before = bytes_in(made), opening(program, made)
            taken, written, script = compacted(program, disk, made)
            for _ in range(2):
                runs.call(program, made, ["compact"])
            behind = opening(program, made)
            print(f"{nodes} | {size} | {length} | {before:.2f} | {written}, {taken:.2f} | {script:.2f} | {behind:.2f} | {before / behind:.1f}", flush=True)
        finally:
            shutil.rmtree(made)


if __name__ == "__main__":
    main()
