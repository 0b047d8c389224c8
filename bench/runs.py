"""Commands a second that `run 1` takes in, applies and answers for, beside a plain script that makes as many synced writes, and the
seconds and the memory of openings of long logs.

Usage: runs.py PROGRAM FOLDER [MEMORY]
PROGRAM is the built program, crates/puppetdb_server/out/puppetdb_server. FOLDER is one on the disk to be timed; MEMORY is one on a disk
in memory, /dev/shm if none is given. Times are by the clock, since syncs are waited for; those of openings are the processor's.
"""
import json
import os
import resource
import shutil
import subprocess
import sys
import tempfile
import time

NOW = "2024-05-02T00:00:00Z"

SIZES = [(119, 300), (10_000, 200), (160_000, 60)]

LONG = 200_000


def payload(number, size):
    """Facts of a node of its own, of so many bytes."""
    body = {
        "certname": f"n{number:06}",
        "environment": "production",
        "values": {},
        "producer_timestamp": "2024-05-01T10:00:00Z",
        "producer": "m",
    }
    least = len(json.dumps(body, separators=(",", ":")))
    count = 0
    while least < size - 60:
        name, value = f"fact{count:04}", "v" * min(40, max(1, size - least - 20))
        body["values"][name] = value
        least += len(name) + len(value) + 6
        count += 1
    if not count:
        body["values"]["k"] = 1
    return json.dumps(body, separators=(",", ":")).encode()


def spool(path, count, size):
    """Writes a spool, and returns the bytes of one payload."""
    with open(path, "wb") as file:
        for number in range(count):
            text = payload(number, size)
            file.write(b"replace_facts 5 %d\n%b\n" % (len(text), text))
    return len(text)


def call(program, folder, words, source=os.devnull):
    """The seconds by the clock and of the processor, the peak of memory in bytes, and what was printed."""
    with open(source, "rb") as stdin:
        start = time.perf_counter()
        child = subprocess.Popen([program, *words], cwd=folder, stdin=stdin, stdout=subprocess.PIPE)
        rows = child.stdout.read()
        _, status, usage = os.wait4(child.pid, 0)
        taken = time.perf_counter() - start
    if status != 0:
        sys.exit(f"{words} ended with {status}")
    return taken, usage.ru_utime + usage.ru_stime, usage.ru_maxrss * 1024, rows.decode()


def plain(folder, size, count):
    """Three appends for each command, of two writes and two syncs each: what was submitted, what was applied, and that it is done."""
    files = [os.open(os.path.join(folder, name), os.O_RDWR | os.O_CREAT, 0o644) for name in ("plain.queue", "plain.store")]
    gates = [16, 16]
    start = time.perf_counter()
    for _ in range(count):
        for which, bytes in ((0, size + 30), (1, size + 30), (0, 9)):
            os.pwrite(files[which], bytes.to_bytes(4, "little") + b"\7" * bytes + b"\0", gates[which] + 1)
            os.fdatasync(files[which])
            os.pwrite(files[which], b"\1", gates[which])
            os.fdatasync(files[which])
            gates[which] += 5 + bytes
    taken = time.perf_counter() - start
    for file in files:
        os.close(file)
    return count / taken


def summary(count):
    return f"received {count}\napplied {count}\nsuperseded 0\ndiscarded 0\n"


def timed(program, where, size, count):
    """Commands a second of the program and of the script."""
    folder = tempfile.mkdtemp(dir=where)
    try:
        source = os.path.join(folder, "spool")
        bytes = spool(source, count, size)
        call(program, folder, ["init"])
        empty = min(call(program, folder, ["run", "1", NOW])[0] for _ in range(3))
        taken, _, _, rows = call(program, folder, ["run", "1", NOW], source)
        if rows != summary(count):
            sys.exit(f"the run printed {rows}")
        return bytes, count / max(taken - empty, 1e-9), plain(folder, bytes, count)
    finally:
        shutil.rmtree(folder)


def opened(program, where, count):
    """What an opening takes of a log of so many commands, and the memory that it and the run before it took for each."""
    folder = tempfile.mkdtemp(dir=where)
    try:
        source = os.path.join(folder, "spool")
        spool(source, count, 119)
        call(program, folder, ["init"])
        _, _, run_peak, rows = call(program, folder, ["run", "1", NOW], source)
        if rows != summary(count):
            sys.exit(f"the run printed {rows}")
        size = sum(os.path.getsize(os.path.join(folder, name)) for name in ("queue.a", "queue.b", "store.a", "store.b"))
        best = min(call(program, folder, ["run", "1", NOW])[1:3] for _ in range(3))
        return size, best[0], best[1], run_peak
    finally:
        shutil.rmtree(folder)


def main():
    program = os.path.abspath(sys.argv[1])
    disk, memory = sys.argv[2], (sys.argv[3:] or ["/dev/shm"])[0]
    print("where | bytes | commands a second: run 1, plain script | ratio")
    for where, times in ((disk, 1), (memory, 20)):
        for size, count in SIZES:
            bytes, ours, script = timed(program, where, size, count * times)
            print(f"{where} | {bytes} | {ours:.0f}, {script:.0f} | {ours / script:.2f}", flush=True)
    print("commands | bytes of the logs | seconds of an opening | MB a second | peak bytes a command: opening, run")
    for count in (LONG // 4, LONG // 2, LONG):
        size, seconds, peak, run_peak = opened(program, memory, count)
        print(f"{count} | {size} | {seconds:.2f} | {size / seconds / 1e6:.0f} | {peak / count:.0f}, {run_peak / count:.0f}", flush=True)


if __name__ == "__main__":
    main()
