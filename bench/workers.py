"""Commands a second by the number of workers: catalogs of 160 kB on a disk in memory, where decoding is the cost, facts of 10 kB there,
where the workers' lock is, and small facts on a disk, where its syncs are.

Usage: workers.py PROGRAM FOLDER [MEMORY]
PROGRAM is the built program, crates/puppetdb_server/out/puppetdb_server. FOLDER is one on the disk to be timed; MEMORY is one on a disk
in memory, /dev/shm if none is given. Times are by the clock, the best of three runs in which all numbers take turns: of the whole run,
and of its applying alone, from the first change in the store's file to the last, as its size is seen a thousand times a second.
"""
import json
import os
import shutil
import subprocess
import sys
import tempfile
import time

import runs

WORKERS = (1, 2, 4, 8, 64)


def catalog(number, size):
    """A catalog of a node of its own, of about so many bytes."""
    resources, edges = [], []
    body = {
        "certname": f"n{number:06}",
        "version": "1714557600",
        "environment": "production",
        "transaction_uuid": None,
        "catalog_uuid": None,
        "code_id": None,
        "job_id": None,
        "producer_timestamp": "2024-05-01T10:00:00Z",
        "producer": "m",
        "resources": resources,
        "edges": edges,
    }
    length = 300
    while length < size:
        title = f"/etc/site/file{len(resources):05}"
        resources.append(
            {
                "type": "File",
                "title": title,
                "exported": False,
                "file": "/etc/puppet/code/site/manifests/init.pp",
                "line": len(resources) + 1,
                "tags": ["file", "site", "class", "node", "default"],
                "parameters": {"ensure": "file", "mode": "0644", "owner": "root", "content": "setting = 1\n" * 8},
            }
        )
        edges.append(
            {
                "source": {"type": "File", "title": "/etc/site/file00000"},
                "target": {"type": "File", "title": title},
                "relationship": "contains",
            }
        )
        length += len(json.dumps(resources[-1], separators=(",", ":"))) + len(json.dumps(edges[-1], separators=(",", ":"))) + 2
    return json.dumps(body, separators=(",", ":")).encode()


def spool(path, count, size, kind):
    with open(path, "wb") as file:
        for number in range(count):
            text = catalog(number, size) if kind == "catalogs" else runs.payload(number, size)
            head = b"replace_catalog 9" if kind == "catalogs" else b"replace_facts 5"
            file.write(b"%b %d\n%b\n" % (head, len(text), text))


def once(program, where, source, workers, count):
    """Seconds of a run over files that `init` laid, and of its applying."""
    folder = tempfile.mkdtemp(dir=where)
    try:
        runs.call(program, folder, ["init"])
        store = os.path.join(folder, "store.a")
        size = os.stat(store).st_size
        first = last = None
        with open(source, "rb") as items:
            begun = time.perf_counter()
            run = subprocess.Popen([program, "run", str(workers), runs.NOW], cwd=folder, stdin=items, stdout=subprocess.PIPE)
            while run.poll() is None:
                now = os.stat(store).st_size
                if now != size:
                    last = time.perf_counter()
                    first = first or last
                    size = now
                time.sleep(0.001)
            taken = time.perf_counter() - begun
        rows = run.stdout.read().decode()
        if run.returncode != 0 or rows != runs.summary(count):
            sys.exit(f"the run printed {rows}")
        return taken, max(last - first, 0.001)
    finally:
        shutil.rmtree(folder)


def timed(program, where, kind, size, count):
    """The best seconds by the number of workers, of the run and of its applying."""
    folder = tempfile.mkdtemp(dir=where)
    try:
        source = os.path.join(folder, "spool")
        spool(source, count, size, kind)
        best = {}
        for _ in range(3):
            for workers in WORKERS:
                taken, applying = once(program, where, source, workers, count)
                was = best.get(workers, (taken, applying))
                best[workers] = (min(taken, was[0]), min(applying, was[1]))
        return best
    finally:
        shutil.rmtree(folder)


def main():
    program = os.path.abspath(sys.argv[1])
    disk, memory = sys.argv[2], (sys.argv[3:] or ["/dev/shm"])[0]
    print("where | commands | " + " | ".join(f"{it} workers" for it in WORKERS))
    runs_of = [(memory, "catalogs", 160_000, 400), (memory, "facts", 10_000, 2_000), (disk, "facts", 119, 400), (disk, "facts", 10_000, 200)]
    for where, kind, size, count in runs_of:
        best = timed(program, where, kind, size, count)
        for part, name in enumerate(("run", "applying")):
            row = " | ".join(f"{count / best[it][part]:.0f} a second ({best[1][part] / best[it][part]:.2f})" for it in WORKERS)
            print(f"{where} | {count} {kind} of {size} bytes, {name} | {row}", flush=True)


if __name__ == "__main__":
    main()
