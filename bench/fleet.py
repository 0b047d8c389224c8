"""A fleet whose payloads are as Puppet sends them: commands a second by kind, the opening, memory a node, queries, and how each grows.

Usage: fleet.py PROGRAM SIZE CALLS [NODES ..]
PROGRAM is the built program, crates/puppetdb_server/out/puppetdb_server; SIZE is whole or small, as fleet_spool.py has it; of the opening
and of each query so many calls are made, of which p50 and p99 are told (below a hundred p99 is the slowest). The numbers of nodes are 500
and 5,000 where none is given. Files lie in /dev/shm, where syncs cost nothing, and spools in the system's folder for such. Seconds of the
processor are of the user and the system; where other programs run, only these say something. The opening is that of `discards`, which
prints nothing.

Beside the program stands a plain script, which has json.loads read each payload, makes three appends for it of two writes and two syncs
each, as runs.py has it, and for queries looks at the trees that are read.
"""
import collections
import json
import math
import os
import re
import shutil
import sys
import tempfile
import time

import fleet_spool
import runs

KINDS = {"whole": ("facts", "catalog", "report", "calm"), "small": ("facts", "catalog", "calm")}

WORKERS = (1, 4)

NODE = fleet_spool.name(7) + ".example.com"


def row(it, name, value):
    return {"certname": it["certname"], "environment": it["environment"], "name": name, "value": value}


def rows(it, wanted):
    return [row(it, name, value) for name, value in it["values"].items() if wanted(name, value)]


def nodes(it, wanted):
    return [{"certname": it["certname"]}] if wanted else []


def is_spare(it):
    return any(each["type"] == "Class" and each["title"] == "Role::Spare" for each in it["resources"])


# A query, the kind of payload that answers it, and its rows of one payload: where they are grouped, the columns that it is grouped by.
Query = collections.namedtuple("Query", "what text kind rows grouped")

QUERIES = [
    Query("all facts", '["from","facts"]', "facts", lambda it: rows(it, lambda name, value: True), False),
    Query("one fact by name", '["from","facts",["=","name","uptime_seconds"]]', "facts", lambda it: [row(it, "uptime_seconds", it["values"]["uptime_seconds"])], False),
    Query("one node", '["from","facts",["=","certname","%s"]]' % NODE, "facts", lambda it: rows(it, lambda name, value: True) if it["certname"] == NODE else [], False),
    Query("nodes with a class", '["from","nodes",["subquery","resources",["and",["=","type","Class"],["=","title","Role::Spare"]]]]', "catalog", lambda it: nodes(it, is_spare(it)), False),
    Query("nodes in a level", '["from","nodes",["in","certname",["extract","certname",["select_facts",["and",["=","name","kernel"],["=","value","Linux"]]]]]]', "facts", lambda it: nodes(it, it["values"]["kernel"] == "Linux"), False),
    Query("a pattern", '["from","facts",["~","value","7[.]example"]]', "facts", lambda it: rows(it, lambda name, value: isinstance(value, str) and re.search("7[.]example", value)), False),
    Query("resources by type", '["from","resources",["extract",["type",["function","count"]],["group_by","type"]]]', "catalog", lambda it: [each["type"] for each in it["resources"]], True),
    Query("facts by name and value", '["from","facts",["extract",["name","value",["function","count"]],["group_by","name","value"]]]', "facts", lambda it: [(name, json.dumps(value, sort_keys=True)) for name, value in it["values"].items()], True),
]


class Clock:
    """Seconds by the clock and of the processor, added up."""

    def __init__(self):
        self.clock = self.processor = 0

    def __enter__(self):
        self.begun = time.perf_counter(), time.process_time()

    def __exit__(self, *_):
        self.clock += time.perf_counter() - self.begun[0]
        self.processor += time.process_time() - self.begun[1]


class Plain:
    """The plain script's times, and its rows of each query."""

    def __init__(self):
        self.loads, self.appends = collections.defaultdict(Clock), collections.defaultdict(Clock)
        self.clocks, self.groups, self.counts = collections.defaultdict(Clock), collections.defaultdict(collections.Counter), collections.Counter()

    def take(self, source, folder, kind):
        files = [os.open(os.path.join(folder, name), os.O_RDWR | os.O_CREAT, 0o644) for name in ("plain.queue", "plain.store")]
        for body in payloads(source):
            with self.loads[kind]:
                tree = json.loads(body)
            with self.appends[kind]:
                append(files, body)
            for query in QUERIES:
                if query.kind == kind:
                    with self.clocks[query.what]:
                        self.answer(query, tree)
        for file in files:
            os.close(file)
        for name in ("plain.queue", "plain.store"):
            os.remove(os.path.join(folder, name))

    def answer(self, query, tree):
        if query.grouped:
            self.groups[query.what].update(query.rows(tree))
            self.counts[query.what] = len(self.groups[query.what])
        else:
            found = query.rows(tree)
            self.counts[query.what] += len(found)
            json.dumps(found, separators=(",", ":"))


def payloads(path):
    with open(path, "rb") as file:
        while line := file.readline():
            yield file.read(int(line.split()[2]))
            file.read(1)


def append(files, body):
    """What was submitted, what was applied, and that it is done."""
    for file, bytes in ((files[0], body), (files[1], body), (files[0], b"\7" * 9)):
        gate = os.lseek(file, 0, os.SEEK_END)
        os.pwrite(file, len(bytes).to_bytes(4, "little") + bytes + b"\0", gate + 1)
        os.fdatasync(file)
        os.pwrite(file, b"\1", gate)
        os.fdatasync(file)


def spool(path, kind, size, count):
    """Writes the spool, and returns the bytes of its payloads."""
    total = 0
    with open(path, "wb") as file:
        for body in fleet_spool.payloads(kind, size, count):
            file.write(fleet_spool.item(kind, body))
            total += len(body)
    return total


def quantile(sorted_, part):
    return sorted_[max(math.ceil(part * len(sorted_)), 1) - 1]


def calls(program, folder, words, many):
    """The sorted seconds of so many calls, by the clock and of the processor, the peak of memory, and what was printed."""
    clock, processor = [], []
    for _ in range(many):
        one, other, peak, printed = runs.call(program, folder, words)
        clock.append(one)
        processor.append(other)
    return sorted(clock), sorted(processor), peak, printed


def count_of_rows(printed):
    """How many rows a list has, of which one is read at a time."""
    decoder, at, count = json.JSONDecoder(), 1, 0
    while printed[at] != "]":
        _, at = decoder.raw_decode(printed, at)
        count += 1
        at += printed[at] == ","
    return count


def applied(program, source, workers, count):
    """What a run over a spool takes in a folder of its own, and the folder."""
    folder = tempfile.mkdtemp(dir="/dev/shm")
    runs.call(program, folder, ["init"])
    taken = runs.call(program, folder, ["run", str(workers), runs.NOW], source)
    if taken[3] != runs.summary(count):
        sys.exit(f"the run printed {taken[3]}")
    return taken, folder


def kind_taken_in(program, source, kind, size, count, seen):
    """Prints how fast commands of a kind are taken in, by so many workers each over files of their own, and by the plain script."""
    plain, bytes = seen["plain"], spool(source, kind, size, count)
    seen["bytes"] += bytes
    ours = []
    for workers in WORKERS:
        taken, folder = applied(program, source, workers, count)
        if workers == WORKERS[0]:
            seen["steps"][f"`run {workers}` of {kind}"], peak = taken[1], taken[2]
            plain.take(source, folder, kind)
        shutil.rmtree(folder)
        ours.append(f"{count / taken[0]:,.0f}, {count / taken[1]:,.0f}")
    loads, appends = plain.loads[kind], plain.appends[kind]
    plain_too = f"{count / (loads.clock + appends.clock):,.0f}, {count / (loads.processor + appends.processor):,.0f} | {count / loads.processor:,.0f}"
    print(f"| {kind} | {bytes // count:,} | {' | '.join(ours)} | {plain_too} | {peak // count:,} |", flush=True)


def taken_in(program, size, count, seen):
    """Has the program take each kind in, and then the whole fleet. The folder of that."""
    seen.update(plain=Plain(), bytes=0)
    print(f"\n| kind, {count:,} nodes | bytes of a payload | {' | '.join(f'`run {it}` a second: by the clock, the processor' for it in WORKERS)} | plain script | `loads` alone | peak bytes a node of `run {WORKERS[0]}` |")
    print("|---" * (5 + len(WORKERS)) + "|")
    spools = tempfile.mkdtemp()
    try:
        one, all_kinds = os.path.join(spools, "one"), os.path.join(spools, "all")
        for kind in KINDS[size]:
            kind_taken_in(program, one, kind, size, count, seen)
            with open(one, "rb") as source, open(all_kinds, "ab") as target:
                shutil.copyfileobj(source, target)
        _, folder = applied(program, all_kinds, WORKERS[-1], count * len(KINDS[size]))
    finally:
        shutil.rmtree(spools)
    return folder


def opened(program, folder, count, many, seen):
    """Prints what an opening takes, and returns its median seconds by the clock and of the processor."""
    clock, processor, peak, _ = calls(program, folder, ["discards"], many)
    logs = sum(os.path.getsize(os.path.join(folder, name)) for name in os.listdir(folder))
    loads = sum(it.processor for it in seen["plain"].loads.values())
    print("\n| nodes | bytes of the payloads, of the logs | opening: p50, p99 by the clock | of the processor | MB/s of the logs | plain `loads` of the payloads | peak bytes a node |")
    print("|---" * 7 + "|")
    print(
        f"| {count:,} | {seen['bytes']:,}, {logs:,} | {quantile(clock, 0.5):.3f}, {quantile(clock, 0.99):.3f} | {quantile(processor, 0.5):.3f} | {logs / quantile(processor, 0.5) / 1e6:.0f} "
        f"| {loads:.3f} | {peak // count:,} |",
        flush=True,
    )
    seen["steps"]["opening"] = quantile(processor, 0.5)
    seen["memory"] = peak
    return quantile(clock, 0.5), quantile(processor, 0.5)


def asked(program, folder, count, many, opening, seen):
    """Prints what each query takes."""
    plain = seen["plain"]
    print(f"\n| query, {count} nodes | rows | bytes | seconds: p50, p99 by the clock | without the opening | of the processor without it: p50, p99 | plain script, trees at hand |")
    print("|---" * 7 + "|")
    for query in QUERIES:
        clock, processor, _, printed = calls(program, folder, ["query", query.text], many)
        found = count_of_rows(printed)
        other = "" if found == plain.counts[query.what] else f" DIFFERENT: {plain.counts[query.what]}"
        alone = [quantile(processor, part) - opening[1] for part in (0.5, 0.99)]
        print(
            f"| {query.what} | {found:,}{other} | {len(printed):,} | {quantile(clock, 0.5):.3f}, {quantile(clock, 0.99):.3f} | {quantile(clock, 0.5) - opening[0]:.3f} "
            f"| {alone[0]:.3f}, {alone[1]:.3f} | {plain.clocks[query.what].processor:.3f} |",
            flush=True,
        )
        seen["steps"][query.what] = alone[0]


def grown(all_seen):
    """Prints the seconds of the processor of each step by the number of nodes, and by how much each grows from one to the next."""
    counts = list(all_seen)
    print(f"\n| step | {' | '.join(f'{it:,} nodes' for it in counts)} | times as much from one to the next |")
    print("|---" * (2 + len(counts)) + "|")
    print(f"| nodes | | {' | '.join('' for _ in counts[1:])} | {', '.join(f'{b / a:.1f}' for a, b in zip(counts, counts[1:]))} |")
    for step in all_seen[counts[0]]["steps"]:
        took = [max(all_seen[it]["steps"][step], 1e-6) for it in counts]
        print(f"| {step} | {' | '.join(f'{it:.3f}' for it in took)} | {', '.join(f'{b / a:.1f}' for a, b in zip(took, took[1:]))} |")
    peaks = [all_seen[it]["memory"] for it in counts]
    print(f"| peak MB of an opening | {' | '.join(f'{it / 1e6:,.0f}' for it in peaks)} | {', '.join(f'{b / a:.1f}' for a, b in zip(peaks, peaks[1:]))} |")


def main():
    program, size, many = os.path.abspath(sys.argv[1]), sys.argv[2], int(sys.argv[3])
    all_seen = {}
    for count in [int(word) for word in sys.argv[4:]] or [500, 5000]:
        seen = all_seen[count] = {"steps": {}}
        folder = taken_in(program, size, count, seen)
        try:
            asked(program, folder, count, many, opened(program, folder, count, many, seen), seen)
        finally:
            shutil.rmtree(folder)
    grown(all_seen)


if __name__ == "__main__":
    main()
