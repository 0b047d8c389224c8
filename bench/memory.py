"""Bytes of memory that the program takes for each node, report and command, and how fast it opens, beside a plain loop.

Usage: memory.py PROGRAM [NODES]
PROGRAM is the built program, crates/puppetdb_server/out/puppetdb_server. A figure is the difference of two runs, of NODES (500 where
nothing is said) and of twice as many, so what a process takes at its start is not in it. Memory is the most that a process ever had
(VmHWM), since none is given back to the system. The files lie in /dev/shm, and the spools are those of fleet_spool.py.

The plain loop is this script with the word `plain`: Python that reads the same spool and keeps of each node the newest payload of each kind,
and each report, as bytes or as what json.loads makes of them.
"""
import json
import os
import shutil
import subprocess
import sys
import tempfile

from fleet_spool import KINDS, item, payload, template

RUNS = 5

SWEEP = "2024-05-02T00:00:00Z"

MIXED = ("facts", "catalog", "report", "calm")

QUERIES = [
    ("all nodes", '["from","nodes"]'),
    ("all reports", '["from","reports"]'),
    ("reports of one node", '["from","reports",["=","certname","%s"]]'),
    ("how many reports of each status", '["from","reports",["extract",["status",["function","count"]],["group_by","status"]]]'),
    ("resources by type", '["from","resources",["extract",["type",["function","count"]],["group_by","type"]]]'),
    ("one fact by name", '["from","facts",["=","name","kernel"]]'),
]


def mixed(nodes):
    """A command of each kind for each node."""
    texts = {kind: template(kind, "whole") for kind in MIXED}
    for node in range(nodes):
        for kind in MIXED:
            yield item(kind, payload(texts[kind], kind, node))


def alone(kind):
    """Of each node one command of this kind."""
    text = template(kind, "whole")
    return lambda nodes: (item(kind, payload(text, kind, node)) for node in range(nodes))


def again(times):
    """The facts of one node, so many times, each with a later stamp."""
    text = template("facts", "whole")
    return (item("facts", payload(text, "facts", 0).replace(b"2024-05-01T10:00:00.000Z", b"2024-05-01T%02d:%02d:%02d.000Z" % (10 + n // 3600, n // 60 % 60, n % 60))) for n in range(times))


def ended(times):
    """Deactivations of one node, each with a later stamp, of which all end."""
    for n in range(times):
        body = b'{"certname":"node00000","producer_timestamp":"2024-05-01T%02d:%02d:%02d.%03dZ"}' % (n // 3600000, n // 60000 % 60, n // 1000 % 60, n % 1000)
        yield b"deactivate_node 3 %d\n%s\n" % (len(body), body)


def call(words, folder, source=os.devnull):
    """The seconds of the processor, the most bytes that the process had, and what it printed."""
    with open(source, "rb") as stdin:
        child = subprocess.Popen(words, cwd=folder, stdin=stdin, stdout=subprocess.PIPE)
        printed = child.stdout.read()
        _, status, usage = os.wait4(child.pid, 0)
    if status != 0:
        sys.exit(f"{words} ended with {status}")
    return usage.ru_utime + usage.ru_stime, usage.ru_maxrss * 1024, printed


class Fleet:
    """A spool in a folder of its own, and the files that `run` makes of it."""

    def __init__(self, program, commands):
        self.program = program
        self.folder = tempfile.mkdtemp(dir="/dev/shm")
        self.source = os.path.join(self.folder, "spool")
        with open(self.source, "wb") as file:
            file.writelines(commands)
        call([program, "init"], self.folder)
        self.kept = call([program, "run", "1", SWEEP], self.folder, self.source)[1]

    def opened(self):
        """The best seconds of an opening, its memory, and the bytes of the logs."""
        taken = [call([self.program, "discards"], self.folder) for _ in range(RUNS)]
        size = sum(os.path.getsize(os.path.join(self.folder, name)) for name in ("queue.a", "queue.b", "store.a", "store.b"))
        return min(it[0] for it in taken), taken[0][1], size

    def plain(self, how):
        """The same of the plain loop."""
        taken = [call([sys.executable, os.path.abspath(__file__), "plain", how], self.folder, self.source) for _ in range(RUNS)]
        return min(it[0] for it in taken), taken[0][1], os.path.getsize(self.source)

    def query(self, text):
        taken = [call([self.program, "query", text], self.folder) for _ in range(RUNS)]
        return min(it[0] for it in taken), taken[0][1], taken[0][2]

    def away(self):
        shutil.rmtree(self.folder)


def slope(few, many, count):
    return (many - few) / count / 1000


def weigh(what, program, commands, count):
    """A line of the table: kB for each of them, and MB/s."""
    few, many = Fleet(program, commands(count)), Fleet(program, commands(2 * count))
    try:
        one, two = few.opened(), many.opened()
        bare = [(few.plain(how), many.plain(how)) for how in ("bytes", "trees")]
        text = os.path.getsize(many.source) - os.path.getsize(few.source)
        cells = [slope(few.kept, many.kept, count), slope(one[1], two[1], count), *(slope(a[1], b[1], count) for a, b in bare)]
        speeds = [two[2] / two[0] / 1e6, *(b[2] / b[0] / 1e6 for _, b in bare)]
        print(f"{what} | {text / count / 1000:.1f} | " + "/".join(f"{it:.1f}" for it in cells) + " | " + "/".join(f"{it:.0f}" for it in speeds), flush=True)
    finally:
        few.away()
        many.away()


def whole(what, program, commands, count):
    """The most MB that a run over so many commands takes, and an opening of its files."""
    fleet = Fleet(program, commands(count))
    try:
        seconds, most, size = fleet.opened()
        print(f"{what}, {count} times | {size / 1e6:.0f} MB of logs | MB: run {fleet.kept / 1e6:.0f}, opening {most / 1e6:.0f} | {seconds:.2f} s", flush=True)
    finally:
        fleet.away()


def ask(program, nodes):
    fleet = Fleet(program, mixed(nodes))
    try:
        opening = fleet.opened()
        one = json.loads(payload(template("calm", "whole"), "calm", 7))["certname"]
        print(f"queries of {nodes} mixed nodes | milliseconds without the opening | MB above the opening | rows")
        for what, text in QUERIES:
            seconds, most, printed = fleet.query(text % one if "%" in text else text)
            print(f"{what} | {(seconds - opening[0]) * 1000:.1f} | {(most - opening[1]) / 1e6:.1f} | {len(json.loads(printed))}", flush=True)
    finally:
        fleet.away()


def plain(how):
    """Reads a spool, and keeps the newest payload of each node and kind, and each report."""
    make = json.loads if how == "trees" else bytes
    kept, reports = {}, []
    while line := sys.stdin.buffer.readline():
        words = line.split()
        body = sys.stdin.buffer.read(int(words[2]))
        sys.stdin.buffer.read(1)
        found = json.loads(body)
        if words[0] == b"store_report":
            reports.append(make(body))
        else:
            kept[words[0], found["certname"]] = make(body)


def main():
    if sys.argv[1] == "plain":
        plain(sys.argv[2])
        return
    program = os.path.abspath(sys.argv[1])
    nodes = int(sys.argv[2]) if len(sys.argv) > 2 else 500
    print("each | kB of text | kB: run/opening/plain bytes/plain trees | MB/s: opening/plain bytes/plain trees")
    weigh("node of four commands", program, mixed, nodes)
    for kind in KINDS:
        weigh(f"node of {kind} alone", program, alone(kind), 2 * nodes)
    weigh("facts of one node again", program, again, 2 * nodes)
    whole("facts of one node", program, again, 1000)
    whole("deactivations of one node", program, ended, 1_000_000)
    ask(program, nodes)


if __name__ == "__main__":
    main()
