"""Commands a second that are decoded and applied to tables of many nodes: facts as Puppet sends them, two for each node.

Usage: applies.py PROGRAM PAYLOAD [NODES ..]
PROGRAM is the built program, crates/fleet_bench/out/fleet_bench; PAYLOAD is one payload of "replace facts", which is taken whole, and
cut to its first facts that fill 10,000 bytes. Time is the processor's, of the user, in the best of three runs. The last column is
what "with decoding" comes to on a machine where json.loads reads these payloads at 100 MB/s.
"""
import json
import os
import re
import subprocess
import sys
import tempfile

from json_speed import enough, python

RUNS = 3

CUT = 10_000


def cut(payload):
    """The payload with as many of its first facts as fill 10,000 bytes."""
    body = json.loads(payload)
    facts, body["values"] = list(body["values"].items()), {}
    for name, value in facts:
        more = dict(body, values=dict(body["values"], **{name: value}))
        if len(json.dumps(more, separators=(",", ":")).encode()) <= CUT:
            body = more
    return json.dumps(body, separators=(",", ":")).encode()


def spool(payload, nodes, file):
    for turn in range(2):
        for node in range(nodes):
            name = b"node%05d.example.com" % (node * 7919 % nodes)
            body = re.sub(rb'"certname":"[^"]*"', b'"certname":"' + name + b'"', payload, count=1)
            body = re.sub(rb'"producer_timestamp":"[^"]*"', b'"producer_timestamp":"2024-05-0%dT10:00:00Z"' % (turn + 1), body, count=1)
            file.write(b"replace_facts 5 %d\n" % len(body) + body + b"\n")
    file.flush()


def seconds(program, mode, name):
    """The least seconds of a run, and what it printed."""
    best = float("inf")
    for _ in range(RUNS):
        with open(name, "rb") as source:
            child = subprocess.Popen([program, "table", mode], stdin=source, stdout=subprocess.PIPE)
            rows = child.stdout.read()
            _, status, usage = os.wait4(child.pid, 0)
        if status != 0:
            sys.exit(f"{program} ended with {status}")
        best = min(best, usage.ru_utime)
    return best, rows.decode().strip()


def loads_speed(payload):
    """Bytes a second of json.loads."""
    seconds_of = python(lambda: json.loads(payload))
    times = enough(seconds_of)
    return len(payload) * times / min(seconds_of(times) for _ in range(RUNS))


def main():
    program = os.path.abspath(sys.argv[1])
    with open(sys.argv[2], "rb") as file:
        whole = file.read()
    print("bytes | nodes | commands | seconds: decode, decode and apply | a second: without decoding, with | loads MB/s | with decoding at 100 MB/s | rows")
    for payload in (whole, cut(whole)):
        for nodes in [int(word) for word in sys.argv[3:]] or [100, 1000, 10000]:
            with tempfile.NamedTemporaryFile() as file:
                spool(payload, nodes, file)
                loads = loads_speed(payload)
                decode, _ = seconds(program, "decode", file.name)
                both, rows = seconds(program, "apply", file.name)
            count = 2 * nodes
            print(f"{len(payload)} | {nodes} | {count} | {decode:.2f}, {both:.2f} | {count / (both - decode):.0f}, {count / both:.0f} | {loads / 1e6:.0f} | {count / both * 1e8 / loads:.0f} | {rows}", flush=True)


if __name__ == "__main__":
    main()
