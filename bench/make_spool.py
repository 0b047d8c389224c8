#!/usr/bin/env python3
"""Prints a spool of "replace facts" commands: make_spool.py NODES COMMANDS SEED

The commands go to the nodes in turn, out of order in time, with equal stamps, offsets and fractions among them.
The same numbers give the same bytes.
"""
import json
import random
import sys
from datetime import datetime, timedelta, timezone

START = datetime(2024, 5, 1, 10, 0, 0, tzinfo=timezone.utc)
ENVIRONMENTS = ["production", "production", "production", "staging", "testing"]


def stamp(rng):
    moment = START + timedelta(hours=rng.randrange(0, 24), seconds=rng.choice([0, 0, 1]))
    offset = rng.choice([0, 0, 0, 60, 120, -210])
    local = moment + timedelta(minutes=offset)
    fraction = rng.choice(["", "", ".5", ".250", ".000000001"])
    sign = "+" if offset >= 0 else "-"
    zone = "Z" if offset == 0 else "%s%02d:%02d" % (sign, abs(offset) // 60, abs(offset) % 60)
    return local.strftime("%Y-%m-%dT%H:%M:%S") + fraction + zone


def payload(rng, node):
    values = {
        "kernel": "Linux",
        "memorysize_mb": rng.choice([3936, 7982, 16012]),
        "os": {"family": "Debian", "release": {"major": str(rng.choice([11, 12]))}},
        "processors": {"count": rng.choice([2, 4, 8])},
        "uptime_seconds": rng.randrange(1, 10_000_000),
    }
    return json.dumps(
        {
            "certname": node,
            "environment": rng.choice(ENVIRONMENTS),
            "values": values,
            "producer_timestamp": stamp(rng),
            "producer": "puppet.example.com",
        },
        separators=(",", ":"),
    ).encode()


def main():
    nodes, commands, seed = (int(word) for word in sys.argv[1:4])
    rng = random.Random(seed)
    out = sys.stdout.buffer
    for index in range(commands):
        body = payload(rng, "node%05d.example.com" % (index % nodes))
        out.write(b"replace_facts 5 %d\n" % len(body))
        out.write(body)
        out.write(b"\n")


main()
