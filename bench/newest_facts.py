#!/usr/bin/env python3
"""Does in Python what `show` does for a spool whose payloads all decode: it applies commands and sweeps with the default
lifetimes, and prints the facts of the nodes that are neither deactivated nor expired."""
import json
import re
import sys
from datetime import datetime

STAMP = re.compile(r"(\d{4}-\d\d-\d\dT\d\d:\d\d:\d\d)(?:\.(\d{1,9}))?(Z|[+-]\d\d:\d\d)$")
DAY = 86_400_000_000_000
NODE, PURGE = 7 * DAY, 14 * DAY


def moment(text):
    clock, fraction, zone = STAMP.match(text).groups()
    seconds = int(datetime.fromisoformat(clock + ("+00:00" if zone == "Z" else zone)).timestamp())
    return seconds * 1_000_000_000 + int((fraction or "").ljust(9, "0"))


def greater(one, other):
    return one if other is None or other[0] < one[0] else other


class Node:
    def __init__(self):
        self.facts = self.deactivation = self.expiration = self.active = None

    def apply(self, kind, rank, body):
        if kind == b"replace_facts":
            self.facts = greater((rank, body), self.facts)
        elif kind == b"deactivate_node":
            self.deactivation = greater((rank, body), self.deactivation)
        elif kind == b"configure_expiration":
            self.expiration = greater((rank, body), self.expiration)
        if kind in (b"replace_facts", b"replace_catalog", b"store_report"):
            self.active = rank[0] if self.active is None else max(self.active, rank[0])

    def ends(self, expiry):
        """The moments at which it was deactivated and expired, where it was."""
        if self.deactivation and (self.active is None or self.active <= self.deactivation[0][0]):
            yield self.deactivation[0][0]
        stays = self.expiration and not self.expiration[1]["expire"]["facts"]
        if self.active is not None and expiry is not None and not stays and self.active + NODE < expiry:
            yield self.active + NODE


def follow(read):
    """The nodes, and the greatest moment of a sweep of expiry."""
    nodes, expiry, receipt = {}, None, 0
    while line := read.readline():
        kind, version, length = line.split()
        if kind == b"sweep":
            kinds, at = version.split(b","), moment(length.decode())
            if b"expire" in kinds:
                expiry = at if expiry is None else max(expiry, at)
            if b"purge" in kinds:
                nodes = {name: node for name, node in nodes.items() if all(end >= at - PURGE for end in node.ends(expiry))}
            continue
        body = json.loads(read.read(int(length)))
        read.read(1)
        receipt += 1
        rank = (moment(body["producer_timestamp"]), receipt)
        nodes.setdefault(body["certname"], Node()).apply(kind, rank, body)
    return nodes, expiry


def main():
    nodes, expiry = follow(sys.stdin.buffer)
    rows = []
    for name in sorted(nodes):
        node = nodes[name]
        if node.facts is None or any(True for _ in node.ends(expiry)):
            continue
        body = node.facts[1]
        for fact in sorted(body["values"]):
            rows.append({"certname": name, "environment": body.get("environment"), "name": fact, "value": body["values"][fact]})
    sys.stdout.write(json.dumps(rows, separators=(",", ":"), ensure_ascii=False))
    sys.stdout.write("\n")


main()
