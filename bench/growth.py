"""Seconds in which many new nodes come, in three orders, and many reports of one node: whether they grow with the square.

Usage: growth.py PROGRAM [COUNT]
PROGRAM is the built program, crates/fleet_bench/out/fleet_bench. COUNT is that of the reports, 100,000 if none is given; of the nodes
there are 3.2 times as many. Time is the processor's, of the user; a quarter, a half and all of each are timed, with decoding and
without.
"""
import datetime
import json
import os
import random
import sys
import tempfile

from applies import seconds

START = datetime.datetime(2024, 5, 1, 10, 0, 0)


def stamp(seconds):
    return (START + datetime.timedelta(seconds=seconds)).strftime("%Y-%m-%dT%H:%M:%SZ")


def fact(number):
    return "replace_facts 5", {
        "certname": f"node{number:06}.example.com",
        "environment": "production",
        "values": {"kernel": "Linux"},
        "producer_timestamp": stamp(0),
        "producer": "puppet.example.com",
    }


def report(number):
    return "store_report 8", {
        "certname": "web01.example.com",
        "puppet_version": "7.23.0",
        "report_format": 12,
        "configuration_version": "production-3f9c2b7d1e0a",
        "producer_timestamp": stamp(number),
        "start_time": stamp(number),
        "end_time": stamp(number + 5),
        "environment": "production",
        "transaction_uuid": f"24da9ffa-a465-4adc-a6ce-{number:012}",
        "status": "unchanged",
        "noop": False,
        "noop_pending": False,
        "corrective_change": False,
        "logs": [],
        "metrics": [],
        "resources": [],
        "catalog_uuid": None,
        "code_id": None,
        "cached_catalog_status": "not_used",
        "producer": "puppet.example.com",
    }


def orders(count):
    """The numbers below the count in three orders."""
    mixed = list(range(count))
    random.Random(1).shuffle(mixed)
    yield "rising", range(count)
    yield "random", mixed
    yield "falling", range(count - 1, -1, -1)


def timed(program, what, order, commands, count):
    with tempfile.NamedTemporaryFile() as file:
        for head, body in commands:
            text = json.dumps(body, separators=(",", ":")).encode()
            file.write(b"%s %d\n" % (head.encode(), len(text)) + text + b"\n")
        file.flush()
        decode, _ = seconds(program, "decode", file.name)
        both, rows = seconds(program, "apply", file.name)
    print(f"{what} | {order} | {count} | {both:.2f} | {both - decode:.2f} | {rows}", flush=True)


def main():
    program = os.path.abspath(sys.argv[1])
    most = int(sys.argv[2]) if len(sys.argv) > 2 else 100_000
    print("what | order | how many | seconds with decoding | without | rows")
    for part in (4, 2, 1):
        for order, numbers in orders(most * 16 // 5 // part):
            timed(program, "new nodes", order, map(fact, numbers), len(numbers))
        for order, numbers in orders(most // part):
            timed(program, "reports of one node", order, map(report, numbers), len(numbers))


if __name__ == "__main__":
    main()
