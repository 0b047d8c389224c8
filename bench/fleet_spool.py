"""Spools of a fleet with payloads as Puppet sends them, each node's own.

Usage: fleet_spool.py KIND SIZE NODES > SPOOL
KIND is facts, catalog, report or calm; SIZE is whole, or small, for which facts are cut to the first that fill 2,000 bytes, and the catalog
is one of eleven resources. The same words give the same bytes.

The payloads were recorded of a real Puppet agent 7.23, with made-up keys, addresses and names: the catalog of 112 resources and the report
of a run that changed something stand in payloads/, the others in ../examples/day.spool. They are edited as text, so that numbers, escapes
and the order of keys stay Puppet's.
"""
import json
import os
import re
import sys

HERE = os.path.dirname(os.path.abspath(__file__))

CUT = 2_000

# The facts that queries ask for, which a cut keeps.
ASKED = ("kernel", "fqdn", "uptime_seconds", "ipaddress", "load_averages")

# Of each kind its order in time, and the words of its commands.
KINDS = {
    "facts": (0, b"replace_facts 5"),
    "catalog": (1, b"replace_catalog 9"),
    "report": (2, b"store_report 8"),
    "calm": (3, b"store_report 8"),
}


def of_the_day(kind):
    """The payload of the node app01 of that kind in the spool of examples."""
    with open(os.path.join(HERE, "..", "examples", "day.spool"), "rb") as file:
        while line := file.readline():
            words = line.split()
            if words[0] == b"sweep":
                continue
            body = file.read(int(words[2]))
            file.read(1)
            if b" ".join(words[:2]) == KINDS[kind][1] and b'"certname":"app01' in body:
                return body


def cut(payload):
    """The facts with those that are asked for, and of the others the first that fill the bytes."""
    body = json.loads(payload)
    values = {name: body["values"].pop(name) for name in ASKED}
    for name, value in body["values"].items():
        more = values | {name: value}
        if len(json.dumps(body | {"values": more}, separators=(",", ":"))) <= CUT:
            values = more
    return json.dumps(body | {"values": values}, separators=(",", ":")).encode()


def template(kind, size):
    if kind == "facts":
        whole = of_the_day(kind)
        return whole if size == "whole" else cut(whole)
    if kind == "calm" or size == "small" and kind == "catalog":
        return of_the_day(kind)
    with open(os.path.join(HERE, "payloads", kind + ".json"), "rb") as file:
        return file.read()


def name(node):
    return "node%05d" % node


def role(node):
    """What nine of ten nodes have as class, and what the tenth."""
    return "Spare" if node % 10 == 7 else "Plain"


def payload(text, kind, node):
    """The template as the node sends it."""
    text = text.replace(b"app01", name(node).encode())
    text = text.replace(b"192.0.2.30", b"10.%d.%d.%d" % (node >> 16, node >> 8 & 255, node & 255))
    text = text.replace(b"Role::Plain", b"Role::" + role(node).encode()).replace(b"Profile::Issue", b"Role::" + role(node).encode())
    text = re.sub(rb'("uptime_seconds":)\d+', rb"\g<1>%d" % (node * 7919 % 1000003), text)
    text = re.sub(rb'("1m":)[0-9.]+', rb"\g<1>%d.%02d" % (node % 5, node % 97), text)
    second = KINDS[kind][0] * 900 + node % 900
    stamp = b"2024-05-01T10:%02d:%02d.%03dZ" % (second // 60, second % 60, node % 1000)
    text = re.sub(rb'("producer_timestamp":)"[^"]*"', rb'\g<1>"%s"' % stamp, text, count=1)
    return re.sub(rb'("(?:catalog|transaction)_uuid":"[^"]{24})[^"]*"', rb'\g<1>%012x"' % node, text)


def payloads(kind, size, nodes):
    text = template(kind, size)
    for node in range(nodes):
        yield payload(text, kind, node)


def item(kind, body):
    return KINDS[kind][1] + b" %d\n%b\n" % (len(body), body)


def main():
    kind, size, nodes = sys.argv[1], sys.argv[2], int(sys.argv[3])
    for body in payloads(kind, size, nodes):
        sys.stdout.buffer.write(item(kind, body))


if __name__ == "__main__":
    main()
