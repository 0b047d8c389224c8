"""Milliseconds of 29 everyday queries over served fleets of several sizes, each beside json.loads of its answer's bytes in the same run.

Usage: queries.py PROGRAM [NODES ..]
PROGRAM is the built program, crates/puppetdb_server/out/puppetdb_server. The fleets have 200, 2,000 and 5,000 nodes where none is given.
A node has the facts, the catalog and two reports of fleet_spool.py: some 130 facts, 112 resources and 141 edges. A tenth of the nodes has
the class Role::Spare. `run 1` takes the fleet in, and `compact` leaves one copy of it in the logs. These lie in /dev/shm at first, and then
in the system's folder for such. 5,000 nodes take some 3 GB.

One client asks over one connection. Times are of the server's processor, of the user and the system, from batch to batch of calls; those
of json.loads are of this script's. Of both the best of BATCHES is told. Growth is what a row of the answer takes in the last fleet over
what it takes in the first.

Asked is LOADS times json.loads and SPARE milliseconds more. For patterns and groups over all rows of an entity it is EACH_READ for each of
these, and for queries that go over all nodes EACH_ROW for each row and EACH_NODE for each node, if the fleet has MANY.
"""
import json
import math
import os
import re
import shutil
import signal
import socket
import subprocess
import sys
import tempfile
import time
import urllib.parse
from collections import namedtuple

import fleet_spool
import links
import runs

BATCHES = 5

# seconds that a batch of calls takes at least
BATCH = 0.02

# asked, in milliseconds
LOADS, SPARE = 5, 0.2
EACH_READ = 0.2e-3
MANY, EACH_ROW, EACH_NODE = 5_000, 2e-3, 1e-3

NODE = fleet_spool.name(7) + ".example.com"
EIGHT = '["in","name",["array",["kernel","osfamily","operatingsystemrelease","ipaddress","processorcount","memorysize","uptime_seconds","is_virtual"]]]'


def of_class(title):
    return f'["and",["=","type","Class"],["=","title","{title}"]]'


def nodes_in(entity, text):
    return f'["in","certname",["extract","certname",["select_{entity}",{text}]]]'


def counted(column):
    return f'["extract",["{column}",["function","count"]],["group_by","{column}"]]'


# What a query is called, its route, its text, other parameters, and what is asked of it.
Query = namedtuple("Query", "what route text more asked", defaults=["", "loads"])

QUERIES = [
    Query("one node", "nodes", f'["=","certname","{NODE}"]'),
    Query("all nodes", "nodes", ""),
    Query("a fact of all nodes", "facts", '["=","name","uptime_seconds"]', asked="nodes"),
    Query("a fact of one node", "facts", f'["and",["=","certname","{NODE}"],["=","name","uptime_seconds"]]'),
    Query("the facts of one node", "facts", f'["=","certname","{NODE}"]'),
    Query("eight facts of one node", "facts", f'["and",["=","certname","{NODE}"],{EIGHT}]'),
    Query("facts by name and value", "facts", '["and",["=","name","kernel"],["=","value","Linux"]]'),
    Query("all facts", "facts", ""),
    Query("facts by a pattern of names", "facts", '["~","name","^ipaddress6?_eth"]', asked="facts"),
    Query("facts by a pattern of values", "facts", '["~","value","7[.]example"]', asked="facts"),
    Query("a class of all nodes", "resources", of_class("Ntp::Service"), asked="nodes"),
    Query("a class of each tenth node", "resources", of_class("Role::Spare"), asked="nodes"),
    Query("resources of a type", "resources", '["=","type","Service"]'),
    Query("resources by title", "resources", '["and",["=","type","File"],["=","title","/etc/ntp.conf"]]'),
    Query("resources by a pattern of titles", "resources", '["~","title","^/etc/.*[.]secret$"]', asked="resources"),
    Query("the resources of one node", "resources", f'["=","certname","{NODE}"]'),
    Query("nodes with a class of all nodes", "nodes", nodes_in("resources", of_class("Ntp::Service")), asked="nodes"),
    Query("nodes with a class of each tenth", "nodes", nodes_in("resources", of_class("Role::Spare")), asked="nodes"),
    Query("nodes by a fact", "nodes", nodes_in("facts", '["and",["=","name","kernel"],["=","value","Linux"]]')),
    Query("nodes by a number", "nodes", nodes_in("facts", '["and",["=","name","uptime_seconds"],["<","value",100000]]')),
    Query("resources counted by type", "resources", counted("type"), asked="resources"),
    Query("facts counted by name", "facts", counted("name"), asked="facts"),
    Query("facts counted by value", "facts", counted("value"), asked="facts"),
    Query("reports counted by status", "reports", counted("status"), asked="reports"),
    Query("a page of nodes in order", "nodes", "", 'order_by=[{"field":"certname","order":"desc"}]&limit=50&offset=50&include_total=true'),
    Query("the reports of one node", "reports", f'["=","certname","{NODE}"]', 'order_by=[{"field":"end_time","order":"desc"}]&limit=10'),
    Query("the catalog of one node", "catalogs", f'["=","certname","{NODE}"]'),
    Query("the edges of one node", "edges", f'["=","certname","{NODE}"]'),
    Query("the factset of one node", "factsets", f'["=","certname","{NODE}"]'),
]

# How many rows of an entity a node has.
ROWS = {"facts": 0, "resources": 0, "reports": 2}

Time = namedtuple("Time", "rows bytes took loads asked")


def request(query):
    words = [f"query={urllib.parse.quote(query.text)}"] * bool(query.text) + [urllib.parse.quote(query.more, "=&")] * bool(query.more)
    return f"GET /pdb/query/v4/{query.route}{'?' * bool(words)}{'&'.join(words)} HTTP/1.1\r\n{links.HEADS}\r\n".encode()


def laid(program, nodes):
    """The folder with the logs of the fleet."""
    memory, folder = tempfile.mkdtemp(dir="/dev/shm"), tempfile.mkdtemp()
    try:
        spool = os.path.join(folder, "spool")
        with open(spool, "wb") as file:
            for kind in fleet_spool.KINDS:
                for body in fleet_spool.payloads(kind, "whole", nodes):
                    file.write(fleet_spool.item(kind, body))
        runs.call(program, memory, ["init"])
        told = runs.call(program, memory, ["run", "1", runs.NOW], spool)[3]
        if told != runs.summary(len(fleet_spool.KINDS) * nodes):
            sys.exit(f"the run printed {told}")
        os.remove(spool)
        runs.call(program, memory, ["compact"])
        for name in os.listdir(memory):
            shutil.move(os.path.join(memory, name), folder)
    finally:
        shutil.rmtree(memory)
    return folder


class Client:
    """One connection to the server, and the clock of its processor."""

    def __init__(self, child, port):
        self.clock = ~child.pid << 3 | 2
        self.link = socket.create_connection(("127.0.0.1", port))
        self.link.setsockopt(socket.IPPROTO_TCP, socket.TCP_NODELAY, 1)
        self.room = bytearray(1 << 20)

    def answer(self, request):
        """The bytes of the answer's body."""
        self.link.sendall(request)
        have, whole = 0, math.inf
        while have < whole:
            count = self.link.recv_into(memoryview(self.room)[have:])
            if not count:
                sys.exit(f"the server ended the connection behind {bytes(self.room[:min(have, 300)])}")
            have += count
            if whole == math.inf and (head := self.room.find(b"\r\n\r\n", 0, have)) >= 0:
                found = bytes(self.room[:head])
                if not found.startswith(b"HTTP/1.1 200 OK\r\n"):
                    sys.exit(f"the answer to {request} is {found} {bytes(self.room[head:have])}")
                whole = head + 4 + int(re.search(rb"Content-Length: (\d+)", found)[1])
                self.room.extend(bytes(max(0, whole - len(self.room))))
        return memoryview(self.room)[head + 4 : whole]

    def settled(self):
        """Seconds of the server's processor, once it is at rest."""
        seconds = time.clock_gettime(self.clock)
        while True:
            time.sleep(0.002)
            before, seconds = seconds, time.clock_gettime(self.clock)
            if before == seconds:
                return seconds

    def timed(self, request):
        """The answer's body, and the milliseconds that the server takes for it."""
        start = self.settled()
        body = bytes(self.answer(request))
        once = self.settled() - start
        calls, took = math.ceil(BATCH / once), []
        for _ in range(BATCHES):
            start = self.settled()
            for _ in range(calls):
                self.answer(request)
            took.append((self.settled() - start) / calls)
        return body, min(took) * 1e3


def loaded(body):
    """The rows of an answer, and the milliseconds that json.loads takes for it."""
    once, took = math.inf, []
    for _ in range(BATCHES):
        calls = max(1, math.floor(BATCH / once))
        start = time.process_time()
        for _ in range(calls):
            rows = json.loads(body)
        once = (time.process_time() - start) / calls
        took.append(once)
        count = len(rows)
        del rows
    return count, min(took) * 1e3


def asked(query, nodes, rows, loads):
    if query.asked in ROWS:
        return EACH_READ * ROWS[query.asked] * nodes
    if query.asked == "nodes" and nodes >= MANY:
        return EACH_ROW * rows + EACH_NODE * nodes
    return LOADS * loads + SPARE


def of_fleet(program, nodes):
    """The times of each query over a fleet."""
    folder, times = laid(program, nodes), []
    port = links.free_port()
    child = links.started([program, "serve", str(port), runs.NOW, "--links", "1"], folder, port)
    try:
        client = Client(child, port)
        for query in QUERIES:
            body, took = client.timed(request(query))
            rows, loads = loaded(body)
            times.append(Time(rows, len(body), took, loads, asked(query, nodes, rows, loads)))
            print(f"{nodes} nodes: {query.what}: {rows} rows, {len(body)} bytes, {took:.3f} ms, loads {loads:.3f}", file=sys.stderr, flush=True)
        client.link.close()
        child.wait(60)
    finally:
        if child.poll() is None:
            child.send_signal(signal.SIGTERM)
            child.wait()
        shutil.rmtree(folder)
    return times


def cell(time):
    above = "**" * (time.took > time.asked)
    return f"{time.rows:,}; {above}{time.took:.3g}{above}/{time.asked:.3g}; {time.loads:.3g}"


def growth(first, last):
    return f"{last.took * max(first.rows, 1) / (first.took * max(last.rows, 1)):.2f}"


def main():
    program = os.path.abspath(sys.argv[1])
    fleets = [int(word) for word in sys.argv[2:]] or [200, 2000, 5000]
    ROWS["facts"] = len(json.loads(fleet_spool.template("facts", "whole"))["values"])
    ROWS["resources"] = len(json.loads(fleet_spool.template("catalog", "whole"))["resources"])
    all_times = [of_fleet(program, nodes) for nodes in fleets]
    print(f"| query: rows; ms/asked; `loads` | {' | '.join(f'{nodes:,} nodes' for nodes in fleets)} | growth |")
    print("|---" * (len(fleets) + 2) + "|")
    for query, times in zip(QUERIES, zip(*all_times)):
        print(f"| {query.what} | {' | '.join(map(cell, times))} | {growth(times[0], times[-1])} |")


if __name__ == "__main__":
    main()
