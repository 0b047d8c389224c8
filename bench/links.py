"""Requests a second of one link over the loopback, each sent when the one before is answered: queries that find one row, of fleets of
several sizes, and posts of 10 kB with a checksum. Beside the program stands a plain loop of reads and writes in C (loop.c), which answers
as many bytes, and for posts makes as many synced writes. The same client asks both.

Usage: links.py PROGRAM FOLDER [COUNT]
PROGRAM is the built program, crates/puppetdb_server/out/puppetdb_server. FOLDER is where its files lie, and the plain loop's: /dev/shm for
what is the program's own, a folder of a disk for posts beside its syncs. COUNT is how many queries a fleet is asked, 20,000 if none is
given, and a tenth of COUNT are posts. Beside requests a second by the clock stand the microseconds of the server's processor for each, of
the user and the system together, and of the user alone, which a link in memory would take too: where other programs run, only these say
something. The servers take turns, RUNS times each, and the best of each is told. Needs `cc`.
"""
import hashlib
import json
import os
import socket
import subprocess
import sys
import tempfile
import time
import urllib.parse

import runs

RUNS = 3

NODES = (1, 100, 5_000)

RESOURCES = 40

HEADS = "Host: 127.0.0.1:8080\r\nAccept: application/json\r\nUser-Agent: bench\r\n"

TICKS = os.sysconf("SC_CLK_TCK")


def query(entity, text):
    return f"GET /pdb/query/v4/{entity}?query={urllib.parse.quote(text)} HTTP/1.1\r\n{HEADS}\r\n".encode()


def post(number):
    body = runs.payload(number, 10_000)
    digits = hashlib.sha1(body).hexdigest()
    target = f"/pdb/cmd/v1?checksum={digits}&version=5&certname=n{number:06}&command=replace_facts"
    return f"POST {target} HTTP/1.1\r\n{HEADS}Content-Length: {len(body)}\r\n\r\n".encode() + body


def free_port():
    with socket.socket() as probe:
        probe.bind(("127.0.0.1", 0))
        return probe.getsockname()[1]


def processor(child):
    """Seconds of the user and of the system so far."""
    with open(f"/proc/{child.pid}/stat") as file:
        fields = file.read().rpartition(")")[2].split()
    return int(fields[11]) / TICKS, int(fields[12]) / TICKS


def listens(port):
    """Whether some program of this machine listens to the port; nothing is sent to it."""
    with open("/proc/net/tcp") as file:
        return any(f" 0100007F:{port:04X} 00000000:0000 0A " in line for line in file)


def started(words, folder, port):
    child = subprocess.Popen(words, cwd=folder, stdin=subprocess.DEVNULL, stdout=subprocess.DEVNULL)
    while not listens(port):
        if child.poll() is not None:
            sys.exit(f"{words[:2]} ended with {child.returncode}")
        time.sleep(0.01)
    return child


def served(loop, words, folder, port, requests, count, length):
    """Seconds by the clock, of the processor and of the user alone, that the server takes for so many requests on one link."""
    child = started(words, folder, port)
    user, system = processor(child)
    asked = [loop, "ask", str(port), str(count), str(len(requests[0])), str(length)]
    seconds = float(subprocess.run(asked, input=b"".join(requests), stdout=subprocess.PIPE, check=True).stdout)
    _, status, usage = os.wait4(child.pid, 0)
    if status != 0:
        sys.exit(f"the server ended with {status}")
    return seconds, usage.ru_utime + usage.ru_stime - user - system, usage.ru_utime - user


def first_answer(program, folder, request):
    port = free_port()
    child = started([program, "serve", str(port), runs.NOW, "--links", "1"], folder, port)
    with socket.create_connection(("127.0.0.1", port)) as link:
        link.sendall(request)
        link.shutdown(socket.SHUT_WR)
        text = b""
        while more := link.recv(1 << 20):
            text += more
    child.wait()
    if not text.startswith(b"HTTP/1.1 200 OK\r\n"):
        sys.exit(f"the answer is {text[:300]}")
    return text


def catalog(number):
    """The catalog of a node."""
    common = {"exported": False, "file": None, "line": None, "tags": [], "parameters": {"ensure": "present"}}
    body = {
        "certname": f"n{number:06}",
        "version": "1",
        "environment": "production",
        "transaction_uuid": None,
        "catalog_uuid": None,
        "code_id": None,
        "job_id": None,
        "producer_timestamp": "2024-05-01T10:00:00Z",
        "producer": "m",
        "resources": [{"type": "File", "title": f"/etc/{each}"} | common for each in range(RESOURCES)],
        "edges": [],
    }
    return json.dumps(body, separators=(",", ":")).encode()


def laid(program, folder, count):
    """Lays the files anew, of so many nodes with some 100 facts and 40 resources each."""
    for name in ("queue.a", "queue.b", "store.a", "store.b"):
        if os.path.exists(os.path.join(folder, name)):
            os.remove(os.path.join(folder, name))
    runs.call(program, folder, ["init"])
    source = os.path.join(folder, "spool")
    runs.spool(source, count, 6_000)
    with open(source, "ab") as file:
        for number in range(count):
            text = catalog(number)
            file.write(b"replace_catalog 9 %d\n%b\n" % (len(text), text))
    runs.call(program, folder, ["run", "1", runs.NOW], source)


def least(loop, program, folder, requests, count, synced):
    """The first answer, and the least seconds that the program and the plain loop take, in turns."""
    text = first_answer(program, folder, requests[0])
    with open(os.path.join(folder, "answer"), "wb") as file:
        file.write(text)
    took = [], []
    for _ in range(RUNS):
        port = free_port()
        took[0].append(served(loop, [program, "serve", str(port), runs.NOW, "--links", "1"], folder, port, requests, count, len(text)))
        port = free_port()
        words = [loop, "answer", str(port), str(len(requests[0])), "answer", *["plain.queue"] * synced]
        took[1].append(served(loop, words, folder, port, requests, count, len(text)))
    return text, *[[min(column) for column in zip(*rows)] for rows in took]


def compared(what, loop, program, folder, requests, count, synced):
    """Tells what requests take."""
    _, ours, plain = least(loop, program, folder, requests, count, synced)
    cells = [f"{count / clock:.0f}, {busy / count * 1e6:.1f}, {user / count * 1e6:.1f}" for clock, busy, user in (ours, plain)]
    print(f"{what} | {cells[0]} | {cells[1]} | {plain[0] / ours[0]:.2f}", flush=True)


def main():
    program, place = os.path.abspath(sys.argv[1]), sys.argv[2]
    count = int(sys.argv[3]) if len(sys.argv) > 3 else 20_000
    print("requests | a second, us of the processor, of the user: served | plain loop | ratio by the clock")
    with tempfile.TemporaryDirectory(dir=place) as folder, tempfile.TemporaryDirectory() as built:
        loop = os.path.join(built, "loop")
        subprocess.run(["cc", "-O2", "-o", loop, os.path.join(os.path.dirname(os.path.abspath(__file__)), "loop.c")], check=True)
        for nodes in NODES:
            laid(program, folder, nodes)
            last = f"n{nodes - 1:06}"
            one = query("nodes", f'["=","certname","{last}"]')
            compared(f"a row of nodes, {nodes} nodes", loop, program, folder, [one], count, False)
            one = query("facts", f'["and",["=","certname","{last}"],["=","name","fact0003"]]')
            compared(f"a row of facts, {nodes} nodes", loop, program, folder, [one], count, False)
        laid(program, folder, 1)
        posts = [post(number) for number in range(count // 10 + 1)]
        compared("posts of 10 kB", loop, program, folder, posts, count // 10, True)
        rows = runs.call(program, folder, ["run", "1", runs.NOW])[3]
        fewest = count // 10 + 1
        if int(rows.split()[3]) < fewest:
            sys.exit(f"not all that was posted was applied: {rows}")


if __name__ == "__main__":
    main()
