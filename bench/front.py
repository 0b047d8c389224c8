"""Real clients through the front of deploy/apache2.conf: commands as the Puppet terminus sends them, by curl, the calls of pypuppetdb, and
Puppet itself, where it is installed.

Usage: front.py PROGRAM [SERVICE [FRONT]]
PROGRAM is the built program, crates/puppetdb_server/out/puppetdb_server, or the word `record`: then a small server stands in its place,
which answers as the service does, and what comes in at it is compared with what is to come. SERVICE and FRONT are the ports of the
service and of the front, 18080 and 18081 if none are given; both are listened to on the loopback alone. All files lie in a folder that is
removed at the end. It wants Debian's packages apache2, curl, openssl and python3-pypuppetdb, and /usr/bin/python3 to run it; those of
Puppet are puppet-agent and puppet-terminus-puppetdb.

It prints a line for each call and ends with 1 where one wasn't answered as it is to be. What a front doesn't cover (docs/OPERATING.md) is
printed too, with what is answered in its place.
"""
import gzip
import json
import os
import shutil
import socket
import subprocess
import sys
import tempfile
import threading
import time
import urllib.parse

HERE = os.path.dirname(os.path.abspath(__file__))
# What is imported next wants Python's own queue.py, and not the one beside this file.
sys.path = [place for place in sys.path if place != HERE]

import pypuppetdb
import requests

MODULES = "mpm_event authn_core authz_core ssl socache_shmcb rewrite filter deflate headers env proxy proxy_http".split()
NODE = "web1.example.com"
STAMP = time.strftime("%Y-%m-%dT%H:%M:%S.000Z", time.gmtime())
FACTS = {
    "certname": NODE,
    "environment": "production",
    "producer_timestamp": STAMP,
    "producer": "puppet.example.com",
    "values": {"kernel": "Linux", "os_text": "Debian GNU/Linux 12 & more", "processors": 8},
}
CATALOG = {
    "certname": NODE,
    "version": "1714557600",
    "environment": "production",
    "transaction_uuid": "4a26bd74-6b06-4c39-b3d6-7a6e4bb2a3e5",
    "catalog_uuid": None,
    "code_id": None,
    "job_id": None,
    "producer_timestamp": STAMP,
    "producer": "puppet.example.com",
    "resources": [
        {"type": kind, "title": title, "exported": False, "file": None, "line": None, "tags": [], "parameters": {"ensure": "present"}}
        for kind, title in (("Class", "Main"), ("File", "/etc/motd"))
    ],
    "edges": [
        {"source": {"type": "Class", "title": "Main"}, "target": {"type": "File", "title": "/etc/motd"}, "relationship": "contains"}
    ],
}
REPORT = {
    "certname": NODE,
    "environment": "production",
    "puppet_version": "7.23.0",
    "report_format": 12,
    "configuration_version": "1714557600",
    "start_time": STAMP,
    "end_time": STAMP,
    "producer_timestamp": STAMP,
    "producer": "puppet.example.com",
    "noop": False,
    "status": "unchanged",
    "transaction_uuid": "4a26bd74-6b06-4c39-b3d6-7a6e4bb2a3e5",
    "resources": [],
    "logs": [],
    "metrics": [],
}


def shell(*words, folder):
    subprocess.run(words, cwd=folder, check=True, stdout=subprocess.DEVNULL, stderr=subprocess.PIPE)


def certificates(folder):
    """Certificates as Puppet lays them, in folder/ssl: a root, an authority below it, a server, a client and a client that was revoked."""
    for part in ("ssl/certs", "ssl/private_keys", "ca/new"):
        os.makedirs(f"{folder}/{part}")
    with open(f"{folder}/ca.cnf", "w") as file:
        file.write(
            "[req]\ndistinguished_name=name\n[name]\n[ca_ext]\nbasicConstraints=critical,CA:true\nkeyUsage=keyCertSign,cRLSign\n"
            "[leaf_ext]\nbasicConstraints=CA:false\nsubjectAltName=DNS:localhost,IP:127.0.0.1\n[policy]\ncommonName=supplied\n"
            + "".join(
                f"[{name}]\ndir={folder}/ca\ndatabase=$dir/{name}.txt\nserial=$dir/{name}.serial\ncrlnumber=$dir/{name}.crlnumber\n"
                f"new_certs_dir=$dir/new\ndefault_md=sha256\ndefault_days=30\ndefault_crl_days=30\npolicy=policy\n"
                f"certificate=$dir/{name}.pem\nprivate_key=$dir/{name}.key\nunique_subject=no\n"
                for name in ("root", "middle")
            )
        )
    for name in ("root", "middle"):
        open(f"{folder}/ca/{name}.txt", "w").close()
        for number in ("serial", "crlnumber"):
            with open(f"{folder}/ca/{name}.{number}", "w") as file:
                file.write("01\n")
    request = ("openssl", "req", "-config", "ca.cnf", "-newkey", "ec", "-pkeyopt", "ec_paramgen_curve:P-256", "-nodes")
    sign = ("openssl", "ca", "-config", "ca.cnf", "-batch", "-notext")
    shell(*request, "-x509", "-extensions", "ca_ext", "-subj", "/CN=root", "-days", "30", "-keyout", "ca/root.key", "-out", "ca/root.pem", folder=folder)
    shell(*request, "-subj", "/CN=middle", "-keyout", "ca/middle.key", "-out", "ca/middle.csr", folder=folder)
    shell(*sign, "-name", "root", "-extensions", "ca_ext", "-in", "ca/middle.csr", "-out", "ca/middle.pem", folder=folder)
    for name in ("localhost", "puppet.example.com", "gone.example.com"):
        shell(*request, "-subj", f"/CN={name}", "-keyout", f"ssl/private_keys/{name}.pem", "-out", "ca/leaf.csr", folder=folder)
        shell(*sign, "-name", "middle", "-extensions", "leaf_ext", "-in", "ca/leaf.csr", "-out", f"ssl/certs/{name}.pem", folder=folder)
    shell(*sign[:4], "-name", "middle", "-revoke", "ssl/certs/gone.example.com.pem", folder=folder)
    for name in ("root", "middle"):
        shell("openssl", "ca", "-config", "ca.cnf", "-name", name, "-gencrl", "-out", f"ca/{name}.crl", folder=folder)
    for whole, ending in (("ssl/certs/ca.pem", "pem"), ("ssl/crl.pem", "crl")):
        with open(f"{folder}/{whole}", "w") as file:
            for name in ("middle", "root"):
                with open(f"{folder}/ca/{name}.{ending}") as part:
                    file.write(part.read())


def start_front(folder, service, front):
    """Apache in the foreground, with the configuration that is shipped, on the loopback."""
    with open(f"{folder}/apache2.conf", "w") as file:
        file.write(f"ServerRoot {folder}\nServerName localhost\nPidFile {folder}/front.pid\nErrorLog {folder}/front.log\nMutex file:{folder}\n")
        file.write("User www-data\nGroup www-data\n" if os.geteuid() == 0 else "")
        file.writelines(f"LoadModule {name}_module /usr/lib/apache2/modules/mod_{name}.so\n" for name in MODULES)
        for name, value in (("NAME", "localhost"), ("SSL", f"{folder}/ssl"), ("ADDRESS", "127.0.0.1"), ("PORT", front), ("SERVICE", service)):
            file.write(f"Define JADLUNGIN_{name} {value}\n")
        file.write(f"Include {os.path.dirname(HERE)}/deploy/apache2.conf\n")
    process = subprocess.Popen(["/usr/sbin/apache2", "-f", f"{folder}/apache2.conf", "-D", "FOREGROUND"])
    wait_for(front, process)
    return process


def wait_for(port, process=None):
    for _ in range(200):
        try:
            socket.create_connection(("127.0.0.1", port)).close()
            return
        except OSError:
            if process is not None and process.poll() is not None:
                sys.exit(f"it ended with {process.returncode} before it listened")
            time.sleep(0.1)
    sys.exit(f"nothing listens to {port}")


class Recorder:
    """A server in the service's place: one link after the other, and of each what came in."""

    ROWS = {
        "nodes": {name: None for name in "catalog_environment catalog_timestamp deactivated expired facts_environment facts_timestamp "
                  "latest_report_hash latest_report_noop latest_report_status report_environment report_timestamp".split()},
        "facts": {"environment": "production", "name": "kernel", "value": "Linux"},
        "resources": {"environment": "production", "exported": False, "file": None, "line": None, "parameters": {}, "resource": "0" * 40,
                      "tags": [], "title": "Main", "type": "Class"},
    }

    def __init__(self, port):
        self.came = []
        self.listener = socket.create_server(("127.0.0.1", port))
        threading.Thread(target=self.serve, daemon=True).start()

    def serve(self):
        while True:
            link, _ = self.listener.accept()
            with link:
                file = link.makefile("rb")
                while self.answered(link, file):
                    pass

    def answered(self, link, file):
        """Whether the link goes on."""
        first = file.readline().decode().split()
        if len(first) != 3:
            return False
        headers = {}
        while (line := file.readline().decode().strip()):
            name, value = line.split(":", 1)
            headers[name.lower()] = value.strip()
        whole = "transfer-encoding" not in headers and (first[0] != "POST" or "content-length" in headers)
        body = file.read(int(headers.get("content-length", 0)))
        self.came.append((first[0], first[1], headers, body))
        code, answer = self.answer(first[1]) if whole else ("411 Length Required", {"error": "length required"})
        text = json.dumps(answer).encode()
        close = not whole or headers.get("connection", "").lower() == "close"
        link.sendall(
            f"HTTP/1.1 {code}\r\nContent-Type: application/json\r\nContent-Length: {len(text)}\r\n"
            f"{'X-Records: 1' + chr(13) + chr(10) if 'include_total=true' in first[1] else ''}"
            f"{'Connection: close' + chr(13) + chr(10) if close else ''}\r\n".encode() + text
        )
        return not close

    def answer(self, target):
        path = target.split("?")[0]
        if path == "/pdb/cmd/v1":
            return "200 OK", {"uuid": "00000000-0000-8000-8000-000000000001"}
        if path == "/pdb/query/v4" or path.rsplit("/", 1)[0] == "/pdb/query/v4" and path.rsplit("/", 1)[1] in (
            "nodes", "facts", "factsets", "catalogs", "resources", "edges", "reports",
        ):
            return "200 OK", [{"certname": NODE, **self.ROWS.get(path.rsplit("/", 1)[1], {})}]
        return "404 Not Found", {"error": "no such path"}


class Service:
    """The program over files of its own, called as the unit calls it: to settle what came in, it is stopped and called again."""

    def __init__(self, program, folder, port):
        self.words = [f"{os.path.dirname(HERE)}/deploy/serve.sh", os.path.abspath(program), str(port), "100000"]
        self.folder, self.port, self.process = f"{folder}/files", port, None
        os.makedirs(self.folder)
        subprocess.run([self.words[1], "init"], cwd=self.folder, check=True)

    def start(self):
        self.process = subprocess.Popen(self.words, cwd=self.folder)
        wait_for(self.port, self.process)

    def stop(self):
        self.process.terminate()
        self.process.wait()


class Calls:
    """Calls through the front, and what became of each."""

    def __init__(self, folder, front, recorder):
        self.folder, self.front, self.recorder, self.bad = folder, front, recorder, 0
        self.url = f"https://localhost:{front}"

    def say(self, fine, what, more=""):
        self.bad += not fine
        print(("ok   " if fine else "BAD  ") + what + (f": {more}" if more else ""), flush=True)

    def curl(self, path, *words, client="puppet.example.com", version="--tlsv1.2"):
        """The code and the body."""
        ssl = f"{self.folder}/ssl"
        with_client = ["--cert", f"{ssl}/certs/{client}.pem", "--key", f"{ssl}/private_keys/{client}.pem"] if client else []
        done = subprocess.run(
            ["curl", "-s", "--max-time", "60", version, "--cacert", f"{ssl}/certs/ca.pem", *with_client, "-w", "\n%{http_code}", *words,
             self.url + path],
            stdout=subprocess.PIPE,
        )
        body, code = done.stdout.decode().rsplit("\n", 1)
        return int(code), body

    def came(self):
        """What came in at the recorder since the last look: method, path, query, headers and body of each."""
        came, self.recorder.came = self.recorder.came, []
        return [(way, *(target + "?").split("?", 1), headers, body) for way, target, headers, body in came]

    def came_one(self):
        """The one request that came in, or one without anything."""
        came = self.came()
        return came[0] if len(came) == 1 else ("", "", "", {}, b"")

    def post(self, kind, version, payload, *words, named=None, compress=True):
        """A command as the terminus posts it: checksum first, and of another text than the body."""
        text = json.dumps(payload).encode()
        with open(f"{self.folder}/body", "wb") as file:
            file.write(gzip.compress(text) if compress else text)
        query = f"checksum={'0' * 40}&version={version}&certname={NODE}&command={named or kind}&producer-timestamp={STAMP}"
        coded = ["-H", "Content-Encoding: gzip"] if compress else []
        code, body = self.curl(
            f"/pdb/cmd/v1?{query}", "--data-binary", f"@{self.folder}/body", "-H", "Content-Type: application/json; charset=utf-8",
            "-H", "Accept: application/json", "-H", f"X-Uncompressed-Length: {len(text)}", *coded, *words,
        )
        what = f"{named or kind} {' '.join(words[-1:])}{' compressed' if compress else ''}".replace("  ", " ")
        fine = code == 200 and "uuid" in body
        if self.recorder:
            way, path, came, headers, inner = self.came_one()
            asked = urllib.parse.parse_qs(came.rstrip("?"))
            fine = fine and (way, path) == ("POST", "/pdb/cmd/v1") and "checksum" not in asked and asked.get("command") == [kind]
            fine = fine and asked.get("version") == [str(version)] and asked.get("certname") == [NODE] and inner == text
            fine = fine and headers.get("content-length") == str(len(text)) and "transfer-encoding" not in headers and "expect" not in headers
        self.say(fine, what, f"{code} {body}")

    def get(self, path, wanted, *, count=None):
        """A GET, and the path and the query that the service is to be asked."""
        code, body = self.curl(path)
        fine = code == 200 and (count is None or self.recorder or len(json.loads(body)) == count)
        if self.recorder:
            _, inner, came, _, _ = self.came_one()
            asked = dict(urllib.parse.parse_qsl(came.rstrip("?")))
            asked["query"] = json.loads(asked.get("query", "null"))
            fine = fine and (inner, asked) == (wanted[0], {"query": wanted[1], **wanted[2]})
            body = f"{inner} {json.dumps(asked)}"
        self.say(fine, path, body[:160])


def equal(*fields):
    return ["and", *(["=", *pair] for pair in fields)]


def commands(calls):
    calls.post("replace_facts", 5, FACTS)
    calls.post("replace_facts", 5, FACTS, compress=False)
    calls.post("replace_catalog", 9, CATALOG, "-H", "Transfer-Encoding: chunked")
    calls.post("store_report", 8, REPORT, "-H", "Expect: 100-continue", named="store%20report")
    calls.post("replace_catalog", 9, CATALOG, named="replace+catalog", compress=False)


def routes(calls):
    query, node = "/pdb/query/v4", ("certname", NODE)
    calls.get(f"{query}/nodes/{NODE}", (f"{query}/nodes", equal(node), {}), count=1)
    calls.get(f"{query}/nodes/{NODE}/facts", (f"{query}/facts", equal(node), {}), count=3)
    calls.get(f"{query}/nodes/{NODE}/facts/kernel", (f"{query}/facts", equal(node, ("name", "kernel")), {}), count=1)
    calls.get(f"{query}/nodes/{NODE}/resources/Class/Main", (f"{query}/resources", equal(node, ("type", "Class"), ("title", "Main")), {}), count=1)
    calls.get(f"{query}/catalogs/{NODE}", (f"{query}/catalogs", equal(node), {}), count=1)
    calls.get(f"{query}/catalogs/{NODE}/edges", (f"{query}/edges", equal(node), {}), count=1)
    calls.get(f"{query}/factsets/{NODE}", (f"{query}/factsets", equal(node), {}), count=1)
    calls.get(f"{query}/facts/kernel", (f"{query}/facts", equal(("name", "kernel")), {}))
    text = "Debian%20GNU%2FLinux%2012%20%26%20more"
    calls.get(f"{query}/facts/os_text/{text}", (f"{query}/facts", equal(("name", "os_text"), ("value", "Debian GNU/Linux 12 & more")), {}), count=1)
    calls.get(f"{query}/resources/File", (f"{query}/resources", equal(("type", "File")), {}), count=1)
    calls.get(f"{query}/resources/File/%2Fetc%2Fmotd", (f"{query}/resources", equal(("type", "File"), ("title", "/etc/motd")), {}), count=1)
    asked = urllib.parse.quote(json.dumps(["=", *node]), safe="")
    calls.get(f"{query}/facts/kernel?query={asked}&limit=2", (f"{query}/facts", ["and", ["=", "name", "kernel"], ["=", *node]], {"limit": "2"}), count=1)
    calls.get(f"{query}/facts/kernel?limit=2&query={asked}", (f"{query}/facts", ["and", ["=", "name", "kernel"], ["=", *node]], {"limit": "2"}), count=1)
    calls.get(f"{query}/facts?query={asked}&limit=2", (f"{query}/facts", ["=", *node], {"limit": "2"}), count=2)


def refusals(calls):
    query = "/pdb/query/v4"
    for client, why in ((None, "no certificate"), ("gone.example.com", "a revoked certificate")):
        for version in ("--tlsv1.2", "--tlsv1.3"):
            calls.say(calls.curl(f"{query}/nodes", client=client, version=version)[0] in (0, 403), f"{why} ({version}) is refused")
    for path in (f"{query}//facts/kernel", f"{query}/facts/kernel/a&b", f"{query}/facts/kernel/a+b", f"{query}/facts/a%22b", f"{query}/facts/a%5Cb", f"{query}/facts/a/b/c", f"{query}/nodes/a/b", f"{query}/facts/a%22?query=1", "/", "/icons/", "/server-status"):
        code, _ = calls.curl(path)
        calls.say(code == 404, f"{path} is no path", str(code))
    code, _ = calls.curl(f"{query}/facts/kernel", "-d", "{}")
    calls.say(code == 404, "a POST below an entity is no path", str(code))
    with open(f"{calls.folder}/body", "wb") as file:
        file.write(gzip.compress(os.urandom(8_388_609).hex().encode(), 1))
    code, _ = calls.curl(
        f"/pdb/cmd/v1?version=5&certname={NODE}&command=replace_facts", "--data-binary", f"@{calls.folder}/body", "-H", "Content-Encoding: gzip"
    )
    calls.say(code == 413, "a body that is too large once it is inflated", str(code))
    if calls.recorder:
        came = [path for _, path, *_ in calls.came()]
        calls.say(not [path for path in came if path.count("/") <= 4], "none of these reached the service as a route that it has", str(came))


def library(calls):
    """The calls of pypuppetdb."""
    ssl = f"{calls.folder}/ssl"
    db = pypuppetdb.connect(
        host="localhost", port=calls.front, ssl_verify=f"{ssl}/certs/ca.pem", ssl_cert=f"{ssl}/certs/puppet.example.com.pem",
        ssl_key=f"{ssl}/private_keys/puppet.example.com.pem", timeout=60,
    )
    alone = json.dumps(["=", "certname", NODE])
    for what, call in (
        ("current_version()", lambda: db.current_version()),
        ("nodes()", lambda: [node.name for node in db.nodes()]),
        ("nodes(query, limit, include_total)", lambda: ([node.name for node in db.nodes(query=alone, limit=1, include_total=True)], db.total)),
        ("node(NAME)", lambda: db.node(NODE).name),
        ("node(NAME).facts()", lambda: [str(fact) for fact in db.node(NODE).facts()]),
        ("node(NAME).fact('kernel')", lambda: db.node(NODE).fact("kernel").value),
        ("node(NAME).resources('Class', 'Main')", lambda: [str(it) for it in db.node(NODE).resources("Class", "Main")]),
        ("facts('kernel', 'Linux')", lambda: [str(fact) for fact in db.facts("kernel", "Linux")]),
        ("resources('Class')", lambda: [str(it) for it in db.resources("Class")]),
        ("factsets()", lambda: len(db.factsets())),
        ("pql", lambda: db._query("pql", payload={"query": "nodes[certname]{}"}, request_method="POST")),
        ("command('replace facts')", lambda: db.command("replace facts", FACTS)),
        ("command('deactivate node')", lambda: db.command("deactivate node", {"certname": "py.example.com", "producer_timestamp": STAMP})),
    ):
        try:
            found = call()
            calls.say(bool(found), f"pypuppetdb {what}", str(found)[:120])
        except Exception as fault:
            calls.say(False, f"pypuppetdb {what}", repr(fault)[:200])
    for what, call in (
        ("fact_names()", lambda: db.fact_names()),
        ("environments()", lambda: db.environments()),
        ("catalog(NAME)", lambda: db.catalog(NODE)),
        ("reports()", lambda: list(db.reports())),
        ("nodes(with_status=True)", lambda: list(db.nodes(with_status=True))),
        ("status()", lambda: db.status()),
    ):
        try:
            print(f"left out  pypuppetdb {what}: {str(call())[:80]}", flush=True)
        except (requests.HTTPError, KeyError, TypeError, StopIteration) as fault:
            print(f"left out  pypuppetdb {what}: {repr(fault)[:100]}", flush=True)
    if calls.recorder:
        calls.came()


class Puppet:
    """Puppet with its terminus, as two nodes without a Puppet server: each compiles a catalog of its own and applies it."""

    def __init__(self, calls):
        self.calls, self.folder = calls, f"{calls.folder}/puppet"
        os.makedirs(self.folder)
        for name, text in (
            ("puppet.conf", f"[main]\nssldir={calls.folder}/ssl\nmanage_internal_file_permissions=false\nstoreconfigs=true\n"
                            "storeconfigs_backend=puppetdb\nreports=puppetdb\n"),
            ("puppetdb.conf", f"[main]\nserver_urls={calls.url}\n"),
            ("routes.yaml", "apply:\n  facts:\n    terminus: facter\n    cache: puppetdb_apply\n"),
        ):
            with open(f"{self.folder}/{name}", "w") as file:
                file.write(text)

    def call(self, name, *words):
        """Its status, and what it prints."""
        with_folder = ["--confdir", self.folder, "--vardir", f"{self.folder}/{name}", "--certname", name, "--color", "false", "--verbose"]
        done = subprocess.run(["puppet", *words, *with_folder], stdout=subprocess.PIPE, stderr=subprocess.STDOUT)
        return done.returncode, done.stdout.decode()

    def send(self):
        code, text = self.call("puppet.example.com", "node", "deactivate", "away.example.com")
        self.calls.say(code == 0 and "'deactivate_node' command" in text, "puppet node deactivate", text.splitlines()[-1])
        code, text = self.call("puppet.example.com", "apply", "-e", 'notify { "here": } @@notify { "from \u00e9 afar": tag => "a" }')
        kinds = [kind for kind in ("replace_facts", "replace_catalog", "store_report") if f"'{kind}' command" in text]
        self.calls.say(code == 0 and len(kinds) == 3, "puppet apply", " ".join(kinds))
        if self.calls.recorder:
            came = [urllib.parse.parse_qs(query)["command"][0] for _, _, query, _, _ in self.calls.came()]
            self.calls.say(came == ["deactivate_node", *kinds], "what puppet sent", " ".join(came))

    def collect(self):
        """What another node exported."""
        code, text = self.call("localhost", "apply", "-e", 'Notify <<| tag == "a" |>>')
        self.calls.say(code == 0 and "from \u00e9 afar" in text, "puppet apply, with what another node exported")


def after_a_pause(calls, service):
    """A service that was away is asked again at once."""
    service.stop()
    code, _ = calls.curl("/pdb/query/v4/nodes")
    service.start()
    again, _ = calls.curl("/pdb/query/v4/nodes")
    calls.say((code, again) == (503, 200), "a service that is away, and one that is back", f"{code}, {again}")


def main():
    program = sys.argv[1]
    service_port, front_port = (int(word) for word in (sys.argv[2:] + ["18080", "18081"][len(sys.argv) - 2:])[:2])
    folder = tempfile.mkdtemp(prefix="front-")
    os.chmod(folder, 0o755)
    front = service = None
    try:
        certificates(folder)
        if program == "record":
            recorder = Recorder(service_port)
        else:
            recorder, service = None, Service(program, folder, service_port)
            service.start()
        front = start_front(folder, service_port, front_port)
        calls = Calls(folder, front_port, recorder)
        commands(calls)
        puppet = Puppet(calls) if shutil.which("puppet") else None
        if puppet:
            puppet.send()
        if service:
            after_a_pause(calls, service)
            if puppet:
                puppet.collect()
        routes(calls)
        refusals(calls)
        library(calls)
        with open(f"{folder}/front.log") as file:
            print("".join(line for line in file if ":error]" in line or ":crit]" in line)[-2000:], end="")
        print(f"{calls.bad} calls weren't answered as they are to be")
        return 1 if calls.bad else 0
    finally:
        for process in (front, service.process if service else None):
            if process is not None and process.poll() is None:
                process.terminate()
                process.wait()
        shutil.rmtree(folder)


if __name__ == "__main__":
    sys.exit(main())
