#!/bin/sh
# Times `show` beside a Python script that does the same job, and beside json.loads of the payloads alone: items and bytes a second,
# and the peak of memory. Time is the processor's, of the user, in the best of three runs.
# show.sh PROGRAM [ITEMS|SPOOL ..]: PROGRAM is the built program, crates/puppetdb_server/out/puppetdb_server. A number is that of items to
# make; a file is a spool whose payloads all decode.
set -e
program=$1
shift
here=$(dirname "$0")
folder=$(mktemp -d)
trap 'rm -rf "$folder"' EXIT
echo "items bytes | show: seconds, items/s, MB/s, peak MB | Python: seconds, items/s, MB/s, peak MB | loads: MB/s | show / loads"
for what in ${*:-1000 10000 100000}; do
    if [ -f "$what" ]; then
        spool=$what
    else
        spool=$folder/spool
        python3 "$here/make_spool.py" $((what / 10 + 1)) "$what" 1 >"$spool"
    fi
    python3 - "$program" "$here/newest_facts.py" "$folder" "$spool" <<'PYTHON'
import json
import os
import resource
import subprocess
import sys

program, script, folder, spool = sys.argv[1:5]
size = os.path.getsize(spool)
CHUNK = 64_000_000
RUNS = 3


def payloads():
    """The payloads of the spool's commands, some at a time, and how many items they come from."""
    some, items, bytes = [], 0, 0
    with open(spool, "rb") as source:
        while line := source.readline():
            items += 1
            if line.startswith(b"sweep "):
                continue
            some.append(source.read(int(line.split()[2])))
            source.read(1)
            bytes += len(some[-1])
            if bytes > CHUNK:
                yield some, items
                some, items, bytes = [], 0, 0
    yield some, items


def used():
    return resource.getrusage(resource.RUSAGE_SELF).ru_utime


def loads():
    """Seconds of json.loads of all payloads, and how many items there are."""
    seconds, items = 0, 0
    for some, count in payloads():
        items += count
        best = float("inf")
        for _ in range(RUNS):
            start = used()
            for text in some:
                json.loads(text)
            best = min(best, used() - start)
        seconds += best
    return seconds, items


def run(words, out):
    best = float("inf")
    for _ in range(RUNS):
        with open(spool, "rb") as source, open(out, "wb") as rows:
            child = subprocess.Popen(words, stdin=source, stdout=rows)
            _, status, usage = os.wait4(child.pid, 0)
        if status != 0:
            sys.exit("%s ended with %d" % (words[0], status))
        best = min(best, usage.ru_utime)
    return best, usage.ru_maxrss / 1024


def told(seconds, peak):
    return "%.2f, %d, %.1f, %.1f" % (seconds, items / seconds, size / seconds / 1e6, peak)


# Python's peak counts from here, so the runs come before the payloads are read.
ours = run([program, "show"], folder + "/ours")
python = run([sys.executable, script], folder + "/python")
alone, items = loads()
# Python spells numbers anew, so rows are compared as values.
same = json.load(open(folder + "/ours", "rb")) == json.load(open(folder + "/python", "rb"))
print(items, size, "|", told(*ours), "|", told(*python), "| %.1f | %.2f" % (size / alone / 1e6, alone / ours[0]), "" if same else "| DIFFERENT ROWS")
PYTHON
done
