"""Megabytes a second of writing and reading records of the store's log, beside writing and decoding their JSON and Python's json.

Usage: records.py PROGRAM FILE ..
PROGRAM is the built program, crates/fleet_bench/out/fleet_bench; each FILE holds one payload, of the wire format that its name
has: facts, catalog or report. All figures are the payload's bytes a second, so that they can be compared. Time is the
processor's, of the user.
"""
import json
import os
import sys

from json_speed import ours, python, speeds


def main():
    program = os.path.abspath(sys.argv[1])
    print(f"{'payload':<28} {'bytes':>8} | MB/s: write record / write compact / dumps | read record / decode / loads")
    for file in sys.argv[2:]:
        name = os.path.basename(file)
        kind = next(word for word in ("facts", "catalog", "report") if word in name)
        with open(file, "rb") as it:
            text = it.read()
        tree = json.loads(text)

        def pair(mode, call):
            a, b = speeds(lambda times: ours(program, mode, times, text)[0], python(call), len(text))
            return a / 1e6, b / 1e6

        dumps = lambda: json.dumps(tree, ensure_ascii=False, separators=(",", ":")).encode()
        loads = lambda: json.loads(text)
        written, _ = pair(f"record {kind} write", dumps)
        json_written, python_written = pair("json write", dumps)
        taken, _ = pair(f"record {kind} read", loads)
        decoded, python_read = pair(f"decode {kind}", loads)
        print(f"{name:<28} {len(text):>8} | {written:6.0f} / {json_written:5.0f} / {python_written:5.0f} | {taken:6.0f} / {decoded:5.0f} / {python_read:5.0f}", flush=True)


if __name__ == "__main__":
    main()
