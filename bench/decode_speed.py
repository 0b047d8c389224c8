"""Megabytes a second of decoding payloads with all checks, beside Python's json.loads alone in the same run.

Usage: decode_speed.py PROGRAM FILE ..
PROGRAM is the built program, crates/fleet_bench/out/fleet_bench; each FILE holds one payload, of the wire format that its
name has: facts, catalog or report. Time is the processor's, of the user.
"""
import json
import os
import sys

from json_speed import ours, python, speeds


def main():
    program, files = os.path.abspath(sys.argv[1]), sys.argv[2:]
    print(f"{'payload':<28} {'bytes':>8} | MB/s: decode / loads")
    for file in files:
        name = os.path.basename(file)
        mode = next(word for word in ("facts", "catalog", "report") if word in name)
        with open(file, "rb") as it:
            text = it.read()
        a, b = speeds(lambda times: ours(program, f"decode {mode}", times, text)[0], python(lambda: json.loads(text)), len(text))
        print(f"{name:<28} {len(text):>8} | {a / 1e6:6.0f} / {b / 1e6:5.0f} = {a / b:4.1f}", flush=True)


if __name__ == "__main__":
    main()
