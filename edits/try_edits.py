"""Tries wrong bodies and wrong definitions that the gate leaves out, since the first of a crate costs as much as the proof of the whole
crate, and each further one much of its start.

Usage, at the top of the repository: python3 edits/try_edits.py NAME..
Puts the edits of edits/NAME into crates/NAME/must-fail, beside those of the gate, has `rt must-fail NAME` try each, which must be
refused, and takes them out again.
"""
import os
import shutil
import subprocess
import sys


def tried(name):
    """Whether each edit of the crate was refused."""
    place = f"crates/{name}/must-fail"
    was_there = os.path.isdir(place)
    os.makedirs(place, exist_ok=True)
    files = sorted(os.listdir(f"edits/{name}"))
    taken = [file for file in files if os.path.exists(f"{place}/{file}")]
    if taken:
        sys.exit(f"{place} has these already: {' '.join(taken)}")
    try:
        for file in files:
            shutil.copyfile(f"edits/{name}/{file}", f"{place}/{file}")
        return subprocess.run(["rt", "must-fail", name]).returncode == 0
    finally:
        for file in files:
            if os.path.exists(f"{place}/{file}"):
                os.remove(f"{place}/{file}")
        if not was_there:
            os.rmdir(place)


def main():
    names = sys.argv[1:]
    if not names:
        sys.exit(__doc__)
    open_ones = [name for name in names if not tried(name)]
    if open_ones:
        sys.exit("not all refused: " + " ".join(open_ones))


if __name__ == "__main__":
    main()
