"""Runs tests a hundred times: a test with threads that fails now and then fails here.

Usage: hundred_times.py [--times N] [--beside N] [PROGRAM..]
PROGRAM is the built tests of a crate, as crates/NAME/out/NAME_tests, which `rt test` in the crate's folder leaves, or the built
stage_bench, whose threads at a stage are run (`wakes`); none: those of the three crates whose tests have threads, and stage_bench. N times
each program's tests are run, each test in a process of its own, with so many programs side by side. Prints the runs, those that failed,
and the least and greatest seconds of a run by the clock; and what the first failed run said. The status is 1 if a run failed. The machine
should be otherwise idle; beside other work, a test may take more than its minute.
"""
import argparse
import os
import shutil
import subprocess
import sys
import tempfile
import threading
import time

CRATES = ("lock_tests", "worker_tests", "app_tests")

SECONDS = 60


def programs_of(root):
    """The built programs; an end where one isn't built."""
    found = [*(f"{root}/crates/{name}/out/{name}_tests" for name in CRATES), f"{root}/crates/stage_bench/out/stage_bench"]
    lacking = [it for it in found if not os.path.isfile(it)]
    if lacking:
        sys.exit(f"not built: {' '.join(lacking)}; call `rt test` in the crate's folder")
    return found


def words_of(program):
    """The call of a program. The toolchain's own starts a process for each test."""
    if not program.endswith("_tests"):
        return [os.path.abspath(program), "wakes", "20", "2"]
    tool = shutil.which("rt")
    if not tool:
        sys.exit("rt is not on the path")
    return [os.path.join(os.path.dirname(os.path.realpath(tool)), "rattle-test"), "--seconds", str(SECONDS), os.path.abspath(program)]


def run(words):
    """The seconds of a run, and what it said where it failed."""
    begin = time.perf_counter()
    with tempfile.TemporaryDirectory() as folder:
        try:
            ended = subprocess.run(words, cwd=folder, stdin=subprocess.DEVNULL, stdout=subprocess.PIPE, stderr=subprocess.STDOUT, timeout=20 * SECONDS)
        except subprocess.TimeoutExpired:
            return time.perf_counter() - begin, "it did not end"
    return time.perf_counter() - begin, ended.stdout.decode(errors="replace") if ended.returncode else None


def run_all(words, times, beside):
    """What so many runs came to, with so many side by side."""
    left, runs = [words] * times, []

    def some():
        while left:
            try:
                call = left.pop()
            except IndexError:
                return
            runs.append(run(call))

    threads = [threading.Thread(target=some) for _ in range(beside)]
    for thread in threads:
        thread.start()
    for thread in threads:
        thread.join()
    return runs


def main():
    arguments = argparse.ArgumentParser()
    arguments.add_argument("--times", type=int, default=100)
    arguments.add_argument("--beside", type=int, default=1)
    arguments.add_argument("program", nargs="*")
    given = arguments.parse_args()
    root = os.path.dirname(os.path.dirname(os.path.abspath(__file__)))
    failures = 0
    for program in given.program or programs_of(root):
        runs = run_all(words_of(program), given.times, given.beside)
        seconds = [it[0] for it in runs]
        failed = [it[1] for it in runs if it[1] is not None]
        failures += len(failed)
        print(f"{os.path.basename(program)}: {len(runs)} runs, {len(failed)} failed, {min(seconds):.2f} to {max(seconds):.2f} s", flush=True)
        if failed:
            print(failed[0], flush=True)
    return failures > 0


if __name__ == "__main__":
    sys.exit(main())
