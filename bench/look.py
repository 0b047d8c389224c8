"""How long a lane's look takes by the number of steps that its tables lack, and how much settling loses by lanes that look. Beside the
program stands a plain loop in C (look.c), which takes as many counted references along under a mutex, and makes as many synced writes.

Usage: look.py PROGRAM FOLDER [COUNT]
PROGRAM is the built program, crates/stage_bench/out/stage_bench. FOLDER is one on the disk to be timed; looks and a second table have
/dev/shm, where a sync costs nothing. COUNT commands wait on the disk, 10,000 if none is given, and ten times as many in memory. One
worker settles them beside 0, 1 and 8 lanes, each of which looks, applies what it lacks and sleeps eight milliseconds: eight lanes look
some 1,000 times a second together. Times are by the clock, the best of RUNS runs in which all take turns. A look holds the lock no longer
than it takes. The lanes and the worker share the processors: where they are fewer than the threads, settling also loses what lanes apply.
Needs `cc`.
"""
import os
import subprocess
import sys
import tempfile

STEPS = (0, 1, 10, 100, 1000)

LANES = (0, 1, 8)

RUNS = 5


def numbers(words, where):
    """What a call in a new folder prints."""
    with tempfile.TemporaryDirectory(dir=where) as folder:
        return [int(it) for it in subprocess.run(words, cwd=folder, check=True, stdout=subprocess.PIPE).stdout.split()]


def look_times(program, plain):
    """Prints the nanoseconds of a look, and of the plain loop, by the steps."""
    best = {}
    for _ in range(RUNS):
        for steps in STEPS:
            rounds = 2000 if steps == 0 else max(10, 20_000 // max(steps, 10))
            looked = numbers([program, "look", str(steps), str(rounds)], "/dev/shm")[0] / (rounds - 1)
            taken = numbers([plain, "steps", str(steps), str(rounds)], "/dev/shm")[0] / rounds
            was = best.get(steps, (looked, taken))
            best[steps] = (min(looked, was[0]), min(taken, was[1]))
    for steps, (looked, taken) in best.items():
        print(f"{steps} steps: {looked:,.0f} ns, plain {taken:,.0f} ns", flush=True)
    for name, at in (("a look", 0), ("plain", 1)):
        each = (best[STEPS[-1]][at] - best[0][at]) / STEPS[-1]
        print(f"{name}: {best[0][at] / 1000:.2f} us and {each / 1000:.3f} us a step", flush=True)


def settle_times(program, plain, where, count):
    """Prints commands a second by the number of lanes, what is lost beside none, and how often all lanes looked in a second."""
    best = {}
    for _ in range(RUNS):
        for lanes in LANES:
            for name, words in (("program", [program, "lanes"]), ("plain", [plain, "lanes"])):
                took, looks = numbers([*words, str(count), str(lanes)], where)
                best[name, lanes] = min(best.get((name, lanes), (took, looks)), (took, looks))
    for name in ("program", "plain"):
        for lanes in LANES:
            took, looks = best[name, lanes]
            lost = 1 - best[name, 0][0] / took
            print(f"{where}, {name}, {lanes} lanes: {count / took * 1e9:,.0f} a second, {lost:.1%} lost, {looks / took * 1e9:,.0f} looks a second", flush=True)


def main():
    if len(sys.argv) < 3:
        sys.exit(__doc__)
    program, disk = os.path.abspath(sys.argv[1]), sys.argv[2]
    count = int(sys.argv[3]) if len(sys.argv) > 3 else 10_000
    with tempfile.TemporaryDirectory() as folder:
        plain = f"{folder}/look"
        source = os.path.join(os.path.dirname(os.path.abspath(__file__)), "look.c")
        subprocess.run(["cc", "-O2", "-pthread", "-o", plain, source], check=True)
        look_times(program, plain)
        settle_times(program, plain, "/dev/shm", 10 * count)
        settle_times(program, plain, disk, count)


if __name__ == "__main__":
    main()
