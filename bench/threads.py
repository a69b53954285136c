#!/usr/bin/env python3
"""Times the calls of heaps of one pool on 1, 2, 4 and, where there are processors, 8 threads, and prints for each case how
many calls a second they make together, how many times those of one thread that is, and the nanoseconds of a call.

The calls of a case are made by `thread_bench`, so and so many times over and three times as often: what the program
needs to begin counts in neither. In `own` each thread frees what it got, small objects; in `strangers` it frees what
another thread got; in `large` it frees large objects that it got, so that blocks come from the cache, which all threads
share. On a machine that does other work too the times are greater.

Run it at the top of the repository after .ci/run: python3 bench/threads.py [PROGRAM]
"""
import os
import subprocess
import sys
import time

PROGRAM = "crates/thread_bench/out/thread_bench"

# The cases, and how many rounds of each are some hundred thousand calls of a thread.
CASES = {
    "own": 4000,
    "strangers": 50,
    "large": 20000,
}
THREADS = (1, 2, 4, 8)

# How often each is timed; the least time counts.
RUNS = 5


def run(program, case, threads, rounds):
    """The seconds that so many rounds of each thread take, and how many calls they are."""
    before = time.perf_counter()
    done = subprocess.run([program], input=f"{case} {threads} {rounds}\n", stdout=subprocess.PIPE, check=True, text=True)
    return time.perf_counter() - before, int(done.stdout.split()[0])


def calls_a_second(program, case, threads, rounds):
    few = min(run(program, case, threads, rounds) for _ in range(RUNS))
    many = min(run(program, case, threads, 3 * rounds) for _ in range(RUNS))
    seconds, calls = (more - less for more, less in zip(many, few))
    return calls / seconds


def main():
    program = sys.argv[1] if len(sys.argv) > 1 else PROGRAM
    for case, rounds in CASES.items():
        alone = None
        for threads in THREADS:
            if threads > 1 and threads > (os.cpu_count() or 1):
                continue
            speed = calls_a_second(program, case, threads, rounds)
            alone = alone or speed
            print(f"{case}, {threads} threads: {speed / 1e6:.2f} million calls a second, {speed / alone:.2f} times one "
                  f"thread's, {1e9 * threads / speed:.0f} ns a call")


if __name__ == "__main__":
    main()
