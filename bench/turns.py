#!/usr/bin/env python3
"""Times the turns of a machine in plain words, each with what it moves and with totals, and prints for each case how
many turns a call makes, how many nanoseconds of the processor a turn takes, and how many turns a second that makes.

The calls of a case are made by `turn_bench`, so and so many times over and three times as often: what the program
needs to begin counts in neither. On a machine that does other work too the times are greater.

Run it at the top of the repository after .ci/run: python3 bench/turns.py [PROGRAM]

With --allocations it prints in place of that how many allocations the turns make that follow each case's first rounds,
as valgrind counts those of the whole program: none, since all room is kept.
"""
import re
import resource
import subprocess
import sys

PROGRAM = "crates/turn_bench/out/turn_bench"

# The cases, and how many rounds of each are about a million turns.
CASES = {
    "small": 2000,
    "stranger": 8000,
    "large": 6000,
    "seats": 1000,
    "full": 500,
}

# How often each is timed; the least time counts.
RUNS = 5

# The rounds after which every room is had, and the more rounds of which the allocations count. Both have as many
# digits, so that the line that names them takes as much room.
FIRST_ROUNDS = 100
ALL_ROUNDS = 300


def spent():
    """The seconds of the processor that the programs which were run have taken."""
    usage = resource.getrusage(resource.RUSAGE_CHILDREN)
    return usage.ru_utime + usage.ru_stime


def run(program, case, rounds):
    """The seconds of the processor that so many rounds take, and how many calls and turns they make."""
    before = spent()
    done = subprocess.run([program], input=f"{case} {rounds}\n", stdout=subprocess.PIPE, check=True, text=True)
    calls, _, turns, _ = done.stdout.split()
    return spent() - before, int(calls), int(turns)


def allocated(program, case, rounds):
    """How many allocations the program makes for so many rounds, and how many turns they are."""
    command = ["valgrind", "--leak-check=no", program]
    done = subprocess.run(command, input=f"{case} {rounds}\n", capture_output=True, check=True, text=True)
    count = re.search(r"total heap usage: ([\d,]+) allocs", done.stderr)[1]
    return int(count.replace(",", "")), int(done.stdout.split()[2])


def count_allocations(program):
    for case in CASES:
        first, all_turns = allocated(program, case, FIRST_ROUNDS), allocated(program, case, ALL_ROUNDS)
        count, turns = (more - less for more, less in zip(all_turns, first))
        print(f"{case}: {count} allocations in {turns} turns")


def time_turns(program):
    for case, rounds in CASES.items():
        few = min(run(program, case, rounds) for _ in range(RUNS))
        many = min(run(program, case, 3 * rounds) for _ in range(RUNS))
        seconds, calls, turns = (more - less for more, less in zip(many, few))
        each = f"{1e9 * seconds / turns:.0f} ns a turn, {turns / seconds / 1e6:.1f} million turns a second"
        print(f"{case}: {turns / calls:.1f} turns a call, {each}")


def main():
    words = [word for word in sys.argv[1:] if word != "--allocations"]
    program = words[0] if words else PROGRAM
    if "--allocations" in sys.argv:
        count_allocations(program)
    else:
        time_turns(program)


if __name__ == "__main__":
    main()
