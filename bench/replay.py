#!/usr/bin/env python3
"""Times the built program on traces of the most lines, and prints for each the time and the processor's time in
milliseconds, and the peak of the memory.

Run it at the top of the repository after .ci/run: python3 bench/replay.py [PROGRAM]
"""
import os
import subprocess
import sys
import tempfile
import time

# With the two lines before them a trace has as many lines as it may.
LINES = 65534
PROGRAM = "crates/poolreplay/out/poolreplay"


def draws(seed):
    """Numbers of a linear congruential generator, the same in each run."""
    state = seed
    while True:
        state = (state * 6364136223846793005 + 1442695040888963407) % 2**64
        yield state >> 33


def mallocs(most):
    """A trace of LINES mallocs, of 1 to `most` bytes each."""
    sizes = draws(1)
    head = "threads A\npool P0 fixed\n"
    return head + "".join(f"A P0 v{i} = malloc {1 + next(sizes) % most}\n" for i in range(LINES))


def frees(most, held):
    """A trace of LINES mallocs, of 1 to `most` bytes each, and frees in random order, with up to `held` names to be
    freed."""
    numbers = draws(1)
    names = []
    lines = ["threads A", "pool P0 fixed"]
    for i in range(LINES):
        if names and (len(names) >= held or next(numbers) % 2 == 0):
            k = next(numbers) % len(names)
            names[k], names[-1] = names[-1], names[k]
            lines.append(f"A P0 free {names.pop()}")
        else:
            lines.append(f"A P0 v{i} = malloc {1 + next(numbers) % most}")
            names.append(f"v{i}")
    return "\n".join(lines) + "\n"


def calls(most, held, threads, pools=1):
    """A trace of LINES lines, less those that make further pools: whole calls on growing pools, by so many threads in
    turn, each on one pool. They are mallocs of 1 to `most` bytes until `held` objects are held, and then in turn a free
    of one of them and a malloc."""
    numbers = draws(1)
    names = []
    lines = ["threads " + " ".join(f"T{i}" for i in range(threads))]
    lines += [f"pool P{i}" for i in range(pools)]
    for i in range(LINES + 1 - pools):
        thread, pool = f"T{i % threads}", f"P{i % threads % pools}"
        if len(names) >= held:
            k = next(numbers) % len(names)
            names[k], names[-1] = names[-1], names[k]
            pool, name = names.pop()
            lines.append(f"{thread} {pool} free {name}")
        else:
            lines.append(f"{thread} {pool} v{i} = malloc {1 + next(numbers) % most}")
            names.append((pool, f"v{i}"))
    return "\n".join(lines) + "\n"


def peak_of(pid):
    """The peak of the memory of the process so far, in KiB. What the system tells of it later counts this script in."""
    with open(f"/proc/{pid}/status") as status:
        for line in status:
            if line.startswith("VmHWM:"):
                return int(line.split()[1])
    return 0


def run(program, text):
    """The seconds that the program takes on the trace, those of the processor, its status, what it writes, and the peak
    of its memory in KiB: it is read when the report begins to come, since that is made whole before it is written."""
    with tempfile.TemporaryFile("w+") as source:
        source.write(text)
        source.seek(0)
        start = time.perf_counter()
        with subprocess.Popen([program, "replay"], stdin=source, stdout=subprocess.PIPE, text=True) as process:
            first = process.stdout.read(1)
            peak = peak_of(process.pid)
            report = first + process.stdout.read()
            _, status, usage = os.wait4(process.pid, 0)
            process.returncode = os.waitstatus_to_exitcode(status)
        seconds = time.perf_counter() - start
    return seconds, usage.ru_utime + usage.ru_stime, process.returncode, report, peak


def main():
    program = sys.argv[1] if len(sys.argv) > 1 else PROGRAM
    cases = [
        ("mallocs of 1 to 16", mallocs(16)),
        ("mallocs of 1 to 8128", mallocs(8128)),
        ("mallocs of 1 to 16 and frees", frees(16, 20000)),
        ("mallocs of 1 to 8128 and frees", frees(8128, 200)),
        ("mallocs of 1 to 8128 and frees, a full pool", frees(8128, 20000)),
        ("machines: calls of 1 to 2000 bytes, 3000 held", calls(2000, 3000, 1)),
        ("machines: calls of 1 to 100000 bytes, 60 held", calls(100000, 60, 1)),
        ("machines: calls of 1 to 64 bytes, 3000 held, 64 threads", calls(64, 3000, 64)),
        ("machines: calls of 1 to 2000 bytes, 3000 held, 64 threads on 8 pools", calls(2000, 3000, 64, 8)),
        ("machines: calls of 1 to 2000 bytes, 3000 held, 64 threads, more than fits", calls(2000, 3000, 64)),
    ]
    for name, text in cases:
        seconds, used, status, report, peak = run(program, text)
        counts = ", ".join(f"{report.count(f' {word}')} {word}" for word in ("got", "null", "freed"))
        times = f"{1000 * seconds:.0f} ms, {1000 * used:.0f} ms of the processor"
        print(f"{name}: status {status}, {counts}, {times}, peak {peak} KiB")


if __name__ == "__main__":
    main()
