#!/usr/bin/env python3
"""Times `replay` of several programs on an input, in turns, and prints milliseconds.

usage: bench/turns.py INPUT RUNS PROGRAM ..

It waits until a program has ended. A wait with a limit, as by `Popen.wait(limit)`, looks from time
to time alone, after 31, 63 and 113 ms and then every 50 ms: so it can't tell 36 ms from 63.
"""
import os
import subprocess
import sys
import time


def timed(program, file):
    """Seconds of one run."""
    with open(file, "rb") as given:
        start = time.perf_counter()
        run = subprocess.Popen([program, "replay"], stdin=given, stdout=subprocess.DEVNULL)
        os.waitpid(run.pid, 0)
        run.returncode = 0
        return time.perf_counter() - start


def main():
    if len(sys.argv) < 4:
        sys.exit(__doc__.split("\n\n")[1])
    file, runs, programs = sys.argv[1], int(sys.argv[2]), sys.argv[3:]
    times = {program: [] for program in programs}
    for k in range(runs):
        first = k % len(programs)
        for program in programs[first:] + programs[:first]:
            times[program].append(timed(program, file))
    for program in programs:
        all_ms = sorted(1000 * t for t in times[program])
        print(f"{program}: least {all_ms[0]:.2f}, median {all_ms[len(all_ms) // 2]:.2f}")


main()
