#!/usr/bin/env python3
"""Time shell lines in turn, or watch the memory of one.

usage: timed.py time RUNS LINE..    the milliseconds of the best of so many runs of each line, a line each
       timed.py memory NAME LINE    the greatest resident memory of a process of this name, while the line runs, in KiB

The lines take turns, so that what else the machine does comes to all of them.
"""

import os
import re
import subprocess
import sys
import time


def run(line):
    return subprocess.Popen(["sh", "-c", line], stdin=subprocess.DEVNULL)


def ended_well(process, line):
    if process.wait() != 0:
        sys.exit(f"status {process.returncode}: {line}")


def best_times(runs, lines):
    best = [float("inf")] * len(lines)
    for _ in range(runs):
        for place, line in enumerate(lines):
            begun = time.perf_counter()
            ended_well(run(line), line)
            best[place] = min(best[place], time.perf_counter() - begun)
    return best


def peak_of(name, first):
    """The greatest resident memory so far of the processes of this name from this number on, in KiB."""
    peak = 0
    for process in map(int, filter(str.isdigit, os.listdir("/proc"))):
        if process < first:
            continue
        try:
            with open(f"/proc/{process}/status", encoding="utf-8") as file:
                status = file.read()
        except OSError:
            continue
        found = re.search(r"^VmHWM:\s+(\d+)", status, re.M)
        if found and status.startswith(f"Name:\t{name}\n"):
            peak = max(peak, int(found[1]))
    return peak


def greatest_memory(name, line):
    """Of all runs of the line that begin within a second: a short one is not seen each time."""
    peak, end = 0, time.perf_counter() + 1
    while True:
        process = run(line)
        while process.poll() is None:
            peak = max(peak, peak_of(name, process.pid))
        ended_well(process, line)
        if time.perf_counter() >= end:
            return peak


def main():
    match sys.argv[1:]:
        case ["time", runs, *lines] if lines:
            for seconds in best_times(int(runs), lines):
                print(f"{seconds * 1000:.2f}")
        case ["memory", name, line]:
            print(greatest_memory(name, line))
        case _:
            sys.exit(__doc__)


if __name__ == "__main__":
    main()
