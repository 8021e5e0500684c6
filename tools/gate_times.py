#!/usr/bin/env python3
"""Run the gate from nothing and print what it costs, crate by crate.

usage: tools/gate_times.py [COMMAND..]

The command, `rt ci --anew` if none is given, runs at the top of the repository. Ten times a second the processor time
of each of its processes is read, so a figure of a crate is short of the truth by at most a tenth of a second for each
process; the last row has what the system counted for all of them. The table is Markdown, in processor minutes.
"""

import os
import re
import subprocess
import sys
import time
from collections import defaultdict
from pathlib import Path

ROOT = Path(__file__).resolve().parent.parent
TICK = os.sysconf("SC_CLK_TCK")
COLUMNS = ("proof", "tests", "edits", "rest")


def read(path):
    try:
        return Path(path).read_bytes().decode(errors="replace")
    except OSError:
        return ""


def link(path):
    try:
        return os.readlink(path)
    except OSError:
        return ""


def processes():
    """Each process with its parent and its processor seconds."""
    found = {}
    for name in os.listdir("/proc"):
        if name.isdigit():
            fields = read(f"/proc/{name}/stat").rpartition(")")[2].split()
            if fields:
                found[int(name)] = (int(fields[1]), (int(fields[11]) + int(fields[12])) / TICK)
    return found


def below(found, root):
    """The processes below one, each behind its parent."""
    children = defaultdict(list)
    for process, (parent, _) in found.items():
        children[parent].append(process)
    order = [root]
    for process in order:
        order += children[process]
    return order[1:]


def work_of(process, crates):
    """The crate and the column that a process works for, or None."""
    words = read(f"/proc/{process}/cmdline").split("\0")
    if "--crate-name" in words[:-1]:
        crate = words[words.index("--crate-name") + 1]
        if "/rt-edit-" in link(f"/proc/{process}/cwd"):
            return crate, "edits"
        return crate, "tests" if "--test" in words else "proof"
    for crate in crates:
        if any(f"/crates/{crate}/" in word for word in words):
            return crate, "rest"
    return None


def peak_of(process):
    peak = re.search(r"VmHWM:\s+(\d+)", read(f"/proc/{process}/status"))
    return int(peak[1]) / 1048576 if peak else 0


def watch(command, crates):
    """Seconds by process and peaks by crate until the command ends, its status, its seconds and those of the clock."""
    start = time.time()
    ran = subprocess.Popen(command, cwd=ROOT, stdin=subprocess.DEVNULL)
    works, seconds, peaks = {}, {}, defaultdict(float)
    while True:
        ended, status, used = os.wait4(ran.pid, os.WNOHANG)
        if ended:
            return works, seconds, peaks, os.waitstatus_to_exitcode(status), used.ru_utime + used.ru_stime, time.time() - start
        found = processes()
        for process in below(found, ran.pid):
            parent, spent = found[process]
            works[process] = work_of(process, crates) or works.get(process) or works.get(parent)
            seconds[process] = spent
            if works[process]:
                crate = works[process][0]
                peaks[crate] = max(peaks[crate], peak_of(process))
        time.sleep(0.1)


def machine():
    model = re.search(r"model name\s*: (.*)", read("/proc/cpuinfo"))
    memory = re.search(r"MemTotal:\s+(\d+)", read("/proc/meminfo"))
    date = subprocess.run(["git", "log", "-1", "--format=%cs"], cwd=ROOT, capture_output=True, text=True).stdout.strip()
    return [f"- Code of {date}", f"- Processor: {model[1] if model else 'unknown'}, {os.cpu_count()} of them",
            f"- Memory: {int(memory[1]) / 1048576:.0f} GiB" if memory else "- Memory: unknown"]


def main():
    command = sys.argv[1:] or ["rt", "ci", "--anew"]
    crates = [line.split(":")[0] for line in read(ROOT / "crates.txt").splitlines() if ":" in line]
    works, seconds, peaks, status, total, wall = watch(command, crates)
    sums = defaultdict(float)
    for process, spent in seconds.items():
        sums[works[process]] += spent
    print("\n".join(machine()))
    print(f"- Status {status}, {wall / 60:.1f} minutes of the clock\n")
    print("| crate | " + " | ".join(COLUMNS) + " | in all | peak, GiB |")
    print("|---|" + "---|" * (len(COLUMNS) + 2))
    for crate in crates:
        parts = [sums[crate, column] / 60 for column in COLUMNS]
        print(f"| `{crate}` | " + " | ".join(f"{part:.1f}" for part in parts) + f" | {sum(parts):.1f} | {peaks[crate]:.1f} |")
    print(f"| the whole | | | | | {total / 60:.1f} | {max(peaks.values(), default=0):.1f} |")
    sys.exit(status)


if __name__ == "__main__":
    main()
