#!/usr/bin/env python3
"""Times two programs that check round files, side by side, on some of the longest files; see time.sh.

    timing.py PROGRAM PLAIN [RUNS]

The programs run in turns. For each file the best and the median of their times are printed, as wall time and as the
processor time (user and system) of the process, then the ratios of the best, and the peak memory of both. A process
is short, so its start counts: `--help` is timed too, and the last ratio is of the processor times without it.
"""

import os
import random
import shutil
import statistics
import subprocess
import sys
import tempfile
import time

from reference import check_file
from rounds import encode_file, longest_round

# The name of a file, then group, plan, wires, servers, and how many servers take a turn.
FILES = (
    ("group 2, chain of 12, eight servers", (2, 1, 12, 8, 8)),
    ("group 2, butterfly of 32, four servers", (2, 2, 32, 4, 4)),
    ("group 1, chain of 12, eight servers", (1, 1, 12, 8, 8)),
    ("group 2, chain of 64, posts and draws only", (2, 1, 64, 1, 0)),
)


class Times:
    """The times of one program's runs, in milliseconds."""

    def __init__(self):
        self.wall, self.processor = [], []

    def add(self, command, stdin):
        """Runs a command once. Its output is thrown away."""
        before = time.perf_counter()
        actions = [(os.POSIX_SPAWN_OPEN, 0, stdin, os.O_RDONLY, 0),
                   (os.POSIX_SPAWN_OPEN, 1, os.devnull, os.O_WRONLY, 0)]
        pid = os.posix_spawn(command[0], command, os.environ, file_actions=actions)
        _, status, used = os.wait4(pid, 0)
        self.wall.append(1e3 * (time.perf_counter() - before))
        self.processor.append(1e3 * (used.ru_utime + used.ru_stime))
        if status:
            sys.exit(f"{command} on {stdin}: wait status {status}")

    def __str__(self):
        parts = [f"{name} best {min(times):.3f} median {statistics.median(times):.3f}"
                 for name, times in (("wall", self.wall), ("processor", self.processor))]
        return ", ".join(parts) + " ms"


def time_both(programs, arguments, stdin, runs):
    """Times both programs in turns, after a run of each that is not counted."""
    for program in programs:
        Times().add([program, *arguments], stdin)
    times = [Times() for _ in programs]
    for _ in range(runs):
        for program, of_program in zip(programs, times):
            of_program.add([program, *arguments], stdin)
    return times


def peak_memory(program, stdin):
    """The peak memory in KiB, by GNU time: a child of this process would count this one's memory as its own."""
    gnu_time = shutil.which("time")
    if gnu_time is None:
        return None
    with open(stdin, "rb") as file:
        done = subprocess.run([gnu_time, "-f", "%M", program], stdin=file, stdout=subprocess.DEVNULL,
                              stderr=subprocess.PIPE, text=True)
    return int(done.stderr.split()[-1])


def check_output(program, stdin, lines):
    with open(stdin, "rb") as file:
        out = subprocess.run([program], stdin=file, stdout=subprocess.PIPE, text=True).stdout
    if out.splitlines() != lines:
        sys.exit(f"{program}: prints other lines than the reference on {stdin}")


def print_times(names, times):
    for name, of_program in zip(names, times):
        print(f"  {name}: {of_program}")


def time_file(programs, names, title, data, empty, folder, runs):
    """Times both programs on one file; `empty` has the times of their start alone."""
    stdin = os.path.join(folder, "round")
    with open(stdin, "wb") as file:
        file.write(data)
    lines = check_file(data)
    for program in programs:
        check_output(program, stdin, lines)
    steps = sum(line.startswith("step ") for line in lines)
    print(f"{title}: {len(data)} bytes, {steps} comparators taken, {lines[-1]}")
    times = time_both(programs, [], stdin, runs)
    print_times(names, times)
    wall = min(times[0].wall) / min(times[1].wall)
    processor = min(times[0].processor) / min(times[1].processor)
    work = [min(of_file.processor) - min(start.processor) for of_file, start in zip(times, empty)]
    without = f"{work[0] / work[1]:.2f} ({work[0]:.3f} / {work[1]:.3f} ms)" if work[1] > 0 else "too short to tell"
    print(f"  ratio: wall {wall:.2f}, processor {processor:.2f}, processor without the start {without}")
    memory = [peak_memory(program, stdin) for program in programs]
    print("  peak memory: " + ", ".join(f"{name} {kib} KiB" for name, kib in zip(names, memory)))


def main():
    programs = [os.path.abspath(program) for program in sys.argv[1:3]]
    runs = int(sys.argv[3]) if len(sys.argv) > 3 else 200
    names = ("program", "plain")
    empty = time_both(programs, ["--help"], os.devnull, runs)
    print(f"--help, {runs} runs of each program in turns")
    print_times(names, empty)
    with tempfile.TemporaryDirectory() as folder:
        for title, shape in FILES:
            data = encode_file(longest_round(random.Random(title), *shape))
            time_file(programs, names, title, data, empty, folder, runs)


if __name__ == "__main__":
    main()
