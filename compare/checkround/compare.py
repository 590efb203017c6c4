#!/usr/bin/env python3
"""Compares a program that checks round files with reference.py, on files that generator.py makes.

    compare.py [--files N] [--seed S] [--program PATH]

The program gets most files through a pipe, and of every eight one as a file on standard input and one by its name.
Every line and the exit status are compared. Prints how many files had which ending and each difference; files that
differ are kept in a temporary folder. Ends with status 1 where there is a difference, or where a number that a file
can meet was never met.
"""

import argparse
import collections
import multiprocessing
import os
import subprocess
import sys
import tempfile

from generator import make_file
from reference import STATIONS, check_file, exit_status

VERDICTS = ("stands", "void", "open")
PROCESSES = 2
LONGEST_RUN = 60  # seconds


def run(command, **given):
    """Runs a command; its exit status, what it printed, and what it said on standard error."""
    try:
        done = subprocess.run(command, capture_output=True, timeout=LONGEST_RUN, **given)
    except subprocess.TimeoutExpired:
        return None, b"", b"not ended in time"
    return done.returncode, done.stdout, done.stderr


def run_program(program, data, way, folder):
    """Gives a file to the program, by its name (way 0), as a file on standard input (1) or through a pipe."""
    if way > 1:
        return run([program], input=data)
    name = os.path.join(folder, f"given-{os.getpid()}")
    with open(name, "wb") as file:
        file.write(data)
    with open(name, "rb") as file:
        result = run([program], stdin=file) if way else run([program, name], stdin=subprocess.DEVNULL)
    os.remove(name)
    return result


def ending_of(lines):
    """What a file is counted under: a verdict's word, or the number of a refusal."""
    words = lines[-1].split()
    return int(words[1]) if words[0] == "refused" else words[0]


def first_difference(wanted, found):
    for i in range(max(len(wanted), len(found))):
        pair = [lines[i] if i < len(lines) else "(no line)" for lines in (wanted, found)]
        if pair[0] != pair[1]:
            return f"line {i + 1}: reference {pair[0]!r}, program {pair[1]!r}"
    return "the lines are the same, but not the bytes"


def compare_file(task):
    """Compares one file; its ending by the reference, and the difference in words or none."""
    program, seed, index, folder = task
    data = make_file(seed, index)
    lines = check_file(data)
    status, out, err = run_program(program, data, index % 8, folder)
    wanted = "".join(line + "\n" for line in lines).encode()
    difference = None
    if out != wanted:
        difference = first_difference(lines, out.decode("utf-8", "replace").splitlines())
    elif status != exit_status(lines):
        difference = f"exit status: reference {exit_status(lines)}, program {status}"
    if difference:
        name = os.path.join(folder, f"differs-{seed}-{index}")
        with open(name, "wb") as file:
            file.write(data)
        difference = f"file {index} ({name}): {difference}; status {status}"
        difference += f"; standard error {err[:200]!r}" if err else ""
    return ending_of(lines), difference


def compare_files(program, files, seed, folder):
    """Compares all files; how many had which ending, and the differences."""
    endings, differences = collections.Counter(), []
    tasks = ((program, seed, index, folder) for index in range(files))
    with multiprocessing.Pool(PROCESSES) as pool:
        for ending, difference in pool.imap_unordered(compare_file, tasks, chunksize=32):
            endings[ending] += 1
            if difference:
                differences.append(difference)
                print(difference, flush=True)
    return endings, differences


def arguments():
    parser = argparse.ArgumentParser(description="Compares a program that checks round files with the reference.")
    parser.add_argument("--files", type=int, default=20000)
    parser.add_argument("--seed", type=int, default=1)
    parser.add_argument("--program", default="crates/checkround/out/checkround")
    given = parser.parse_args()
    if not os.access(given.program, os.X_OK):
        parser.error(f"no program at {given.program}")
    return given


def main():
    given = arguments()
    folder = tempfile.mkdtemp(prefix="checkround-")
    endings, differences = compare_files(os.path.abspath(given.program), given.files, given.seed, folder)
    print(f"{given.files} files with seed {given.seed}")
    for word in VERDICTS:
        print(f"{word}: {endings[word]}")
    for number, station in STATIONS.items():
        print(f"refused {number} {station}: {endings[number]}")
    never = [number for number in STATIONS if not endings[number]]
    if never:
        print("never met:", *never)
    print(f"{len(differences)} differences" + (f", kept in {folder}" if differences else ""))
    if not differences:
        os.rmdir(folder)
    return 1 if differences or never else 0


if __name__ == "__main__":
    sys.exit(main())
