#!/usr/bin/env python3
"""Times a session over 100,000 changesets that is loaded again after each of 1,000 commits: how long each refresh takes and how many
bytes its reads give, over the first hundred and over the last.

The store is that of bench/log.py. The program reads it into memory, and commits there.

The program's source is bench/tail_program.txt, which has this name since the gate takes no source outside the crates. Without a PROGRAM
this proves and builds it in a folder of its own, over the crates of this repository and what is kept of their proofs; where nothing is
kept, that takes as long as the proofs of most of the gate.

    bench/tail.py [PROGRAM]
"""
import os
import shutil
import statistics
import subprocess
import sys
import tempfile
import time

from log import write_store

TOP = os.path.dirname(os.path.dirname(os.path.abspath(__file__)))
NAMES = "core hgs_files hgs_mem hgs_hub hgs_reader hgs_verify hgs_run"
COUNT = 100_000
PART = 100


def build(folder, source="tail_program.txt", names=NAMES):
    """The program of this source, built in this folder over the crates that it names and what they stand on."""
    with open(f"{TOP}/crates.txt") as file:
        stands_on = dict(line.split(":", 1) for line in file if not line.startswith("#"))
    below, left = set(), names.split()
    while left:
        name = left.pop()
        if name in stands_on and name not in below:
            below.add(name)
            left += stands_on[name].split()
    for crate in below:
        shutil.copytree(f"{TOP}/crates/{crate}", f"{folder}/crates/{crate}")
    os.makedirs(f"{folder}/crates/tail_bench/src")
    shutil.copy(f"{TOP}/bench/{source}", f"{folder}/crates/tail_bench/src/main.rt")
    shutil.copy(f"{TOP}/HANDLES", folder)
    with open(f"{folder}/crates.txt", "w") as file:
        file.writelines(f"{name}:{names}" for name, names in stands_on.items() if name in below)
        file.write(f"tail_bench: {names}\n")
    program = f"{folder}/crates/tail_bench/out/tail_bench"
    # it also runs the program once, in a folder that is no repository
    subprocess.run(["rt", "run"], cwd=f"{folder}/crates/tail_bench", check=False, stdout=subprocess.DEVNULL)
    if not os.path.exists(program):
        sys.exit(f"{program} was not built")
    return program


def refreshes(program, folder):
    """How long each refresh took, in seconds, how many changesets it came to, and how many bytes it was given."""
    seen = []
    with subprocess.Popen([program], cwd=folder, stdout=subprocess.PIPE, text=True) as process:
        for line in process.stdout:
            now = time.perf_counter()
            if line.startswith("end"):
                _, count, given = line.split()
                seen.append((now - began, int(count), int(given)))
            else:
                began = now
    if process.returncode:
        sys.exit(f"{program} failed")
    return seen


def main(folder, words):
    program = os.path.abspath(words[0]) if words else build(folder)
    write_store(folder, COUNT)
    seen = refreshes(program, folder)
    for part in seen[:PART], seen[-PART:]:
        took, counts, given = zip(*part)
        print(f"{counts[0]:,} to {counts[-1]:,} changesets: {statistics.median(took) * 1000:.2f} ms and {min(given)} to {max(given)} bytes a refresh")


if __name__ == "__main__":
    with tempfile.TemporaryDirectory() as room:
        main(room, sys.argv[1:])
