#!/usr/bin/env python3
"""Times what a publish of shared files costs: 10,000 appends of 64 bytes to one of 1,000 files and of 10,000 files in memory, each of
which is published.

The program's source is bench/hub_program.txt, which has this name since the gate takes no source outside the crates. Without a PROGRAM
this proves and builds it over the crates of this repository, in a folder of its own, so that
it is no part of the gate; that takes some minutes. The program says when it begins and ends the appends, and this takes the time between
the two lines: the median of so many runs.

    bench/hub.py [PROGRAM]
"""
import os
import shutil
import statistics
import subprocess
import sys
import tempfile
import time

TOP = os.path.dirname(os.path.dirname(os.path.abspath(__file__)))
BELOW = ["hgs_bytes", "hgs_files", "hgs_mem", "hgs_hub"]
SIZES = [1_000, 10_000]
APPENDS = 10_000
RUNS = 5


def build(folder):
    """The program, built in this folder."""
    with open(f"{TOP}/crates.txt") as file:
        lines = [line for line in file if line.split(":")[0] in BELOW]
    libraries = next(line for line in lines if line.startswith("hgs_hub:")).split(":")[1].strip()
    for crate in BELOW:
        shutil.copytree(f"{TOP}/crates/{crate}", f"{folder}/crates/{crate}", ignore=shutil.ignore_patterns("out"))
    os.makedirs(f"{folder}/crates/hub_bench/src")
    shutil.copy(f"{TOP}/bench/hub_program.txt", f"{folder}/crates/hub_bench/src/main.rt")
    shutil.copy(f"{TOP}/HANDLES", folder)
    with open(f"{folder}/crates.txt", "w") as file:
        file.writelines([*lines, f"hub_bench: {libraries.replace('hgs_mem', 'hgs_mem hgs_hub')}\n"])
    subprocess.run(["rt", "run"], cwd=f"{folder}/crates/hub_bench", check=True, stdout=subprocess.DEVNULL)
    return f"{folder}/crates/hub_bench/out/hub_bench"


def times(program):
    """When the program said what, in one run."""
    said = {}
    with subprocess.Popen([program], stdout=subprocess.PIPE, text=True) as process:
        for line in process.stdout:
            said[line.strip()] = time.perf_counter()
    if process.returncode:
        sys.exit(f"{program} failed")
    return said


def main(folder, words):
    program = words[0] if words else build(folder)
    runs = [times(program) for _ in range(RUNS)]
    for size in SIZES:
        took = statistics.median(said[f"end {size}"] - said[f"begin {size}"] for said in runs)
        print(f"{size} files: {took / APPENDS * 1e6:.1f} us an append")


if __name__ == "__main__":
    with tempfile.TemporaryDirectory() as room:
        main(room, sys.argv[1:])
