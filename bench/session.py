#!/usr/bin/env python3
"""Times `hg_store session`: the same jobs by four workers and by one, and questions by more and more workers beside one that commits.

The repository has one changeset of 1,000 files. In the first table each of four workers has 100 commits, each of one more file that it
changes, and 100 questions in between (`log` and `cat`, in turn); then one worker has all of these jobs. In the second a worker commits
100 times, while 0 to 3 others ask 200 questions each. Each time is the median of so many runs over a fresh copy, the start of the
process included; `answers/s` are the questions of all workers by that time.

    bench/session.py [--program FILE] [RUNS]
"""
import os
import shutil
import subprocess
import sys
import tempfile
import time

import statistics

from log import TOP

FILES = 1_000
COMMITS = 100


def body(number):
    return b"file %d\n" % number * 8


def record(parent, files):
    lines = b"".join(b"file - %d %s\n%s\n" % (len(text), path, text) for path, text in sorted(files.items()))
    return b"commit\n" + parent + b"user u\ndate 0 0\ndesc 1\nc\n" + lines + b"end\n"


def tree():
    return {b"dir%02d/file%04d" % (number % 40, number): body(number) for number in range(FILES)}


def commits(worker, count):
    """Commits on the tip, each with a file of the worker's changed, so that each tree is a new one."""
    files = tree()
    for number in range(count):
        files[b"worker%d" % worker] = b"%d\n" % number
        yield b"commit\n" + record(b"parent tip\n", files)


def questions(count):
    return [b"log\n" if number % 2 else b"cat 0 dir00/file0000\n" for number in range(count)]


def script(workers):
    return b"session %d\n" % len(workers) + b"".join(b"%d %s" % (worker, job) for worker, jobs in enumerate(workers) for job in jobs) + b"end session\n"


def mixed(worker):
    return [job for both in zip(commits(worker, COMMITS), questions(COMMITS)) for job in both]


def timed(program, base, given, runs):
    """The median seconds of a session over copies of the base."""
    times = []
    for _ in range(runs):
        with tempfile.TemporaryDirectory() as folder:
            shutil.copytree(os.path.join(base, ".hg"), os.path.join(folder, ".hg"))
            begun = time.perf_counter()
            ended = subprocess.run([program, "session"], input=given, stdout=subprocess.PIPE, cwd=folder, check=True)
            times.append(time.perf_counter() - begun)
            assert b" status 0 " in ended.stdout and b" status 1" not in ended.stdout and b" status 3" not in ended.stdout
    return statistics.median(times)


def main():
    words = sys.argv[1:]
    if words[:1] == ["--program"]:
        program, words = os.path.abspath(words[1]), words[2:]
    else:
        program = os.path.join(TOP, "bin/hg_store")
        subprocess.run([program, "--build"], stdout=subprocess.DEVNULL, check=True)
    runs = int(words[0]) if words else 5
    with tempfile.TemporaryDirectory() as base:
        subprocess.run([program, "init"], cwd=base, check=True)
        subprocess.run([program, "commit"], input=record(b"", tree()), stdout=subprocess.DEVNULL, cwd=base, check=True)
        jobs = [mixed(worker) for worker in range(4)]
        print("| workers | jobs | ms |\n|---|---|---|")
        for workers in (jobs, [[job for own in zip(*jobs) for job in own]]):
            print(f"| {len(workers)} | {sum(map(len, workers))} | {timed(program, base, script(workers), runs) * 1000:.0f} |")
        print("\n| workers that ask | questions | ms | answers/s |\n|---|---|---|---|")
        for count in range(4):
            asked = [questions(200) for _ in range(count)]
            took = timed(program, base, script([list(commits(0, COMMITS)), *asked]), runs)
            print(f"| {count} | {200 * count} | {took * 1000:.0f} | {200 * count / took:.0f} |")


if __name__ == "__main__":
    main()
