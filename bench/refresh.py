#!/usr/bin/env python3
"""Times a session that is refreshed: readers of `hg_store play`, which hold one open over files in memory.

The program has no command that holds a session open over a disk. A schedule makes so many commits, and then either readers load that
have not yet, or a reader that has loads again, so many times, with nothing new. The time of one is what they add to the schedule
without them, divided by their number: processor time of the user, the median of so many runs. So no disk is in it.

    bench/refresh.py [PROGRAM]
"""
import os
import resource
import statistics
import subprocess
import sys

TOP = os.path.dirname(os.path.dirname(os.path.abspath(__file__)))
SIZES = [500, 1_000, 2_000, 4_000]
OPENINGS = 63
REFRESHES = 4_000
RUNS = 3


def commit(number):
    """The events of a commit of one file."""
    body = b"%d\n" % number
    desc = b"change %d" % number
    parent = b"parent tip\n" if number else b""
    record = b"commit\n" + parent + b"user u\ndate %d 0\ndesc %d\n%s\nfile - %d f\n%s\nend\n" % (number, len(desc), desc, len(body), body)
    return b"begin commit\n" + record + b"finish\n"


def schedule(commits, openings, refreshes):
    loads = [b"load 0\n"] * (1 + refreshes) + [b"load %d\n" % reader for reader in range(1, 1 + openings)]
    return b"play 64\n" + b"".join(commit(k) for k in range(commits)) + b"".join(loads) + b"end\n"


def seconds(program, text, changesets):
    """Processor time that the program takes for a schedule, whose last load has so many changesets."""
    before = resource.getrusage(resource.RUSAGE_CHILDREN).ru_utime
    done = subprocess.run([program, "play"], input=text, stdout=subprocess.PIPE, check=True)
    after = resource.getrusage(resource.RUSAGE_CHILDREN).ru_utime
    assert done.stdout.splitlines()[-1] == b"loaded %d" % changesets, done.stdout[-200:]
    return after - before


def main():
    program = sys.argv[1] if len(sys.argv) > 1 else os.path.join(TOP, "bin", "hg_store")
    if len(sys.argv) == 1:
        subprocess.run([program, "--build"], check=True)
    print("changesets  ms an opening  ms a refresh")
    for count in SIZES:
        texts = schedule(count, 0, 0), schedule(count, OPENINGS, 0), schedule(count, 0, REFRESHES)
        plain, opened, again = (statistics.median(seconds(program, text, count) for _ in range(RUNS)) for text in texts)
        print(f"{count:10,}  {(opened - plain) / OPENINGS * 1000:13.3f}  {(again - plain) / REFRESHES * 1000:12.3f}", flush=True)


if __name__ == "__main__":
    main()
