#!/usr/bin/env python3
"""Times a load by itself, of so many changesets with 10,000 bookmarks and 2,000 draft roots (`write_history` of bench/questions.py): the
processor time, the least of so many runs, the start of the process included; and where valgrind is installed the instructions, which other
work on the machine does not change.

The program's source is bench/load_program.txt. Without a PROGRAM it is proved and built as bench/tail.py does it with its own.

    bench/load.py [--program FILE] [COUNT]
"""
import os
import re
import resource
import shutil
import subprocess
import sys
import tempfile

import questions
import tail

NAMES = "core hgs_files hgs_os hgs_load hgs_revlog"
RUNS = 60


def processor_time(program, folder):
    before = resource.getrusage(resource.RUSAGE_CHILDREN)
    subprocess.run([program], cwd=folder, check=True, stdout=subprocess.DEVNULL)
    after = resource.getrusage(resource.RUSAGE_CHILDREN)
    return after.ru_utime + after.ru_stime - before.ru_utime - before.ru_stime


def instructions(program, folder):
    words = ["valgrind", "--tool=callgrind", "--callgrind-out-file=/dev/null", program]
    said = subprocess.run(words, cwd=folder, check=True, stdout=subprocess.DEVNULL, stderr=subprocess.PIPE, text=True).stderr
    return int(re.search(r"Collected : (\d+)", said)[1])


def main(room):
    words = sys.argv[1:]
    if words[:1] == ["--program"]:
        program, words = os.path.abspath(words[1]), words[2:]
    else:
        program = tail.build(os.path.join(room, "built"), "load_program.txt", NAMES)
    count = int(words[0]) if words else 100_000
    folder = os.path.join(room, "history")
    questions.write_history(folder, count)
    least = min(processor_time(program, folder) for _ in range(RUNS))
    print(f"{count:,} changesets: {least * 1000:.1f} ms of one core")
    if shutil.which("valgrind"):
        print(f"{instructions(program, folder):,} instructions")


if __name__ == "__main__":
    with tempfile.TemporaryDirectory() as temporary:
        main(temporary)
