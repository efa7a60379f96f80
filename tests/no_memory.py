#!/usr/bin/env python3
"""Runs the tests of the crates with each allocation made to fail in turn, up to 200 of each test.

It takes the test programs that `rt ci` or `rt test` left in `crates/*/out`, and a C compiler. A run has to end by itself, at
the test's own error or assertion, or pass: a signal other than that of an assertion, or a run of over 30 seconds, is a
failure here. What a test saw in place of the wanted answer is counted by kind: want of memory as an error, an answer of
`Memory`, status 30, or the line of it. The last line is 'N passed, M failed'.
"""
import collections
import glob
import os
import re
import subprocess
import sys
import tempfile

sys.dont_write_bytecode = True
from checks import built_shim

TOP = os.path.dirname(os.path.dirname(os.path.abspath(__file__)))
MOST = 200


def kind_of(said):
    if re.search(r"AllocError|AllocFailed", said):
        return "error"
    if "Memory" in said or str(list(b"out of memory"))[1:-1] in said:
        return "told"
    if "left: 30" in said or "left: []" in said:
        return "status or nothing"
    return "another place"


def main():
    with tempfile.TemporaryDirectory() as folder:
        shim = built_shim(folder, "refused_allocation")
        runs, failed = 0, 0
        for program in sorted(glob.glob(os.path.join(TOP, "crates/*/out/*_tests"))):
            listed = subprocess.run([program, "--list"], capture_output=True, text=True).stdout.split("\n")
            kinds = collections.Counter()
            for test in filter(re.compile(r"\w[\w:]*$").match, (line.removesuffix(": test") for line in listed)):
                # its readers would wait for the bytes whose append was refused
                if test.startswith("race::"):
                    continue
                for number in range(1, MOST + 1):
                    env = dict(os.environ, LD_PRELOAD=shim, FAIL_ALLOCATION=str(number))
                    try:
                        ran = subprocess.run([program, test], capture_output=True, text=True, env=env, timeout=30)
                    except subprocess.TimeoutExpired:
                        failed += 1
                        print(f"{test}: no end at allocation {number}")
                        continue
                    said = ran.stdout + ran.stderr
                    if "refused" not in said:
                        break
                    runs += 1
                    if ran.returncode not in (0, 1, 101, -6):
                        failed += 1
                        print(f"{test}: ended with {ran.returncode} at allocation {number}")
                    kinds["passed" if ran.returncode == 0 else kind_of(said)] += 1
            print(os.path.basename(program), dict(kinds))
        print(f"{runs - failed} passed, {failed} failed")
        sys.exit(failed > 0 or runs == 0)


main()
