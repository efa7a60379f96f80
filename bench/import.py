#!/usr/bin/env python3
"""Times `hg_store import`: records of one changed file each, in one import; beside it as many commits, and `hg unbundle` of the same history.

The changed file is one of 1,000 small ones. The first changeset has all of them; it is committed before the clock runs. A record names
each file with its whole body. Of the commits only some are made, and the time of all is that of these times what is left out.

    bench/import.py [RECORDS [COMMITS]]       (10,000 records and 500 commits where none is said)
"""
import os
import resource
import shutil
import subprocess
import sys
import tempfile
import time

TOP = os.path.dirname(os.path.dirname(os.path.abspath(__file__)))
FILES = 1000
HG = dict(os.environ, HGRCPATH="/dev/null", HGPLAIN="1")


def record(text, files):
    parts = [b"commit\nparent .\nuser u\ndate 0 0\ndesc %d\n%s\n" % (len(text), text)]
    parts += [b"file - %d %s\n%s\n" % (len(body), path, body) for path, body in sorted(files.items())]
    return b"".join(parts) + b"end\n"


def records(count):
    """The record of the first changeset, and then so many, each of which changes one file."""
    files = {b"d%02d/f%03d" % (k // 100, k): b"%d\n" % k for k in range(FILES)}
    yield record(b"first", files)
    for number in range(count):
        files[b"d%02d/f%03d" % (number % FILES // 100, number % FILES)] = b"c%d\n" % number
        yield record(b"change %d" % number, files)


def run(program, folder, word, given=None):
    """The time that a command takes."""
    start = time.perf_counter()
    subprocess.run([program, word], cwd=folder, stdin=given, check=True, stdout=subprocess.DEVNULL)
    return time.perf_counter() - start


def begin(program, work, name, first):
    folder = os.path.join(work, name)
    os.mkdir(folder)
    run(program, folder, "init")
    subprocess.run([program, "commit"], cwd=folder, input=first, check=True, stdout=subprocess.DEVNULL)
    return folder


def try_import(program, work, count):
    given = records(count)
    folder = begin(program, work, "imported", next(given))
    path = os.path.join(work, "records")
    with open(path, "wb") as out:
        out.writelines(given)
        out.write(b"end import\n")
    with open(path, "rb") as file:
        took = run(program, folder, "import", file)
    peak = resource.getrusage(resource.RUSAGE_CHILDREN).ru_maxrss / 1024
    print(f"import of {count:,} records ({os.path.getsize(path) / 1e6:.0f} MB): {took:.2f} s, {peak:.0f} MB at the most")
    return folder, took


def try_commits(program, work, count, made):
    given = records(made)
    folder = begin(program, work, "committed", next(given))
    took = 0.0
    for one in given:
        start = time.perf_counter()
        subprocess.run([program, "commit"], cwd=folder, input=one, check=True, stdout=subprocess.DEVNULL)
        took += time.perf_counter() - start
    print(f"{made:,} commits: {took:.2f} s, so {count:,} of them {took * count / made:.1f} s")
    return took * count / made


def try_unbundle(work, folder):
    """Mercurial reads the history that was imported, as a bundle, into a repository that has its first changeset."""
    bundle, theirs = os.path.join(work, "bundle"), os.path.join(work, "theirs")
    subprocess.run(["hg", "clone", "--quiet", "--noupdate", "--pull", "--rev", "0", folder, theirs], env=HG, check=True)
    subprocess.run(["hg", "bundle", "--quiet", "--base", "0", "--type", "none-v2", bundle], cwd=folder, env=HG, check=True)
    start = time.perf_counter()
    subprocess.run(["hg", "unbundle", "--quiet", bundle], cwd=theirs, env=HG, check=True)
    took = time.perf_counter() - start
    tips = [subprocess.run(["hg", "log", "-r", "tip", "-T", "{rev}:{node}\n"], cwd=it, env=HG, check=True, stdout=subprocess.PIPE).stdout for it in (folder, theirs)]
    assert tips[0] == tips[1], "another history"
    print(f"hg unbundle of the same: {took:.2f} s")
    return took


def main():
    asked = [int(word) for word in sys.argv[1:]]
    count, made = asked[0] if asked else 10_000, asked[1] if len(asked) > 1 else 500
    program = subprocess.run([os.path.join(TOP, "bin/hg_store"), "--build"], capture_output=True, text=True, check=True).stdout.strip()
    with tempfile.TemporaryDirectory() as work:
        folder, took = try_import(program, work, count)
        commits = try_commits(program, work, count, made)
        print(f"an import takes {took / commits:.3f} of the time of the commits; wanted is 0.05 at the most")
        if shutil.which("hg"):
            print(f"and {took / try_unbundle(work, folder):.2f} of that of hg unbundle; wanted is 0.5 at the most")


if __name__ == "__main__":
    main()
