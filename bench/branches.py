#!/usr/bin/env python3
"""Times `branches` beside `log` of the same program, and where `hg` is installed beside `hg log -T '{branch}\\n'` and `hg branches --closed`,
over histories of so many changesets on 1,000 branches that are merged to and fro. Each time is the median of so many runs, the start
of the process included. Mercurial's `branches` is timed with its cache and without.

    bench/branches.py [--program FILE] [COUNT..]

10,000, 30,000 and 100,000 where none is said; the last line is the exponent from the first of them to the last.
"""
import hashlib
import math
import os
import random
import shutil
import struct
import sys
import tempfile

import log
from log import TOP, median, output_of

BRANCHES = 1000
STEPS = [("branches", "branches"), ("--steps 1000", "branches --steps 1000"), ("--steps 1", "branches --steps 1")]


def write_branches(folder, count):
    """A history in which each changeset goes on from a near one, or merges two, mostly on the branch of its first parent."""
    draw = random.Random(count)
    log.write_store(folder, 1)
    index, chunks, nodes, names = bytearray(), bytearray(), [], []
    for rev in range(count):
        near = range(max(0, rev - 2 * BRANCHES), rev)
        parents = sorted(draw.sample(near, min(len(near), draw.choice([1, 1, 1, 2]))))
        names.append(names[parents[0]] if parents and draw.random() < 0.8 else draw.randrange(BRANCHES))
        pair = [nodes[parent] for parent in parents] + [bytes(20), bytes(20)]
        text = b"%s\nAda Lovelace <ada@example.org>\n%d 0 branch:b%d\n\nchange %d of many\n\nand a second paragraph" % (bytes(20).hex().encode(), 1_000_000_000 + 60 * rev, names[-1], rev)
        nodes.append(hashlib.sha1(min(pair[:2]) + max(pair[:2]) + text).digest())
        first, second = [*parents, -1, -1][:2]
        index += struct.pack(">QIIIIii20s12x", len(chunks) << 16, 1 + len(text), len(text), rev, rev, first, second, nodes[-1])
        chunks += b"u" + text
    index[:4] = struct.pack(">I", 1)
    for name, content in [("00changelog.i", index), ("00changelog.d", chunks)]:
        with open(os.path.join(folder, ".hg/store", name), "wb") as file:
            file.write(content)


def thrown_away(words, folder):
    """The time of a run whose output nobody reads."""
    return median(lambda: os.waitstatus_to_exitcode(os.system(f"cd {folder} && {words} >/dev/null")))


def beside_mercurial(folder):
    """Mercurial's times: the branch of each changeset, its `branches` with its cache, and without."""
    if not shutil.which("hg"):
        return ["not measured"] * 3
    caches = os.path.join(folder, ".hg/cache")
    each = thrown_away("hg log -T '{branch}\\n'", folder)
    cached = thrown_away("hg branches --closed", folder)
    without = thrown_away(f"rm -rf {caches} && hg branches --closed", folder)
    return [f"{each:.3f} s", f"{cached:.3f} s", f"{without:.3f} s"]


def main():
    words = sys.argv[1:]
    if words[:1] == ["--program"]:
        program, words = words[1], words[2:]
    else:
        program = output_of([os.path.join(TOP, "bin", "hg_store"), "--build"], TOP).decode().strip()
    counts = [int(word) for word in words] or [10_000, 30_000, 100_000]
    print("| changesets | `log` | `branches` | to `log` | `--steps 1000` | `--steps 1` | `hg log -T '{branch}\\n'` | `hg branches --closed` | without its cache |")
    print("|---|---|---|---|---|---|---|---|---|")
    times = []
    for count in counts:
        folder = tempfile.mkdtemp(prefix="hg_store-bench-")
        try:
            write_branches(folder, count)
            whole = thrown_away(f"{program} log", folder)
            own = [thrown_away(f"{program} {said}", folder) for _, said in STEPS]
            times.append(own[0])
            theirs = " | ".join(beside_mercurial(folder))
            print(f"| {count:,} | {whole:.4f} s | {own[0]:.4f} s | {own[0] / whole:.2f} | {own[1]:.4f} s | {own[2]:.4f} s | {theirs} |", flush=True)
        finally:
            shutil.rmtree(folder)
    if len(counts) > 1:
        print(f"exponent {math.log(times[-1] / times[0]) / math.log(counts[-1] / counts[0]):.2f}")


if __name__ == "__main__":
    main()
