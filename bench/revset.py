#!/usr/bin/env python3
"""Times `revset` beside `heads` of the same program and `hg log -r`, over a store of so many changesets with 10,000 bookmarks and 2,000
draft roots (`write_history` of bench/questions.py). Each time is the median of so many runs, the start of the process included. A set
of 600 operators and one of 400 names are timed too, over 1,000,000 changesets where 100,000 are asked for.

    bench/revset.py [--program FILE] [COUNT]
"""
import os
import shutil
import sys
import tempfile

import questions
from log import TOP, median, output_of

SETS = [
    "tip",
    "heads(all())",
    "::tip and not 2000::",
    "roots(draft())",
    "not not not not not not not not not not 5",
    "heads(roots(heads(::tip and not 2000::) or draft()) or 5:: and not public())",
    "ancestors(descendants(ancestors(descendants(ancestors(descendants(ancestors(descendants(heads(roots(all()))))))))))",
]
BESIDE = SETS[1:4]
LINE = "{rev} {node}\n"


def long_sets(count):
    return [
        ("600 operators", " or ".join(["not 5::"] * 200 + ["5"])),
        ("400 names", " or ".join(str(2477 * k % count) for k in range(400))),
    ]


def thrown_away(program, folder, words):
    """The time of a run whose output nobody reads."""
    return median(lambda: os.waitstatus_to_exitcode(os.system(f"cd {folder} && {program} {words} >/dev/null")))


def main():
    words = sys.argv[1:]
    if words[:1] == ["--program"]:
        program, words = words[1], words[2:]
    else:
        program = output_of([os.path.join(TOP, "bin", "hg_store"), "--build"], TOP).decode().strip()
    count = int(words[0]) if words else 100_000
    work = tempfile.mkdtemp(prefix="hg_store-bench-")
    try:
        folder, large = os.path.join(work, "history"), os.path.join(work, "large")
        questions.write_history(folder, count)
        heads = thrown_away(program, folder, "heads")
        print(f"| set, of {count:,} changesets | `hg_store` | to its `heads` | to `hg log -r` |")
        print("|---|---|---|---|")
        for text in SETS:
            own = thrown_away(program, folder, f"revset '{text}'")
            theirs = "not measured"
            if text in BESIDE and shutil.which("hg"):
                time = median(lambda: output_of(["hg", "log", "-r", text, "--template", LINE], folder))
                theirs = f"{own / time:.3f} ({time:.3f} s)"
            print(f"| `{text}` | {own:.4f} s | {own / heads:.2f} ({heads:.4f} s) | {theirs} |", flush=True)
        questions.write_history(large, 10 * count)
        heads = thrown_away(program, large, "heads")
        for name, text in long_sets(10 * count):
            own = thrown_away(program, large, f"revset '{text}'")
            print(f"| {name}, of {10 * count:,} | {own:.4f} s | {own / heads:.2f} ({heads:.4f} s) | not measured |", flush=True)
    finally:
        shutil.rmtree(work)


if __name__ == "__main__":
    main()
