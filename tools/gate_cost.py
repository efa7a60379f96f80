#!/usr/bin/env python3
"""What a gate costs: watches the checker's processes while a command runs, and prints a table in minutes of one core.

    tools/gate_cost.py rt ci

A row a crate: its proofs, the proofs of its tests, its must-fail edits; then what the command itself and all else took, most of it `rt`,
which sums files. Processes that live less than a quarter of a second may be missed; the last line has the whole as the system counts it.

The rows are compared with those of CONTRIBUTING.md. A machine may be slower or faster than that of the table, by the median of all
rows; where a crate took more than 30 % above its row besides, it is named and the status is 1.
"""

import collections
import os
import pathlib
import re
import resource
import signal
import statistics
import subprocess
import sys
import time

TABLE = pathlib.Path(__file__).resolve().parent.parent / "CONTRIBUTING.md"
ALLOWED, LEAST = 1.3, 0.5  # above a row, and minutes below which nothing is said
TICKS = os.sysconf("SC_CLK_TCK")


def read(name):
    try:
        with open(name, "rb") as file:
            return file.read()
    except OSError:
        return b""


def kind_of(pid, words):
    """The crate and what is proved of it: its own functions, its tests, or an edit."""
    if b"--crate-name" not in words:
        return None
    crate = words[words.index(b"--crate-name") + 1].decode()
    try:
        folder = os.readlink(f"/proc/{pid}/cwd")
    except OSError:
        folder = ""
    if "/rt-edit" in folder:
        return crate, "edits"
    return crate, "tests" if b"--test" in words else "proofs"


def of_this_session(pid):
    try:
        return os.getsid(int(pid)) == os.getsid(0)
    except OSError:
        return False


def seconds(pid):
    text = read(f"/proc/{pid}/stat").decode(errors="replace")
    if not text:
        return 0.0
    fields = text[text.rindex(")") + 2 :].split()
    return (int(fields[11]) + int(fields[12])) / TICKS


def watch(process):
    """The minutes of each kind, also where the watching is stopped by a signal."""
    kinds, times = {}, {}
    signal.signal(signal.SIGTERM, lambda *_: process.terminate())
    while process.poll() is None:
        for pid in filter(str.isdigit, os.listdir("/proc")):
            # a process that is another command yet may become a checker
            if not kinds.get(pid):
                words = read(f"/proc/{pid}/cmdline").split(b"\0")
                is_checker = words and re.search(rb"/(rattle|antt)[^/]*$", words[0]) and of_this_session(pid)
                kinds[pid] = kind_of(pid, words) if is_checker else None
            if kinds[pid]:
                times[pid] = max(times.get(pid, 0.0), seconds(pid))
        time.sleep(0.25)
    table = collections.defaultdict(float)
    for pid, spent in times.items():
        table[kinds[pid]] += spent / 60
    return table


def rows_of_table():
    """The minutes of each crate in CONTRIBUTING.md, by kind."""
    rows = {}
    for line in TABLE.read_text().splitlines():
        cells = re.fullmatch(r"\| `(\w+)` \| ?([\d.]*) \| ?([\d.]*) \| ?([\d.]*) \|", line)
        if cells:
            rows[cells[1]] = [float(cell or 0) for cell in cells.groups()[1:]]
    return rows


def above_their_rows(found):
    """The crates that took more than their rows, of those of which all was done that the rows have."""
    rows = rows_of_table()
    whole = {crate for crate, cells in found.items() if crate in rows and all(now or not then for now, then in zip(cells, rows[crate]))}
    ratios = {crate: sum(found[crate]) / sum(rows[crate]) for crate in whole if sum(rows[crate]) > 0}
    usual = statistics.median(ratios.values()) if ratios else 1
    for crate, ratio in sorted(ratios.items()):
        if ratio > ALLOWED * usual and sum(found[crate]) > LEAST:
            yield f"{crate}: {sum(found[crate]):.1f} minutes, and {sum(rows[crate]) * usual:.1f} by its row"


def main():
    process = subprocess.Popen(sys.argv[1:])
    table = watch(process)
    crates = sorted({crate for crate, _ in table})
    found = {crate: [table[crate, kind] for kind in ("proofs", "tests", "edits")] for crate in crates}
    print("\n| Crate | Proofs | Tests | Edits | All |\n|---|---|---|---|---|")
    for crate, cells in found.items():
        print(f"| `{crate}` | " + " | ".join(f"{n:.1f}" for n in cells + [sum(cells)]) + " |")
    used = resource.getrusage(resource.RUSAGE_CHILDREN)
    whole = (used.ru_utime + used.ru_stime) / 60
    print("| all crates | " + " | ".join(f"{sum(cells[kind] for cells in found.values()):.1f}" for kind in range(3)) + " | |")
    print(f"| the command itself and all else | | | | {whole - sum(map(sum, found.values())):.1f} |")
    print(f"| the whole | | | | {whole:.1f} |")
    dear = list(above_their_rows(found))
    print("\n".join(dear))
    sys.exit(process.returncode or (1 if dear else 0))


main()
