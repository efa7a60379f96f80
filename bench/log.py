#!/usr/bin/env python3
"""Times `hg_store log` over stores of 1,000, 10,000 and 100,000 changesets.

The stores are written here, as Mercurial lays out revlogs (its help topic `internals.revlogs`): each text whole and
uncompressed, the changelog separate, one linear history. Each time is the median of five runs. Beside it stand two others:
`hg log` with a template of the same fields, where `hg` is installed, and Python's own reading of the two files with the
SHA-1 of every text, which is the least that a check of every node costs.

    bench/log.py [COUNT..]
"""
import hashlib
import os
import shutil
import struct
import subprocess
import sys
import tempfile
import time

TOP = os.path.dirname(os.path.dirname(os.path.abspath(__file__)))
NULL_NODE = bytes(20)
RUNS = 5
TEMPLATE = ("{rev}\t{node}\t{p1rev}\t{p2rev}\t{date|hgdate}\t{author}\t{desc|firstline}\n")


def revlog(texts):
    """The bytes of index and data of a separate revlog in which each text follows the one before it."""
    index, data, offset, parent = bytearray(), bytearray(), 0, NULL_NODE
    for rev, text in enumerate(texts):
        chunk = text if text[:1] in (b"", b"\0") else b"u" + text
        node = hashlib.sha1(min(parent, NULL_NODE) + max(parent, NULL_NODE) + text).digest()
        entry = struct.pack(">Qiiiiii20s12x", offset << 16, len(chunk), len(text), rev, rev, rev - 1, -1, node)
        if rev == 0:
            entry = struct.pack(">I", 1) + entry[4:]
        index += entry
        data += chunk
        offset += len(chunk)
        parent = node
    return bytes(index), bytes(data)


def write_store(folder, count):
    """Lays a repository of so many changesets, each of which changes no file, into the folder."""
    manifest_index, manifest_data = revlog([b""])
    manifest_node = manifest_index[32:52].hex().encode()
    texts = [
        b"%s\nAda Lovelace <ada@example.org>\n%d 0\n\nchange %d of many\n\nand a second paragraph" % (
            manifest_node, 1_000_000_000 + 60 * rev, rev)
        for rev in range(count)
    ]
    changelog_index, changelog_data = revlog(texts)
    os.makedirs(os.path.join(folder, ".hg", "store"))
    files = {
        "requires": b"dotencode\nfncache\nrevlogv1\nstore\n",
        "store/00changelog.i": changelog_index,
        "store/00changelog.d": changelog_data,
        "store/00manifest.i": manifest_index,
        "store/00manifest.d": manifest_data,
        "store/fncache": b"",
    }
    for name, content in files.items():
        with open(os.path.join(folder, ".hg", name), "wb") as file:
            file.write(content)


def read_and_hash(folder):
    """Reads both files of the changelog, and computes the SHA-1 of each text behind its parents."""
    with open(os.path.join(folder, ".hg/store/00changelog.i"), "rb") as file:
        index = file.read()
    with open(os.path.join(folder, ".hg/store/00changelog.d"), "rb") as file:
        data = file.read()
    at, parent = 0, NULL_NODE
    for place in range(0, len(index), 64):
        stored = int.from_bytes(index[place + 8:place + 12], "big")
        node = hashlib.sha1(NULL_NODE + parent + data[at + 1:at + stored]).digest()
        assert node == index[place + 32:place + 52]
        at += stored
        parent = node


def median(run):
    times = []
    for _ in range(RUNS):
        start = time.perf_counter()
        run()
        times.append(time.perf_counter() - start)
    return sorted(times)[RUNS // 2]


def output_of(words, folder):
    plain = dict(os.environ, HGPLAIN="1", HGRCPATH="", HGENCODING="UTF-8")
    return subprocess.run(words, cwd=folder, env=plain, check=True, stdout=subprocess.PIPE).stdout


def memory(program, folder):
    """The greatest resident memory up to the first output, in MB. The index stands in memory by then, and later output
    takes no more."""
    with subprocess.Popen([program, "log"], cwd=folder, stdout=subprocess.PIPE) as running:
        running.stdout.read(1)
        with open(f"/proc/{running.pid}/status", encoding="ascii") as status:
            line = next(line for line in status if line.startswith("VmHWM"))
        running.stdout.read()
    return int(line.split()[1]) / 1024


def measure(program, count, has_hg):
    folder = tempfile.mkdtemp(prefix="hg_store-bench-")
    try:
        write_store(folder, count)
        ours = output_of([program, "log"], folder)
        assert ours.count(b"\n") == count
        own = median(lambda: output_of([program, "log"], folder))
        least = median(lambda: read_and_hash(folder))
        line = "| {:,} | {:.3f} s | {:,.0f} | {:.1f} MB | {:.2f} |".format(
            count, own, count / own, memory(program, folder), own / least)
        if not has_hg:
            return line + " not measured |"
        command = ["hg", "log", "--template", TEMPLATE]
        theirs = output_of(command, folder)
        same = theirs.replace(b" 0\tAda", b"\t0\tAda") == ours
        usual = median(lambda: output_of(command, folder))
        return line + " {:.3f} ({:.3f} s{}) |".format(own / usual, usual, "" if same else ", with other lines")
    finally:
        shutil.rmtree(folder)


def main():
    counts = [int(word) for word in sys.argv[1:]] or [1_000, 10_000, 100_000]
    program = output_of([os.path.join(TOP, "bin", "hg_store"), "--build"], TOP).decode().strip()
    has_hg = shutil.which("hg") is not None
    print("| changesets | `hg_store log` | changesets a second | memory | to reading and hashing in Python | to `hg log` |")
    print("|---|---|---|---|---|---|")
    for count in counts:
        print(measure(program, count, has_hg), flush=True)
    if not has_hg:
        print("\n`hg` is not installed here, so the ratio to it was not measured.")


if __name__ == "__main__":
    main()
