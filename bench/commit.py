#!/usr/bin/env python3
"""Times `hg_store commit`: one changed file among 100, among 20,000, and 1,000 commits in a row.

Beside it stand the bare appends and files of the same bytes by a process of their own (Python's start taken off), and `hg commit` of
the same change where `hg` is installed, by itself and through a command server that runs already. Each time is the median of so many
runs, the start of the process included.

    bench/commit.py
"""
import os
import shutil
import statistics
import struct
import subprocess
import sys
import tempfile
import time

TOP = os.path.dirname(os.path.dirname(os.path.abspath(__file__)))
RUNS = 9


def record(text, files):
    parts = [b"commit\nuser u\ndate 0 0\ndesc %d\n%s\n" % (len(text), text)]
    parts += [b"file - %d %s\n%s\n" % (len(body), path, body) for path, body in sorted(files.items())]
    return b"".join(parts) + b"end\n"


def tree(count):
    return {b"d%03d/f%05d" % (k // 100, k): b"line of %d\n" % k for k in range(count)}


def timed(work):
    start = time.perf_counter()
    work()
    return time.perf_counter() - start


class Ours:
    def __init__(self, program, folder):
        self.program, self.folder = program, folder
        subprocess.run([program, "init"], cwd=folder, check=True)

    def commit(self, given):
        subprocess.run([self.program, "commit"], input=given, cwd=self.folder, check=True, stdout=subprocess.DEVNULL)

    def peak(self, given):
        """The greatest resident set of a commit, in MB."""
        with open(os.path.join(self.folder, "given"), "wb") as out:
            out.write(given)
        script = "import resource,subprocess,sys; subprocess.run(sys.argv[1:], stdin=open('given'), check=True, stdout=subprocess.DEVNULL); print(resource.getrusage(resource.RUSAGE_CHILDREN).ru_maxrss)"
        said = subprocess.run([sys.executable, "-c", script, self.program, "commit"], cwd=self.folder, check=True, capture_output=True, text=True).stdout
        return int(said) / 1024


def sizes(folder):
    root = os.path.join(folder, ".hg")
    return {os.path.join(above, name): os.path.getsize(os.path.join(above, name)) for above, _, names in os.walk(root) for name in names}


def bare(folder, grown):
    """A program that appends as many bytes to as many files, one open and one write for each."""
    source = os.path.join(folder, "bare.c")
    calls = "".join(f'  append("f{k}", {size});\n' for k, size in enumerate(grown))
    with open(source, "w", encoding="ascii") as out:
        out.write("#include <fcntl.h>\n#include <unistd.h>\n#include <stdlib.h>\nstatic void append(const char *name, long size) {\n"
                  "  int file = open(name, O_WRONLY | O_CREAT | O_APPEND, 0666);\n  char *bytes = calloc(1, size);\n"
                  "  if (write(file, bytes, size) != size) exit(1);\n  free(bytes);\n  close(file);\n}\nint main(void) {\n" + calls + "  return 0;\n}\n")
    program = os.path.join(folder, "bare")
    subprocess.run(["gcc", "-O2", "-o", program, source], check=True)
    return program


def hg(folder, *words):
    env = dict(os.environ, HGRCPATH="/dev/null", HGPLAIN="1")
    return subprocess.run(["hg", *words], cwd=folder, env=env, check=True, stdout=subprocess.DEVNULL)


class Server:
    """Mercurial's command server (its wiki page "CommandServer")."""

    def __init__(self, folder):
        env = dict(os.environ, HGRCPATH="/dev/null", HGPLAIN="1")
        self.process = subprocess.Popen(["hg", "serve", "--cmdserver", "pipe"], cwd=folder, env=env, stdin=subprocess.PIPE, stdout=subprocess.PIPE)
        self.answer()

    def answer(self):
        channel, length = struct.unpack(">cI", self.process.stdout.read(5))
        return channel, self.process.stdout.read(length)

    def run(self, *words):
        given = b"\0".join(word.encode() for word in words)
        self.process.stdin.write(b"runcommand\n" + struct.pack(">I", len(given)) + given)
        self.process.stdin.flush()
        while self.answer()[0] != b"r":
            pass

    def end(self):
        self.process.stdin.close()
        self.process.wait()


def one_changed(program, work, count):
    folder = os.path.join(work, f"ours{count}")
    os.mkdir(folder)
    ours, files = Ours(program, folder), tree(count)
    ours.commit(record(b"first", files))
    times, grown = [], {}
    for run in range(RUNS):
        files[b"d000/f00000"] = b"changed %d\n" % run
        given, before = record(b"change %d" % run, files), sizes(folder)
        times.append(timed(lambda: ours.commit(given)))
        grown = {path: size - before.get(path, 0) for path, size in sizes(folder).items() if size != before.get(path, 0)}
    files[b"d000/f00000"] = b"for the memory\n"
    peak = ours.peak(record(b"memory", files))
    # the files that are replaced are written whole, beside what is appended
    rewritten = [os.path.getsize(os.path.join(folder, ".hg", name)) for name in ("dirstate", "store/phaseroots")]
    least = bare(work, list(grown.values()) + rewritten)
    bare_time = statistics.median(timed(lambda: subprocess.run([least], cwd=work, check=True)) for _ in range(RUNS))
    print(f"{count} files, one changed: {statistics.median(times) * 1000:.1f} ms, bare appends {bare_time * 1000:.1f} ms, {peak:.0f} MB")
    if shutil.which("hg"):
        beside_hg(work, count, files)


def beside_hg(work, count, files):
    folder = os.path.join(work, f"theirs{count}")
    os.mkdir(folder)
    hg(folder, "init")
    for path, body in files.items():
        name = os.path.join(os.fsencode(folder), path)
        os.makedirs(os.path.dirname(name), exist_ok=True)
        with open(name, "wb") as out:
            out.write(body)
    hg(folder, "commit", "--quiet", "--addremove", "-m", "first", "-u", "u")

    def change(run):
        with open(os.path.join(folder, "d000/f00000"), "w", encoding="ascii") as out:
            out.write(f"changed and longer by a run {run}\n")

    alone = []
    for run in range(3):
        change(run)
        alone.append(timed(lambda: hg(folder, "commit", "-m", "change", "-u", "u")))
    server = Server(folder)
    served = []
    for run in range(3, 6):
        change(run)
        served.append(timed(lambda: server.run("commit", "-m", "change", "-u", "u")))
    server.end()
    print(f"  hg commit {statistics.median(alone) * 1000:.0f} ms, through a command server {statistics.median(served) * 1000:.0f} ms")


def in_a_row(program, work):
    folder = os.path.join(work, "row")
    os.mkdir(folder)
    ours, files, times = Ours(program, folder), tree(20), []
    for run in range(1000):
        files[b"d000/f%05d" % (run % 20)] = b"change %d\n" % run
        given = record(b"change %d" % run, files)
        times.append(timed(lambda: ours.commit(given)))
    first, last = (statistics.median(part) * 1000 for part in (times[:100], times[-100:]))
    print(f"1,000 commits in a row: {sum(times):.1f} s; the first hundred {first:.2f} ms each, the last hundred {last:.2f} ms")


def main():
    program = subprocess.run([os.path.join(TOP, "bin/hg_store"), "--build"], capture_output=True, text=True, check=True).stdout.strip()
    with tempfile.TemporaryDirectory() as work:
        one_changed(program, work, 100)
        one_changed(program, work, 20000)
        in_a_row(program, work)


if __name__ == "__main__":
    main()
