#!/usr/bin/env python3
"""Sessions: scripts of workers that commit to a repository and ask it at the same time.

    tests/session.py [SEED]

What a session writes is taken apart. Its published jobs, done one after another by a second, simple implementation
(`tests/plain_store.py`), each answer what the session says of them, and leave the same files byte for byte. Each question was answered
of the repository after some number of these jobs, which never falls along a worker, and which is behind the worker's own jobs before
it; so was each job that was refused. Then what one worker is answered, against the same commands one by one; scripts that are none; and yards that refuse a session.
Mercurial, where it is there, finds nothing wrong in the end. The last line is 'N passed, M failed' or 'N passed, M failed, K skipped'.
"""

import os
import pickle
import random
import shutil
import subprocess
import sys
import tempfile

sys.dont_write_bytecode = True
from checks import Checks, built_program, bytes_of, lay
from plain_record import read_one
from plain_store import PHASES, Refused, Store

PLACED = b"abort: bad input at %d\n"
NEW = b"commit\nuser test\ndate 0 0\ndesc 1\na\nfile - 2 a\na\n\nend\n"
NEW_NODE = b"cb9a9f314b8b07ba71012fcdbc544b5a4d82ff5b"  # as Mercurial gives it


def record(parent, files, text):
    """A record of these files, on the changeset of this name where there is one."""
    bodies = b"".join(b"file - %d %s\n%s\n" % (len(body), path, body) for path, body in sorted(files.items()))
    parent = b"parent %s\n" % parent if parent is not None else b""
    return b"commit\n" + parent + b"user u\ndate 0 0\ndesc %d\n%s\n" % (len(text), text) + bodies + b"end\n"


def script(workers):
    """The script of these workers' jobs: bytes that end in the record where the job is a commit."""
    lines = [b"session %d\n" % len(workers)]
    most = max(map(len, workers))
    for place in range(most):
        lines += [b"%d %s" % (worker, jobs[place]) for worker, jobs in enumerate(workers) if place < len(jobs)]
    return b"".join(lines) + b"end session\n"


def commit(parent, files, text):
    """A job that commits: its line, and the record behind it."""
    return b"commit\n" + record(parent, files, text)


def taken_apart(text):
    """What a session wrote: its published jobs, the unsure one, and each worker's answers as pairs of status and text."""
    published, unsure, replies = [], None, {}
    while text:
        line, text = text.split(b"\n", 1)
        words = line.split(b" ")
        if words[0] == b"published":
            rev, node = words[3].split(b":")
            published.append((int(words[1]), int(words[2]), int(rev), node))
        elif words[0] == b"unsure":
            unsure = (int(words[1]), int(words[2]))
        else:
            assert [words[0], words[2], words[4], words[6]] == [b"worker", b"job", b"status", b"length"], line
            worker, job, status, length = (int(words[place]) for place in (1, 3, 5, 7))
            answers = replies.setdefault(worker, [])
            assert job == len(answers) and text[length : length + 1] == b"\n", line
            answers.append((status, text[:length]))
            text = text[length + 1 :]
    return published, unsure, replies


class Replay:
    """The second implementation, and what each question is answered after each of its jobs."""

    def __init__(self):
        self.store, self.bodies, self.marks_before = Store(), [], {}

    def do(self, job):
        """Does a job that writes: its status and text."""
        self.marks_before = dict(self.store.marks)
        word, _, rest = job.rstrip(b"\n").partition(b" ") if not job.startswith(b"commit\n") else (b"commit", b"", b"")
        rest = rest.decode("utf-8", "surrogateescape")
        names = rest.split(" ", 1)
        try:
            if word == b"commit":
                parents, tree, *more = read_one(job[len(b"commit\n") :])
                said = self.store.commit([name.decode() for name in parents], tree, *more)
                self.bodies.append(tree)
            elif word == b"bookmark":
                said = self.store.mark(names[1], names[0])
            elif word == b"unbookmark":
                said = self.store.unmark(rest)
            else:
                phase, _, force = names[1].partition(" ")
                said = self.store.move(names[0], phase, force == "force")
        except Refused as refused:
            return refused.status, refused.line.encode() + b"\n"
        return 0, said.encode() + b"\n"

    def made_by(self, job, said):
        """The number of the changeset that a job which was just done made or named; of a bookmark that went, the one that it had."""
        word = job.split(b"\n")[0].split(b" ")[0]
        if word == b"unbookmark":
            return self.marks_before[job.rstrip(b"\n").split(b" ", 1)[1].decode()]
        return int({b"commit": said.split(b":")[0], b"phase": said.split(b" ")[0], b"bookmark": said.rsplit(b" ", 1)[-1]}[word])

    def copy(self):
        return pickle.loads(pickle.dumps(self))

    def ask(self, job):
        """What a question is answered now."""
        word, *rest = job.rstrip(b"\n").split(b" ", 2)
        if not rest:
            return 0, self.store.answers()[word.decode()].encode()
        rev = self.store.named(rest[0].decode("utf-8", "surrogateescape"))
        if rev is None:
            return 12, b"abort: unknown revision\n"
        if word == b"phase":
            return 0, PHASES[self.store.phases[rev]].encode() + b"\n"
        if word == b"files":
            return 0, self.store.listing(rev)
        if rest[1] not in self.bodies[rev]:
            return 23, b"abort: unknown path\n"
        return 0, self.bodies[rev][rest[1]][1]


def writes(job):
    words = job.rstrip(b"\n").split(b" ")
    return words[0].split(b"\n")[0] in (b"commit", b"bookmark", b"unbookmark") or (words[0] == b"phase" and len(words) > 2)


# A view is of four places in the list of jobs, which ascend: b of its bookmarks, w of its working parents, c of its changesets, and p of
# their phases.
def views(job, states, least):
    """What the views from these places on may answer, each with those of its places on which that rests."""
    word, *rest = job.rstrip(b"\n").split(b" ", 2)
    name = rest[0].decode() if rest else ""
    kind = {b"bookmarks": "b", b"parents": "w"}.get(word, "c")
    if name == ".":
        kind = "w"
    elif name and not name.isdecimal() and name not in ("tip", "null"):
        kind = "b"
    for place in range(least[kind], len(states)):
        rev = states[place].store.named(name) if name else None
        if word != b"phase" or rev is None:
            yield states[place].ask(job), {kind: place}
            continue
        for later in range(max(place, least["p"]), len(states)):
            yield (0, PHASES[states[later].store.phases[rev]].encode() + b"\n"), {kind: place, "p": later}


def raise_to(least, kind, place):
    """No later view has this number, or one of those behind it, below the place."""
    for behind in "bwcp"["bwcp".index(kind) :]:
        least[behind] = max(least[behind], place)


class Sessions(Checks):
    def __init__(self, program, folder, seed):
        super().__init__()
        self.program, self.folder, self.random = program, folder, random.Random(seed)

    def run(self, words, given=b""):
        ended = subprocess.run([self.program, *words], input=given, stdout=subprocess.PIPE, stderr=subprocess.DEVNULL, cwd=self.folder, check=False)
        return ended.returncode, ended.stdout

    def fresh(self, files=None):
        """An empty repository, or one of these files."""
        shutil.rmtree(os.path.join(self.folder, ".hg"), ignore_errors=True)
        self.check("init", self.run(["init"]) == (0, b""))
        lay(self.folder, files or {})

    # ---- many workers

    def session(self, what, replay, workers):
        """Runs a script over the files of the replay, and judges all that it wrote."""
        self.fresh(replay.store.files())
        status, text = self.run(["session"], script(workers))
        self.check(f"{what}: status {status}", status == 0)
        published, unsure, replies = taken_apart(text)
        self.check(f"{what}: unsure {unsure}", unsure is None)
        self.check(f"{what}: not all is answered", [len(replies.get(worker, [])) for worker in range(len(workers))] == list(map(len, workers)))
        states = self.replayed(what, replay, workers, published, replies)
        for worker, jobs in enumerate(workers):
            self.judge(f"{what}: worker {worker}", jobs, replies.get(worker, []), [place for place, entry in enumerate(published) if entry[0] == worker], states)
        self.check(f"{what}: the files are not those of the list", bytes_of(self.folder) == {name: data for name, data in replay.store.files().items() if data})
        self.check(f"{what}: verify", self.run(["verify"])[0] == 0)

    def replayed(self, what, replay, workers, published, replies):
        """Does the published jobs one after another. What the repository is before and after each."""
        states = [replay.copy()]
        for worker, job, rev, node in published:
            said = replay.do(workers[worker][job])
            self.check(f"{what}: {worker} {job}: not {said}", replies[worker][job] == said)
            is_this = said[0] == 0 and rev == replay.made_by(workers[worker][job], said[1])
            self.check(f"{what}: {worker} {job}: {rev} is another", is_this and replay.store.changelog.nodes[rev].hex().encode() == node)
            states.append(replay.copy())
        return states

    def judge(self, what, jobs, answers, own, states):
        """Each question was answered of a view none of whose numbers is below those of the one before, nor before the worker's own jobs;
        and each job that was refused is refused so by the repository at some place that is not before these."""
        least, behind, done = dict.fromkeys("bwcp", 0), 0, iter(own)
        for job, (status, text) in zip(jobs, answers):
            if not writes(job):
                fits = [numbers for said, numbers in views(job, states, least) if said == (status, text)]
                self.check(f"{what}: {job[:60]}: {status} is of no view from {least} on", bool(fits))
                for kind in {kind for numbers in fits for kind in numbers}:
                    raise_to(least, kind, min(numbers[kind] for numbers in fits))
            elif status == 0:
                behind = next(done, len(states)) + 1
                raise_to(least, "b", behind)
            else:
                fits = any(state.copy().do(job) == (status, text) for state in states[behind:])
                self.check(f"{what}: {job[:60]}: {status} is of no state from {behind} on", status in (12, 13, 26) and fits)
        self.check(f"{what}: a job is listed twice, or is not", next(done, None) is None)

    def two_write_and_two_ask(self):
        """Fifty commits each of two workers, each followed by a look at a file that all of them hold, while two others ask."""
        replay = Replay()
        self.check("the first changeset", replay.do(b"commit\n" + NEW) == (0, b"0:%s\n" % NEW_NODE))

        def commits(worker):
            jobs = []
            for number in range(50):
                body = b"%d of %d\n" % (number, worker)
                jobs += [commit(b"tip", {b"a": body, b"b": b"b\n"}, b"c"), b"cat tip a\n"]
            return jobs

        workers = [commits(0), commits(1), [b"log\n"] * 50, [b"log\n"] * 50]
        self.fresh(replay.store.files())
        cut = script(workers).removesuffix(b"end session\n")
        self.check("without its last line", self.run(["session"], cut) == (14, PLACED % len(cut)) and bytes_of(self.folder) == replay.store.files())
        self.session("two write and two ask", replay, workers)
        log = self.run(["log"])[1]
        self.check("101 changesets", log.count(b"\n") == 101)

    def random_jobs(self, workers, count):
        """Jobs of each kind, whose names mostly name something."""
        marks = [b"main", b"a b", b"stable"]
        name = lambda: self.random.choice([b"tip", b"tip", b".", b"0", b"1", b"main", b"7", b"null"])
        kinds = {
            "commit": lambda: commit(self.random.choice([b"tip", b"tip", b".", None]), {b"f%d" % self.random.randrange(4): b"%d\n" % self.random.randrange(10**9) for _ in range(2)}, b"c"),
            "mark": lambda: b"bookmark %s %s\n" % (name(), self.random.choice(marks)),
            "unmark": lambda: b"unbookmark %s\n" % self.random.choice(marks),
            "move": lambda: b"phase %s %s%s\n" % (name(), self.random.choice([b"public", b"draft", b"secret"]), self.random.choice([b"", b" force"])),
            "ask": lambda: self.random.choice([b"log\n", b"heads\n", b"bookmarks\n", b"parents\n", b"phase %s\n" % name(), b"files %s\n" % name(), b"cat %s f1\n" % name()]),
        }
        return [[kinds[self.random.choices(list(kinds), [4, 2, 1, 2, 9])[0]]() for _ in range(count)] for _ in range(workers)]

    def random_scripts(self):
        replay = Replay()
        for number, (workers, count) in enumerate([(1, 40), (2, 40), (3, 30), (4, 30), (8, 20), (64, 4)]):
            self.session(f"random script {number}", replay, self.random_jobs(workers, count))

    # ---- one worker

    def one_by_one(self):
        """One worker's answers are what the commands write, one after another."""
        self.fresh()
        base = commit(None, {b"a": b"1\n", b"dir/b": b"2\n"}, b"base")
        jobs = [(base, ["commit"]), (b"log\n", ["log"]), (b"files 0\n", ["files", "0"]), (b"bookmark tip a b\n", ["bookmark", "a b", "tip"]), (b"bookmarks\n", ["bookmarks"]), (b"phase 0\n", ["phase", "0"])]
        jobs += [(b"phase 0 public\n", ["phase", "0", "public"]), (b"phase 0 draft\n", ["phase", "0", "draft"]), (b"phase 0 draft force\n", ["phase", "--force", "0", "draft"]), (b"cat tip dir/b\n", ["cat", "tip", "dir/b"])]
        jobs += [(b"cat tip no\n", ["cat", "tip", "no"]), (b"unbookmark no\n", ["bookmark", "--delete", "no"]), (b"unbookmark a b\n", ["bookmark", "--delete", "a b"]), (b"heads\n", ["heads"]), (b"parents\n", ["parents"]), (base, ["commit"])]
        jobs += [(commit(b"tip", {b"a": b"1\n", b"dir/b": b"2\n"}, b"same"), ["commit"]), (b"log\n", ["log"])]
        wanted = [self.run(words, job[len(b"commit\n") :] if words == ["commit"] else b"") for job, words in jobs]
        alone = bytes_of(self.folder)
        self.fresh()
        status, text = self.run(["session"], script([[job for job, _ in jobs]]))
        replies = taken_apart(text)[2].get(0, [])
        self.check(f"one by one: {status}", status == 0 and len(replies) == len(jobs))
        for (job, _), got, want in zip(jobs, replies, wanted):
            self.check(f"one by one: {job[:40]}: {got}, not {want}", got == want)
        self.check("one by one: the files", bytes_of(self.folder) == alone)

    def written_out(self):
        """What three jobs write, in full."""
        self.fresh()
        self.run(["commit"], NEW)
        want = b"published 0 1 0:%s\nworker 0 job 0 status 0 length 6\ndraft\n\nworker 0 job 1 status 0 length 7\nmain 0\n\nworker 0 job 2 status 12 length 24\nabort: unknown revision\n\n" % NEW_NODE
        self.check("written out", self.run(["session"], b"session 1\n0 phase 0\n0 bookmark 0 main\n0 unbookmark x\nend session\n") == (0, want))
        self.check("no jobs", self.run(["session"], b"session 3\nend session\n") == (0, b""))

    # ---- what is refused

    def no_scripts(self):
        self.fresh()
        stands = bytes_of(self.folder)
        table = [(b"", 0), (b"session 1\n0 log\n", 16), (b"session 0\nend session\n", 0), (b"session 65\nend session\n", 0), (b"session 01\nend session\n", 0), (b"session 1\n1 log\nend session\n", 10), (b"session 1\n0 logs\nend session\n", 10)]
        table += [(b"session 1\n0 log\nend session\nx\n", 28), (b"session 1\nlog\nend session\n", 10), (b"session 1\n0 phase 0 none\nend session\n", 10), (b"session 1\n0 bookmark 0 7\nend session\n", 10), (b"session 1\n0 commit\nuser\nend\nend session\n", 19)]
        whole = script([[commit(None, {b"a": b"1\n"}, b"c"), b"log\n"]])
        table += [(whole[:length], length) for length in range(11, len(whole), 7)]
        for given, place in table:
            self.check(f"no script: {given[:60]}", self.run(["session"], given) == (14, PLACED % place))
        self.check("what is no script changes a file", bytes_of(self.folder) == stands)

    def refused(self):
        """Words, and yards in which no worker starts; a lock that stands refuses each job that writes, and no question."""
        one = b"session 1\n0 bookmark null m\n0 log\nend session\n"
        for words, want in ((["session", "x"], 1), (["session", "--", "x"], 2), (["session", "-x"], 1)):
            self.check(f"{words}", self.run(words, one) == (28, b"abort: bad word %d\n" % want))
        shutil.rmtree(os.path.join(self.folder, ".hg"), ignore_errors=True)
        self.check("no repository", self.run(["session"], one) == (24, b"abort: not a repository\n"))
        self.check("no repository, no script", self.run(["session"], b"") == (14, PLACED % 0))
        self.fresh({"requires": b"dotencode\nfncache\nrevlogv1\nstore\ntreemanifest\n"})
        self.check("another profile", self.run(["session"], one) == (27, b"abort: requirement treemanifest\n"))
        self.fresh({"wlock": b"me"})
        status, text = self.run(["session"], one)
        published, _, replies = taken_apart(text)
        self.check("a lock", (status, published) == (0, []) and replies[0][0][0] == 10 and b"me" in replies[0][0][1] and replies[0][1] == (0, b""))
        self.check("the lock stands", bytes_of(self.folder).get("wlock") == b"me")

    def mercurial(self):
        if shutil.which("hg"):
            told = subprocess.run(["hg", "verify", "-q"], stdout=subprocess.PIPE, stderr=subprocess.STDOUT, cwd=self.folder, check=False)
            self.check(f"hg verify: {told.stdout}", (told.returncode, told.stdout) == (0, b""))
        else:
            self.skipped += 1


def main():
    program = os.path.abspath(built_program())
    with tempfile.TemporaryDirectory() as folder:
        sessions = Sessions(program, folder, int(sys.argv[1]) if len(sys.argv) > 1 else 7)
        sessions.written_out()
        sessions.one_by_one()
        sessions.no_scripts()
        sessions.refused()
        sessions.two_write_and_two_ask()
        sessions.mercurial()
        sessions.random_scripts()
        sessions.mercurial()
    print(sessions)
    return 1 if sessions.failed else 0


if __name__ == "__main__":
    sys.exit(main())
