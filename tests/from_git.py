#!/usr/bin/env python3
"""Makes repositories of random git histories by bin/from_git, and compares: Mercurial finds nothing wrong, each tree is git's byte by byte,
and so are parents, authors, dates, messages, branches and tags. What cannot be held is refused by its name, and nothing is left. The example of README.md
is run as it stands there.

    tests/from_git.py [COMMITS]      (2,000 where nothing is said)

Without git or `hg`, which are installed where that can be, all is skipped. The last line is 'N passed, M failed' or 'N passed, M failed,
K skipped'.
"""

import os
import random
import re
import shutil
import subprocess
import sys
import tempfile

sys.dont_write_bytecode = True
from checks import HERE, Checks, built_program
from progress import Ran

FROM_GIT = os.path.join(HERE, "..", "bin", "from_git")
ENV = dict(os.environ, GIT_CONFIG_GLOBAL="/dev/null", GIT_CONFIG_NOSYSTEM="1", HGRCPATH="/dev/null", HGPLAIN="1", HGENCODING="UTF-8", HG_STORE_TOLD="yes", TZ="UTC")
NAMES = [b"a", b"dir/b", b"dir/deep/er/c", b"caf\xc3\xa9", b'quoted "x"', b"tab\there", b"Upper", b"aux.c", b"x y", b"back\\slash"]
ZONES = [b"+0000", b"+0130", b"-0800", b"+1400"]


def with_tools():
    missing = [package for word, package in (("git", "git"), ("hg", "mercurial")) if not shutil.which(word)]
    if missing and os.geteuid() == 0 and shutil.which("apt-get"):
        for words in (["update"], ["install", "-y", *missing]):
            subprocess.run(["apt-get", "-qq", *words], stdout=subprocess.DEVNULL, stderr=subprocess.DEVNULL, check=False)
    return shutil.which("git") and shutil.which("hg")


def run(*words, given=None, check=True):
    return subprocess.run(words, input=given, env=ENV, stdout=subprocess.PIPE, stderr=subprocess.PIPE, check=check)


# ---- a history, in the form that git reads


def quoted(path):
    return b'"' + b"".join(b"\\%03o" % byte if byte < 32 or byte > 126 or byte in b'"\\' else bytes([byte]) for byte in path) + b'"'


class History:
    """Commits on branches that part and merge, with files that are changed, moved, removed, made executable or links."""

    def __init__(self, draw):
        self.draw, self.parts, self.trees, self.heads = draw, [], {}, {b"main": None}

    def body(self):
        # long enough that git sees a moved one as the same
        return b"".join(b"line %d\n" % self.draw.randrange(1000) for _ in range(self.draw.randrange(60)))

    def change(self, tree):
        draw = self.draw
        for _ in range(draw.randint(1, 3)):
            kind, path = draw.randrange(10), draw.choice(NAMES) + b"%d" % draw.randrange(6)
            if kind < 2 and tree:
                tree[path] = tree.pop(draw.choice(sorted(tree)))
            elif kind == 2 and tree:
                del tree[draw.choice(sorted(tree))]
            elif kind == 3:
                tree[path] = (b"120000", draw.choice(NAMES))
            elif kind == 4 and path in tree and tree[path][0] != b"120000":
                tree[path] = (b"100755", tree[path][1])
            else:
                tree[path] = (b"100644", self.body())

    def commit(self, number):
        draw = self.draw
        branch = draw.choice(sorted(self.heads))
        parents = [self.heads[branch]] if self.heads[branch] else []
        other = self.heads[draw.choice(sorted(self.heads))]
        if parents and other and other not in parents and draw.randrange(4) == 0:
            parents.append(other)
        tree = {path: file for parent in reversed(parents) for path, file in self.trees[parent].items()}
        before = self.trees[parents[0]] if parents else {}
        while tree == before:
            self.change(tree)
        mark = number + 1
        when = b"%d %s" % (1_500_000_000 + 60 * number, draw.choice(ZONES))
        message = draw.choice([b"change %d\n", b"change %d\n\nMore of it,  \nin lines.\n", b"\xc3\xa9t\xc3\xa9 %d"]) % number
        lines = [b"commit refs/heads/" + branch, b"mark :%d" % mark, b"author Ada L <ada@example.org> " + when, b"committer Bob <bob@example.org> 1700000000 +0000"]
        lines += [b"data %d" % len(message), message, *(b"%s :%d" % (word, parent) for word, parent in zip((b"from", b"merge"), parents)), b"deleteall"]
        for path, (mode, body) in tree.items():
            lines += [b"M %s inline %s" % (mode, quoted(path)), b"data %d" % len(body), body]
        self.parts.append(b"\n".join(lines) + b"\n\n")
        self.heads[branch], self.trees[mark] = mark, tree
        if draw.randrange(60) == 0 and len(self.heads) < 12:
            self.heads[b"side/%d" % number] = mark
            self.parts.append(b"reset refs/heads/side/%d\nfrom :%d\n\n" % (number, mark))

    def stream(self, count):
        for number in range(count):
            self.commit(number)
        marks = self.draw.sample(range(1, count + 1), min(count, 6))
        for number, mark in enumerate(marks):
            self.parts.append(b"reset refs/tags/v%d.0\nfrom :%d\n\n" % (number, mark) if number % 2 else b"tag v%d.0\nfrom :%d\ntagger Eve <e> 0 +0000\ndata 3\nxyz\n" % (number, mark))
        # a tag with the name of a branch
        self.parts.append(b"reset refs/tags/main\nfrom :1\n\n")
        return b"".join(self.parts)


# ---- what git and Mercurial say of the same


def git(folder, *words, given=None):
    return run("git", "-C", folder, *words, given=given).stdout


def hg(folder, *words):
    return run("hg", "-R", folder, *words).stdout


def stripped(message):
    return b"\n".join(line.rstrip() for line in message.split(b"\n")).strip(b"\n")


def said_by_git(folder):
    """Of each commit its node, parents, author, date and message."""
    found = []
    for text in git(folder, "log", "--all", "-z", "--format=%H%x01%P%x01%an <%ae>%x01%ad%x01%B", "--date=raw").split(b"\0")[:-1]:
        node, parents, user, date, message = text.split(b"\x01", 4)
        seconds, zone = date.split()
        east = (int(zone[1:3]) * 60 + int(zone[3:])) * (-60 if zone[:1] == b"-" else 60)
        found.append((node, parents.split(), (user, b"%d %d" % (int(seconds), -east), stripped(message))))
    return found


def said_by_hg(folder):
    """Of each changeset its parents, and author, date and message."""
    found = []
    for text in hg(folder, "log", "-r", "all()", "-T", "{p1.rev} {p2.rev}\\1{user}\\1{date|hgdate}\\1{desc}\\0").split(b"\0")[:-1]:
        parents, *rest = text.split(b"\x01", 3)
        found.append(([int(number) for number in parents.split() if number != b"-1"], tuple(rest)))
    return found


def trees_of_git(folder, numbers):
    lines = set()
    for node, number in numbers.items():
        for line in git(folder, "ls-tree", "-r", "-z", node).split(b"\0")[:-1]:
            head, path = line.split(b"\t", 1)
            mode, _, body = head.split()
            lines.add(b"%d %s %s %s" % (number, mode, body, path))
    return lines


def bookmarks_of_git(folder, numbers):
    names = {}
    for line in git(folder, "for-each-ref", "--format=%(refname) %(objectname) %(*objectname)").splitlines():
        name, *nodes = line.split()
        _, kind, short = name.split(b"/", 2)
        names[short if short not in names else kind + b"/" + short] = numbers[nodes[-1]]
    return names


def try_history(checks, work, seed, count):
    source, made = os.path.join(work, "source"), os.path.join(work, "made")
    run("git", "init", "--quiet", "--initial-branch=main", source)
    git(source, "fast-import", "--quiet", given=History(random.Random(seed)).stream(count))
    ended = Ran(FROM_GIT, work, [source, made], b" ", True)
    checks.check(f"seed {seed} is made: {ended.said.decode()}", ended.status == 0)
    if ended.status:
        return
    if count >= 2000:
        # which of the lines are drawn is the clock's affair: its own, and those of the import
        is_told = re.fullmatch(rb"(\r\x1b\[K[a-z]+: [^\r]*)+(\r\x1b\[K)+", ended.said)
        checks.check(f"seed {seed}: a terminal is told how far it is, which is taken away: {ended.said}", is_told)
    commits, changesets = said_by_git(source), said_by_hg(made)
    # each message has the number of its commit
    by_message = {said: number for number, (_, said) in enumerate(changesets)}
    numbers = {node: by_message.get(said, -1) for node, _, said in commits}
    checks.check(f"seed {seed}: each commit is one changeset, with its author, date and message", len(by_message) == len(changesets) == len(commits) == count and sorted(numbers.values()) == list(range(count)))
    checks.check(f"seed {seed}: the parents are the commit's", all(changesets[numbers[node]][0] == [numbers[parent] for parent in parents] for node, parents, _ in commits))
    trees = hg(made, "--config", f"extensions.hg_trees={HERE}/hg_trees.py", "print-trees").split(b"\0")[:-1]
    checks.check(f"seed {seed}: each tree is git's, byte by byte", set(trees) == trees_of_git(source, numbers) and len(trees) == len(set(trees)))
    marks = dict(line.split(b"\1") for line in hg(made, "bookmarks", "-T", "{bookmark}\\1{rev}\\n").splitlines())
    checks.check(f"seed {seed}: branches and tags are bookmarks", marks == {name: b"%d" % number for name, number in bookmarks_of_git(source, numbers).items()})
    checks.check(f"seed {seed}: Mercurial finds nothing wrong", run("hg", "-R", made, "verify", "--quiet").stdout == b"")
    checks.check(f"seed {seed}: the last changeset is what git has checked out, where nothing stands on it", numbers[git(source, "rev-parse", "HEAD").strip()] in (count - 1, *(parent for parents, _ in changesets for parent in parents)))
    copies = {(numbers[node], path, source_path) for node, path, source_path in renames_of_git(source, commits)}
    ours = {tuple(line.split(b"\1")) for line in hg(made, "log", "-r", "not merge()", "-T", "{file_copies % '{rev}\\1{name}\\1{source}\\0'}").split(b"\0")[:-1]}
    checks.check(f"seed {seed}: renames are git's ({len(ours)})", ours and {(int(rev), path, old) for rev, path, old in ours} >= copies)
    shutil.rmtree(source)
    shutil.rmtree(made)


def renames_of_git(folder, commits):
    """The renames of commits with one parent, by git's own account of a difference."""
    alone = b"".join(node + b"\n" for node, parents, _ in commits if len(parents) == 1)
    fields = iter(git(folder, "diff-tree", "--stdin", "-r", "-M", "-z", "--diff-filter=R", "--name-status", given=alone).split(b"\0"))
    node = None
    for field in fields:
        if field[:1] == b"R" and field[1:].isdigit():
            source = next(fields)
            yield node, next(fields), source
        elif len(field) == 40:
            node = field


# ---- what is refused


def small(work, *commits):
    """A git repository of these commits, each of an author, a list of parents and files by their paths."""
    folder = os.path.join(work, "small")
    shutil.rmtree(folder, ignore_errors=True)
    run("git", "init", "--quiet", "--initial-branch=main", folder)
    parts = []
    for number, (author, parents, files) in enumerate(commits):
        parts.append(b"commit refs/heads/main\nmark :%d\nauthor %s\ncommitter Bob <b> 5 +0000\ndata 1\nm\n" % (number + 1, author))
        parts += [b"%s :%d\n" % (b"merge" if place else b"from", parent) for place, parent in enumerate(parents)]
        parts += [b"deleteall\n", *(b"M %s inline %s\ndata %d\n%s\n" % (mode, path, len(body), body) for path, (mode, body) in files.items()), b"\n"]
    git(folder, "fast-import", "--quiet", "--force", "--date-format=raw-permissive", given=b"".join(parts))
    return folder


def try_refusals(checks, work):
    ada, a, b = b"Ada <a> 5 +0000", {b"a": (b"100644", b"a")}, {b"a": (b"100644", b"b")}
    made = os.path.join(work, "made")

    def refused(what, words, source, *options):
        before = sorted(os.listdir(work))
        ended = run(FROM_GIT, *options, source, made, check=False)
        checks.check(f"{what}: {ended.stderr.decode()}", ended.returncode == 1 and words in ended.stderr.decode() and sorted(os.listdir(work)) == before)

    def accepted(what, said, source, *options):
        ended = run(FROM_GIT, *options, source, made, check=False)
        checks.check(f"{what}: {ended.stderr.decode()}", ended.returncode == 0 and ended.stdout.decode() == said)
        shutil.rmtree(made, ignore_errors=True)

    one = (ada, [], a)
    refused("a folder that is no repository", "git rev-parse failed", work)
    refused("a merge of three", "merges 3 parents", small(work, one, (ada, [1], b), (ada, [1], {b"c": (b"100644", b"")}), (ada, [1, 2, 3], a)))
    empty = small(work, one, (ada, [1], a), (ada, [2], b))
    refused("a commit that changes nothing", "--leave-out-empty", empty)
    accepted("without it", "2 changesets, 1 bookmarks\n", empty, "--leave-out-empty")
    refused("a path that Mercurial has for itself", "which Mercurial cannot hold", small(work, (ada, [], {b"d/.HG/x": (b"100644", b"")})))
    refused("a body that is too long", "16,777,216 can be held", small(work, (ada, [], {b"a": (b"100644", bytes(16 << 20) + b"a")})))
    refused("a date out of bounds", "has a date that no calendar has", small(work, (b"Ada <a> 5 +5100", [], a)))
    latin = small(work, (b"Ad\xe9 <a> 5 +0000", [], a))
    refused("an author in another encoding", "--encoding NAME", latin)
    accepted("whose name is said", "1 changesets, 1 bookmarks\n", latin, "--encoding", "latin-1")
    tagged = small(work, one, (ada, [1], b))
    git(tagged, "tag", "2023", "HEAD~1")
    refused("a tag of digits", "--leave-out refs/tags/2023", tagged)
    accepted("without it", "2 changesets, 1 bookmarks\n", tagged, "--leave-out", "2023")
    git(tagged, "tag", "-d", "2023")
    git(tagged, "tag", "tree", "HEAD^{tree}")
    refused("a tag of a tree", "names no commit", tagged)
    refused("a tag that is not there", "no branch or tag", tagged, "--leave-out", "none")
    git(tagged, "update-index", "--add", "--cacheinfo", "160000," + "1" * 40 + ",sub")
    git(tagged, "-c", "user.name=a", "-c", "user.email=a", "commit", "-qm", "sub")
    refused("a submodule", "the submodule sub", tagged, "--leave-out", "tree")
    shallow = os.path.join(work, "shallow")
    run("git", "clone", "--quiet", "--depth", "1", "file://" + small(work, one, (ada, [1], b)), shallow)
    refused("a shallow clone", "git fetch --unshallow", shallow)
    os.mkdir(made)
    refused("a folder that stands", "stands already", small(work, one))


def try_example(checks, work):
    """The example of README.md: the commands behind '$ ', and what they write."""
    with open(os.path.join(HERE, "..", "README.md"), encoding="utf-8") as document:
        lines = re.search(r"^From git:.*\n\n((?:    .*\n)+)", document.read(), re.MULTILINE)[1].replace("    ", "").splitlines(True)
    commands = "".join(line[2:] for line in lines if line.startswith("$ "))
    known = {f"GIT_{who}_{what}": "ada" for who in ("AUTHOR", "COMMITTER") for what in ("NAME", "EMAIL")}
    env = dict(ENV, **known, PATH=f"{os.path.dirname(FROM_GIT)}:{ENV['PATH']}")
    ended = subprocess.run(["bash", "-c", commands], cwd=work, env=env, stdout=subprocess.PIPE, stderr=subprocess.STDOUT, check=False)
    checks.check(f"the example of README.md: {ended.stdout.decode()}", ended.stdout.decode() == "".join(line for line in lines if not line.startswith("$ ")))


def main():
    checks = Checks()
    if not with_tools():
        checks.skipped += 1
    else:
        built_program()
        with tempfile.TemporaryDirectory() as work:
            try_example(checks, tempfile.mkdtemp(dir=work))
            try_refusals(checks, tempfile.mkdtemp(dir=work))
            for seed in (1, 2):
                try_history(checks, work, seed, 60)
            try_history(checks, work, 3, int(sys.argv[1]) if len(sys.argv) > 1 else 2000)
    print(checks)
    sys.exit(checks.failed > 0)


main()
