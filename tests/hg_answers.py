"""What Mercurial says of a repository, as questions to the program: the words, the status and what is to be written."""

import os

from mercurial.node import hex


def questions(repo):
    last = len(repo) - 1
    changes = [repo[rev] for rev in range(len(repo))]

    def line(c):
        seconds, offset = c.date()
        numbers = [b"%d" % c.rev(), c.hex()] + [b"%d" % p for p in (c.p1().rev(), c.p2().rev())]
        text = [b"%d" % int(seconds), b"%d" % offset, c.user(), c.description().split(b"\n")[0]]
        return b"\t".join(numbers + text) + b"\n"

    def pair(c):
        return b"%d %s\n" % (c.rev(), c.hex())

    yield [b"log"], 0, b"".join(line(c) for c in reversed(changes))
    yield [b"heads"], 0, b"".join(pair(c) for c in changes if not c.children())
    marks = sorted(repo._bookmarks.items())
    yield [b"bookmarks"], 0, b"".join(b"%s\t%d\t%s\n" % (n, repo[m].rev(), hex(m)) for n, m in marks)
    parents = [repo[p] for p in repo.dirstate.parents() if p != repo.nullid]
    yield [b"parents"], 0, b"".join(pair(c) for c in parents)
    if parents:
        yield [b"phase", b"."], 0, parents[0].phasestr() + b"\n"
    for name, mark in marks:
        if b"\t" in name:  # the questions stand with tabs between their words
            continue
        yield [b"phase", b"--", name], 0, repo[mark].phasestr() + b"\n"
    for c in changes:
        rev = b"%d" % c.rev()
        manifest = c.manifest()
        rows = [(manifest[p], manifest.flags(p) or b"-", p) for p in sorted(manifest)]
        yield [b"files", rev], 0, b"".join(b"%s %s %s\n" % (hex(n), f, p) for n, f, p in rows)
        yield [b"phase", c.hex()], 0, c.phasestr() + b"\n"
        for _, _, path in rows:
            yield [b"cat", rev, path], 0, c[path].data()
        yield [b"cat", rev, b"nowhere"], 23, b"abort: unknown path\n"
    yield [b"files", b"%d" % (last + 1)], 12, b"abort: unknown revision\n"


def write_expected(repo, folder):
    """A file for each question's answer, and their list `index`: number, status and words, with tabs between."""
    os.makedirs(folder)
    with open(os.path.join(folder, "index"), "wb") as index:
        for number, (words, status, text) in enumerate(questions(repo)):
            with open(os.path.join(folder, "%03d" % number), "wb") as out:
                out.write(text)
            index.write(b"\t".join([b"%03d" % number, b"%d" % status] + words) + b"\n")
