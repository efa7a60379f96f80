"""An extension of Mercurial for the tests: a random history, and what Mercurial says of it."""

import os
import random
import sys

from mercurial import context, hg, phases, registrar

sys.path.insert(0, os.path.dirname(os.path.abspath(__file__)))
import hg_answers  # noqa: E402

cmdtable = {}
command = registrar.command(cmdtable)

NAMES = [b"a", b"B/c.d/e", b"aux.c", b".x/y z", b"d.i/f_g", b"d.hg/f", b"src/" + b"long" * 30, b"caf\xc3\xa9", b"lpt1/~", b"k" * 113]
BODIES = [b"", b"\0b", b"up", b"\1\nq", b"text\n", b"\1\n\1\n", bytes(range(256)) * 40]


class Tree:
    """The files of a changeset: for each path its body, its flag, and what it was copied from."""

    def __init__(self, ctx):
        self.files = {p: (ctx[p].data(), ctx.flags(p), None) for p in ctx.manifest()}

    def change(self, draw, number):
        for _ in range(draw.randint(1, 4)):
            path = draw.choice(NAMES) + draw.choice([b"", b"1", b"2"])
            body = draw.choice(BODIES) + draw.choice([b"", b"%d\n" % number])
            kind = draw.randrange(10)
            if kind == 0 and self.files:
                del self.files[draw.choice(sorted(self.files))]
            elif kind == 1 and self.files:
                source = draw.choice(sorted(self.files))
                self.files[path] = (self.files[source][0], b"", source if source != path else None)
            elif kind == 2:
                self.files[path] = (b"to/%d" % number, b"l", None)
            elif path in self.files and kind == 3:
                self.files[path] = (self.files[path][0], b"x", None)
            else:
                self.files[path] = (body, b"", None)


def commit(repo, draw, number):
    first = draw.randrange(max(len(repo) - 5, 0), len(repo)) if len(repo) else -1
    parents = [repo[first].node(), repo.nullid]
    tree = Tree(repo[first])
    if number > 5 and number % 5 == 0:
        second = draw.randrange(len(repo))
        if not repo.changelog.isancestorrev(second, first) and not repo.changelog.isancestorrev(first, second):
            parents[1] = repo[second].node()
            tree.files.update((p, f) for p, f in Tree(repo[second]).files.items() if draw.random() < 0.5)
    tree.change(draw, number)
    before = [repo[p].manifest() for p in parents]
    paths = sorted(set(tree.files) | {p for m in before for p in m})

    def file(repo, change, path):
        if path not in tree.files:
            return None
        body, flag, source = tree.files[path]
        return context.memfilectx(repo, change, path, body, b"l" in flag, b"x" in flag, source)

    text = b"c%d\n\nmore \xc3\xbc" % number
    date = b"%d %d" % (draw.randint(-(10**6), 10**9), 3600 * draw.randint(-14, 12))
    extra = {b"branch": b"stable"} if draw.random() < 0.2 else {}
    context.memctx(repo, parents, text, paths, file, b"Ada <ada@example.org>", date, extra).commit()


@command(b"make-history", [], b"SEED COUNT")
def make_history(ui, repo, seed, count):
    draw = random.Random(int(seed))
    with repo.lock():
        for number in range(int(count)):
            commit(repo, draw, number)
        with repo.transaction(b"phases") as tr:
            phases.advanceboundary(repo, tr, phases.public, [repo[draw.randrange(len(repo))].node()])
            phases.retractboundary(repo, tr, phases.secret, [repo[draw.randrange(len(repo) * 2 // 3, len(repo))].node()])
            marks = [(b"@", repo[0].node()), (b"m\xc3\xa4rz", repo[len(repo) - 1].node()), (b"0x1", repo[len(repo) // 2].node())]
            repo._bookmarks.applychanges(repo, tr, marks)
    with repo.wlock():
        hg.clean(repo, repo[draw.randrange(len(repo))].node(), show_stats=False)


@command(b"expect-history", [], b"FOLDER")
def expect_history(ui, repo, folder):
    hg_answers.write_expected(repo.unfiltered(), os.fsdecode(folder))
