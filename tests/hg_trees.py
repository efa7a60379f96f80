"""An extension of Mercurial for the tests: a line for each file of each changeset, with the name that git gives its body."""

import hashlib

from mercurial import registrar

cmdtable = {}
command = registrar.command(cmdtable)
MODES = {b"": b"100644", b"x": b"100755", b"l": b"120000"}


@command(b"print-trees", [], b"")
def print_trees(ui, repo):
    """writes number, mode, body and path of each file, with a NUL behind each"""
    names = {}
    for rev in repo:
        ctx = repo[rev]
        manifest = ctx.manifest()
        for path in manifest:
            key = path, manifest[path]
            if key not in names:
                body = ctx[path].data()
                names[key] = hashlib.sha1(b"blob %d\0" % len(body) + body).hexdigest().encode()
            ui.write(b"%d %s %s %s\0" % (rev, MODES[manifest.flags(path)], names[key], path))
