#!/usr/bin/env python3
"""Names of files in the store, bodies as they are stored, and names of bookmarks: what Mercurial 6.3.2 makes of each.

Each path is committed alone, with no byte, and its filelog has the wanted name. Each body is the first of its file. Each name is given
to a bookmark. The last line is 'N passed, M failed'.
"""

import os
import subprocess
import sys
import tempfile

sys.dont_write_bytecode = True
from checks import Checks, built_program, bytes_of

# Paths, and the names of their index files.
NAMES = [
    (b"FOO", b"store/data/_f_o_o.i"),
    (b".hgignore", b"store/data/~2ehgignore.i"),
    (b"aux.c", b"store/data/au~78.c.i"),
    (b"com1", b"store/data/co~6d1.i"),
    (b"com0", b"store/data/com0.i"),
    (b"foo.i/bar", b"store/data/foo.i.hg/bar.i"),
    (b"a./b", b"store/data/a~2e/b.i"),
    (b"a~b", b"store/data/a~7eb.i"),
    (b"hello_World", b"store/data/hello___world.i"),
    (b"\xc3\xa9", b"store/data/~c3~a9.i"),
    (b"a" * 113, b"store/data/aaaaaaaaaaaaaaaaaaaaaaaaaaaaaaaaaaaaaaaaaaaaaaaaaaaaaaaaaaaaaaaaaaaaaaaaaaaaaaaaaaaaaaaaaaaaaaaaaaaaaaaaaaaaaaaaa.i"),
    (b"a" * 114, b"store/dh/aaaaaaaaaaaaaaaaaaaaaaaaaaaaaaaaaaaaaaaaaaaaaaaaaaaaaaaaaaaaaaaaaaaaaaaaaaa548b13ba3e029dd285b8d6d92e88862c44caa165.i"),
    (b"a", b"store/data/a.i"),
    (b"A_b", b"store/data/_a__b.i"),
    (b"__", b"store/data/____.i"),
    (b"_A", b"store/data/___a.i"),
    (b"a b", b"store/data/a b.i"),
    (b" a", b"store/data/~20a.i"),
    (b"a ", b"store/data/a .i"),
    (b"a/ b ", b"store/data/a/~20b .i"),
    (b"..a", b"store/data/~2e.a.i"),
    (b"a..", b"store/data/a...i"),
    (b"a/...b", b"store/data/a/~2e..b.i"),
    (b"con", b"store/data/co~6e.i"),
    (b"CON", b"store/data/_c_o_n.i"),
    (b"prn.txt", b"store/data/pr~6e.txt.i"),
    (b"nul", b"store/data/nu~6c.i"),
    (b"nul/x", b"store/data/nu~6c/x.i"),
    (b"lpt9", b"store/data/lp~749.i"),
    (b"lpt0", b"store/data/lpt0.i"),
    (b"com10", b"store/data/com10.i"),
    (b"lpt1.a.b", b"store/data/lp~741.a.b.i"),
    (b"auxx", b"store/data/auxx.i"),
    (b"xaux", b"store/data/xaux.i"),
    (b"aux /b", b"store/data/aux~20/b.i"),
    (b"x\x01y", b"store/data/x~01y.i"),
    (b"\x1f", b"store/data/~1f.i"),
    (b"\x7f", b"store/data/~7f.i"),
    (b"\xff", b"store/data/~ff.i"),
    (b"a\\b", b"store/data/a~5cb.i"),
    (b"a:b*c?d\"e<f>g|h", b"store/data/a~3ab~2ac~3fd~22e~3cf~3eg~7ch.i"),
    (b"d.i/f", b"store/data/d.i.hg/f.i"),
    (b"d.d/f", b"store/data/d.d.hg/f.i"),
    (b"d.hg/f", b"store/data/d.hg.hg/f.i"),
    (b"d.i.hg/f", b"store/data/d.i.hg.hg/f.i"),
    (b"d.hg.hg/f", b"store/data/d.hg.hg.hg/f.i"),
    (b".i/.d/x.hg", b"store/data/~2ei.hg/~2ed.hg/x.hg.i"),
    (b"x.i", b"store/data/x.i.i"),
    (b"x.d", b"store/data/x.d.i"),
    (b"x.hg", b"store/data/x.hg.i"),
    (b"a/b.d/c.i", b"store/data/a/b.d.hg/c.i.i"),
    (b"dir.h/g", b"store/data/dir.h/g.i"),
    (b"x/.hgx/y", b"store/data/x/~2ehgx/y.i"),
    (b"~2e", b"store/data/~7e2e.i"),
    (b"foo.bar/baz_Qux/quux.c", b"store/data/foo.bar/baz___qux/quux.c.i"),
    (b"AAAAAAAAAAAAAAAAAAAAAAAAAAAAAAAAAAAAAAAAAAAAAAAAAAAAAAAA", b"store/data/_a_a_a_a_a_a_a_a_a_a_a_a_a_a_a_a_a_a_a_a_a_a_a_a_a_a_a_a_a_a_a_a_a_a_a_a_a_a_a_a_a_a_a_a_a_a_a_a_a_a_a_a_a_a_a_a.i"),
    (b"AAAAAAAAAAAAAAAAAAAAAAAAAAAAAAAAAAAAAAAAAAAAAAAAAAAAAAAAA", b"store/dh/aaaaaaaaaaaaaaaaaaaaaaaaaaaaaaaaaaaaaaaaaaaaaaaaaaaaaaaaa.i449e036f9c6ceb14f2a24474690ed2db38a88dfd.i"),
    (b"_________________________________________________________", b"store/dh/_________________________________________________________.id3046a266068c5ae525b013a0cca105f20448117.i"),
    (b"\xe9\xe9\xe9\xe9\xe9\xe9\xe9\xe9\xe9\xe9\xe9\xe9\xe9\xe9\xe9\xe9\xe9\xe9\xe9\xe9\xe9\xe9\xe9\xe9\xe9\xe9\xe9\xe9\xe9\xe9\xe9\xe9\xe9\xe9\xe9\xe9\xe9\xe9", b"store/dh/~e9~e9~e9~e9~e9~e9~e9~e9~e9~e9~e9~e9~e9~e9~e9~e9~e9~e9~e9~e9~e9~e9~e9~e9~e966f74f825926fe0b0ce9aed9290c664b1939f786.i"),
    (b"\xe9\xe9\xe9\xe9\xe9\xe9\xe9\xe9\xe9\xe9\xe9\xe9\xe9\xe9\xe9\xe9\xe9\xe9\xe9\xe9\xe9\xe9\xe9\xe9\xe9\xe9\xe9\xe9\xe9\xe9\xe9\xe9\xe9\xe9\xe9\xe9\xe9", b"store/data/~e9~e9~e9~e9~e9~e9~e9~e9~e9~e9~e9~e9~e9~e9~e9~e9~e9~e9~e9~e9~e9~e9~e9~e9~e9~e9~e9~e9~e9~e9~e9~e9~e9~e9~e9~e9~e9.i"),
    (b"dir/dir/dir/dir/dir/dir/dir/dir/dir/dir/dir/dir/dir/dir/dir/dir/dir/dir/dir/dir/dir/dir/dir/dir/dir/dir/dir/file", b"store/data/dir/dir/dir/dir/dir/dir/dir/dir/dir/dir/dir/dir/dir/dir/dir/dir/dir/dir/dir/dir/dir/dir/dir/dir/dir/dir/dir/file.i"),
    (b"dir/dir/dir/dir/dir/dir/dir/dir/dir/dir/dir/dir/dir/dir/dir/dir/dir/dir/dir/dir/dir/dir/dir/dir/dir/dir/dir/dir/dir/f", b"store/dh/dir/dir/dir/dir/dir/dir/dir/dir/dir/dir/dir/dir/dir/dir/dir/dir/dir/f.i9b6e0698c3e3398de12c9a74cbe242b48341b481.i"),
    (b"Aux./con/con/con/con/con/con/con/con/con/con/con/con/con/con/con/con/con/con/con/con/nulxxxxxxxxxxxxxxxxxxxxxxxxxxxxxxxxxxxxxxxxxxxxxxxxxxxxxxxxxxxx", b"store/dh/au~78~2e/co~6e/co~6e/co~6e/co~6e/co~6e/co~6e/co~6e/co~6e/co~6e/co~6e/nulxxx2c9e2f42c620a729bef46d4393ec9e709f94958f.i"),
    (b"abcdefgh./abcdefgh./abcdefgh./abcdefgh./abcdefgh./abcdefgh./abcdefgh./abcdefgh./abcdefgh./abcdefgh./abcdefgh./abcdefgh./end", b"store/dh/abcdefgh/abcdefgh/abcdefgh/abcdefgh/abcdefgh/abcdefgh/abcdefgh/end.i802d7bcb1580df93ede785446cd3354e343222dd.i"),
    (b"abcdefg. /abcdefg. /abcdefg. /abcdefg. /abcdefg. /abcdefg. /abcdefg. /abcdefg. /abcdefg. /abcdefg. /abcdefg. /abcdefg. /end", b"store/dh/abcdefg_/abcdefg_/abcdefg_/abcdefg_/abcdefg_/abcdefg_/abcdefg_/end.i062915e1167fdcf01bfdb4c3699ad1dfed5f878b.i"),
    (b"UPPER/UPPER/UPPER/UPPER/UPPER/UPPER/UPPER/UPPER/UPPER/_zzzzzzzzzzzzzzzzzzzzzzzzzzzzzzzzzzzzzzzzzzzzzzzzzzzzzzzzzzzzzzzzzzzzzz", b"store/dh/upper/upper/upper/upper/upper/upper/upper/upper/upper/_zzzzzzzzzzzzzzzzzzzz7aa6474c58d545cac709999eacc67c65f82b71e7.i"),
    (b"a/a/a/a/a/a/a/a/a/a/a/a/a/a/a/a/a/a/a/a/a/a/a/a/a/a/a/a/a/a/a/a/a/a/a/a/a/a/a/a/a/a/a/a/a/a/a/a/a/a/a/a/a/a/a/a/a/a/a/b", b"store/dh/a/a/a/a/a/a/a/a/a/a/a/a/a/a/a/a/a/a/a/a/a/a/a/a/a/a/a/a/a/a/a/a/a/a/b.ia687e6b4045b061eda0930adceb13da38dd66f00.i"),
    (b"long.i/long.i/long.i/long.i/long.i/long.i/long.i/long.i/long.i/long.i/long.i/long.i/long.i/long.i/long.i/long.i/tail_TAIL", b"store/dh/long.i.h/long.i.h/long.i.h/long.i.h/long.i.h/long.i.h/long.i.h/tail_tail.ia18b145d31c493529f57a41bcb242057f6eb7459.i"),
    (b"0123456789/0123456789/0123456789/0123456789/0123456789/0123456789/0123456789/0123456789/0123456789/0123456789/0123456789/x", b"store/dh/01234567/01234567/01234567/01234567/01234567/01234567/01234567/x.ie98f503f40752b32c5f00c7e170329ce126a1d97.i"),
    (b".hidden/.hidden/.hidden/.hidden/.hidden/.hidden/.hidden/.hidden/.hidden/.hidden/.hidden/.hidden/.hidden/.x", b"store/dh/~2ehidde/~2ehidde/~2ehidde/~2ehidde/~2ehidde/~2ehidde/~2ehidde/~2ex.ib3e6b3240472abc6de38d1a752bbd5f489980a93.i"),
    (b"a" * 1024, b"store/dh/aaaaaaaaaaaaaaaaaaaaaaaaaaaaaaaaaaaaaaaaaaaaaaaaaaaaaaaaaaaaaaaaaaaaaaaaaaab6637584a2376f28c77374f3d78043320985a7ca.i"),
]

# A body, its chunk, and its node.
BODIES = [
    (b"", b"", "b80de5d138758541c5f05265ad144ab9fa86d1db"),
    (b"\0b", b"\0b", "71ff9eebbc5912fe8f9a47454740dccf143cbf7f"),
    (b"up", b"uup", "0443d63880b650d06f86cb749265ea53347ce9b8"),
    (b"\x01\nq", b"u\x01\n\x01\n\x01\nq", "3af3a31858c6ec26abb027a6763dcc0410f25d07"),
]

# Whether `hg bookmark` takes the name.
MARKS = [
    (b"tip", False),
    (b".", False),
    (b"null", False),
    (b"a:b", False),
    (b"12", False),
    (b"007", False),
    (b"", False),
    (b"a\rb", False),
    (b"a\nb", False),
    (b"--", True),
    (b"-m", True),
    (b"0x", True),
    (b"0x10", True),
    (b"1e3", True),
    (b"1_000", True),
    (b"@", True),
    (b"nul", True),
    (b"a\tb", True),
    (b"c0919d73f162ec7c5862121d97d6c9fae88785e9", True),
]

ENTRY = 64


def run(program, folder, words, given=b""):
    ended = subprocess.run([program, *words], input=given, capture_output=True, cwd=folder, check=False)
    return ended.returncode, ended.stdout


def committed(program, folder, path, body):
    """The files behind a first commit of this file alone."""
    run(program, folder, ["init"])
    record = b"commit\nuser test\ndate 0 0\ndesc 1\na\nfile - %d %s\n%s\nend\n" % (len(body), path, body)
    status, _ = run(program, folder, ["commit"], record)
    return bytes_of(folder) if status == 0 else {}


def try_names(program, checks):
    for path, wanted in NAMES:
        with tempfile.TemporaryDirectory() as folder:
            found = [os.fsencode(name) for name in committed(program, folder, path, b"")]
            logs = [name for name in found if name.startswith((b"store/data/", b"store/dh/"))]
            checks.check(f"{path}: {logs}, wanted {wanted}", logs == [wanted])


def try_bodies(program, checks):
    for body, chunk, node in BODIES:
        with tempfile.TemporaryDirectory() as folder:
            log = committed(program, folder, b"f", body).get("store/data/f.i", b"")
            checks.check(f"{body}: its chunk is {log[ENTRY:]}", log[ENTRY:] == chunk)
            checks.check(f"{body}: its node is {log[32:52].hex()}", log[32:52].hex() == node)
            checks.check(f"{body}: is read again", run(program, folder, ["cat", "0", "f"]) == (0, body))


def try_marks(program, checks):
    with tempfile.TemporaryDirectory() as folder:
        committed(program, folder, b"a", b"a\n")
        for name, taken in MARKS:
            said = run(program, folder, [b"bookmark", b"--", name, b"0"])
            wanted = (0, name + b" 0\n") if taken else (28, b"abort: bad word 2\n")
            checks.check(f"bookmark {name}: {said}, wanted {wanted}", said == wanted)


def main():
    program, checks = built_program(), Checks()
    try_names(program, checks)
    try_bodies(program, checks)
    try_marks(program, checks)
    print(checks)
    sys.exit(checks.failed > 0 or checks.passed == 0)


main()
