#!/usr/bin/env python3
"""`revset`: texts that are sets and texts that are none, the members of sets over small stores that are laid out byte by byte, and
random sets over random histories beside Mercurial's own `hg log -r`.

    tests/revset.py [SETS [SEED]]

10,000 random sets where nothing is said. The places of faults are also found by a second, simple reader of the grammar, for each prefix of fifty
random texts and for texts with a byte changed. The last line is 'N passed, M failed' or 'N passed, M failed, K skipped'.
"""

import hashlib
import os
import random
import re
import shutil
import struct
import subprocess
import sys
import tempfile

sys.dont_write_bytecode = True
from checks import Checks, built_program, lay

NULL = bytes(20)
REQUIRES = b"dotencode\nfncache\nrevlogv1\nstore\n"
LONGEST, DEEPEST = 4096, 64
OF_SETS, OF_NOTHING = ["ancestors", "descendants", "heads", "roots"], ["public", "draft", "secret", "all"]


def ask(program, folder, text):
    ended = subprocess.run([program, "revset", "--", text], stdin=subprocess.DEVNULL, stdout=subprocess.PIPE, stderr=subprocess.DEVNULL, cwd=folder, check=False)
    return ended.stdout, ended.returncode


# ---- a second reader of the grammar


class Bad(Exception):
    """The place of the first token that does not fit."""


def tokens(text):
    """Kind, place and word of each token; a word or a quoted text is a name, and a word directly before `(` a call."""
    found, place = [], 0
    while place < len(text):
        word = re.compile(rb"[A-Za-z0-9_./\x80-\xff-]+").match(text, place)
        if text[place : place + 1] == b" ":
            place += 1
        elif text.startswith(b"::", place):
            found.append(("::", place, b""))
            place += 2
        elif text[place : place + 1] in (b"(", b")"):
            found.append((chr(text[place]), place, b""))
            place += 1
        elif text[place : place + 1] == b'"':
            end = text.find(b'"', place + 1)
            found.append(("open" if end < 0 else "name", place, text[place + 1 : end]))
            place = len(text) if end < 0 else end + 1
        elif word:
            is_call = text[word.end() : word.end() + 1] == b"(" and word[0] not in (b"and", b"or", b"not")
            found.append((word[0].decode() if word[0] in (b"and", b"or", b"not") else "call" if is_call else "name", place, word[0]))
            place = word.end()
        else:
            found.append(("none", place, b""))
            place += 1
    return [*found, ("end", len(text), b"")]


class Reader:
    def __init__(self, text):
        self.tokens, self.at, self.length = tokens(text), 0, len(text)

    def kind(self):
        return self.tokens[self.at][0]

    def refuse(self, names_fit=False):
        kind, place, _ = self.tokens[self.at]
        raise Bad(self.length if kind == "open" and names_fit else place)

    def take(self, kind):
        if self.kind() != kind:
            self.refuse()
        self.at += 1

    def whole(self):
        self.set(0)
        self.take("end")

    def set(self, depth):
        self.conjunction(depth)
        while self.kind() == "or":
            self.at += 1
            self.conjunction(depth)

    def conjunction(self, depth):
        self.negation(depth)
        while self.kind() == "and":
            self.at += 1
            self.negation(depth)

    def negation(self, depth):
        while self.kind() == "not":
            if depth == DEEPEST:
                self.refuse()
            depth += 1
            self.at += 1
        if self.kind() == "::":
            self.at += 1
            self.atom(depth)
            return
        self.atom(depth)
        if self.kind() == "::":
            self.at += 1
            if self.kind() in ("name", "call", "(", "open"):
                self.atom(depth)

    def atom(self, depth):
        kind, _, word = self.tokens[self.at]
        if kind == "name":
            self.at += 1
            return
        called = word.decode("latin-1") if kind == "call" else ""
        if kind not in ("(", "call") or kind == "call" and called not in [*OF_SETS, *OF_NOTHING, "bookmark"]:
            self.refuse(names_fit=True)
        self.at += kind == "call"
        if depth == DEEPEST:
            self.refuse()
        self.at += 1
        if called == "bookmark":
            if self.kind() != "name":
                self.refuse(names_fit=True)
            self.at += 1
        elif called not in OF_NOTHING:
            self.set(depth + 1)
        self.take(")")


def place_in(text):
    """The place of the first token that does not fit; none where the text is a set."""
    try:
        Reader(text).whole()
    except Bad as bad:
        return min(bad.args[0], LONGEST)
    return None if len(text) <= LONGEST else LONGEST


# ---- texts and members over one small store


def node(rev):
    return hashlib.sha1(b"%d" % rev).digest()


def diamond():
    """Four changesets: 1 and 2 are children of 0, and 3 is a merge of both. 1 is draft, 2 and 3 are secret; b is 2, and z is unknown."""
    index = b""
    for rev, (first, second) in enumerate([(-1, -1), (0, -1), (0, -1), (1, 2)]):
        index += struct.pack(">QIIIIii20s12x", 0, 0, 0, rev, rev, first, second, node(rev))
    roots = b"1 %s\n2 %s\n" % (node(1).hex().encode(), node(2).hex().encode())
    marks = b"%s b\n%s z" % (node(2).hex().encode(), node(9).hex().encode())
    return {"requires": REQUIRES, "store/00changelog.i": b"\0\0\0\x01" + index[4:], "store/phaseroots": roots, "bookmarks": marks}


SETS = [
    ("1::3", [1, 3]),
    ("heads(0::1 or 2)", [1, 2]),
    ("not ::2", [1, 3]),
    ("roots(1 or 3)", [1]),
    ("descendants(2)", [2, 3]),
    ("ancestors(1)", [0, 1]),
    ("all()", [0, 1, 2, 3]),
    ("not all()", []),
    ("heads(all())", [3]),
    ("roots(all())", [0]),
    ("heads(not 3)", [1, 2]),
    ("roots(not 0)", [1, 2]),
    ("1:: and 2::", [3]),
    ("not not 1", [1]),
    ("not 1 and not 2", [0, 3]),
    ("1 or 2 and 3", [1]),
    ("(1 or 2) and 2", [2]),
    ("3 or 0 or 3", [0, 3]),
    ("tip", [3]),
    ("public()", [0]),
    ("draft()", [1]),
    ("secret()", [2, 3]),
    ("bookmark(b)", [2]),
    ("b::", [2, 3]),
    (node(2).hex(), [2]),
    ("(1)::(2)", []),
    ('bookmark( "b" )', [2]),
    (" all( ) ", [0, 1, 2, 3]),
]

# 12, wherever the name stands; and words that are names
UNKNOWN = ["nosuch", "4", "0 or nosuch", "0 and nosuch", "not nosuch", "bookmark(z)", "bookmark(0)", "null and 0", ".", "and1", "heads", '"heads"', '""']

REFUSED = [
    ("1 or", 4),
    ("1::2::3", 4),
    ("::", 2),
    ("", 0),
    ("((1)", 4),
    ("x(", 0),
    ('"abc', 4),
    ('1 "abc', 2),
    ("or", 0),
    ("(not)", 4),
    ("heads(", 6),
    ("heads()", 6),
    ("1)", 1),
    ("1 2", 2),
    ("1:2", 1),
    ("1:", 1),
    ("::1::", 3),
    ("::not 1", 2),
    ("1::not", 3),
    ("1 not 2", 2),
    ("1 and or", 6),
    ("all(1)", 4),
    ("bookmark(1 or 2)", 11),
    ('bookmark("x")("', 13),
    ("bookmark(heads(1))", 9),
    ("bookmark(not 1)", 9),
    ('bookmark("x', 11),
    ('"x"(1)', 3),
    ("heads (1)", 6),
    ("and(1)", 0),
    ("1\t", 1),
    ("1 + 2", 2),
    ("()", 1),
    ("1 and x(2)", 6),
    ("1 x(2)", 2),
]

# a place, or none where the text is a set
LIMITS = [
    ("not " * 64 + "1", None),
    ("not " * 65 + "1", 256),
    ("(" * 64 + "1" + ")" * 64, None),
    ("(" * 64 + "1", 65),
    ("(" * 65 + "1", 64),
    ("heads(" * 64 + "1" + ")" * 64, None),
    ("heads(" * 65 + "1", 389),
    ("not(" * 32 + "1" + ")" * 32, None),
    ("not(" * 32 + "not 1", 128),
    ("(" * 64 + "1" + ")" * 64 + " or " + "(" * 64 + "1" + ")" * 64, None),
    ("0 or " * 800 + "0", None),
    ("not 1 and " * 400 + "1", None),
    (" " * 4095 + "1", None),
    (" " * 4096 + "1", 4096),
    ("0 " * 3000, 2),
    ("0 or " * 900, 4096),
    ('"' + "x" * 5000, 4096),
]


def lines(revs):
    return b"".join(b"%d %s\n" % (rev, node(rev).hex().encode()) for rev in revs)


def refusal(place):
    return b"abort: bad set at %d\n" % place, 33


def small(program, checks, folder):
    lay(folder, diamond())
    for text, revs in SETS:
        said = ask(program, folder, text)
        checks.check(f"revset {text}: {said}", said == (lines(revs), 0))
    for text in UNKNOWN:
        said = ask(program, folder, text)
        checks.check(f"revset {text}: {said}", said == (b"abort: unknown revision\n", 12))
    for text, place in REFUSED:
        said = ask(program, folder, text)
        checks.check(f"revset {text}: {said}", said == refusal(place))
    for text, place in LIMITS:
        said = ask(program, folder, text)
        checks.check(f"revset of {len(text)} bytes, {text[:20]}..: {said}", said[1] == 0 if place is None else said == refusal(place))
    for text, wanted in [("a" * 4096, 12), ("a" * 4097, 33)]:
        said = ask(program, folder, text)
        checks.check(f"revset of a name of {len(text)} bytes: {said}", said[1] == wanted)


def without_changesets(program, checks):
    """Over an empty store, and where no repository stands: a text that is no set is told before anything is read."""
    with tempfile.TemporaryDirectory() as folder:
        for text, wanted in [("1 or", refusal(4)), ("1", (b"abort: not a repository\n", 24))]:
            said = ask(program, folder, text)
            checks.check(f"revset {text} in no repository: {said}", said == wanted)
        lay(folder, {"requires": REQUIRES})
        for text, wanted in [("all()", (b"", 0)), ("not all()", (b"", 0)), ("tip", (b"abort: unknown revision\n", 12)), ("::", refusal(2))]:
            said = ask(program, folder, text)
            checks.check(f"revset {text} in an empty store: {said}", said == wanted)


# ---- random sets


class Sets:
    """Random texts of the grammar over these names."""

    def __init__(self, draw, names, marks):
        self.draw, self.names, self.marks = draw, names, marks

    def space(self):
        return self.draw.choice(["", "", "", " ", "  "])

    def name(self):
        name = self.draw.choice(self.names)
        return f'"{name}"' if self.draw.random() < 0.1 else name

    def atom(self, depth):
        kind = self.draw.randrange(8) if depth else self.draw.randrange(3)
        if kind < 2:
            return self.name()
        if kind == 2:
            word = self.draw.choice([*OF_NOTHING, "bookmark"] if self.marks else OF_NOTHING)
            inner = self.draw.choice(self.marks) if word == "bookmark" else ""
            return f"{word}({self.space()}{inner}{self.space()})"
        word = self.draw.choice(OF_SETS) if kind < 6 else ""
        return f"{word}({self.space()}{self.set(depth - 1)}{self.space()})"

    def range(self, depth):
        kind = self.draw.randrange(6)
        first = self.atom(depth)
        if kind == 0:
            return f"{first}{self.space()}::{self.space()}{self.atom(depth)}"
        return {1: f"::{self.space()}{first}", 2: f"{first}{self.space()}::"}.get(kind, first)

    def joined(self, word, parts):
        return f" {self.space()}{word} {self.space()}".join(parts)

    def short(self, depth):
        """One that is not longer than the limit."""
        return next(text for text in iter(lambda: self.set(depth), None) if len(text.encode()) <= LONGEST)

    def set(self, depth):
        def negation():
            return "not " * self.draw.choice([0, 0, 0, 1, 1, 2]) + self.range(depth)

        def conjunction():
            return self.joined("and", [negation() for _ in range(self.draw.choice([1, 1, 1, 2, 3]))])

        return self.joined("or", [conjunction() for _ in range(self.draw.choice([1, 1, 2, 2, 3]))])


def prefixes(program, checks, draw, folder):
    """Each prefix of fifty texts, and as many texts with a byte changed, beside the second reader."""
    make = Sets(draw, ["0", "1", "tip", "b", node(1).hex(), "caf\u00e9"], ["b"])
    texts = [make.set(3)[:120] for _ in range(50)]
    fronts = [text[:end] for text in texts for end in range(len(text) + 1)]
    changed = []
    for _ in range(500):
        text = make.set(2)
        place = draw.randrange(len(text))
        changed.append(text[:place] + draw.choice(' ():"x-\t1') + text[place + draw.randrange(2) :])
    for text in [*fronts, *changed]:
        said, place = ask(program, folder, text), place_in(text.encode())
        checks.check(f"revset {text}: {said}, and the second reader {place}", said[1] in (0, 12) if place is None else said == refusal(place))


class Commands:
    """Mercurial, started once for a repository, by its command server."""

    def __init__(self, folder):
        words = ["hg", "serve", "--cmdserver", "pipe", "--config", "ui.report_untrusted=false"]
        self.server = subprocess.Popen(words, stdin=subprocess.PIPE, stdout=subprocess.PIPE, stderr=subprocess.DEVNULL, cwd=folder)
        self.answer()

    def answer(self):
        """One message: its channel and its bytes."""
        channel, length = struct.unpack(">cI", self.server.stdout.read(5))
        return channel, self.server.stdout.read(length)

    def log(self, text):
        words = b"\0".join([b"log", b"-T", b"{rev} {node}\\n", b"-r", b"sort(" + text.encode() + b")"])
        self.server.stdin.write(b"runcommand\n" + struct.pack(">I", len(words)) + words)
        self.server.stdin.flush()
        said = b""
        while True:
            channel, data = self.answer()
            if channel == b"r":
                return said, struct.unpack(">i", data)[0]
            said += data if channel == b"o" else b""

    def close(self):
        self.server.stdin.close()
        self.server.wait()


MARKS = ["main", "side.a", "b/c", "my-mark", "x_y"]


def history(program, draw, folder):
    """Makes a random history with merges, phases and bookmarks; some changesets stay without a child."""
    subprocess.run([program, "init"], cwd=folder, check=True, stdout=subprocess.DEVNULL)
    count = draw.randrange(1, 40)
    for rev in range(count):
        near = range(max(0, rev - 6), rev)
        parents = sorted(draw.sample(near, min(len(near), draw.choice([1, 1, 1, 2])))) if draw.random() < 0.95 else []
        mark = b"bookmark %s\n" % draw.choice(MARKS).encode() if draw.random() < 0.2 else b""
        phase = draw.choice([b"public", b"draft", b"draft", b"secret"])
        head = b"commit\n" + b"".join(b"parent %d\n" % parent for parent in parents) + b"user u\ndate %d 0\nphase %s\n" % (rev, phase)
        body = b"%d\n" % rev
        record = head + mark + b"desc 1\nx\nfile - %d f\n%s\nend\n" % (len(body), body)
        subprocess.run([program, "commit"], input=record, cwd=folder, check=True, stdout=subprocess.DEVNULL)
    shown = subprocess.run([program, "bookmarks"], cwd=folder, check=True, stdout=subprocess.PIPE, text=True).stdout
    nodes = [line.split("\t")[1] for line in subprocess.run([program, "log"], cwd=folder, check=True, stdout=subprocess.PIPE, text=True).stdout.splitlines()]
    marks = [line.split("\t")[0] for line in shown.splitlines()]
    return [*map(str, range(count)), *map(str, range(count)), *nodes, "tip", ".", *marks * 3], marks


def beside_mercurial(program, checks, draw, sets):
    made = 0
    while made < sets:
        with tempfile.TemporaryDirectory() as folder:
            names, marks = history(program, draw, folder)
            make, mercurial = Sets(draw, names, marks), Commands(folder)
            for _ in range(min(400, sets - made)):
                text = make.short(draw.choice([0, 1, 2, 3]))
                said, wanted = ask(program, folder, text), mercurial.log(text)
                checks.check(f"revset {text}: {said[1]} {said[0][:200]}, and Mercurial {wanted[1]} {wanted[0][:200]}", said == wanted)
                made += 1
            mercurial.close()


def main():
    sets = int(sys.argv[1]) if len(sys.argv) > 1 else 10_000
    seed = int(sys.argv[2]) if len(sys.argv) > 2 else 7
    os.environ.update({"HGPLAIN": "1", "HGRCPATH": "/dev/null", "HGENCODING": "UTF-8"})
    checks, draw, program = Checks(), random.Random(seed), built_program()
    without_changesets(program, checks)
    with tempfile.TemporaryDirectory() as folder:
        small(program, checks, folder)
        prefixes(program, checks, draw, folder)
    if shutil.which("hg"):
        beside_mercurial(program, checks, draw, sets)
    else:
        checks.skipped += sets
    print(checks)
    return checks.failed != 0


sys.exit(main())
