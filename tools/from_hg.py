"""The extension of Mercurial behind bin/from_hg: writes a repository anew in the profile that hg_store reads.

Each revlog is gone through revision by revision: texts are stored whole and uncompressed, in a data file of their own, with the
same nodes, parents and links. docs/FORMATS.md has the formats. What the profile cannot hold is refused by name, and nothing is left.
"""

import contextlib
import hashlib
import os
import shutil
import struct
import sys
import tempfile
import time

from mercurial import error, registrar
from mercurial.node import bin, hex, nullid, nullrev

cmdtable = {}
command = registrar.command(cmdtable)

MOST_REVISIONS = 1_000_000
MOST_TEXT = 32 << 20
MOST_BODY = 16 << 20
MOST_DATA = (1 << 48) - 1
MOST_FILES = 20_000
MOST_BOOKMARKS = 10_000
MOST_PATH = 1024
LONGEST_NAME = 120
REQUIREMENTS = [b"dotencode", b"fncache", b"revlogv1", b"store"]
UNKNOWN_STORES = (b"tree", b"narrow", b"remotefilelog", b"changelog-v2", b"revlogv2", b"sidedata")
DEVICES = {b"aux", b"con", b"prn", b"nul"} | {p + b"%d" % n for p in (b"com", b"lpt") for n in range(1, 10)}
ESCAPED = set(range(32)) | set(range(126, 256)) | set(b'\\:*?"<>|')


def refuse(text, *parts):
    raise error.Abort(b"hg_store cannot hold this repository: " + text % parts)


# ---- names of files in the store


def listed_name(path, ext):
    """The name in `fncache`: a directory that could be taken for a revlog's file gets `.hg`."""
    *directories, last = (b"data/" + path + ext).split(b"/")
    return b"/".join([d + b".hg" if d.endswith((b".hg", b".i", b".d")) else d for d in directories] + [last])


def escape(part, place):
    return part[:place] + b"~%02x" % part[place] + part[place + 1 :]


def spell(part, plain):
    def byte(b):
        if b in ESCAPED:
            return b"~%02x" % b
        c = bytes([b])
        return b"_" + c.lower() if plain and (c.isupper() or c == b"_") else c.lower()

    part = b"".join(map(byte, part))
    if part[:1] in (b".", b" "):
        part = escape(part, 0)
    elif part.split(b".")[0] in DEVICES:
        part = escape(part, 2)
    return escape(part, len(part) - 1) if part[-1:] in (b".", b" ") else part


def store_name(path, ext):
    listed = listed_name(path, ext)
    plain = b"/".join(spell(part, True) for part in listed.split(b"/"))
    if len(plain) <= LONGEST_NAME:
        return plain
    *directories, last = [spell(part, False) for part in listed[len(b"data/") :].split(b"/")]
    short = b""
    for directory in directories:
        directory = directory[:8]
        if directory[-1:] in (b".", b" "):
            directory = directory[:-1] + b"_"
        if len(short) + len(directory) > 68:
            break
        short += directory + b"/"
    digits = hashlib.sha1(listed).hexdigest().encode()
    room = LONGEST_NAME - len(b"dh/" + short + digits + ext)
    return b"dh/" + short + last[:room] + digits + ext


def check_path(path):
    parts = path.split(b"/")
    bad = [p for p in parts if p in (b"", b".", b"..") or p.lower() == b".hg"]
    if bad or not 1 <= len(path) <= MOST_PATH or any(c in path for c in (b"\0", b"\r", b"\n")):
        refuse(b"the path %s", path)


# ---- revlogs


class Revlog:
    """What this tool needs of one of Mercurial's revlogs."""

    def __init__(self, storage):
        self.log = getattr(storage, "_revlog", storage)

    def __len__(self):
        return len(self.log)

    def nodes(self):
        return {self.log.node(rev) for rev in range(len(self))}

    def revisions(self, name):
        """Number, parents, link, node and text of each revision."""
        if len(self) > MOST_REVISIONS:
            refuse(b"%s has more than %d revisions", name, MOST_REVISIONS)
        for rev in range(len(self)):
            link, first, second, node = self.log.index[rev][4:8]
            if self.log.flags(rev):
                refuse(b"revision %d of %s has flags", rev, name)
            text = bytes(self.log.rawdata(rev))
            if len(text) > MOST_TEXT:
                refuse(b"revision %d of %s has more than %d bytes", rev, name, MOST_TEXT)
            nodes = [nullid if p == nullrev else self.log.node(p) for p in (first, second)]
            if hashlib.sha1(b"".join(sorted(nodes)) + text).digest() != node:
                refuse(b"revision %d of %s is damaged", rev, name)
            yield rev, first, second, link, node, text


def chunk_of(text):
    return text if text[:1] in (b"", b"\0") else b"u" + text


def write_revlog(to, names, revisions):
    """Writes index and data; a file without bytes is not made. Gives the texts to the caller as they go by."""
    index, data = [os.path.join(to, os.fsdecode(name)) for name in names]
    os.makedirs(os.path.dirname(index), exist_ok=True)
    end = 0
    with open(index, "xb") as index_file, open(data, "xb") as data_file:
        for rev, first, second, link, node, text in revisions:
            chunk = chunk_of(text)
            entry = struct.pack(">Qiiiiii20s12x", end << 16, len(chunk), len(text), rev, link, first, second, node)
            index_file.write(b"\0\0\0\1" + entry[4:] if rev == 0 else entry)
            data_file.write(chunk)
            end += len(chunk)
            if end > MOST_DATA:
                refuse(b"%s is too long", names[1])
            yield rev, text
    for name in (index, data):
        if not os.path.getsize(name):
            os.remove(name)


def check_change(rev, text):
    try:
        header, description = text.split(b"\n\n", 1)
        node, user, date, *files = header.split(b"\n")
        seconds, offset = date.split(b" ", 2)[:2]
        user.decode(), description.decode()
        fits = b"%d" % int(seconds) == seconds and b"%d" % int(offset) == offset
        fits = fits and abs(int(seconds)) <= 1 << 40 and abs(int(offset)) <= 50_400
        fits = fits and files == sorted(set(files))
    except ValueError:
        fits = False
    if not fits:
        refuse(b"changeset %d has a text that is not UTF-8 or out of form", rev)


def rows_of(rev, text):
    """The path and the node of each row of a manifest."""
    rows = text.split(b"\n")[:-1]
    if len(rows) > MOST_FILES:
        refuse(b"manifest revision %d has more than %d files", rev, MOST_FILES)
    for row in rows:
        path, rest = row.split(b"\0")
        yield path, bin(rest[:40])


def check_body(path, rev, text):
    body = text[text.find(b"\1\n", 2) + 2 :] if text[:2] == b"\1\n" and text.find(b"\1\n", 2) >= 0 else text
    if len(body) > MOST_BODY:
        refuse(b"revision %d of %s has more than %d bytes", rev, path, MOST_BODY)


# ---- the small files


def roots_text(repo):
    phases = [repo._phasecache.phase(repo, rev) for rev in range(len(repo))]
    lines = {1: [], 2: []}
    for rev, phase in enumerate(phases):
        if phase > 2:
            refuse(b"changeset %d has a phase that is none of public, draft, secret", rev)
        if phase > max([phases[p] for p in repo.changelog.parentrevs(rev) if p != nullrev], default=0):
            lines[phase].append(b"%d %s\n" % (phase, hex(repo.changelog.node(rev))))
    return b"".join(lines[1] + lines[2])


def bookmarks_text(repo):
    marks = sorted(repo._bookmarks.items())
    if len(marks) > MOST_BOOKMARKS:
        refuse(b"there are more than %d bookmarks", MOST_BOOKMARKS)
    for name, _ in marks:
        try:
            text = name.decode()
        except ValueError:
            refuse(b"the bookmark %s is not UTF-8", name)
        # a name that hg_store would take for a number or for another name of a revision
        if not 1 <= len(name) <= 255 or text.isdecimal() or name in (b"tip", b".", b"null") or b":" in name or name.strip(b" ") != name:
            refuse(b"the bookmark %s", name)
    return b"".join(b"%s %s\n" % (hex(node), name) for name, node in marks)


def dirstate_text(repo):
    first, second = repo.dirstate.parents()
    entries = [struct.pack(">ciiii", b"n", 0, -1, -1, len(path)) + path for path in sorted(repo[first].manifest())]
    return first + second + b"".join(entries) if (first, second) != (nullid, nullid) else b""


# ---- the whole


class Progress:
    """Where the work is, once a second, on a terminal."""

    def __init__(self):
        self.shown, self.next = sys.stderr.isatty(), time.monotonic() + 1

    def say(self, text, *parts):
        if self.shown and time.monotonic() >= self.next:
            sys.stderr.write("\r\x1b[K" + text.format(*parts))
            sys.stderr.flush()
            self.next = time.monotonic() + 1

    def end(self):
        if self.shown:
            sys.stderr.write("\r\x1b[K")
            sys.stderr.flush()


def write_store(repo, folder, progress):
    store = os.path.join(folder, "store")
    changelog, manifest = Revlog(repo.changelog), Revlog(repo.manifestlog.getstorage(b""))
    count = len(changelog)
    for rev, text in write_revlog(store, [b"00changelog.i", b"00changelog.d"], changelog.revisions(b"the changelog")):
        check_change(rev, text)
        progress.say("changesets: {} of {}", rev + 1, count)
    named = {}
    for rev, text in write_revlog(store, [b"00manifest.i", b"00manifest.d"], manifest.revisions(b"the manifest")):
        for path, node in rows_of(rev, text):
            named.setdefault(path, set()).add(node)
        progress.say("manifests: {} of {}", rev + 1, len(manifest))
    used = {}
    lines = []
    for number, path in enumerate(sorted(named)):
        check_path(path)
        log = Revlog(repo.file(path))
        if not named[path] <= log.nodes():
            refuse(b"%s lacks a revision that a manifest names", path)
        names = [store_name(path, ext) for ext in (b".i", b".d")]
        for name in names:
            if used.setdefault(name, path) != path:
                refuse(b"%s and %s have one name in the store", used[name], path)
        for rev, text in write_revlog(store, names, log.revisions(path)):
            check_body(path, rev, text)
        lines += [listed_name(path, ext) + b"\n" for ext in (b".i", b".d")]
        progress.say("files: {} of {}", number + 1, len(named))
    small = {"store/fncache": b"".join(lines), "store/phaseroots": roots_text(repo)}
    small |= {"bookmarks": bookmarks_text(repo), "dirstate": dirstate_text(repo)}
    small["requires"] = b"".join(word + b"\n" for word in REQUIREMENTS)
    for name, text in small.items():
        if text:
            with open(os.path.join(folder, name), "xb") as out:
                out.write(text)
    return count, len(named)


@command(b"hg-store-export", [], b"DESTINATION")
def export(ui, repo, destination):
    """writes this repository anew, as hg_store reads it"""
    repo = repo.unfiltered()
    for word in sorted(repo.requirements):
        if any(part in word for part in UNKNOWN_STORES):
            refuse(b"its requirement %s", word)
    to = os.path.abspath(os.fsdecode(destination))
    if os.path.lexists(to):
        raise error.Abort(b"%s stands already" % os.fsencode(to))
    if not os.path.isdir(os.path.dirname(to)):
        raise error.Abort(b"there is no folder %s" % os.fsencode(os.path.dirname(to)))
    part = tempfile.mkdtemp(prefix=os.path.basename(to) + ".", suffix=".part", dir=os.path.dirname(to))
    progress = Progress()
    try:
        os.makedirs(os.path.join(part, ".hg", "store"))
        with lock_of(repo):
            changesets, files = write_store(repo, os.path.join(part, ".hg"), progress)
        os.chmod(part, 0o777 & ~current_umask())
        os.rename(part, to)
    except BaseException:
        shutil.rmtree(part, ignore_errors=True)
        raise
    finally:
        progress.end()
    ui.status(b"%d changesets, %d files\n" % (changesets, files))
    hidden = changesets - sum(1 for _ in repo.filtered(b"visible").changelog)
    if hidden:
        ui.warn(b"%d of them were hidden as obsolete, and are shown now\n" % hidden)


def lock_of(repo):
    """The lock of the store, so that nobody writes meanwhile; none where the store may not be written to."""
    try:
        return repo.lock()
    except error.LockUnavailable:
        return contextlib.nullcontext()


def current_umask():
    mask = os.umask(0)
    os.umask(mask)
    return mask
