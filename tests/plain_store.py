"""A second, simple implementation of a store, after docs/FORMATS.md and docs/ANSWERS.md alone: the whole repository in memory, the
bytes that its files have, and what stands in the way of its commands. `tests/histories.py` compares the program with it.
"""

import copy
import hashlib
import struct

NULL = bytes(20)
PHASES = ["public", "draft", "secret"]
REQUIRES = b"dotencode\nfncache\nrevlogv1\nstore\n"

# A new filelog whose first text has at most so many bytes is inline.
MOST_INLINE = 4096


class Refused(Exception):
    """A status, and the line that says why."""

    def __init__(self, status, line):
        super().__init__(line)
        self.status, self.line = status, line


class Revlog:
    """Revisions: texts with the numbers of their parents, once each."""

    def __init__(self):
        self.texts, self.parents, self.nodes, self.links = [], [], [], []

    def node(self, rev):
        return NULL if rev is None else self.nodes[rev]

    def standing(self, text, parents):
        same = {parents, parents[::-1]}
        return next((rev for rev, old in enumerate(self.texts) if old == text and self.parents[rev] in same), None)

    def add(self, text, parents, link):
        rev = self.standing(text, parents)
        if rev is None:
            rev = len(self.texts)
            low, high = sorted(self.node(parent) for parent in parents)
            self.texts.append(text)
            self.parents.append(parents)
            self.nodes.append(hashlib.sha1(low + high + text).digest())
            self.links.append(link)
        return rev

    def ancestors(self, rev):
        found, left = set(), [rev]
        while left:
            rev = left.pop()
            if rev is not None and rev not in found:
                found.add(rev)
                left += self.parents[rev]
        return found

    def files(self, inline=False):
        """The bytes of the index and of the data; those of an inline one are in its index, each chunk behind its entry."""
        index, offset, data = b"", 0, b""
        for rev, text in enumerate(self.texts):
            chunk = text if not text or text[0] == 0 else b"u" + text
            p1, p2 = (-1 if parent is None else parent for parent in self.parents[rev])
            entry = struct.pack(">QIIIIii20s12x", offset << 16, len(chunk), len(text), rev, self.links[rev], p1, p2, self.nodes[rev])
            header = b"\0\x01\0\x01" if inline else b"\0\0\0\x01"
            index += header + entry[4:] if rev == 0 else entry
            offset += len(chunk)
            if inline:
                index += chunk
            else:
                data += chunk
        return index, data

    def is_inline(self):
        return len(self.texts[0]) <= MOST_INLINE


def extensions_for(text):
    """The files of a new filelog that begins with a text: an inline one has no data file."""
    return (b".i",) if len(text) <= MOST_INLINE else (b".i", b".d")


def lines_for(path, text):
    """The lines of a new filelog in the list of filelogs."""
    return b"".join(listed_name(path, ext) + b"\n" for ext in extensions_for(text))


def listed_name(path, ext):
    *folders, last = path.split(b"/")
    marked = [f + b".hg" if f.endswith((b".hg", b".i", b".d")) else f for f in folders]
    return b"data/" + b"/".join([*marked, last]) + ext


DEVICES = {b"aux", b"con", b"prn", b"nul", *(b"%s%d" % (name, n) for name in (b"com", b"lpt") for n in range(1, 10))}


def spelled(name, is_plain):
    """Each byte that a file system may not take as its code; capitals by `_` or as small letters."""

    def byte(c):
        if c < 32 or c >= 126 or c in b'\\:*?"<>|':
            return b"~%02x" % c
        if 65 <= c <= 90:
            return (b"_" if is_plain else b"") + bytes([c]).lower()
        return b"__" if c == 95 and is_plain else bytes([c])

    return b"".join(map(byte, name))


def component(part):
    if part[:1] in (b".", b" "):
        part = b"~%02x" % part[0] + part[1:]
    elif part.split(b".")[0] in DEVICES:
        part = part[:2] + b"~%02x" % part[2] + part[3:]
    return part[:-1] + b"~%02x" % part[-1] if part[-1:] in (b".", b" ") else part


def components(name):
    return b"/".join(map(component, name.split(b"/")))


def hashed_name(listed, ext):
    *folders, last = components(spelled(listed[len(b"data/") :], False)).split(b"/")
    short = b""
    for folder in (f[:8] for f in folders):
        folder = folder[:-1] + b"_" if folder[-1:] in (b".", b" ") else folder
        if len(short) + len(folder) > 68:
            break
        short += folder + b"/"
    digits = hashlib.sha1(listed).hexdigest().encode()
    room = 120 - len(b"dh/" + short + digits + ext)
    return b"dh/" + short + last[: max(room, 0)] + digits + ext


def store_name(path, ext):
    listed = listed_name(path, ext)
    plain = components(spelled(listed, True))
    return "store/" + (plain if len(plain) <= 120 else hashed_name(listed, ext)).decode()


def body_text(body):
    """The text of a body: behind an empty block where it begins with a marker itself."""
    return b"\x01\n\x01\n" + body if body.startswith(b"\x01\n") else body


def copy_text(source, node, body):
    """The text of a copy: behind a block that names its source, and the node that this has."""
    return b"\x01\ncopy: %s\ncopyrev: %s\n\x01\n%s" % (source, node.hex().encode(), body)


def body_of(text):
    """What stands behind the block of a text, where it has one."""
    end = text.find(b"\x01\n", 2) if text.startswith(b"\x01\n") else -1
    return text if end < 0 else text[end + 2 :]


class Store:
    def __init__(self):
        self.changelog, self.manifest, self.filelogs, self.list = Revlog(), Revlog(), {}, b""
        self.trees, self.manifests = [], []
        self.phases, self.marks, self.working, self.tracked = [], {}, None, None
        self.roots = b""
        # what stands beside the repository: locks and strays by their names in .hg, an open journal, and other words of `requires`
        self.locks, self.strays, self.is_open, self.requires, self.tail = {}, {}, False, REQUIRES, b""

    # ---- what stands in the way of every command that writes

    def begin(self):
        if self.requires is None:
            raise Refused(24, "abort: not a repository")
        words, needed = self.requires.decode().split(), REQUIRES.decode().split()
        other = [word for word in words if word not in (*needed, "generaldelta")] + [word for word in needed if word not in words]
        if other:
            raise Refused(27, f"abort: requirement {other[0]}")
        for name in ("wlock", "store/lock"):
            if name in self.locks:
                raise Refused(10, f"abort: lock held by {self.locks[name].decode()}")
        if self.is_open:
            raise Refused(11, "abort: abandoned transaction found")
        if self.tail:
            raise Refused(15, f"abort: damaged store/00changelog.i: revlog 14 {len(self.trees)}")

    def init(self):
        if self.requires is not None:
            raise Refused(25, "abort: repository exists")

    def in_the_way(self, added):
        """A file at a name of a file that a new path's filelog will have: the first in the order of paths."""
        for path in sorted(added):
            for ext in extensions_for(added[path][0]):
                if path not in self.filelogs and store_name(path, ext) in self.strays:
                    raise Refused(34, f"abort: file in the way {store_name(path, ext)}")

    # ---- names

    def named(self, name):
        known = {"null": None, ".": self.working, "tip": len(self.trees) - 1 if self.trees else None}
        if name in known:
            return known[name]
        if name in map(str, range(len(self.trees))):
            return int(name)
        nodes = [node.hex() for node in self.changelog.nodes]
        if name in nodes:
            return nodes.index(name)
        return self.marks.get(name)

    def known(self, name):
        rev = self.named(name)
        if rev is None:
            raise Refused(12, "abort: unknown revision")
        return rev

    # ---- a commit

    def parents_of(self, names):
        named = [self.known(name) for name in names if name != "null" and not (name == "." and self.working is None)]
        first, second = (named + [None, None])[:2]
        return (first, None if second == first else second)

    def file_at(self, rev, path):
        return None if rev is None else self.trees[rev].get(path)

    def file_parents(self, log, parents, path):
        a, b = ((self.file_at(parent, path) or (None,))[0] for parent in parents)
        if a is None or a == b:
            return (b, None)
        if b is None or b in log.ancestors(a):
            return (a, None)
        return (b, None) if a in log.ancestors(b) else (a, b)

    def fresh_text(self, first, body, source):
        if source is None:
            return body_text(body)
        return copy_text(source, self.filelogs[source].nodes[self.file_at(first, source)[0]], body)

    def test_copies(self, parents, tree):
        copies = [(path, source) for path, (_, _, source) in tree.items() if source is not None]
        if any(self.file_at(parents[0], source) is None for _, source in copies):
            raise Refused(23, "abort: unknown path")
        for path, _ in copies:
            if any(self.file_at(parent, path) for parent in parents):
                raise Refused(32, f"abort: copy over {path.decode()}")

    def commit(self, names, tree, user, date, phase, mark, branch, description):
        """Of a tree from paths to a flag, a body and a source. The revisions are added at the end, where nothing refuses them."""
        self.begin()
        parents = self.parents_of(names)
        link = len(self.trees)
        self.test_copies(parents, tree)
        rows, changed, added = {}, set(), {}
        for path, (flag, body, source) in tree.items():
            log = self.filelogs.get(path) or Revlog()
            first, second = self.file_parents(log, parents, path)
            is_kept = first is not None and second is None and body_of(log.texts[first]) == body
            old = self.file_at(parents[0], path) or self.file_at(parents[1], path)
            if not is_kept or (old and old[1] != flag):
                changed.add(path)
            if is_kept:
                rows[path] = (first, flag)
            else:
                added[path] = (self.fresh_text(parents[0], body, source), (first, second))
                rows[path] = (None, flag)
        changed |= {path for parent in parents if parent is not None for path in self.trees[parent] if path not in tree}
        if parents[1] is None and not changed:
            raise Refused(13, f"abort: nothing changed ({parents[0] or 0})")
        when = b"%d %d" % date + (b" branch:" + branch if branch else b"")
        return self.add(parents, link, rows, added, sorted(changed), user, when, phase, mark, description)

    def add(self, parents, link, rows, added, changed, user, when, phase, mark, description):
        nodes = {}
        for path, (text, file_parents) in added.items():
            log = self.filelogs.get(path) or Revlog()
            rev = log.standing(text, file_parents)
            low, high = sorted(log.node(parent) for parent in file_parents)
            nodes[path] = hashlib.sha1(low + high + text).digest() if rev is None else log.nodes[rev]
        for path, (rev, _) in rows.items():
            if path not in nodes:
                nodes[path] = self.filelogs[path].nodes[rev]
        text = b"".join(b"%s\0%s%s\n" % (path, nodes[path].hex().encode(), flag.replace("-", "").encode()) for path, (_, flag) in sorted(rows.items()))
        first, second = (None if parent is None else self.manifests[parent] for parent in parents)
        above = (first, None if second == first else second)
        low, high = sorted(self.manifest.node(parent) for parent in above)
        node = hashlib.sha1(low + high + text).digest()
        lines = [node.hex().encode(), user, when, *changed]
        change = b"\n".join(lines) + b"\n\n" + description
        standing = self.changelog.standing(change, parents)
        if standing is not None:
            raise Refused(13, f"abort: nothing changed ({standing})")
        self.in_the_way(added)
        for path in sorted(added):
            if path not in self.filelogs:
                self.filelogs[path] = Revlog()
                self.list += lines_for(path, added[path][0])
            rows[path] = (self.filelogs[path].add(*added[path], link), rows[path][1])
        self.manifests.append(self.manifest.add(text, above, link))
        self.changelog.add(change, parents, link)
        self.trees.append(rows)
        self.phases.append(max([PHASES.index(phase)] + [self.phases[parent] for parent in parents if parent is not None]))
        self.working, self.tracked = link, sorted(rows)
        if mark is not None:
            self.marks[mark] = link
        self.roots = self.roots_text()
        return f"{link}:{self.changelog.nodes[link].hex()}"

    def commit_all(self, changes):
        """Commits of these, all or none. The paths of all are listed in order."""
        after = copy.deepcopy(self)
        said = [after.commit(*change) for change in changes][-1]
        new = sorted(after.filelogs.keys() - self.filelogs.keys())
        after.list = self.list + b"".join(lines_for(path, after.filelogs[path].texts[0]) for path in new)
        self.__dict__ = after.__dict__
        return said

    # ---- the other commands

    def move(self, name, phase, force):
        self.begin()
        rev, to = self.known(name), PHASES.index(phase)
        if to > self.phases[rev] and not force:
            raise Refused(26, f"abort: phase of {rev} needs --force")
        if to == self.phases[rev]:
            raise Refused(13, f"abort: nothing changed ({rev})")
        if to < self.phases[rev]:
            for other in self.changelog.ancestors(rev):
                self.phases[other] = min(to, self.phases[other])
        else:
            for other in range(len(self.phases)):
                if rev in self.changelog.ancestors(other):
                    self.phases[other] = max(to, self.phases[other])
        self.roots = self.roots_text()
        return f"{rev} {phase}"

    def mark(self, mark, name):
        self.begin()
        rev = self.known(name)
        if self.marks.get(mark) == rev:
            raise Refused(13, f"abort: nothing changed ({rev})")
        self.marks[mark] = rev
        return f"{mark} {rev}"

    def unmark(self, mark):
        self.begin()
        if mark not in self.marks:
            raise Refused(12, "abort: unknown revision")
        del self.marks[mark]
        return f"{mark} removed"

    # ---- what the files hold, and what questions answer

    def roots_text(self):
        roots = []
        for rev, phase in enumerate(self.phases):
            if all(phase > self.phases[parent] for parent in self.changelog.parents[rev] if parent is not None) and phase:
                roots.append((phase, rev))
        return b"".join(b"%d %s\n" % (phase, self.changelog.nodes[rev].hex().encode()) for phase, rev in sorted(roots))

    def files(self):
        files = {**self.locks, **self.strays, "requires": self.requires or b"", "store/fncache": self.list, "store/phaseroots": self.roots}
        logs = {"store/00changelog": self.changelog, "store/00manifest": self.manifest}
        for name, log in logs.items():
            files[f"{name}.i"], files[f"{name}.d"] = log.files()
        files["store/00changelog.i"] += self.tail
        for path, log in self.filelogs.items():
            files[store_name(path, b".i")], data = log.files(log.is_inline())
            if data:
                files[store_name(path, b".d")] = data
        files["bookmarks"] = b"".join(b"%s %s\n" % (self.changelog.nodes[rev].hex().encode(), name.encode()) for name, rev in sorted(self.marks.items(), key=lambda mark: mark[0].encode()))
        if self.working is not None:
            entries = b"".join(struct.pack(">cIiiI", b"n", 0, -1, -1, len(path)) + path for path in self.tracked)
            files["dirstate"] = self.changelog.nodes[self.working] + NULL + entries
        return {name: data for name, data in files.items() if data}

    def answers(self):
        """The whole answers of the questions that name no revision."""
        def hexed(rev):
            return self.changelog.nodes[rev].hex()

        parents = {parent for both in self.changelog.parents for parent in both}
        return {
            "log": b"".join(self.line(rev) for rev in reversed(range(len(self.trees)))).decode(),
            "heads": "".join(f"{rev} {hexed(rev)}\n" for rev in range(len(self.trees)) if rev not in parents),
            "bookmarks": "".join(f"{name}\t{rev}\t{hexed(rev)}\n" for name, rev in sorted(self.marks.items())),
            "parents": "" if self.working is None else f"{self.working} {hexed(self.working)}\n",
        }

    def line(self, rev):
        """The line of `log`: of the text of the changeset, and the parents' revisions."""
        head, description = self.changelog.texts[rev].split(b"\n\n", 1)
        _, user, date = head.split(b"\n")[:3]
        parents = [-1 if parent is None else parent for parent in self.changelog.parents[rev]]
        numbers = "\t".join(map(str, [rev, self.changelog.nodes[rev].hex(), *parents])).encode()
        return b"\t".join([numbers, *date.split(b" ")[:2], user, description.split(b"\n")[0]]) + b"\n"

    def listing(self, rev):
        rows = sorted(self.trees[rev].items())
        return b"".join(f"{self.filelogs[path].nodes[file].hex()} {flag} ".encode() + path + b"\n" for path, (file, flag) in rows)
