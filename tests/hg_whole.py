"""An extension of Mercurial for the tests: each text is stored whole and uncompressed, and a revlog is inline by the rule of this
project alone: a filelog whose first text has at most 4,096 bytes. All else is Mercurial's own."""

from mercurial import revlog
from mercurial.revlogutils import constants, deltas

enforce = revlog.revlog._enforceinlinesize


def compress(self, data):
    return (b"u", data) if data and data[:1] != b"\0" else (b"", data)


def whole(self, revinfo, fh, excluded_bases=None, target_rev=None):
    rev = len(self.revlog) if target_rev is None else target_rev
    return self._fullsnapshotinfo(fh, revinfo, rev)


def inline_or_apart(self, tr):
    if self.target[0] != constants.KIND_FILELOG or self.rawsize(0) > 4096:
        enforce(self, tr)


def extsetup(ui):
    revlog.revlog._enforceinlinesize = inline_or_apart
    revlog.revlog.compress = compress
    deltas.deltacomputer.finddeltainfo = whole
    revlog._maxinline = 0
