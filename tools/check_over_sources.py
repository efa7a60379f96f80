#!/usr/bin/env python3
"""Checks functions of a crate soon after a change far below it: libraries that are not built since they changed, and all that stand on
those, are taken as sources, which are read and not proved. Minutes in place of the proofs of a whole chain; no verdict rests on it.
What was read and checked is kept for the next time, outside the repository, which then takes half a minute.

    tools/check_over_sources.py CRATE [FLAG..]

The flags are those of `rattle check`; `--only MODULE::FUNCTION` names what to check.
"""

import hashlib
import os
import pathlib
import subprocess
import sys
import tempfile

TOP = pathlib.Path(__file__).resolve().parent.parent
KIT = pathlib.Path("/opt/rattle")


def read_table():
    """The crates of crates.txt, each with the libraries that it uses."""
    lines = (TOP / "crates.txt").read_text(encoding="utf-8").splitlines()
    rows = (line.partition(":") for line in lines if line and not line.startswith("#"))
    return {name.split()[0]: used.split() for name, _, used in rows}


def below(table, crate, found):
    """The repository's crates below this one, lowest first."""
    for used in table[crate]:
        if used in table and used not in found:
            below(table, used, found)
            found.append(used)
    return found


def is_built(name):
    """Whether the library stands, and none of what others read of it is newer."""
    folder = TOP / "crates" / name
    built = folder / "out/rlib" / f"{name}.rlib"
    read = [path for part in ("src", "specs") for path in (folder / part).rglob("*") if path.is_file()]
    return built.exists() and all(path.stat().st_mtime <= built.stat().st_mtime for path in read)


def words_of(table, crate):
    libraries, sources = below(table, crate, []), set()
    for name in libraries:
        if not is_built(name) or sources & set(table[name]):
            sources.add(name)
    words = ["--crate-name", crate, "src/lib.rt" if (TOP / "crates" / crate / "src/lib.rt").exists() else "src/main.rt"]
    kit = {used for name in [crate, *sources] for used in table[name] if used not in table} | {"std"}
    for name in sorted(kit):
        words += ["--extern", f"{name}={KIT}/rlibs/{name}.rlib"]
    words += ["-L", f"dependency={KIT}/rlibs"]
    for name in libraries:
        folder = TOP / "crates" / name
        words += ["--lib", f"{name}={folder}/src/lib.rt"] if name in sources else ["--extern", f"{name}={folder}/out/rlib/{name}.rlib"]
    for name in libraries:
        words += [] if name in sources else ["-L", f"dependency={TOP}/crates/{name}/out/rlib"]
    print("as sources:", " ".join(sorted(sources)), flush=True)
    return [*words, "--antt-project", f"{KIT}/rattle/logic/antt-project.json", "--logic-built", f"{KIT}/logic_built"]


def kept_of(crate):
    """Where what was checked of this crate of this tree is kept."""
    name = hashlib.sha256(os.fsencode(TOP)).hexdigest()[:12]
    folder = pathlib.Path(tempfile.gettempdir()) / f"hg_store-over-sources-{name}" / crate
    folder.mkdir(parents=True, exist_ok=True)
    return str(folder)


def main():
    table, words = read_table(), sys.argv[1:]
    if not words or words[0] not in table:
        sys.exit(__doc__)
    crate, flags = words[0], words[1:]
    command = [str(KIT / "bin/rattle"), "check", *words_of(table, crate), "--incremental", kept_of(crate), *flags]
    return subprocess.call(command, cwd=TOP / "crates" / crate)


if __name__ == "__main__":
    sys.exit(main())
