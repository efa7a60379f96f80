#!/usr/bin/env python3
"""Tries the wrong bodies of a crate that stand as text in its must-fail/retired/, over what `rt check` keeps of the crate.

    tools/try_retired.py hgs_session ..      (no name: each crate that has some)

The gate reads only those right in must-fail/. Here the others take their place in a copy of the repository that goes at the end. Links
to the libraries that stand are there too, and a copy of the work that checks of the crate kept, so it is not proved anew: run `rt check` in
it before. Each is to be refused. The last line is 'N passed, M failed', in crates.
"""

import os
import pathlib
import shutil
import subprocess
import sys
import tempfile

TOP = pathlib.Path(__file__).resolve().parent.parent


def crates():
    return sorted({it.parts[-4] for it in (TOP / "crates").glob("*/must-fail/retired/*.md")})


def link(file, to):
    try:
        os.link(file, to)
    except OSError:
        shutil.copy2(file, to)


def lay(name, copy):
    """A copy of all sources, links to what is built of the libraries, what checks kept of this crate, and its texts as edits."""
    for it in ("crates.txt", "HANDLES"):
        shutil.copy2(TOP / it, copy / it)
    for crate in (TOP / "crates").iterdir():
        to = copy / "crates" / crate.name
        for part in ("src", "specs", "proofs"):
            if (crate / part).is_dir():
                shutil.copytree(crate / part, to / part)
        own = crate.name == name
        built = crate / "out" / ("" if own else "rlib")
        if built.is_dir():
            shutil.copytree(built, to / built.relative_to(crate), copy_function=shutil.copy2 if own else link, symlinks=True)
    edits = copy / "crates" / name / "must-fail"
    edits.mkdir()
    for text in (TOP / "crates" / name / "must-fail/retired").glob("*.md"):
        shutil.copy2(text, edits / (text.stem + ".edit"))


def refused(name):
    with tempfile.TemporaryDirectory(prefix=f"retired-{name}-") as folder:
        copy = pathlib.Path(folder)
        lay(name, copy)
        return subprocess.run([str(TOP / "tools/rt_once.py"), "must-fail", name], cwd=copy, check=False).returncode == 0


def main():
    names = sys.argv[1:] or crates()
    unknown = set(names) - set(crates())
    if unknown:
        sys.exit(f"try_retired: nothing is retired of {', '.join(sorted(unknown))}")
    failed = [name for name in names if not refused(name)]
    for name in failed:
        print(f"not all refused: {name}")
    print(f"{len(names) - len(failed)} passed, {len(failed)} failed")
    sys.exit(1 if failed else 0)


main()
