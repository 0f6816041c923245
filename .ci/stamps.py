#!/usr/bin/env python3
"""Stamps: each says when something that the gate does not run was run whole, on which code, and what came of it.

usage: .ci/stamps.py                        prints of each stamp whether it is fresh
       .ci/stamps.py --make-check LIBRARY   writes that of `make check`, which calls it at its end

faults/scarce writes its own. A stamp is fresh while all that it names is as it was then, comments and layout of code in
Rattle left out, and the kit too. .ci/run prints a stale one, and fails for none."""
import datetime
import glob
import hashlib
import os
import shutil
import subprocess
import sys
from collections import namedtuple

sys.dont_write_bytecode = True
sys.path.insert(0, os.path.dirname(os.path.realpath(__file__)))
import edits  # noqa: E402

ROOT = os.path.dirname(os.path.dirname(os.path.realpath(__file__)))
# What was tried, the stamp's file, and the files and folders that it is of.
Stamp = namedtuple("Stamp", "what path places")
SCARCE = Stamp("faults/scarce", "faults/scarce.stamp", ("crates/*/src",))
MAKE_CHECK = Stamp(
    "make check",
    ".ci/make-check.stamp",
    ("crates/*/src", "crates/*/*.h", "bindings", "examples/c", "examples/python", "Makefile"),
)
# What a build leaves, which is no part of the code.
BUILT = {"out", "target", "__pycache__", "Cargo.lock"}
# What `make check` tries the library with, where it is installed (examples/c/try).
BESIDE = ("curl", "nghttp", "h2load", "valgrind", "python3", "cargo")


def files_of(place):
    """Returns the files of a place, by their paths at the top, in order."""
    found = []
    for path in glob.glob(f"{ROOT}/{place}"):
        if os.path.isfile(path):
            found.append(path)
        for at, folders, names in os.walk(path):
            folders[:] = [it for it in folders if it not in BUILT]
            found += [f"{at}/{it}" for it in names if it not in BUILT]
    return sorted(os.path.relpath(it, ROOT) for it in found)


def sum_of(place):
    """Returns a sum of the paths and texts of a place, of code in Rattle without its comments and its layout."""
    sums = hashlib.sha256()
    for path in files_of(place):
        with open(f"{ROOT}/{path}", encoding="utf-8", errors="surrogateescape") as it:
            text = it.read()
        text = edits.bare(path, text) if path.endswith(".rt") else text
        octets = text.encode(errors="surrogateescape")
        sums.update(f"{path} {len(octets)} ".encode() + octets)
    return sums.hexdigest()[:16]


def kit():
    """Returns the kit's one line, or "none"."""
    try:
        ran = subprocess.run(["rt", "version"], stdin=subprocess.DEVNULL, stdout=subprocess.PIPE, check=True)
    except (OSError, subprocess.CalledProcessError):
        return "none"
    return ran.stdout.decode(errors="replace").strip()


def now(stamp):
    """Returns what a stamp that is written now would be of."""
    return {"kit": kit(), **{place: sum_of(place) for place in stamp.places}}


def write(stamp, of, tried):
    """Writes a stamp: what it is of, and a line on what was tried and what came of it."""
    lines = [f"# When {stamp.what} was last run whole, and on what; written by it. See .ci/stamps.py."]
    lines += [f"date: {datetime.date.today().isoformat()}", f"tried: {tried}"]
    lines += [f"{name}: {sum}" for name, sum in of.items()]
    with open(f"{ROOT}/{stamp.path}", "w", encoding="utf-8") as it:
        it.write("\n".join(lines) + "\n")


def read(stamp):
    """Returns what a stamp says, or None where there is none."""
    try:
        with open(f"{ROOT}/{stamp.path}", encoding="utf-8", errors="replace") as it:
            lines = it.read().splitlines()
    except FileNotFoundError:
        return None
    return {name: said for name, _, said in (line.partition(": ") for line in lines if line[:1] != "#")}


def state(stamp):
    """Returns a line that says whether a stamp is fresh, and what it is of."""
    said = read(stamp)
    if said is None:
        return f"{stamp.what}: no stamp ({stamp.path}): it was not yet run whole with one"
    changed = [name for name, sum in now(stamp).items() if said.get(name) != sum]
    of = f"run whole on {said.get('date', 'an unknown day')}: {said.get('tried', 'nothing is said')}"
    if changed:
        return f"{stamp.what}: STALE, since {', '.join(changed)} changed after it was {of}"
    return f"{stamp.what}: fresh, {of}"


def younger(path, places):
    """Returns a file of these places that was written after the file of that path, if there is one."""
    made = os.path.getmtime(path)
    written = [(os.path.getmtime(f"{ROOT}/{it}"), it) for place in places for it in files_of(place)]
    last, name = max(written)
    return name if last > made else None


def stamp_make_check(library):
    """Writes the stamp of `make check`, if the library that was tried is of the code as it is."""
    newer = younger(library, ("crates/*/src",))
    if newer:
        print(f"no stamp: {newer} changed after {library} was made")
        return
    installed = [it for it in BESIDE if shutil.which(it)]
    lacking = [it for it in BESIDE if it not in installed]
    tried = f"with {', '.join(installed) or 'nothing else'}"
    write(MAKE_CHECK, now(MAKE_CHECK), tried + (f"; not installed: {', '.join(lacking)}" if lacking else ""))
    print(f"{MAKE_CHECK.path} is written")


def main(words):
    if words[:1] == ["--make-check"] and len(words) == 2:
        stamp_make_check(words[1])
    elif words:
        sys.exit(__doc__)
    else:
        for stamp in (SCARCE, MAKE_CHECK):
            print(state(stamp))


if __name__ == "__main__":
    main(sys.argv[1:])
