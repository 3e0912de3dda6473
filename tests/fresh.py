"""Copies the repository to a fresh folder: each file that git doesn't ignore, as it stands in the working tree."""

import filecmp
import os
import re
import shutil
import subprocess

ROOT = os.path.dirname(os.path.dirname(os.path.abspath(__file__)))


def crates():
    """The crates that crates.txt names, lowest first, each with all those of the repository below it."""
    below = {}
    with open(ROOT + "/crates.txt", encoding="utf-8") as file:
        for line in file:
            name, colon, uses = line.partition("#")[0].partition(":")
            if colon:
                below[name.split()[0]] = uses.split()
    found = {}
    while len(found) < len(below):
        for name, uses in below.items():
            own = [use for use in uses if use in below]
            if name not in found and all(use in found for use in own):
                lower = [[*found[use], use] for use in own]
                found[name] = list(dict.fromkeys(it for row in lower for it in row))
    return found


def gate_takes_names():
    """Whether the toolchain's `rt ci` takes the names of crates: then what passed in one is kept for the machine."""
    told = subprocess.run(["rt", "help"], stdout=subprocess.PIPE, stderr=subprocess.STDOUT, text=True)
    return re.search(r"^ *rt ci .*NAME", told.stdout, re.M) is not None


def copy_to(folder):
    """Copies the files; in a folder that has a copy already, those that changed, and takes away what is gone."""
    listed = ["git", "ls-files", "-z", "--cached", "--others", "--exclude-standard"]
    names = subprocess.run(listed, cwd=ROOT, check=True, capture_output=True, text=True).stdout.split("\0")
    # a file that was deleted is still listed until that is committed
    names = {name for name in names if name and os.path.isfile(f"{ROOT}/{name}")}
    for name in copied(folder) - names:
        os.remove(f"{folder}/{name}")
    for name in names:
        if not (os.path.isfile(f"{folder}/{name}") and filecmp.cmp(f"{ROOT}/{name}", f"{folder}/{name}", False)):
            os.makedirs(os.path.dirname(f"{folder}/{name}"), exist_ok=True)
            shutil.copy(f"{ROOT}/{name}", f"{folder}/{name}")


def copied(folder):
    """The files of a copy, but what the toolchain made there."""
    found = set()
    for top, folders, names in os.walk(folder):
        folders[:] = [it for it in folders if it not in ("out", ".git")]
        found.update(os.path.relpath(f"{top}/{name}", folder) for name in names)
    return found
