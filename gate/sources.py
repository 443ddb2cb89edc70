"""The sources: which files they are, and which commit they stand at. In a clone git tells both; in what a tarball holds, the file SOURCES
does, which is made for the tarball."""
import hashlib
import os
import subprocess

# The file that a tarball has beside the sources: a line for the commit, its seconds and its day, and a line for each file.
LIST = "SOURCES"


def said_by(*words):
    return subprocess.run(words, check=True, stdout=subprocess.PIPE, stderr=subprocess.PIPE, text=True).stdout


def git(*words):
    """What git says of this tree, whoever owns it."""
    return said_by("git", "-c", f"safe.directory={os.getcwd()}", *words)


def is_packed():
    return os.path.isfile(LIST)


def listed():
    with open(LIST, encoding="utf-8") as it:
        return it.read().splitlines()


def files():
    """The files of the tree, in the order of their names."""
    names = listed()[1:] if is_packed() else git("ls-files", "-z").split("\0")
    return sorted(filter(os.path.isfile, names))


def commit():
    """The commit, when it was made in seconds, and on which day."""
    line = listed()[0] if is_packed() else git("log", "-1", "--format=%H %ct %cs").strip()
    name, seconds, day = line.split(" ")
    return name, int(seconds), day


def is_changed():
    """Whether the tree differs from its commit. A tarball's tree is not asked."""
    return not is_packed() and bool(git("status", "--porcelain", "--untracked-files=no").strip())


def total():
    """A sum of all files with their names."""
    whole = hashlib.sha256()
    for file in files():
        with open(file, "rb") as it:
            whole.update(f"{file}\0".encode() + hashlib.sha256(it.read()).digest())
    return whole.hexdigest()
