"""python3 -m gate.api [CRATE..]    prints the public names of each crate, or of these: what its root file says of it, and what it exports"""
import re
import sys

from gate.plays import text


def names_of(crate):
    """What a crate's root file exports: names of `pub use`, and public modules."""
    root = re.sub(r"//.*", "", text(f"crates/{crate}/src/lib.rt"))
    for path in re.findall(r"^pub use ([^;]*);", root, re.M):
        listed = re.search(r"\{(.*)\}", path, re.S)
        yield from (it.strip() for it in listed[1].split(",") if it.strip()) if listed else (path.rpartition("::")[2],)
    yield from (f"{it}::*" for it in re.findall(r"^pub mod (\w+);", root, re.M))


def head_of(crate):
    """What the root file says of the crate, up to its first full stop."""
    lines = re.match(r"(?://! ?.*\n)*", text(f"crates/{crate}/src/lib.rt"))[0]
    return " ".join(it.removeprefix("//!").strip() for it in lines.splitlines()).partition(". ")[0].rstrip(".")


def crates():
    lines = (it.partition("#")[0].partition(":")[0].split() for it in text("crates.txt").splitlines())
    return [it[0] for it in lines if it]


def main(words):
    for crate in words or crates():
        try:
            print(f"{crate}: {head_of(crate)}.\n    {', '.join(sorted(names_of(crate)))}")
        except FileNotFoundError:  # a program exports nothing
            continue


if __name__ == "__main__":
    main(sys.argv[1:])
