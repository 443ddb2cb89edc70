#!/usr/bin/env python3
"""Takes over into gate/seconds what the last whole ./test (and ./test edits) left in out/times, and writes the table of
docs/GATE.md anew, between its two marks: each crate's lines and edits as they stand, its seconds, the longest chain of
crates, and minutes for each thousand lines. ./prove tells how long is left by gate/seconds."""
import glob
import os
import sys

sys.dont_write_bytecode = True
os.chdir(os.path.dirname(os.path.dirname(os.path.realpath(__file__))))
sys.path.insert(0, os.getcwd())

from gate import times, unproved  # noqa: E402
from gate.proofs import TIMES  # noqa: E402
from gate.toolchain import SECONDS  # noqa: E402

BEGIN, END = "<!-- made by gate/table.py -->\n", "<!-- end of what gate/table.py made -->\n"


def lines(files):
    """How many lines are not blank, comments among them."""
    count = 0
    for file in files:
        with open(file, encoding="utf-8") as it:
            count += sum(bool(line.strip()) for line in it)
    return count


def below(pattern):
    return glob.glob(pattern, recursive=True)


class Crate:
    """A crate of crates.txt that is proved: the crates that it uses, its lines and edits, and its seconds of processor."""

    def __init__(self, name, uses, seconds):
        root = f"crates/{name}"
        self.name, self.uses = name, uses
        self.code = lines(below(f"{root}/src/**/*.rt"))
        self.definitions, self.proofs = lines(below(f"{root}/specs/**/*.antt")), lines(below(f"{root}/proofs/**/*.antt"))
        self.edits = len(glob.glob(f"{root}/must-fail/*.edit"))
        self.seconds = {kind: seconds.get((name, kind)) for kind in times.KINDS}

    def row(self, kinds):
        cells = [f"`{self.name}`", self.code, self.definitions, self.proofs, self.edits]
        seconds = [self.seconds[it] for it in kinds]
        shown = [str(it) if it else "" for it in cells] + ["" if it is None else str(it) for it in seconds]
        return f"| {' | '.join(shown)} |"


def crates():
    seconds = times.read(SECONDS)
    rows = [line.split("#")[0].split(":") for line in unproved.proved_lines().splitlines() if ":" in line.split("#")[0]]
    return [Crate(row[0].split()[0], row[1].split(), seconds) for row in rows]


def longest_chain(found):
    """The chain of crates, each using the one before, whose checks take longest one after another, with its seconds."""
    known, best = {it.name: it for it in found}, {}

    def chain_to(crate):
        if crate.name not in best:
            under = [chain_to(known[it]) for it in crate.uses if it in known]
            seconds, names = max(under, default=(0, []))
            own = crate.seconds["check"] or 0
            best[crate.name] = seconds + own, [*names, crate.name]
        return best[crate.name]

    return max(map(chain_to, found))


def table():
    found = crates()
    kinds = [kind for kind in times.KINDS if any(it.seconds[kind] is not None for it in found)]
    heads = ["Crate", "Code", "Definitions", "Proofs", "Edits", *(f"{it.capitalize()}, s" for it in kinds)]
    yield f"| {' | '.join(heads)} |\n|{'---|' * len(heads)}"
    for crate in found:
        yield crate.row(kinds)
    sums = [sum(getattr(it, part) for it in found) for part in ("code", "definitions", "proofs", "edits")]
    seconds = [sum(it.seconds[kind] or 0 for it in found) for kind in kinds]
    yield f"| all | {' | '.join(map(str, sums + seconds))} |\n"
    taken, names = longest_chain(found)
    yield f"The longest chain of crates takes {taken} s of processor: {', '.join(f'`{it}`' for it in names)}.\n"
    thousands = sum(sums[:3]) / 1000
    shares = [f"{it / 60 / thousands:.1f} for {kind}" for it, kind in zip(seconds, kinds)]
    yield f"Minutes of processor for each thousand lines of code, definitions and proofs: {', '.join(shares)}."


def main():
    times.add(SECONDS, times.read(TIMES))
    with open("docs/GATE.md", encoding="utf-8") as it:
        head, _, rest = it.read().partition(BEGIN)
    tail = rest.partition(END)[2]
    with open("docs/GATE.md", "w", encoding="utf-8") as it:
        it.write(head + BEGIN + "\n" + "\n".join(table()) + "\n\n" + END + tail)


main()
