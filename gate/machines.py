"""Scripts on both machines by `probe run`: every script of examples/ that has no fault, every one of the rules, and random ones, each
of a stated seed. The arena kernel and the plain one answer the same and have the same tables at the end, and in random scripts after
each line of a small kernel and each hundredth of a large one. The arena kernel keeps just
the rows of translation that the tables show, the replies are those that are stored, where some are, and from the kernel's boot to its
last answer nothing asks for memory. In all stored scripts together each of the 34 calls is accepted, and in the random ones each is
accepted many times at each size."""
import collections
import glob
import os
import re
import subprocess
import tempfile
from concurrent.futures import ThreadPoolExecutor

from gate import unproved
from gate.memory import library
from gate.plays import Script as Example
from gate.rules import played_rules
from gate.scripts import script

LINE = re.compile(r"(?:\w+ = )?[\w#]+:\+? (\w+)")
ANSWER = re.compile(r"\S+ (\d+): (\S+)")
CALLS = 34
SEED = 2006
# Of random scripts the pages, how many there are, the most phases, after how many lines each the tables are compared, and how often
# each call is accepted at least. Each size has more than ten thousand lines.
DRAWN = ((8, 240, 8, 1, 2), (64, 150, 12, 10, 20), (512, 75, 40, 100, 20), (1_024, 110, 40, 100, 20))


def stored():
    """The scripts that have replies: those of examples/ and those of the rules."""
    for file in sorted(glob.glob("examples/*.histar")):
        it = Example(file)
        if it.status == 0:
            with open(file, encoding="utf-8") as text:
                yield Played(file, it.words, text.read(), it.out)
    for it in played_rules():
        yield Played(it.name, it.words, it.text, it.out)


def random_ones():
    """Scripts of a kernel of so many pages, each with a seed of its own."""
    for pages, count, most, every, _ in DRAWN:
        for number in range(count):
            seed = f"{SEED} {pages} {number}"
            text = script(seed, phases=1 + number % most, is_small=pages == 8)
            yield Played(f"random script '{seed}'", ["--pages", str(pages)], text, every=every)


class Played:
    """A script, with what the program prints of it where that is stored."""

    def __init__(self, name, words, text, out=None, every=0):
        self.name, self.words, self.text, self.out = name, words, text, out
        self.before = ["every", str(every)] if every else []
        self.printed = []

    def run(self, program, counter):
        """What both machines print of it, each write with the number of requests before it, and the status."""
        with tempfile.NamedTemporaryFile("w", suffix=".histar", encoding="utf-8") as file:
            file.write(self.text)
            file.flush()
            words = [program, *self.before, "run", file.name, *self.words]
            how = {"stdin": subprocess.DEVNULL, "stdout": subprocess.PIPE, "stderr": subprocess.DEVNULL, "text": True}
            done = subprocess.run(words, env={**os.environ, "LD_PRELOAD": counter}, **how)
        return done.returncode, done.stdout

    def fault(self, status, said):
        """What is wrong of what was printed, if anything."""
        counts = dict(reversed(it) for it in re.findall(r"^requests (\d+): (booted|played)", said, re.M))
        lines = [re.sub(r"^requests \d+: ", "", it) for it in said.splitlines()]
        if status != 0 or lines[-1:] != ["same"]:
            return f"status {status}, {lines[-1:]}"
        if len(counts) != 2 or int(counts["booted"]) == 0:
            return "no requests were counted"
        if counts["booted"] != counts["played"]:
            return f"{counts['booted']} requests for memory until boot, {counts['played']} until the last answer"
        self.printed = lines[2:-1]
        if lines[1] != f"played {len(self.printed)}" or not self.is_as_stored():
            return "other replies than are stored"
        return None

    def is_as_stored(self):
        """Whether it prints what is stored, if something is. (A kernel that is asked itself has no seats, and answers who is no thread in its
        own word.)"""
        if self.out is None:
            return True
        made = [it.replace("refused 42 NoThread", "refused 1 Halted") for it in self.out.splitlines() if ": unbound " not in it]
        return sorted(self.printed) == sorted(made)

    def accepted(self):
        """The words of the calls that were accepted."""
        lines = self.text.splitlines()
        for number, head in ANSWER.findall("\n".join(self.printed)):
            if head != "refused":
                yield LINE.match(lines[int(number) - 1])[1]


def play(report, program, counter, scripts):
    """Plays scripts side by side, and answers whether all are well."""
    with ThreadPoolExecutor(os.cpu_count()) as pool:
        faults = list(pool.map(lambda it: it.fault(*it.run(program, counter)), scripts))
    for it, fault in zip(scripts, faults):
        if fault:
            report.say(f"{it.name}: {fault}")
    return bool(scripts) and not any(faults)


def compare(report):
    """Plays all scripts on both machines."""
    with tempfile.TemporaryDirectory(prefix="machines-") as room:
        compare_all(report, unproved.newest("probe"), library(room, "count"))


def compare_all(report, program, counter):
    scripts = list(stored())
    is_well = play(report, program, counter, scripts)
    report.counts(is_well, f"{len(scripts)} scripts: both machines answer and keep the same, and no call takes memory")
    calls = {word for it in scripts for word in it.accepted()}
    report.counts(len(calls) == CALLS, f"{len(calls)} of the {CALLS} calls are accepted in these scripts")
    scripts = list(random_ones())
    is_well = play(report, program, counter, scripts)
    lines = sum(len(it.printed) for it in scripts)
    report.counts(is_well, f"{len(scripts)} random scripts: both machines answer and keep the same at {lines} calls and queries")
    for pages, _, _, _, enough in DRAWN:
        counts = collections.Counter(word for it in scripts if it.words[1] == str(pages) for word in it.accepted())
        least = min(counts.values()) if len(counts) == CALLS else 0
        report.counts(least >= enough, f"at {pages} pages each of the {CALLS} calls is accepted at least {least} times")
