"""The scripts of the rules, as crates/rule_scripts has them, played by the program: each prints what is stored, and so it does
where its phases are played through seats, with the same dump. The dump audits clean, and so does each that begins at a
checkpoint, after any number of its events: the auditor restores the checkpoint, plays on and compares replies and tables. So it is
of the scripts of examples/ too."""
import glob
import importlib.machinery
import importlib.util
import os
import re
import tempfile
from concurrent.futures import ThreadPoolExecutor

from gate.plays import is_clean, ran, text as text_of

MAKE = "crates/rule_scripts/scripts/make.py"
# A phase with lines of two workers: a script in which one stands is played through seats. Neither line is a call that changes anything.
AT_ONCE = "--\nboot: self_get\nnobody: self_get\n"
# What the program has to play too: nothing, and a line that names what isn't bound.
FURTHER = (("no_line", [], "", ""), ("unbound_name", [], "boot: unref root x\n", "boot 1: unbound x\n"))
EVENT = re.compile(r"^(?:event|batch) ", re.M)


class Rule:
    """A script of the rules, with its words and what the program prints of it."""

    def __init__(self, name, words, text, out):
        self.name, self.words, self.text, self.out = name, words, text, out


def played_rules():
    """The scripts of the rules that a program can play."""
    loader = importlib.machinery.SourceFileLoader("make", MAKE)
    make = importlib.util.module_from_spec(importlib.util.spec_from_loader("make", loader))
    loader.exec_module(make)
    for scripts in make.all_scripts().values():
        for it in scripts:
            if it.is_played:
                lines = make.in_phases(it.spoken)
                words = [word for name, value in it.options.items() for word in (f"--{name}", value)]
                yield Rule(it.name, words, make.script_of(lines), make.output_of(lines))


class Play:
    """The program and the auditor in a folder of their own, over one script."""

    def __init__(self, room, rule, histar, auditor):
        self.room, self.rule, self.histar, self.auditor = room, rule, histar, auditor

    def run(self, text, *words):
        """What the program prints of a text, and the dump."""
        script, dump = f"{self.room}/script", f"{self.room}/dump"
        with open(script, "w", encoding="utf-8") as it:
            it.write(text)
        ended = ran(*self.histar, "run", script, *self.rule.words, *words, "--dump", dump)
        return ended, text_of(dump)

    def is_clean(self):
        return is_clean(ran(*self.auditor, f"{self.room}/dump"))

    def at_once(self):
        """What the script's own lines print where its phases are played through seats, and the dump."""
        text = self.rule.text + AT_ONCE
        first = self.rule.text.count("\n") + 1
        (status, said), dump = self.run(text)
        own = [it for it in said.splitlines(keepends=True) if int(it.partition(":")[0].split()[-1]) < first]
        return (status, "".join(own)), dump

    def fault(self):
        """What is wrong, if anything, and how many checkpoints were tried."""
        wanted = 0, self.rule.out
        ended, dump = self.run(self.rule.text)
        if ended != wanted:
            return "it prints something else than is stored", 0
        if not self.is_clean():
            return "its dump isn't clean", 0
        ended, other = self.at_once()
        if ended != wanted:
            return "through seats it prints something else", 0
        if without_reads(other) != without_reads(dump):
            return "through seats it leaves another dump", 0
        return self.from_checkpoints()

    def from_checkpoints(self):
        """What is wrong with a dump that begins at a checkpoint, if anything, and how many were tried."""
        _, dump = self.run(self.rule.text)
        events = len(EVENT.findall(dump))
        for count in range(events + 1):
            _, dump = self.run(self.rule.text, "--checkpoint", str(count))
            if len(EVENT.findall(dump)) != events - count:
                return f"a checkpoint after {count} events leaves others than the rest", count
            if not self.is_clean():
                return f"the dump from the checkpoint after {count} events isn't clean", count
        return None, events + 1


def without_reads(dump):
    return [it for it in dump.splitlines() if not it.startswith("read ")]


def examples():
    """The scripts of examples/ that are played whole."""
    for file in sorted(glob.glob("examples/*.histar")):
        stem = file.removesuffix(".histar")
        if text_of(f"{stem}.status", "0") == "0":
            yield Rule(file, text_of(f"{stem}.words").split(), text_of(file), text_of(f"{stem}.out"))


def tried(rules, find):
    """What is wrong with scripts, which are tried side by side, and how many checkpoints were tried."""

    def one(rule):
        with tempfile.TemporaryDirectory(prefix="rules-") as room:
            fault, count = find(room, rule)
            return fault and f"{rule.name}: {fault}", count

    with ThreadPoolExecutor(os.cpu_count()) as pool:
        found = list(pool.map(one, rules))
    return [fault for fault, _ in found if fault], sum(count for _, count in found)


def play(report, histar=("./histar",), auditor=("./histar-audit",)):
    """Plays all scripts of the rules, and those of examples/ from checkpoints."""
    rules = [*played_rules(), *(Rule(*it) for it in FURTHER)]
    faults, count = tried(rules, lambda room, it: Play(room, it, histar, auditor).fault())
    is_well = not faults and count > len(rules) > len(FURTHER)
    report.counts(is_well, f"{len(rules)} scripts: replies as stored, alike through seats, dumps clean, from {count} checkpoints too")
    shown = list(examples())
    others, count = tried(shown, lambda room, it: Play(room, it, histar, auditor).from_checkpoints())
    report.counts(not others and count > len(shown), f"{len(shown)} scripts of examples/: dumps from {count} checkpoints are clean")
    for fault in faults + others:
        report.say(fault)
