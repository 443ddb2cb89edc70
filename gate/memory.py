"""Each request for memory refused in turn, in the runs of cases that ask for it: the Nth of a run by an allocator that is loaded
first, N from 1 until a run meets no Nth. Such a run ends as the case tells, or with status 4 and its line, and nothing else written; a
dialogue has answered the first of its lines then. One that makes calls again ends as the case tells each time."""
import os
import re
import subprocess
import tempfile
from concurrent.futures import ThreadPoolExecutor

from gate import cases, unproved

LIMIT = 60
# How many requests of a run are refused side by side.
AT_ONCE = 16
# The names by which a program tells a fault, beside its own, by the verb that it is started with.
NAMES = {("histar", it): f"histar {it}" for it in ("check", "try", "show")}


def kit():
    """The toolchain's folder."""
    return os.path.dirname(subprocess.run(["rt", "doc"], check=True, stdout=subprocess.PIPE, text=True).stdout.strip())


def library(room, name):
    """The library of gate/NAME.c, to be loaded before a program, made by the toolchain's own compiler."""
    made = f"{room}/{name}.so"
    words = [f"{kit()}/toolchain/bin/clang", "-shared", "-fPIC", "-O2", "-nostdlib", "-fuse-ld=lld", "-o", made, f"gate/{name}.c"]
    subprocess.run(words, check=True)
    return made


class Refused:
    """A run of a case whose requests are refused, in a folder of its own with what the runs before it leave."""

    def __init__(self, file, runs, tree):
        self.file, self.before, self.run = file, runs[:-1], runs[-1]
        words = tuple(os.fsdecode(it) for it in self.run.words[:2])
        crate = words[0].replace("-", "_")
        self.program = os.path.abspath(unproved.place(crate) if crate == cases.SCENES else f"{tree}/crates/{crate}/out/{crate}")
        self.is_dialogue = words == ("histar", "try")
        self.lines = [f"{it}: out of memory\n".encode() for it in (words[0], NAMES.get(words, words[0]))]

    def name(self):
        return f"{self.file}: {self.run.name()}"

    def ended(self, library, number, folder):
        """How the run ends with this request refused, and whether there was one to refuse."""
        with tempfile.TemporaryFile() as mark:
            environment = {**os.environ, "LD_PRELOAD": library, "REFUSE": str(number), "REFUSED": str(mark.fileno())}
            how = {"cwd": folder, "env": environment, "stdout": subprocess.PIPE, "stderr": subprocess.PIPE, "pass_fds": [mark.fileno()]}
            try:
                done = subprocess.run([self.program, *self.run.words[1:]], input=self.run.given, timeout=LIMIT, **how)
                told = done.returncode, done.stdout, done.stderr, cases.files_in(folder)
            except subprocess.TimeoutExpired:
                told = None, b"", b"", {}
            mark.seek(0)
            return told, bool(mark.read())

    def is_right(self, told, files):
        """Whether it ended as it should, in a folder that had these files."""
        run, (status, out, err, after) = self.run, told
        if told == (run.status, run.out, run.err, {**files, **run.wrote}):
            return True
        is_told = out == b"" or (self.is_dialogue and run.out.startswith(out))
        return not run.is_again and (status, after) == (4, files) and err in self.lines and is_told

    def refused(self, library, number):
        """Whether the run ends as it should with this request refused, how it ended, and whether there was one to refuse."""
        with tempfile.TemporaryDirectory(prefix="refused-") as folder:
            for run in self.before:
                run.prepare(folder)
                run.ended(folder)
            files = self.run.prepare(folder)
            told, was_refused = self.ended(library, number, folder)
            return self.is_right(told, files), told, was_refused

    def tried(self, library, pool):
        """Refuses one request after another, some side by side, until a run meets none of a number."""
        number = 0
        while True:
            for is_right, told, was_refused in pool.map(lambda it: self.refused(library, it), range(number + 1, number + 1 + AT_ONCE)):
                number += 1
                if not is_right:
                    return False, f"{self.name()}: request {number} refused changes an answer: {told[:3]}"
                if not was_refused:
                    return number > 1, f"{self.name()}: {number - 1} requests refused in turn"


def marked(tree):
    """The runs of all cases whose requests are to be refused. (What is no case fails where cases are played.)"""
    for file in cases.files():
        try:
            runs = cases.read(file).runs
        except (cases.Unreadable, ValueError, KeyError, OSError):
            continue
        yield from (Refused(file, runs[: at + 1], tree) for at, run in enumerate(runs) if run.is_refused)


def refuse(report, tree):
    """Refuses each request in turn in these runs."""
    unproved.newest("probe")
    with tempfile.TemporaryDirectory(prefix="memory-") as room, ThreadPoolExecutor(os.cpu_count()) as pool:
        refusing, runs = library(room, "refuse"), list(marked(tree))
        report.counts(bool(runs), f"{len(runs)} runs of cases have their requests refused")
        for it in runs:
            report.counts(*it.tried(refusing, pool))
        give_back(report, tree, room)


def give_back(report, tree, room):
    """A run through seats, whose kernel stands in two copies, holds hardly anything at its end: a closed book gives back what it took."""
    histar, holding = f"{tree}/crates/histar/out/histar", library(room, "held")
    words = [histar, "run", "examples/workers.histar", "--pages", "512"]
    done = subprocess.run(words, env={**os.environ, "LD_PRELOAD": holding}, stdout=subprocess.DEVNULL, stderr=subprocess.PIPE, text=True)
    told = re.fullmatch(r"held (\d+) of (\d+)\n", done.stderr)
    held, most = map(int, told.groups()) if told else (1, 1)
    report.counts(100 * held < most, f"a run through seats holds {held} bytes at its end, of {most} at most")
