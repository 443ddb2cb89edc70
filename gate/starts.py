"""How the programs and ./prove start: by the proved program where it stands and is newer than its sources, else by the one compiled with
checks, which is kept, with one line that says so, and one clear line with a status of its own where that can't be.

It tries the repository's own scripts in a small tree of their own. Where only the start matters, a script stands for a program."""
import fcntl
import os
import pty
import re
import shutil
import signal
import struct
import subprocess
import tempfile
import termios
import threading
import time

from gate import plays
from gate.programs import PROGRAMS, TO_RUN
from gate.report import Report

CRATES = "low:\n" + "".join(f"{it}: low\n" for it in PROGRAMS)
# (Its name is of this run alone: no earlier one has proved it, or a program over it.)
PROVABLE = f"//! A number.\n#![tactic(auto)]\n\n/// Gives half of it.\npub fn half_{time.time_ns()}(n: u8) -> u8 {{\n    n / 2\n}}\n"
# (of which nothing was kept)
OTHER = PROVABLE.replace("half", "third").replace("n / 2", "n / 3")
WRONG = PROVABLE.replace("n / 2", "2 / n")
MAIN = "//! Prints nothing.\n#![tactic(auto)]\n\nfn main(_rt: HostRuntime) {}\n"
# What a start says of a program that is not proved: where it compiles it, and where it is kept.
COMPILED = "histar: not proved yet: compiled with checks, which takes some minutes once; ./prove builds the proved program\n"
UNPROVED = "histar: not proved yet: compiled with checks; ./prove builds the proved program\n"
# What ./prove says of a crate that it has proved: the crate, and how many were kept.
IS_PROVED = re.compile(r"prove: (\w+) is proved; kept from before: (\d+); ")


def write(file, text):
    os.makedirs(os.path.dirname(file), exist_ok=True)
    with open(file, "w", encoding="utf-8") as it:
        it.write(text)


class Tree:
    """A small tree with the scripts that start programs."""

    def __init__(self, room):
        self.room, self.top = room, f"{room}/tree"
        os.makedirs(f"{self.top}/gate")
        for it in ("histar", "histar-audit", "histar-show", "start.sh", "prove", "HANDLES", "VERSION"):
            shutil.copy2(it, f"{self.top}/{it}")
        for it in ("programs", "report", "stages", "times", "toolchain", "unproved", "usage", "versions"):
            shutil.copy2(f"gate/{it}.py", f"{self.top}/gate/{it}.py")
        for it in ("gate/answer.sh", "gate/wrap.awk", "cases/words"):
            subprocess.run(["cp", "-r", "--parents", it, self.top], check=True)
        write(f"{self.top}/crates.txt", CRATES)
        write(f"{self.top}/crates/low/src/lib.rt", PROVABLE)
        for it in PROGRAMS:
            write(f"{self.top}/crates/{it}/src/main.rt", MAIN)
            write(f"{self.top}/crates/{it}/stdin", "")

    def program_by_hand(self, name, does='echo "proved $*"', folder="", later=0):
        """Puts a script where ./prove would build a program, or where one compiled with checks is kept, so many seconds from now."""
        made, when = f"{self.top}/crates/{name}/out/{folder}{name}", time.time() + later
        write(made, f"#!/bin/sh\n{does}\n")
        os.chmod(made, 0o755)
        os.utime(made, (when, when))

    def unproved_by_hand(self, name, later=0):
        self.program_by_hand(name, 'echo "unproved $*"; [ -t 0 ] || cat; exit 3', "unproved/", later)

    def start(self, *words, has_rt=True, given=""):
        """How a command of the tree ended: status, standard output, standard error."""
        path = os.environ["PATH"] if has_rt else "/usr/bin:/bin"
        how = {"cwd": self.top, "env": {**os.environ, "PATH": path}, "input": given, "capture_output": True, "text": True}
        done = subprocess.run(words, **how)
        return done.returncode, done.stdout, done.stderr


def shown_at_terminal(words, columns=80, typed=(), **how):
    """What a command shows at a terminal so many columns wide, where these lines are typed, each after some time."""
    ours, theirs = pty.openpty()
    fcntl.ioctl(theirs, termios.TIOCSWINSZ, struct.pack("HHHH", 24, columns, 0, 0))
    started = subprocess.Popen(words, stdin=theirs, stdout=theirs, stderr=theirs, start_new_session=True, **how)
    os.close(theirs)
    for line in typed:
        time.sleep(0.5)
        os.write(ours, line)
    shown = b""
    try:
        while piece := os.read(ours, 4096):
            shown += piece
    except OSError:  # the other end is closed
        pass
    os.close(ours)
    started.wait()
    return shown.decode(errors="replace").replace("\r", "")


def at_terminal(tree, words, columns=80, typed=()):
    """The same of a command of the tree."""
    return shown_at_terminal(words, columns, typed, cwd=tree.top, env={**os.environ, "TERM": "xterm"})


def is_wrapped(report, command, shown, last, columns=40):
    """Counts whether what was shown at a terminal of so many columns stands within them, to its last words."""
    longest = max(map(len, shown.splitlines()))
    report.counts(longest <= columns and shown.rstrip().endswith(last), f"{command} on a terminal of {columns} columns: the longest line has {longest}")


def expect(report, name, got, wanted):
    """Counts whether a command ended as it should: status, standard output, standard error."""
    report.counts(got == wanted, f"{name}: status {got[0]}" + ("" if got == wanted else f", {got}, wanted {wanted}"))


def unproved_of(program):
    return UNPROVED.replace("histar:", f"{program}:")


def try_kept(report, tree):
    """Programs that were compiled with checks and are kept: they get all words, and their input as it comes, and may write files."""
    for it in PROGRAMS:
        tree.unproved_by_hand(it)
    for words in ("histar run script --dump d", "histar run --names=n script", "histar-audit script --migrate=d", "histar show page d --out e", "histar try"):
        program, *rest = words.split()
        ended = tree.start(f"./{program}", *rest, given="save c\n", has_rt=False)
        expect(report, f"./{words} unproved", ended, (3, f"unproved {' '.join(rest)}\nsave c\n", unproved_of(program)))
    ended = tree.start("./histar-show", "tree", "d")
    expect(report, "./histar-show unproved", ended, (3, "unproved show tree d\n", UNPROVED))
    shutil.rmtree(f"{tree.top}/crates/histar/out")


def try_compiled(report, tree):
    """A program that is compiled with checks: once, and again only for other sources."""
    no_rt = (69, "", "histar: rt (the Rattle toolchain) is not on the path\n")
    expect(report, "./histar without rt", tree.start("./histar", "run", "none", has_rt=False), no_rt)
    write(f"{tree.top}/crates/histar/out", "")
    status, _, said = tree.start("./histar", "run", "none")
    report.counts(status == 73 and said.startswith(COMPILED), f"./histar where nothing can be kept: status {status}, {said.strip()}")
    os.remove(f"{tree.top}/crates/histar/out")
    expect(report, "./histar compiled with checks", tree.start("./histar", "run", "none"), (0, "", COMPILED))
    began = time.monotonic()
    ended = tree.start("./histar", "run", "none", has_rt=False)
    taken = time.monotonic() - began
    expect(report, "./histar as kept, without rt", ended, (0, "", UNPROVED))
    report.counts(taken < 2, f"./histar as kept takes {taken:.2f} s, at most 2")
    source = f"{tree.top}/crates/histar/src/main.rt"
    write(source, MAIN.replace("fn main", "fn main main"))
    later = time.time() + 1
    os.utime(source, (later, later))
    status, _, said = tree.start("./histar", "run", "none")
    is_well = status == 70 and said.startswith(COMPILED) and "error" in said and said.endswith("histar: the sources were not compiled\n")
    report.counts(is_well, f"./histar of sources that are wrong: status {status}")
    write(source, MAIN)
    os.utime(source, (1, 1))
    expect(report, "./histar of the sources as they were", tree.start("./histar", "run", "none"), (0, "", UNPROVED))
    shutil.rmtree(f"{tree.top}/crates/histar/out")


def try_help(report, tree):
    """Help proves nothing, whole and on a narrow terminal."""
    stored = {it: plays.text(f"cases/words/{it}.case") for it in ("run_help", "audit_help", "show")}
    typed = (("./histar --help", "run_help"), ("./histar help check", "run_help"), ("./histar run --help", "run_help"))
    for command, case in (*typed, ("./histar-audit -h", "audit_help"), ("./histar show page --help", "show"), ("./histar help show", "show")):
        status, said, beside = tree.start(*command.split(), has_rt=False)
        report.counts((status, beside) == (0, "") and "Usage: " in said and said in stored[case], f"{command} unproved: status {status}, as stored")
    for command, last in (("./histar --help", "Print version"), ("./histar-audit --help", "Print version"), ("./prove --help", "interrupted.")):
        is_wrapped(report, command, at_terminal(tree, command.split(), columns=40), last)


def try_arrows(report, tree):
    """The arrow keys give lines of a dialogue back."""
    if not shutil.which("rlwrap"):
        report.say("left out: arrow keys: rlwrap is not on the path")
        return
    tree.program_by_hand("histar", 'while read -r line && [ "$line" != quit ]; do echo "read $line"; done')
    shown = at_terminal(tree, ("./histar", "try"), typed=(b"tree\n", b"\x1b[A\n", b"quit\n"))
    report.counts(shown.count("read tree") == 2, f"./histar try: an arrow key gives a line back: {shown!r}")
    tree.program_by_hand("histar")


def try_proved(report, tree):
    """The programs where what ./prove builds stands, and is older than a source."""
    for it in PROGRAMS:
        tree.program_by_hand(it)
    for command in ("./histar run script --dump d", "./histar check script", "./histar try --pages 8", "./histar-audit d", "./histar show why d"):
        program, *words = command.split()
        expect(report, f"{command} proved", tree.start(program, *words), (0, f"proved {' '.join(words)}\n", ""))
    proved, unproved = (0, "proved run none\n", ""), (3, "unproved run none\n", UNPROVED)
    source, later = f"{tree.top}/crates/low/src/lib.rt", time.time() + 60
    tree.unproved_by_hand("histar", later=120)
    os.utime(source, (later, later))
    expect(report, "./histar older than a source", tree.start("./histar", "run", "none"), unproved)
    os.utime(source, (1, 1))
    expect(report, "./histar, that source older again", tree.start("./histar", "run", "none"), proved)
    write(f"{tree.top}/crates/low/src/other.rt", "")
    expect(report, "./histar older than a source newly made", tree.start("./histar", "run", "none"), unproved)
    os.remove(f"{tree.top}/crates/low/src/other.rt")
    for count in ("looks at all sources", "looks at what it kept"):
        expect(report, f"./histar {count}", tree.start("./histar", "run", "none"), proved)
    write(f"{tree.top}/crates.txt", CRATES + "more:\n")
    expect(report, "./histar older than crates.txt", tree.start("./histar", "run", "none"), unproved)
    write(f"{tree.top}/crates.txt", CRATES)
    tree.program_by_hand("histar")


def failures_of_play(tree, status, out):
    """How many failures the stage that plays scripts tells of a run that should end with this status and output."""
    script, told = plays.Script("none.histar"), Report(is_silent=True)
    script.status, script.out = status, out
    script.play(told, (f"{tree.top}/histar",))
    return len(told.failures)


def try_gate(report, tree):
    """The stage that plays scripts takes no unproved run for a proved one, though its status and standard output are right."""
    tree.program_by_hand("histar")
    proved = failures_of_play(tree, 0, "proved run none.histar\n")
    shutil.rmtree(f"{tree.top}/crates/histar/out")
    tree.unproved_by_hand("histar")
    unproved = failures_of_play(tree, 3, "unproved run none.histar\n")
    report.counts((proved, unproved) == (0, 1), "the stage that plays scripts passes a proved run, and fails with the program taken away")


def try_prove(report, tree):
    """Bad starts of ./prove that need no check."""
    expect(report, "./prove without rt", tree.start("./prove", has_rt=False), (69, "", "prove: rt (the Rattle toolchain) is not on the path\n"))
    write(f"{tree.top}/out", "")
    expect(report, "./prove where out can't be written", tree.start("./prove"), (73, "", "prove: out can't be written: File exists\n"))
    os.remove(f"{tree.top}/out")
    os.mkdir(f"{tree.top}/out")
    with open(f"{tree.top}/out/prove.lock", "w", encoding="utf-8") as held:
        fcntl.flock(held, fcntl.LOCK_EX)
        beside = (75, "", "prove: another start of ./prove is at work in this tree\n")
        expect(report, "./prove beside another", tree.start("./prove"), beside)


def processes_in(room, crate=""):
    """How many processes work in a room, or in a folder of this crate there."""
    found = 0
    for it in filter(str.isdigit, os.listdir("/proc")):
        try:
            at = os.readlink(f"/proc/{it}/cwd")
        except OSError:
            continue
        found += at.startswith(room) and (not crate or at.endswith(f"/crates/{crate}"))
    return found


class Proving:
    """./prove at work in a room's tree, by the real rt. Its copy of the crates stands in the room too."""

    def __init__(self, room, *words, before=()):
        how = {"cwd": f"{room}/tree", "stdin": subprocess.DEVNULL, "stdout": subprocess.PIPE, "stderr": subprocess.PIPE, "text": True}
        os.makedirs(f"{room}/copies", exist_ok=True)
        self.room, self.said = room, []
        self.started = subprocess.Popen([*before, "./prove", *words], env={**os.environ, "TMPDIR": f"{room}/copies"}, **how)
        self.reader = threading.Thread(target=lambda: self.said.extend(self.started.stdout))
        self.reader.start()

    def proved(self):
        """The crates that it says it has proved, and how many it says were kept when it said so last."""
        told = [it for it in map(IS_PROVED.match, list(self.said)) if it]
        return [it[1] for it in told], int(told[-1][2]) if told else 0

    def wait(self, is_so):
        """Waits until something is so, for five minutes at most, and returns whether it came."""
        until = time.monotonic() + 300
        while not is_so() and time.monotonic() < until and self.started.poll() is None:
            time.sleep(0.05)
        return is_so()

    def interrupt(self):
        self.started.send_signal(signal.SIGINT)
        return self.end()

    def end(self):
        """How it ended: its status, what it wrote last, and to standard error."""
        self.started.wait(timeout=600)
        self.reader.join()
        return self.started.returncode, (self.said or [""])[-1], self.started.stderr.read()


def built(top):
    """The crates that are built in a tree."""
    made = ["low"] if os.path.isfile(f"{top}/crates/low/out/rlib/stamp") else []
    return made + [it for it in PROGRAMS if os.path.isfile(f"{top}/crates/{it}/out/{it}")]


def try_wrong_proof(report, tree):
    """A proof that fails, and the tree once it is mended."""
    write(f"{tree.top}/crates/low/src/lib.rt", WRONG)
    status, _, said = Proving(tree.room).end()
    line = "prove: low isn't proved: crates/low/out/prove.log says why\n"
    is_told = "is not proved" in plays.text(f"{tree.top}/crates/low/out/prove.log")
    report.counts((status, said, is_told) == (70, line, True), f"./prove where a proof fails: status {status}, {said.strip()}")
    write(f"{tree.top}/crates/low/src/lib.rt", PROVABLE)


def try_interrupts(report, tree):
    """Interrupts near the beginning, in the middle and near the end, after each of which nothing is left at work. The last start has two
    processors, and goes on after them."""
    done = set()
    for count in (1, 2, 3):
        proving = Proving(tree.room)
        was_at_work = proving.wait(lambda: len(done | set(proving.proved()[0])) >= count and processes_in(tree.room) > 1)
        status, _, beside = proving.interrupt()
        proved, kept = proving.proved()
        # (Before a crate is told as proved, it is not told how many were kept.)
        is_well = (was_at_work, status, processes_in(tree.room), not proved or kept >= len(done)) == (True, 130, 0, True)
        done |= set(proved)
        report.counts(is_well, f"./prove interrupted with {len(done)} crates proved, {kept} kept: status {status}, {beside.strip()}")
    proving = Proving(tree.room, before=("taskset", "-c", two_processors()))
    status, said, beside = proving.end()
    is_well = (status, said, beside) == (0, f"prove: {TO_RUN}\n", "") and sorted(built(tree.top)) == sorted(["low", *PROGRAMS])
    is_going_on = not done & set(proving.proved()[0])
    report.counts(is_well and is_going_on, f"./prove on two processors goes on after {len(done)} crates: status {status}, {said.strip()} {beside}")


def two_processors():
    return ",".join(map(str, sorted(os.sched_getaffinity(0))[:2]))


def try_stored_run(report, tree):
    """A program whose run isn't the stored one: its status or its output is turned round."""
    for file, made, why in (
        ("status", "1\n", "it ended with status 0, and crates/histar/status has 1"),
        ("stdout", "something\n", "it wrote something else than crates/histar/stdout has"),
    ):
        write(f"{tree.top}/crates/histar/{file}", made)
        status, _, said = Proving(tree.room, "histar").end()
        line = f"prove: histar is proved, but its run isn't the stored one: {why}\n"
        report.counts((status, said) == (70, line), f"./prove with another {file} stored: status {status}, {said.strip()}")
        os.remove(f"{tree.top}/crates/histar/{file}")
    os.remove(f"{tree.top}/crates/histar/stdin")
    status, _, said = Proving(tree.room, "histar").end()
    report.counts(status == 0, f"./prove of a program with no stored input: status {status}, {said.strip()}")


def shrink(disk):
    """Leaves a file system of memory no more than it holds."""
    held = os.statvfs(disk)
    size = (held.f_blocks - held.f_bfree) * held.f_frsize + 100_000
    subprocess.run(["mount", "-o", f"remount,size={size}", disk], check=True)


def try_full_disk(report, tree, room):
    """A disk that fills up while a crate is proved, and one that is too small from the start. It is a small file system of its own, where
    one may be mounted."""
    disk = f"{room}/disk"
    os.makedirs(disk)
    if subprocess.run(["mount", "-t", "tmpfs", "-o", "size=3200M", "none", disk], capture_output=True).returncode:
        report.say("left out: ./prove on a full disk: no file system may be mounted")
        return
    try:
        shutil.copytree(tree.top, f"{disk}/tree", ignore=shutil.ignore_patterns("out"))
        write(f"{disk}/tree/crates/low/src/lib.rt", OTHER)
        proving = Proving(disk)
        was_at_work = proving.wait(lambda: processes_in(disk, "low") > 0)
        shrink(disk)
        status, _, said = proving.end()
        report.counts((was_at_work, status, said) == (True, 73, "prove: the disk is full\n"), f"./prove where the disk fills up: status {status}, {said.strip()}")
        status, _, said = Proving(disk).end()
        report.counts(status == 73 and said.startswith("prove: the disk has "), f"./prove on a small disk: status {status}, {said.strip()}")
    finally:
        subprocess.run(["umount", "-l", disk], check=False)


def try_checks(report, tree, room):
    """./prove with the real rt."""
    shutil.rmtree(f"{tree.top}/out")
    for it in PROGRAMS:
        shutil.rmtree(f"{tree.top}/crates/{it}/out", ignore_errors=True)
    try_wrong_proof(report, tree)
    try_interrupts(report, tree)
    try_stored_run(report, tree)
    try_full_disk(report, tree, room)


def start(report):
    with tempfile.TemporaryDirectory(prefix="starts-") as room:
        tree = Tree(room)
        try_compiled(report, tree)
        try_kept(report, tree)
        try_help(report, tree)
        try_proved(report, tree)
        try_arrows(report, tree)
        try_gate(report, tree)
        try_prove(report, tree)
        try_checks(report, tree, room)
