"""./prove: the programs, or other crates, and the crates below them proved and built.

`rt ci` proves them from nothing in a copy of these crates, side by side, and keeps on the machine what passes. So a start that
is interrupted loses the crates alone that it was at, and ./test proves none of them again. What was built is laid beside the
sources. A library for C is proved there by `rt lib`, which makes its archive."""
import fcntl
import glob
import os
import re
import shutil
import signal
import subprocess
import sys
import tempfile

from gate import stages, times, unproved
from gate.report import minutes
from gate.toolchain import SECONDS, toolchain

PROGRAMS = ("histar", "histar_audit")
LOG = "out/prove.log"
LOCK = "out/prove.lock"
TO_RUN = "all programs are proved and built: ./histar run examples/first.histar"
WRONG_WORDS, NO_RT, NOT_PROVED, NO_ROOM, AT_WORK = 2, 69, 70, 73, 75
# What the disks have to have left, in MB, and what a build that fails for want of it leaves.
WANTED, FULL = 3000, 200
# What rt ci reads of a crate.
PARTS = ("src", "specs", "proofs", "scripts", "data", "stdin", "stdout", "args", "status")
# What it says last of a crate.
SAID = re.compile(r"rt: (\w+) (proved|NOT PROVED|is kept)\b")


class Ended(Exception):
    """Why a start ends without what it was to build: its status, and what it says."""

    def __init__(self, status, text):
        super().__init__(text)
        self.status = status


def left_on_disks():
    """The MB that are left on the disk of the tree and on that of the copy, whichever has less."""
    found = [os.statvfs(it) for it in (".", tempfile.gettempdir())]
    return min(it.f_bavail * it.f_frsize >> 20 for it in found)


class Progress:
    """Which crates are left, and about how long they take: by the seconds of an earlier run, at the pace of those that this one
    proved. What was kept sets no pace."""

    def __init__(self, crates, spent):
        self.known = {name: seconds for (name, kind), seconds in times.read(SECONDS).items() if kind == "check"}
        self.uses = {it.name: [below.name for below in it.deps] for it in crates}
        self.left, self.proved, self.spent = {it.name for it in crates}, set(), spent

    def expects(self, name):
        return self.known.get(name, 30)

    def chain(self, name, known):
        """The seconds of the longest chain of crates that are left up to this one."""
        if name not in known:
            below = max((self.chain(it, known) for it in self.uses[name]), default=0)
            known[name] = below + (self.expects(name) if name in self.left else 0)
        return known[name]

    def pace(self):
        """The processor's seconds that this run takes for one of the earlier run."""
        spent = sum(seconds for (name, _), seconds in self.spent.seconds().items() if name in self.proved)
        return spent / sum(map(self.expects, self.proved)) if spent else 1

    def seconds_left(self):
        whole, known = sum(map(self.expects, self.left)) / len(os.sched_getaffinity(0)), {}
        return self.pace() * max(whole, *(self.chain(it, known) for it in self.left))

    def told(self):
        return f"{len(self.left)} crates left, about {minutes(self.seconds_left())} minutes" if self.left else "none left"

    def ended(self, name, is_kept):
        """Notes that a crate has passed, and says so where it was proved now."""
        self.left.discard(name)
        if not is_kept:
            self.proved.add(name)
            kept = len(self.uses) - len(self.left) - len(self.proved)
            print(f"prove: {name} is proved; kept from before: {kept}; {self.told()}", flush=True)


class Run:
    """A run of a program on what is stored beside it: the words of args, and what it reads (stdin). It writes stdout, and ends with
    status, or 0."""

    def __init__(self, name):
        self.name, self.folder = name, f"crates/{name}"
        self.words = self.stored("args").decode().splitlines()
        self.status = int(self.stored("status") or b"0")

    def stored(self, file):
        """The bytes of a file beside the sources; none where there is no such file."""
        try:
            with open(f"{self.folder}/{file}", "rb") as it:
                return it.read()
        except FileNotFoundError:
            return b""

    def of(self, *words, log=subprocess.DEVNULL):
        """How a command ended that runs the program: its status, and what the program wrote."""
        done = subprocess.run(words, cwd=self.folder, input=self.stored("stdin"), stdout=subprocess.PIPE, stderr=log)
        return done.returncode, done.stdout

    def differs(self, ended):
        """How a run differs from what is stored, if it does."""
        status, wrote = ended
        if status != self.status:
            return f"it ended with status {status}, and {self.folder}/status has {self.status}"
        return f"it wrote something else than {self.folder}/stdout has" if wrote != self.stored("stdout") else None


def make_in(tree):
    """Makes what the crates of a tree have to be made of other files: each by its scripts/make.py."""
    for it in sorted(glob.glob(f"{tree}/crates/*/scripts/make.py")):
        subprocess.run([sys.executable, "-B", it], check=True)


def lay_program(name, tree):
    """Lays the program that stands in a copy of the tree beside its sources here."""
    made, to = f"{tree}/crates/{name}/out/{name}", f"crates/{name}/out/{name}"
    os.makedirs(os.path.dirname(to), exist_ok=True)
    shutil.copyfile(made, f"{to}.new")
    shutil.copymode(made, f"{to}.new")
    os.replace(f"{to}.new", to)


class Copy:
    """A copy of crates, in which rt ci proves them."""

    def __init__(self, top, crates):
        self.top, self.crates = top, crates
        self.stamps = {it.name: it.stamp() for it in crates}
        # (what rt takes for the top of a repository)
        os.makedirs(f"{top}/.git")
        for it in crates:
            self.lay(it.name)
        make_in(top)
        self.lay_list()

    def lay(self, name):
        """Copies what rt ci reads of a crate, but for its must-fail edits, which ./test edits tries."""
        os.makedirs(f"{self.top}/crates/{name}")
        for part in PARTS:
            file, to = f"crates/{name}/{part}", f"{self.top}/crates/{name}/{part}"
            if os.path.isdir(file):
                shutil.copytree(file, to)
            elif os.path.isfile(file):
                shutil.copy2(file, to)

    def lay_list(self):
        """Copies the lines of crates.txt that tell of these crates."""
        if os.path.isfile("HANDLES"):
            shutil.copy2("HANDLES", self.top)
        with open("crates.txt", encoding="utf-8") as it:
            lines = [line for line in it if line.split(":")[0].split()[:1] and line.split(":")[0].split()[0] in self.stamps]
        with open(f"{self.top}/crates.txt", "w", encoding="utf-8") as it:
            it.writelines(lines)

    def prove(self, progress):
        """Proves the crates, and says how far it is. It ends at the first crate that is not proved."""
        how = {"cwd": self.top, "stdin": subprocess.DEVNULL, "stdout": subprocess.PIPE, "stderr": subprocess.STDOUT, "text": True}
        ran = subprocess.Popen(["rt", "ci"], errors="replace", start_new_session=True, **how)
        try:
            said = []
            for line in ran.stdout:
                said.append(line)
                told = SAID.match(line)
                if told:
                    self.note(told[1], told[2], said, progress)
                    said = []
            if ran.wait():
                self.tell_of_runs()
                raise Ended(NOT_PROVED, f"rt ci ended with status {ran.returncode}: {''.join(said[-3:]).strip()}")
        finally:
            stages.end_session(ran.pid)
            ran.wait()

    def note(self, name, how, said, progress):
        """Writes what was said of a crate to its log, and notes whether it passed."""
        log = f"crates/{name}/{LOG}"
        os.makedirs(os.path.dirname(log), exist_ok=True)
        with open(log, "w", encoding="utf-8") as it:
            it.writelines(said)
        if how == "NOT PROVED":
            raise Ended(NOT_PROVED, f"{name} isn't proved: {log} says why")
        progress.ended(name, how == "is kept")

    def tell_of_runs(self):
        """Tells of a program whose run is not the stored one, if there is such a program."""
        for it in self.crates:
            program = os.path.abspath(f"{self.top}/crates/{it.name}/out/{it.name}")
            if it.is_program and os.path.isfile(program):
                run = Run(it.name)
                differs = run.differs(run.of(program, *run.words))
                if differs:
                    raise Ended(NOT_PROVED, f"{it.name} is proved, but its run isn't the stored one: {differs}")

    def lay_built(self):
        """Lays what was built beside the sources. A library has the stamp of the sources that it was made of."""
        for it in self.crates:
            made, to = f"{self.top}/crates/{it.name}/out/rlib", f"crates/{it.name}/out/rlib"
            if it.is_program:
                lay_program(it.name, self.top)
            else:
                shutil.rmtree(to, ignore_errors=True)
                shutil.move(made, to)
                with open(f"{to}/stamp", "w", encoding="utf-8") as stamp:
                    stamp.write(self.stamps[it.name])


def archive(name):
    """Proves a library for C and makes its archive, over the libraries that stand beside their sources."""
    os.makedirs(os.path.dirname(f"crates/{name}/{LOG}"), exist_ok=True)
    with open(f"crates/{name}/{LOG}", "w", encoding="utf-8") as log:
        ran = subprocess.Popen(["rt", "lib"], cwd=f"crates/{name}", stdin=subprocess.DEVNULL, stdout=log, stderr=log, start_new_session=True)
        try:
            if ran.wait():
                raise Ended(NOT_PROVED, f"{name} isn't proved: crates/{name}/{LOG} says why")
            print(f"prove: {name} is proved, and its archive made", flush=True)
        finally:
            stages.end_session(ran.pid)
            ran.wait()


def locked():
    """What keeps other starts out until it is closed."""
    os.makedirs(os.path.dirname(LOCK), exist_ok=True)
    lock = open(LOCK, "w", encoding="utf-8")
    try:
        fcntl.flock(lock, fcntl.LOCK_EX | fcntl.LOCK_NB)
    except BlockingIOError:
        raise Ended(AT_WORK, "another start of ./prove is at work in this tree") from None
    return lock


def interrupt(number, _):
    for it in (signal.SIGINT, signal.SIGTERM, signal.SIGHUP):
        signal.signal(it, signal.SIG_IGN)
    raise Ended(128 + number, "interrupted: the next start goes on from here")


def crates_for(names):
    """These crates and those below them, lowest first."""
    every, scenes = toolchain().rtlib.crates_below(os.getcwd()), unproved.scenes()
    for name in names:
        if name in scenes:
            raise Ended(WRONG_WORDS, f"{name}: it is compiled with checks, not proved: ./test play does so")
        if name not in [it.name for it in every]:
            raise Ended(WRONG_WORDS, f"{name}: crates.txt names no such crate")
    wanted = {below.name for it in every if it.name in names for below in [it, *it.below()]}
    return [it for it in every if it.name in wanted]


def build(names):
    """Proves and builds these crates and those below them."""
    if left_on_disks() < WANTED:
        raise Ended(NO_ROOM, f"the disk has {left_on_disks()} MB left, and this wants {WANTED}")
    crates = crates_for(names)
    print(f"prove: {len(crates)} crates; what this machine has passed before is kept", flush=True)
    with tempfile.TemporaryDirectory(prefix="prove-", ignore_cleanup_errors=True) as room, times.Times() as spent:
        copy = Copy(f"{room}/tree", [it for it in crates if not it.is_static])
        copy.prove(Progress(copy.crates, spent))
        copy.lay_built()
    for it in crates:
        if it.is_static:
            archive(it.name)


def end(status, text):
    """Says why a start ends, and returns its status."""
    print(f"prove: {text}", file=sys.stderr, flush=True)
    return status


def fail(status, text):
    """The same of what failed, on a full disk for that."""
    return end(NO_ROOM, "the disk is full") if left_on_disks() < FULL else end(status, text)


def prove(names=PROGRAMS):
    """Proves and builds these crates, and returns the status."""
    for it in (signal.SIGINT, signal.SIGTERM, signal.SIGHUP):
        signal.signal(it, interrupt)
    try:
        if shutil.which("rt") is None:
            raise Ended(NO_RT, "rt (the Rattle toolchain) is not on the path")
        with locked():
            build(names)
    except Ended as fault:
        return (fail if fault.status == NOT_PROVED else end)(fault.status, fault)
    except OSError as fault:
        return fail(NO_ROOM, f"{fault.filename or 'this tree'} can't be written: {fault.strerror}")
    print(f"prove: {TO_RUN if names == PROGRAMS else f'{chr(32).join(names)}: proved and built'}", flush=True)
    return 0
