"""The cases: each file below cases/ tells what a program is given and how it has to end. docs/GATE.md has the form.

python3 -m gate.cases FILE..    plays these files alone"""
import difflib
import glob
import os
import re
import shlex
import subprocess
import sys
import tempfile
from concurrent.futures import ThreadPoolExecutor

from gate import unproved

FOLDER = "cases"
LIMIT = 120
HEADING = "== "
REFUSED, AGAIN = "each request refused", "each request refused, made again"
ESCAPE = re.compile(rb"\\x([0-9a-f]{2})")
GONE = re.compile(r"(\d+) gone")
# The program that plays scenes, which is compiled with checks.
SCENES = "probe"
# The programs that the words of a case may begin with, each with what starts it.
PROGRAMS = {"histar": "./histar", "histar-audit": "./histar-audit", SCENES: unproved.place(SCENES)}
USAGE = re.compile(rb"error: .*For more information, try '--help'\.\n", re.S)


class Unreadable(Exception):
    """What is wrong with the text of a case."""


def bytes_of(lines):
    """The bytes that lines of a case stand for: `\\xNN` is a byte, and a line that ends in `\\` goes on in the next one."""
    text = "".join(it.removesuffix("\\") if it.endswith("\\") else f"{it}\n" for it in lines)
    return ESCAPE.sub(lambda it: bytes([int(it[1], 16)]), text.encode())


def words_in(line):
    """The words of a command, quoted as a shell has them."""
    words = [bytes_of([f"{it}\\"]) for it in shlex.split(line)]
    if not words or words[0].decode(errors="replace") not in PROGRAMS:
        raise Unreadable(f"no program is named: {line}")
    return words


class Run:
    """A command, the files that are put before it, what it reads, and how it has to end."""

    def __init__(self, words, files):
        self.words, self.files = words, files
        self.given, self.status, self.out, self.err, self.wrote = b"", 0, b"", b"", {}
        self.is_usage, self.says = False, None
        # whether each request for memory is refused in turn, and whether what was refused is made again
        self.is_refused, self.is_again = False, False

    def name(self):
        return " ".join(os.fsdecode(it) for it in self.words)

    def started(self):
        return [os.path.abspath(PROGRAMS[self.words[0].decode()]), *self.words[1:]]

    def prepare(self, folder):
        """Puts its files into a folder: all that are there then."""
        for name, content in self.files.items():
            write(f"{folder}/{name}", content)
        return files_in(folder)

    def ended(self, folder):
        """How it ends in a folder: the status, both outputs, and the files that are there then."""
        how = {"cwd": folder, "stdout": subprocess.PIPE, "stderr": subprocess.PIPE, "timeout": LIMIT}
        try:
            done = subprocess.run(self.started(), input=self.given, **how)
        except subprocess.TimeoutExpired:
            return None, b"", b"still running\n", {}
        return done.returncode, done.stdout, done.stderr, files_in(folder)

    def fault(self, folder):
        """What is wrong with how it ends, if anything, as lines."""
        before = self.prepare(folder)
        status, out, err, after = self.ended(folder)
        if self.is_usage:
            is_well = (status, out, after) == (2, b"", before) and USAGE.fullmatch(err)
            return [] if is_well else [f"status {status}: {os.fsdecode(out + err)}"]
        found = [] if status == self.status else [f"status {status}, wanted {self.status}"]
        if self.says is not None:
            return found + differences("what it says", self.says, out + err)
        found += differences("output", self.out, out) + differences("error", self.err, err)
        wanted = {**before, **self.wrote}
        for name in sorted({*wanted, *after}):
            found += differences(f"file {name}", wanted.get(name), after.get(name))
        return found


def files_in(folder):
    found = {}
    for it in sorted(os.listdir(folder)):
        with open(f"{folder}/{it}", "rb") as file:
            found[it] = file.read()
    return found


def write(file, content):
    with open(file, "wb") as it:
        it.write(content)


def differences(name, wanted, got):
    """The lines in which two contents differ; None stands for no content."""
    if wanted == got:
        return []
    if wanted is None or got is None:
        return [f"{name}: {'is there' if wanted is None else 'is not there'}"]
    lines = [os.fsdecode(it).split("\n") for it in (wanted, got)]
    return list(difflib.unified_diff(*lines, f"{name}, wanted", f"{name}, got", lineterm=""))


def with_line(content, row):
    """A content with one line, from 1, that is another one, or gone."""
    lines = content.splitlines(keepends=True)
    place, _, other = row.partition("|")
    gone = GONE.fullmatch(place)
    number = int(gone[1] if gone else place)
    if not 1 <= number <= len(lines) + (not gone):
        raise Unreadable(f"there is no line {number}")
    return b"".join([*lines[: number - 1], b"" if gone else bytes_of([other]), *lines[number:]])


class Case:
    """A case as it is read: its runs, one after another in one folder. The file of a row is that of the run before it."""

    def __init__(self, text):
        self.runs, self.files = [], {}
        for heading, lines in sections(text):
            word, _, rest = heading.partition(" ")
            if word == "file":
                self.files[self.named(rest)] = bytes_of(lines)
            elif word == "words":
                self.add(Run(words_in(" ".join(lines)), self.files))
                self.files = {}
            elif heading == "refused words":
                self.add_usages(lines)
            else:
                self.fill(self.last(), heading, lines)
        if self.files or not self.runs:
            raise Unreadable("no words come after its files")

    def add(self, run):
        self.runs.append(run)

    def last(self):
        if not self.runs:
            raise Unreadable("it begins with no words")
        return self.runs[-1]

    @staticmethod
    def named(name):
        if not name or "/" in name:
            raise Unreadable(f"'{name}' names no file of a folder")
        return name

    def add_usages(self, lines):
        """Each line has words that are refused: status 2, and what is wrong with them."""
        for line in lines:
            run = Run(words_in(line), self.files)
            run.is_usage = True
            self.add(run)
            self.files = {}

    def fill(self, run, heading, lines):
        word, _, rest = heading.partition(" ")
        if word == "input":
            run.given = bytes_of(lines)
        elif word == "status":
            run.status = int("".join(lines))
        elif word == "output":
            run.out = bytes_of(lines)
        elif word == "error":
            run.err = bytes_of(lines)
        elif word == "wrote":
            run.wrote[self.named(rest)] = bytes_of(lines)
        elif word == "rows":
            self.add_rows(run, self.named(rest), lines)
        elif heading in (REFUSED, AGAIN) and not lines:
            run.is_refused, run.is_again = True, heading == AGAIN
        else:
            raise Unreadable(f"no section is named '{heading}'")

    def add_rows(self, run, name, lines):
        """Each row is the run before it over a file with one line changed: LINE|TEXT|STATUS|WHAT IT SAYS, or LINE gone|STATUS|.."""
        content = run.files[name]
        for line in lines:
            change, status, says = line.rsplit("|", 2)
            row = Run(run.words, {name: with_line(content, change)})
            row.status, row.says = int(status), bytes_of([says]) if says else b""
            self.add(row)

    def fault(self):
        """What is wrong with its runs, if anything, as lines."""
        with tempfile.TemporaryDirectory(prefix="case-") as folder:
            for run in self.runs:
                found = run.fault(folder)
                if found:
                    return [f"{run.name()}:", *found]
        return []


def sections(text):
    """The sections of a case, each with its lines. What stands before the first one says what the case shows."""
    lines = text.split("\n")
    if lines.pop():
        raise Unreadable("its last line does not end")
    found = []
    for line in lines:
        if line.startswith(HEADING):
            found.append((line.removeprefix(HEADING), []))
        elif found:
            found[-1][1].append(line)
    if not lines or lines[0].startswith(HEADING):
        raise Unreadable("it does not begin with what it shows")
    return found


def read(file):
    """The case of a file."""
    if not file.endswith(".case"):
        raise Unreadable("it is no .case file")
    with open(file, encoding="utf-8") as it:
        return Case(it.read())


def played(file):
    """What is wrong with a case, if anything, as lines, and how many runs it has."""
    try:
        case = read(file)
        return case.fault(), len(case.runs)
    except (Unreadable, ValueError, KeyError, OSError) as fault:
        return [f"{type(fault).__name__}: {fault}"], 0


def files():
    """All files of cases, also such as can't be played."""
    return sorted(it for it in glob.glob(f"{FOLDER}/**", recursive=True) if os.path.isfile(it))


def plays_scenes(file):
    """Whether a case plays the program of scenes."""
    with open(file, "rb") as it:
        return re.search(rf"^{SCENES}\b".encode(), it.read(), re.M)


def play(report, names=()):
    """Plays these files, or all. A file that is no case fails."""
    chosen = list(names) or files()
    if any(map(plays_scenes, chosen)):
        unproved.newest(SCENES)
    report.counts(bool(chosen), f"{len(chosen)} cases")
    with ThreadPoolExecutor(os.cpu_count()) as pool:
        for file, (fault, runs) in zip(chosen, pool.map(played, chosen)):
            report.counts(not fault, f"{file}: {runs} runs" if not fault else f"{file}: " + "\n".join(fault))


def main(names):
    from gate.report import Report

    report = Report()
    play(report, names)
    return report.finish()


if __name__ == "__main__":
    sys.exit(main(sys.argv[1:]))
