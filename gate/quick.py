"""The programs compiled with checks and unproved, and played: `rt try` compiles each once and runs it on all that stands of it, the
scripts, dialogues, dumps and commands of the documents, each with what it prints and its status."""
import glob
import os
import re
import shlex
import subprocess
import tempfile
from concurrent.futures import ThreadPoolExecutor

from gate import cases, documents, rules
from gate.plays import Script, text

VERDICTS = {"clean": 0, "false": 1, "unreadable": 2}
ENDED = re.compile(r"^case=(\S+) run=ended status=(\d+) .*output=(\w+) ", re.M)
NOTHING_PROVED = "nothing was proved: the sources were compiled with checks and played"


class Case:
    """One run of a program: its words, what it reads, which also lies beside it as the file `case`, and how it ends."""

    def __init__(self, program, name, words, given, status, out):
        self.program, self.name = program, re.sub(r"\W+", "_", name)
        self.words, self.status = words, status
        self.given, self.out = (it if isinstance(it, bytes) else os.fsencode(it) for it in (given, out))

    def put(self, folder):
        """Lays the case as `rt try --cases` takes it."""
        cases.write(f"{folder}/{self.name}", self.given)
        cases.write(f"{folder}/{self.name}.args", "".join(f"{it}\n" for it in self.words).encode())
        cases.write(f"{folder}/{self.name}.stdout", self.out)


def scripts():
    for it in map(Script, sorted(glob.glob("examples/*.histar"))):
        yield Case("histar", it.file, ["run", "case", *it.words], text(it.file), it.status, it.out)
    for it in rules.played_rules():
        yield Case("histar", f"rule {it.name}", ["run", "case", *it.words], it.text, 0, it.out)


def dialogues():
    for file in sorted(glob.glob("examples/tries/*.txt")):
        yield Case("histar", file, ["try"], text(file), 0, text(f"{file.removesuffix('.txt')}.out"))


def renamed(out, name):
    """What a program says where it is given the file `case` in place of one with this name: a fault begins with the name."""
    return re.sub(rf"^{re.escape(name)}:", "case:", out, flags=re.M)


def dumps():
    for file in sorted(glob.glob("examples/dumps/*.dump")):
        verdict = text(f"{file.removesuffix('.dump')}.verdict")
        yield Case("histar_audit", file, ["case"], text(file), VERDICTS[verdict.split()[0]], verdict)


def is_text(word):
    """Whether a word is UTF-8: a file of words has no other."""
    try:
        return bool(word.decode()) or word == b""
    except UnicodeDecodeError:
        return False


def stored():
    """The runs of cases/ that read one file and write none. (What an unproved program says on standard error is not compared.) A file
    that an earlier run had, or wrote, is still there."""
    for file in cases.files():
        there = {}
        for number, run in enumerate(cases.read(file).runs):
            there |= run.files
            words = [os.fsdecode(it) for it in run.words]
            names = [it for it in words if it in there]
            there |= run.wrote
            is_played = not (run.is_usage or run.wrote or run.says is not None or len(names) > 1)
            if is_played and all(map(is_text, run.words)) and not (names and run.given):
                given = there[names[0]] if names else run.given
                placed = ["case" if it in names else it for it in words[1:]]
                out = renamed(os.fsdecode(run.out), names[0]) if names else run.out
                yield Case(words[0].replace("-", "_"), f"{file} {number}", placed, given, run.status, out)


PROGRAM_OF = {"./histar run": "histar", "./histar check": "histar", "./histar show": "histar", "./histar-audit": "histar_audit"}


def shown():
    """The commands of the documents that read one file, which stands in the tree, and write none."""
    for document in documents.FILES:
        for command, out in documents.commands_in(text(document)):
            program = next((made for words, made in PROGRAM_OF.items() if command.startswith(words)), None)
            words = shlex.split(command)[1:]
            files = [it for it in words if os.path.isfile(it)]
            is_alone = len(files) == 1 and not any(it.startswith("out/") for it in words)
            if program and is_alone and not re.search(r"[|;&>]", command) and "--out" not in words:
                placed = ["case" if it in files else it for it in words]
                yield Case(program, f"{document} {command}", placed, text(files[0]), None, renamed(out, files[0]))


def play_one(report, program, cases):
    """Compiles a program with checks, runs it on its cases, and counts each."""
    with tempfile.TemporaryDirectory(prefix=f"quick-{program}-") as folder:
        for it in cases:
            it.put(folder)
        how = {"cwd": f"crates/{program}", "stdin": subprocess.DEVNULL, "stdout": subprocess.PIPE, "stderr": subprocess.STDOUT, "text": True}
        said = subprocess.run(["rt", "try", "--cases", folder], errors="replace", **how).stdout
    ended = {name: (int(status), output) for name, status, output in ENDED.findall(said)}
    if not ended:
        report.say(said[-3000:])
    for it in cases:
        status, output = ended.get(it.name, (None, "none"))
        is_well = output == "expected" and it.status in (None, status)
        report.counts(is_well, f"{program} {it.name}: status {status}, output {output}" + ("" if is_well else f", wanted status {it.status}"))
    if any(ended.get(it.name, (None, ""))[1] != "expected" for it in cases):
        report.say(said[-6000:])


def play(report):
    """Plays all cases, the programs side by side."""
    found = {}
    for it in (*scripts(), *dialogues(), *dumps(), *stored(), *shown()):
        found.setdefault(it.program, {})[it.name] = it
    with ThreadPoolExecutor(os.cpu_count()) as pool:
        list(pool.map(lambda it: play_one(report, it[0], list(it[1].values())), found.items()))
    report.say(NOTHING_PROVED)
