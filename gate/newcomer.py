"""What README, docs/TUTORIAL.md and docs/EMBED.md tell a newcomer to type, typed in their order in a copy of the tree where nothing is built, and run to
its end. What a document gives a name for (SCRIPT, DUMP, ..) stands in FILLED.

What README has before ./prove is started unproved, says so in one line, and is started once more after it: then it says the
same and nothing beside. After ./prove no command writes to standard error. The first half hour (a script run, edited, checked, run again,
its dump, audit and page) comes before anything is proved."""
import os
import re
import shutil
import subprocess
import tempfile
import time

from gate import documents
from gate.plays import text
from gate.proofs import copy_tree

README, EMBED = "README.md", "docs/EMBED.md"
FILLED = {"SCRIPT": "examples/first.histar", "DUMP": "first.dump", "FILE": "first.html", "ID": "4", "N": "1", "LABEL": "'{1}'"}
NAMED = ("NAME", "secret")
# What checks the whole tree, of which this stage is a part, and what the stage `packages` types.
ELSEWHERE = ("./test", "./test quick", "./package", "./install PREFIX")
PROVE, LIB, TRY = "./prove", "./lib", "./histar try"
ASKED, ANSWERED = "c = cat_create\ncat_create\n", "cat c\ncat #2\n"
FIRST = "refused 5 CannotObserve\n"
# What is typed in the first half hour: commands, each with whether it is the first of its program, which is compiled then, and what it says.
MINE = "cp examples/first.histar mine.histar && echo 'boot: segment_read root s 0 2' >> mine.histar"
FIRST_LOOK = (
    ("./histar run examples/first.histar", True, "boot 4: data 0001"),
    (MINE, False, ""),
    ("./histar check mine.histar", False, ""),
    ("./histar run mine.histar", False, "boot 5: data 0001\n"),
    ("./histar run mine.histar --dump mine.dump", False, "boot 5: data 0001\n"),
    ("./histar-audit mine.dump", True, "clean\n"),
    ("./histar show page mine.dump --out mine.html && grep -c '</html>' mine.html", False, "1\n"),
    ("printf 'c = cat_create\\nsave mine.saved\\n' | ./histar try && cat mine.saved", False, "c = boot: cat_create\n"),
)
# The seconds that a second answer takes at most.
QUICK = 2
MANIFEST = '[package]\nname = "first"\nversion = "0.1.0"\nedition = "2021"\n\n[dependencies]\nhistar = {{ path = "{top}/bindings/rust/histar" }}\n'


def commands_in(document):
    """The commands of this repository that a document shows, in its order: those of its blocks and those between backticks."""
    found = re.findall(r"^ {4}(?:\$ )?(\./.*)$|`(\./[^`]*)`", document, re.M)
    return [filled(block or word) for block, word in found if block or word.split(" ")[-1] != "--help"]


def filled(command):
    return " ".join(FILLED.get(it, it.replace(*NAMED)) for it in command.split(" "))


def program_in(document, language):
    """The first block of a document that is in this language."""
    return re.search(rf"^```{language}\n(.*?)^```$", document, re.M | re.S)[1]


class Newcomer:
    """Who types in a tree in which nothing is built."""

    def __init__(self, report, top):
        self.report, self.top = report, top
        self.was_said = {}

    def type(self, command):
        """How a command ended: status, standard output, standard error. A dialogue is given two lines through a pipe."""
        how = {"cwd": self.top, "input": ASKED if command == TRY else "", "capture_output": True, "text": True, "errors": "replace"}
        done = subprocess.run(["sh", "-c", command], **how)
        return done.returncode, done.stdout, done.stderr

    def counts(self, is_well, command, ended):
        """Counts how a command ended, and shows what it said where that is not well."""
        if not is_well:
            self.report.say("\n".join(it[-2000:] for it in map(str, ended)))
        self.report.counts(is_well, f"{command}: status {ended[0]}")

    def is_right(self, command, said):
        """Whether an answer is the stored one, as far as one is stored."""
        script = next((it for it in command.split(" ") if it.endswith(".histar") and " run " in command), "")
        wanted = ANSWERED if command == TRY else text(f"{script.removesuffix('.histar')}.out") if script else said
        return said == wanted and bool(said or "--out" in command or " check " in command)

    def look_first(self):
        """The first half hour: each program is compiled once, and any other answer comes at once."""
        for command, is_first, wanted in FIRST_LOOK:
            began = time.monotonic()
            ended = status, said, beside = self.type(command)
            taken = time.monotonic() - began
            is_well = status == 0 and wanted in said and beside.count("not proved yet") == command.count("./histar") and (is_first or taken < QUICK)
            self.counts(is_well, f"at first, {command}, {taken:.1f} s", ended)

    def start_unproved(self, command):
        """Types a command before ./prove: one line says that nothing is proved."""
        ended = status, said, beside = self.type(command)
        self.was_said[command] = said
        is_told = beside.count("\n") == 1 and "not proved yet" in beside
        self.counts(status == 0 and is_told and self.is_right(command, said), f"unproved, {command}", ended)

    def start_proved(self, command, statuses=(0,)):
        """Types a command after ./prove: nothing stands beside what it says, which is what it said unproved."""
        ended = status, said, beside = self.type(command)
        is_same = said == self.was_said.get(command, said)
        self.counts(status in statuses and not beside and is_same and self.is_right(command, said), command, ended)

    def build(self, command):
        """Types what builds, and returns whether it ended well: it says last that it has built."""
        ended = self.type(command)
        self.counts(ended[0] == 0, f"{command}: {(ended[1].splitlines() or [''])[-1]}", ended)
        return ended[0] == 0

    def read_readme(self):
        """README's commands, in its order."""
        commands = [it for it in commands_in(text(README)) if it not in ELSEWHERE]
        before = list(dict.fromkeys(commands[: commands.index(PROVE)]))
        self.look_first()
        for it in before:
            self.start_unproved(it)
        if self.build(PROVE):
            for it in before + [it for it in dict.fromkeys(commands) if it not in (*before, PROVE, LIB)]:
                self.start_proved(it)
            documents.compare_page(self.report, documents.TUTORIAL, self.top)
        if self.build(LIB):
            self.compile_c()
            self.compile_rust()

    def compile_c(self):
        """The first program in C, by the command that stands above it."""
        command = re.search(r"^ {4}(cc .*)$", text(EMBED), re.M)[1]
        if not shutil.which("cc"):
            self.report.say(f"left out: {command}: there is no cc")
            return
        with open(f"{self.top}/program.c", "w", encoding="utf-8") as it:
            it.write(program_in(text(EMBED), "c"))
        ended = self.type(f"{command} && ./a.out")
        self.counts(ended == (0, FIRST, ""), command, ended)

    def compile_rust(self):
        """The first program in Rust, in a package of its own."""
        if not shutil.which("cargo"):
            self.report.say("left out: the first program in Rust: there is no cargo")
            return
        os.makedirs(f"{self.top}/out/first/src")
        for file, made in (("Cargo.toml", MANIFEST.format(top=self.top)), ("src/main.rs", program_in(text(EMBED), "rust"))):
            with open(f"{self.top}/out/first/{file}", "w", encoding="utf-8") as it:
                it.write(made)
        ended = self.type("cargo run --quiet --offline --manifest-path out/first/Cargo.toml")
        self.counts(ended[0] == 0 and "CannotObserve" in ended[1], "the first program in Rust", ended)


def read(report):
    with tempfile.TemporaryDirectory(prefix="newcomer-") as room:
        copy_tree(f"{room}/tree")
        Newcomer(report, f"{room}/tree").read_readme()
