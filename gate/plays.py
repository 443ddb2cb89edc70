"""The scripts of examples/ played against what is stored beside them, and dumps audited: those of these runs, which are
clean, and the stored ones of examples/dumps/.

Beside NAME.histar stand NAME.out, what it prints; NAME.status, where it is not 0; NAME.words, further words of the command.
Beside NAME.dump stands NAME.verdict, what the auditor prints of it."""
import difflib
import glob
import os
import subprocess
import tempfile

# The seconds that a command may take.
LIMIT = 60
# What the auditor prints of a clean dump, and of one that begins at a checkpoint after the boot.
FROM_CHECKPOINT = "from its checkpoint"
CLEAN, CLEAN_LATER = "clean", f"clean\n{FROM_CHECKPOINT}"


def text(file, otherwise=""):
    """A file's text, or another one where there is no such file."""
    if not os.path.isfile(file):
        return otherwise
    with open(file, encoding="utf-8") as it:
        return it.read()


def ran(*words, given=""):
    """How a command ended: its status and what it wrote to standard output, with what it wrote to standard error after it. (A
    program that isn't proved says so there.) One that hangs has no status."""
    how = {"input": given, "stdout": subprocess.PIPE, "stderr": subprocess.PIPE, "text": True, "errors": "replace"}
    try:
        done = subprocess.run(words, timeout=LIMIT, **how)
    except subprocess.TimeoutExpired:
        return None, f"{' '.join(words)}: still running after {LIMIT} seconds"
    return done.returncode, done.stdout + done.stderr


class Script:
    """A script of examples/ with what is stored of it."""

    def __init__(self, file):
        stem = file.removesuffix(".histar")
        self.file = file
        self.status = int(text(f"{stem}.status", "0"))
        self.words = text(f"{stem}.words").split()
        self.out = text(f"{stem}.out")

    def play(self, report, histar):
        status, said = ran(*histar, "run", self.file, *self.words)
        is_well = (status, said) == (self.status, self.out)
        if not is_well:
            report.say(f"status {status}, wanted {self.status}")
            report.say("\n".join(difflib.unified_diff(self.out.split("\n"), said.split("\n"), "stored", "printed", lineterm="")))
        report.counts(is_well, f"play {self.file}: {'as' if is_well else 'not as'} stored")

    def audit(self, report, histar, auditor):
        with tempfile.TemporaryDirectory(prefix="dump-") as folder:
            ran(*histar, "run", self.file, *self.words, "--dump", f"{folder}/dump")
            audit(report, auditor, f"{folder}/dump", CLEAN, f"the dump of {self.file}")


def is_clean(ended):
    """Whether an audit ended with the verdict clean, of a dump that begins at the boot or at a later checkpoint."""
    return ended in ((0, f"{CLEAN}\n"), (0, f"{CLEAN_LATER}\n"))


def audit(report, auditor, file, wanted, name):
    """Audits a dump; what the auditor prints tells its status too."""
    status = 0 if wanted in (CLEAN, CLEAN_LATER) else 1 if wanted.startswith("false") else 2
    ended, said = ran(*auditor, file)
    is_well = (ended, said) == (status, f"{wanted}\n")
    report.counts(is_well, f"audit of {name}: {said.strip()}" + ("" if is_well else f", status {ended}, wanted {wanted}, {status}"))


def play(report, histar=("./histar",), auditor=("./histar-audit",)):
    """Plays every script and audits every dump, by the commands given. An unproved run says so on standard error, and fails."""
    scripts = [Script(it) for it in sorted(glob.glob("examples/*.histar"))]
    for script in scripts:
        script.play(report, histar)
    for script in scripts:
        if script.status == 0:
            script.audit(report, histar, auditor)
    for file in sorted(glob.glob("examples/dumps/*.dump")):
        audit(report, auditor, file, text(f"{file.removesuffix('.dump')}.verdict").strip(), file)
