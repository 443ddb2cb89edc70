"""How the programs end: the commands of the table of docs/PROGRAMS.md, each with its status and its line, and the arguments that their help
names. Where something outside a program fails, no file is lost."""
import os
import re
import resource
import shlex
import signal
import subprocess
import tempfile

from gate.plays import text

TABLES = "docs/PROGRAMS.md"
ROW = re.compile(r"^\| `(histar[^`]*)` \| (\d+) \| [^|]* \| ?(.*?) ?\|$", re.M)
HELPED = re.compile(r"^\| `(histar[^`]*)` \| (`[^|]*) \|$", re.M)
# What the table says of an error whose text clap makes, and of a script's faults, which another command prints too.
USAGE = "a text of `clap`"
AND_CHECK, CHECK = ", then what `histar check` prints", "histar check faulty"
# What the commands are given: a script, a faulty one, dumps, and lines of dialogues.
GIVEN = {
    "script": "boot: cat_create\n",
    "faulty": "boot: no_call\n",
    "clean": "examples/dumps/two_categories.dump",
    "false": "examples/dumps/leak.dump",
    "lines": "cat_create\n",
    "saves": "cat_create\nsave nowhere/script\n",
}
OLD = "what was there before\n"
OPTIONS_OF_ALL = {"--help", "-h", "--version", "-V"}


def put(file, made):
    with open(file, "w", encoding="utf-8") as it:
        it.write(made)


def lay(folder):
    for name, made in GIVEN.items():
        put(f"{folder}/{name}", text(made) if made.startswith("examples/") else made)


def files_of(folder):
    return {it: text(f"{folder}/{it}") for it in os.listdir(folder)}


def typed(folder, command, **how):
    """How a command of the table ended: its status, and what it wrote."""
    program, _, rest = command.partition(" ")
    words = f"exec {shlex.quote(os.path.abspath(program))} {rest.replace('{', chr(39) + '{').replace('}', '}' + chr(39))}"
    done = subprocess.run(["sh", "-c", words], cwd=folder, stdin=subprocess.DEVNULL, capture_output=True, text=True, **how)
    return done.returncode, done.stdout, done.stderr


def is_line(said, wanted, checked=""):
    """Whether what stands on standard error is what a row says, where this is what the command that checks prints."""
    if wanted == USAGE:
        return said.startswith("error: ") and "--help" in said
    if wanted.endswith(AND_CHECK):
        return bool(checked) and said == f"{wanted.removesuffix(AND_CHECK).strip('`')}\n{checked}"
    return said == (f"{wanted.strip('`')}\n" if wanted else "")


def try_row(report, command, status, line):
    """A row's command: its status and its line. Where it fails, the files are as they were."""
    with tempfile.TemporaryDirectory(prefix="fault-") as folder:
        lay(folder)
        before = files_of(folder)
        ended, _, said = typed(folder, command)
        checked = typed(folder, CHECK)[1] if line.endswith(AND_CHECK) else ""
        is_well = (ended, is_line(said, line, checked)) == (status, True) and (not status or files_of(folder) == before)
        report.counts(is_well, f"{command}: status {ended}, {said.strip()}")


def try_help(report, command, arguments):
    """What help names of a program: the arguments of its row and no other; and an option that no program has."""
    wanted = set(re.findall(r"`([^`]+)`", arguments))
    status, said, beside = typed(".", f"{command} --help")
    usage = said.partition("Usage:")[2].partition("\n")[0]
    named = set(re.findall(r"(?<![\w-])--?[a-zA-Z][\w-]*", said)) - OPTIONS_OF_ALL | set(re.findall(r"[<\[]([A-Z]+)[>\]]", re.sub(r"--\w[\w-]* <\w+>", "", usage))) - {"OPTIONS"}
    is_well = (status, beside, named) == (0, "", wanted)
    report.counts(is_well, f"{command} --help: {' '.join(sorted(named))}")
    status, said, beside = typed(".", f"{command} --no-such-option")
    report.counts((status, said) == (2, "") and is_line(beside, USAGE), f"{command} --no-such-option: status {status}")


def try_left_over(report):
    """What a run that was killed left beside a dump doesn't stop the next one from writing it."""
    with tempfile.TemporaryDirectory(prefix="fault-") as folder:
        lay(folder)
        put(f"{folder}/dump.histar-new", OLD)
        ended = typed(folder, "histar run script --dump dump")
        is_well = (ended[0], ended[2], os.listdir(folder).count("dump.histar-new")) == (0, "", 0) and text(f"{folder}/dump").startswith("histar-dump ")
        report.counts(is_well, f"a dump beside a left-over of an earlier run: status {ended[0]}, {ended[2].strip()}")


def try_migrations(report):
    """A dump takes its own place in format 2, once, and stays clean; a checkpoint of more events than there are has all."""
    with tempfile.TemporaryDirectory(prefix="fault-") as folder:
        lay(folder)
        for before in ("histar-dump 1\n", "histar-dump 2\n"):
            is_well = text(f"{folder}/clean").startswith(before)
            status, _, said = typed(folder, "histar-audit clean --migrate clean")
            is_well = is_well and (status, said) == (0, "") and text(f"{folder}/clean").startswith("histar-dump 2\n")
            report.counts(is_well, f"a dump that begins {before.strip()} is migrated to its own file: status {status}, {said.strip()}")
        status, _, said = typed(folder, "histar run script --dump dump --checkpoint 1000")
        audited = typed(folder, "histar-audit dump")[0]
        is_well = (status, said, audited) == (0, "", 0) and "\nevent " not in text(f"{folder}/dump")
        report.counts(is_well, f"a checkpoint past the events: status {status}, audited {audited}, {said.strip()}")


def cut_off(room):
    """Makes standard output a file that may have no more than so many bytes. (What is written past them is refused, and not ended.)"""

    def limit():
        signal.signal(signal.SIGXFSZ, signal.SIG_IGN)
        resource.setrlimit(resource.RLIMIT_FSIZE, (room, room))

    return limit


def try_short_outputs(report, command, name):
    """Each output that is cut off, after each number of bytes: what was written is its beginning, and the status is 3."""

    def written(room=resource.RLIM_INFINITY):
        status, _, said = typed(folder, f"{command} >out", preexec_fn=cut_off(room))
        return status, text(f"{folder}/out"), said

    with tempfile.TemporaryDirectory(prefix="fault-") as folder:
        lay(folder)
        _, whole, _ = written()
        wrong = [it for it in range(len(whole)) if written(it) != (3, whole[:it], f"{name}: output fault\n")]
        is_well = bool(whole) and not wrong and written(len(whole))[1] == whole
        report.counts(is_well, f"{command} >FILE: each of {len(whole)} outputs that are cut off is an output fault {wrong[:3]}".rstrip(" []"))


def fail(report):
    rows, helped = ROW.findall(text(TABLES)), HELPED.findall(text(TABLES))
    report.counts(len(rows) > 40 and len(helped) > 8, f"{TABLES} has {len(rows)} commands with their statuses, and the arguments of {len(helped)}")
    for command, status, line in rows:
        try_row(report, command, int(status), line)
    for command, arguments in helped:
        try_help(report, command, arguments)
    try_left_over(report)
    try_migrations(report)
    for command, name in (("histar run script", "histar"), ("histar-audit clean", "histar-audit"), ("histar show tree clean", "histar show")):
        try_short_outputs(report, command, name)
