"""Dialogues with `./histar try`.

Those of examples/tries/NAME.txt are answered as NAME.out beside it stores. What each of them saves is a script that
`./histar run` plays to the replies of the calls that it kept. And a script of examples/ is answered line by line as it is
played, where no phase has lines of two workers and no line is of a batch."""
import difflib
import glob
import os
import pty
import re
import subprocess
import tempfile

from gate.plays import ran, text

WORDS = ("", "--", "why", "tree", "help", "quit")
NOT_KEPT = ("fault: ", "unbound ")
REPLY = re.compile(r"^[a-z0-9_]+ (\d+): (.*)$", re.M)


def answered(lines, folder="."):
    """How a dialogue of these lines ended: its status, and what it wrote."""
    how = {"cwd": folder, "input": lines, "stdout": subprocess.PIPE, "stderr": subprocess.PIPE, "text": True}
    done = subprocess.run([os.path.abspath("histar"), "try"], **how)
    return done.returncode, done.stdout + done.stderr


def kept_of(calls, answers):
    """The replies to the calls that a dialogue keeps, each of whose lines has one line of answer."""
    kept = []
    for call, answer in zip(calls, answers, strict=True):
        if call == "undo":
            kept = kept[:-1]
        elif not answer.startswith(NOT_KEPT):
            kept.append(answer)
    return kept


def replies_of(script, *words):
    """The replies of a script that is played, in the order of its lines."""
    _, said = ran("./histar", "run", script, *words)
    return [reply for _, reply in sorted((int(number), reply) for number, reply in REPLY.findall(said))]


def compare_stored(report, file):
    """Compares what a dialogue answers with what is stored."""
    wanted = text(f"{file.removesuffix('.txt')}.out")
    with tempfile.TemporaryDirectory(prefix="try-") as folder:
        status, said = answered(text(file), folder)
    if said != wanted:
        report.say("\n".join(difflib.unified_diff(wanted.split("\n"), said.split("\n"), "stored", "answered", lineterm="")))
    report.counts((status, said) == (0, wanted), f"dialogue {file}: status {status}, {'as' if said == wanted else 'not as'} stored")


def compare_saved(report, file):
    """Plays what a dialogue saves."""
    calls = [line for line in text(file).splitlines() if line not in WORDS and not line.startswith("save ")]
    with tempfile.TemporaryDirectory(prefix="try-") as folder:
        _, said = answered("\n".join([*calls, "save saved"]), folder)
        answers = said.splitlines()
        kept = kept_of(calls, answers[:-1])
        played = replies_of(f"{folder}/saved")
    report.counts(answers[-1] == "saved" and played == kept, f"dialogue {file}: what it saves plays to its {len(kept)} replies")


def compare_asked(report):
    """On a terminal each line is asked for, and the terminal's end ends the dialogue."""
    ours, theirs = pty.openpty()
    how = {"stdin": theirs, "stdout": subprocess.PIPE, "stderr": subprocess.PIPE, "text": True}
    done = subprocess.Popen(["./histar", "try"], **how)
    os.close(theirs)
    os.write(ours, b"c = cat_create\n\n\x04")
    said = "".join(done.communicate(timeout=60))
    os.close(ours)
    report.counts((done.returncode, said) == (0, "> cat c\n> > "), f"a dialogue on a terminal: status {done.returncode}, {said!r}")


def is_lone(script):
    """Whether no phase of a script has two workers, and no line is of a batch."""
    if ":+ " in script:
        return False
    workers = [{re.sub(r"^\S+ = ", "", line).split(":")[0] for line in phase.splitlines()} for phase in script.split("--\n")]
    return all(len(it) <= 1 for it in workers)


def compare_played(report, file):
    """Compares the answers to the lines of a script with its stored replies."""
    wanted = replies_of(file)
    _, said = answered(text(file))
    report.counts(said.splitlines() == wanted, f"the lines of {file} are answered as they are played")


def compare(report):
    """Compares all dialogues."""
    stored = sorted(glob.glob("examples/tries/*.txt"))
    report.counts(bool(stored), f"examples/tries has {len(stored)} dialogues")
    for file in stored:
        compare_stored(report, file)
        compare_saved(report, file)
    compare_asked(report)
    for file in sorted(glob.glob("examples/*.histar")):
        is_plain = not os.path.isfile(f"{file.removesuffix('.histar')}.words") and "refused 42" not in text(f"{file.removesuffix('.histar')}.out")
        if is_plain and is_lone(text(file)):
            compare_played(report, file)
