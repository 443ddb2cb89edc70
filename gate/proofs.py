"""Every crate proved from nothing, and the programs run: rt ci, on a copy of the tree without crates/*/must-fail, since rt ci tries
edits one after another, and without the crates of scenes and benches, which are compiled with checks. All else of it is as strict as on
the tree itself."""
import os
import re
import shutil
import subprocess

from gate import unproved
from gate.programs import make_in
from gate.times import Times

LOG = "out/test.log"
TIMES = "out/times"


def files():
    """What stands in the tree, committed or not."""
    said = subprocess.run(["git", "ls-files", "-z", "--cached", "--others", "--exclude-standard"], check=True, stdout=subprocess.PIPE)
    return [it for it in os.fsdecode(said.stdout).split("\0") if os.path.isfile(it)]


def copy_tree(to):
    """Copies the tree without its must-fail edits."""
    for file in files():
        if "/must-fail/" not in file:
            os.makedirs(os.path.dirname(f"{to}/{file}"), exist_ok=True)
            shutil.copy2(file, f"{to}/{file}")
    make_in(to)
    # (rt ci holds its lock there)
    subprocess.run(["git", "init", "-q", to], check=True)


def copy_proved(to):
    """Copies what is proved."""
    copy_tree(to)
    for it in unproved.left_out():
        shutil.rmtree(f"{to}/crates/{it}")
    with open(f"{to}/crates.txt", "w", encoding="utf-8") as it:
        it.write(unproved.proved_lines())


def show(report, line):
    """Says a line of rt ci's that is about a whole crate."""
    if line.startswith("rt: ") and not line.startswith(("rt: warning:", "rt: note:", "rt: FAILED:")):
        report.say(f"{report.so_far():>6}  {line[4:].rstrip()}")


def run_and_log(report, tree):
    """Runs rt ci in the tree, shows how far it is, and returns all its lines, which the log has too. A crate has one job where others
    are ready, which takes less of the processors than several do, and more where none is."""
    said = []
    with open(LOG, "w", encoding="utf-8") as log:
        how = {"cwd": tree, "stdin": subprocess.DEVNULL, "stdout": subprocess.PIPE, "stderr": subprocess.STDOUT, "errors": "replace"}
        with subprocess.Popen(["rt", "ci"], **how) as ran:
            for line in ran.stdout:
                log.write(line)
                said.append(line)
                show(report, line)
    return said


def faults(said):
    """The lines that tell why a crate failed, of each crate the first twelve."""
    section = []
    for line in said:
        if line.startswith("== "):
            section = []
        if re.search(r": error|: not proved|^test .* FAILED|panicked", line) and len(section) < 12:
            section.append(line.rstrip())
        if re.match(r"rt: .*(NOT PROVED|FAILED)", line) and not line.startswith("rt: FAILED:"):
            yield from [*section, line.rstrip()]


def prove(report, tree):
    """Proves and runs all in a copy of the tree, and leaves there what was proved, programs linked."""
    copy_proved(tree)
    with Times() as times:
        said = run_and_log(report, tree)
    times.keep(TIMES)
    counts = re.fullmatch(r"(\d+) passed, (\d+) failed\n", said[-1] if said else "")
    report.count_passed(int(counts[1]) if counts else 0)
    for line in faults(said):
        report.say(line)
    failed = [it for line in said if line.startswith("rt: FAILED: ") for it in re.findall(r"\S+(?: \(\w+\))?", line[len("rt: FAILED: ") :])]
    for it in failed:
        report.fails(it)
    if not counts or int(counts[2]) != len(failed):
        report.fails(f"rt ci did not end as it should: {LOG} has what it said")
