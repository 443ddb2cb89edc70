"""The benches, compiled with checks, each played for a moment: it ends well and prints its rows. Their times say nothing here."""
import os
import re
import subprocess
import tempfile

from gate import unproved
from gate.plays import text

NAME = "benches"
# The words of each bench, FILE among them for a file that it writes.
ROWS = ("find 8 10", "unref 10 10", "intern 100 10", "count 10", "calls 8 0 0 10 FILE", "calls 64 56 4 10 FILE", "seats 10 FILE", "flows 2 10")
ROW = re.compile(r"\d")


def ran(program, words):
    done = subprocess.run([program, *words], stdin=subprocess.DEVNULL, stdout=subprocess.PIPE, stderr=subprocess.STDOUT, text=True)
    return done.returncode, done.stdout


def play(report):
    program = os.path.abspath(unproved.newest(NAME))
    status, said = ran(program, [])
    report.counts((status, said) == (0, text(f"crates/{NAME}/stdout")), f"{NAME}: status {status}, and its words are told")
    with tempfile.TemporaryDirectory(prefix="benches-") as room:
        for row in ROWS:
            status, said = ran(program, [it.replace("FILE", f"{room}/file") for it in row.split()])
            is_well = status == 0 and ROW.search(said)
            report.counts(is_well, f"{NAME} {row}: status {status}" + ("" if is_well else f": {said[-500:]}"))
