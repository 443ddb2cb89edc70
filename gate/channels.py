"""The scripts of examples/channels/, each played as it stands and without the calls of its second phase. These are of a thread h
that the thread t does not observe. The rows of the table in docs/CHANNELS.md that begin with a script's name tell the last reply of
each of the two plays; all other replies to other threads than h are the same in both. Each script has its row. The auditor, asked
for what is hidden from {1}, tells the two replies of the dump of the first play, and the channel that the row is excepted as. It
tells nothing where both are the same."""
import glob
import os
import re
import tempfile

from gate.hidden import NO_REPLY, NO_THREAD
from gate.plays import ran, text

FOLDER = "examples/channels"
TABLE = "docs/CHANNELS.md"
ROW = re.compile(r"^\| `(\w+)` \|(.*)\|$")
CHANNEL = re.compile(r"^ ([\w ]+?)(?:[:,].*)? $")
OBSERVER = "{1}"
REPLY = re.compile(r"`([^`]*)`")
HIDDEN = "h "
# What the auditor calls a channel that the table tells in other words.
SHOWN = {"no longer hidden": "shown"}


def rows(page):
    """The rows of the table, by script: the last reply with the hidden calls, and without them, and what it is excepted as."""
    found = {}
    for name, cells in (row.groups() for row in map(ROW.match, page.split("\n")) if row):
        with_them, without = (REPLY.search(cell) for cell in cells.split("|")[1:3])
        found[name] = (with_them[1], without[1], CHANNEL.match(cells.split("|")[0])[1])
    return found


def without_hidden(script):
    """The script with a query of h in place of each of its calls, so that lines keep their places."""
    phases = script.split("--\n")
    return "--\n".join(phases[:1] + ["h: self_get\n" * phases[1].count("\n")] + phases[2:])


def replies(histar, script, words):
    """What other threads than h are answered, line by line."""
    with tempfile.NamedTemporaryFile("w", suffix=".histar", encoding="utf-8") as file:
        file.write(script)
        file.flush()
        status, said = ran(*histar, "run", file.name, *words)
    return status, [line for line in said.split("\n") if line and not line.startswith(HIDDEN)]


def told(lines):
    """The reply of the last line."""
    return lines[-1].partition(": ")[2] if lines else ""


def wanted_of(row):
    """How the line ends that the auditor tells, if it tells one."""
    whole, purged = (NO_THREAD.get(it, it) for it in row[:2])
    return [f": {whole}, else {purged}, by {SHOWN.get(row[2], row[2])}"] if whole != purged else []


def audit(report, histar, auditor, name, row):
    """Plays a script, and audits its dump for what is hidden."""
    stem = f"{FOLDER}/{name}"
    with tempfile.TemporaryDirectory(prefix="channel-") as folder:
        ran(*histar, "run", f"{stem}.histar", *text(f"{stem}.words").split(), "--dump", f"{folder}/dump")
        status, said = ran(*auditor, f"{folder}/dump", "--hidden", OBSERVER)
    verdict, *told = said.rstrip("\n").split("\n")
    told = [] if told == [NO_REPLY] else told or ["nothing"]
    wanted = wanted_of(row)
    is_well = (status, verdict, len(told)) == (0, "clean", len(wanted)) and all(
        line.startswith("differs ") and line.endswith(end) for line, end in zip(told, wanted)
    )
    report.counts(is_well, f"audit of channel {name}: {said.strip()}" + ("" if is_well else f", status {status}, wanted {wanted}"))


def play(report, histar, name, row):
    """Plays a script both ways."""
    stem = f"{FOLDER}/{name}"
    script, words = text(f"{stem}.histar"), text(f"{stem}.words").split()
    status, seen = replies(histar, script, words)
    status_too, unseen = replies(histar, without_hidden(script), words)
    is_well = (status, status_too) == (0, 0) and seen[:-1] == unseen[:-1] and (told(seen), told(unseen)) == row[:2]
    said = f"'{told(seen)}' with the hidden calls, '{told(unseen)}' without"
    report.counts(is_well, f"channel {name}: {said}" + ("" if is_well else f", status {status}, {status_too}, wanted {row[:2]}"))


def compare(report, histar=("./histar",), auditor=("./histar-audit",)):
    """Plays all scripts against the table."""
    table = rows(text(TABLE))
    scripts = [os.path.basename(it).removesuffix(".histar") for it in sorted(glob.glob(f"{FOLDER}/*.histar"))]
    report.counts(scripts == sorted(table), f"{TABLE}: {len(table)} rows, {len(scripts)} scripts in {FOLDER}")
    for name in scripts:
        if name in table:
            play(report, histar, name, table[name])
            audit(report, histar, auditor, name, table[name])
