"""Broken texts: scripts and dumps that are changed byte by byte and line by line, given to the real programs.

Of each: no crash and no run past the limit; a script prints replies to its own lines, or one line with a fault at a line that
it has, and `check` tells that line; each line of it is answered in a dialogue; a dump gets one verdict, with a line that it has,
and is shown or told to be none in each way; standard error is empty, or that one line. The changes are drawn from a stated seed,
so a run can be made again."""
import collections
import glob
import os
import random
import re
import subprocess
import tempfile
from concurrent.futures import ThreadPoolExecutor

from gate.plays import CLEAN, is_clean
from gate.rules import played_rules

SEED = 20061
LIMIT = 20
FEW, MANY = 2000, 100_000
BYTES = b"\n\r\0 0129#*,:{}-=+>agJ\x7f\xff"
NUMBERS = [b"0", b"1", b"01", b"255", b"256", b"65536", b"4294967296", b"2305843009213693952", b"18446744073709551616", b"-1"]


def with_byte(draw, text):
    """A text with one byte changed, put in or taken out."""
    at = draw.randrange(len(text) + 1)
    new = bytes([draw.choice(BYTES)])
    return draw.choice([text[:at] + new + text[at:], text[:at] + new + text[at + 1 :], text[:at] + text[at + 1 :]])


def with_line(draw, text):
    """A text with one line twice, left out, moved, or cut."""
    lines = text.split(b"\n")
    at, other = draw.randrange(len(lines)), draw.randrange(len(lines))
    line = lines[at]
    how = draw.randrange(4)
    if how == 0:
        lines.insert(other, line)
    elif how == 1:
        del lines[at]
    elif how == 2:
        lines[at], lines[other] = lines[other], line
    else:
        lines[at] = line[: draw.randrange(len(line) + 1)]
    return b"\n".join(lines)


def with_word(draw, text):
    """A text with one word taken for another word of it, or for a number."""
    words = re.findall(rb"[^ \n]+", text)
    if not words:
        return text
    old, new = draw.choice(words), draw.choice([*words, *NUMBERS])
    places = [it.start() for it in re.finditer(re.escape(old), text)]
    at = draw.choice(places)
    return text[:at] + new + text[at + len(old) :]


def changed(draw, text):
    """A text with one to four changes."""
    for _ in range(draw.choice([1, 1, 1, 2, 4])):
        text = draw.choice([with_byte, with_line, with_word])(draw, text)
    return text


def ran(words, lines=b""):
    """How a run ended: its status (None where it was still running at the limit), standard output, standard error."""
    try:
        done = subprocess.run(words, input=lines, capture_output=True, timeout=LIMIT)
    except subprocess.TimeoutExpired:
        return None, b"", b""
    return done.returncode, done.stdout, done.stderr


def has_line(text, number):
    """Whether a text has a line of this number; after its last line's end the next one counts, where a text may end early."""
    return 1 <= number <= text.count(b"\n") + 1


def end_of_script(words, text):
    """How a script ended, in a word, whether it did so as it may, and the line at which it is faulty."""
    status, out, err = ran(words)
    if status == 0:
        numbers = [int(it) for it in re.findall(rb"^\S+ (\d+): .+$", out, re.M)]
        return "played", err == b"" and len(numbers) == out.count(b"\n") and all(has_line(text, it) for it in numbers), 0
    fault = re.match(rb"histar: line (\d+): script fault\n", err)
    line = int(fault[1]) if fault else 0
    if fault and not err[fault.end() :].startswith(b"%s:%d:" % (words[-1].encode(), line)):
        return "faulty, but not as it is checked", False, line
    return "faulty", status == 1 and out == b"" and fault is not None and has_line(text, line), line


def is_checked(words, line):
    """Whether the faulty line of a script is told, or warnings where it has none."""
    status, out, err = ran(words)
    path = re.escape(words[-1].encode())
    told = rb"%s:%d:\d+: error: .+\n(%s:\d+:\d+: error: .+\n)*" % (path, line, path) if line else rb"(%s:\d+: warning: .+\n)*" % path
    return err == b"" and status == (1 if out else 0) and re.fullmatch(told, out) is not None


def is_answered(words, text):
    """Whether each line of a script is answered, but empty lines, comments and those that end a phase."""
    status, out, err = ran(words, text)
    asked = [line for line in text.split(b"\n") if line not in (b"", b"--") and not line.startswith(b"#")]
    return (status, err) == (0, b"") and len(asked) <= out.count(b"\n")


def end_of_dump(words, text):
    """How the audit of a dump ended, in a word, and whether it did so as it may."""
    status, out, err = ran(words)
    if status == 0:
        return CLEAN, is_clean((status, out.decode(errors="replace"))) and not err
    verdict = re.fullmatch(rb"(false|unreadable) at line (\d+)\n", out)
    if not verdict or err:
        return "no verdict", False
    return verdict[1].decode(), status == (1 if verdict[1] == b"false" else 2) and has_line(text, int(verdict[2]))


def is_shown(words, text, verdict, page=None):
    """Whether something was shown of a dump, on a page where one is asked for, or one line tells why not: of a text that is no dump
    always the latter."""
    status, out, err = ran(words)
    if status == 0:
        shown = read(page) if page and out == b"" else out
        return verdict != "unreadable" and err == b"" and shown.endswith(b"\n")
    if status == 1:
        return verdict == "false" and (out, err) == (b"", b"histar show: false at line 3: the checkpoint can't be restored\n")
    fault = re.fullmatch(rb"histar show: unreadable at line (\d+)\n", err)
    return status == 2 and verdict == "unreadable" and out == b"" and fault is not None and has_line(text, int(fault[1]))


class Corpus:
    """The texts that are changed: the scripts of examples/ and of the rules, and the dumps of the first ones' runs."""

    def __init__(self, histar, room):
        self.scripts, self.dumps = [], []
        for file in sorted(glob.glob("examples/*.histar")):
            self.scripts.append(read(file))
            ran([*histar, "run", file, "--dump", f"{room}/dump"])
            if os.path.exists(f"{room}/dump"):
                self.dumps.append(read(f"{room}/dump"))
                os.remove(f"{room}/dump")
        self.dumps += [read(file) for file in sorted(glob.glob("examples/dumps/*.dump"))]
        self.scripts += [it.text.encode() for it in played_rules()]


def read(file):
    with open(file, "rb") as it:
        return it.read()


class Trial:
    """One changed text, given to the programs that it is for."""

    def __init__(self, number, corpus, histar, auditor, show):
        self.number, self.histar, self.auditor, self.show = number, histar, auditor, show
        draw = random.Random(SEED * 1_000_003 + number)
        self.is_script = number % 2 == 0
        self.text = changed(draw, draw.choice(corpus.scripts if self.is_script else corpus.dumps))

    def run(self, room):
        """How it ended, in a word, and whether as it may."""
        file = f"{room}/{self.number}"
        with open(file, "wb") as it:
            it.write(self.text)
        ended = self.end_of_script(file) if self.is_script else self.end_of_dump(file)
        os.remove(file)
        return ended

    def end_of_script(self, file):
        """How a script ended, and whether that, what is told of it and what its lines answer in a dialogue ended as they may."""
        how, is_well, line = end_of_script([*self.histar, "run", file], self.text)
        return how, is_well and is_checked([*self.histar, "check", file], line) and is_answered([*self.histar, "try"], self.text)

    def end_of_dump(self, file):
        """How the audit of a dump ended, and whether that and what is shown of it ended as they may."""
        verdict, is_well = end_of_dump([*self.auditor, file], self.text)
        page = f"{file}.html"
        return verdict, (
            is_well
            and all(is_shown([*self.show, verb, file], self.text, verdict) for verb in ("tree", "dot", "json"))
            and is_shown([*self.show, "page", file, "--out", page], self.text, verdict, page)
        )


def fuzz(report, count, histar=("./histar",), auditor=("./histar-audit",), show=("./histar", "show")):
    """Tries so many changed texts, keeps the first that ended otherwise than it may in out/, and says how many ended how."""
    with tempfile.TemporaryDirectory(prefix="fuzz-") as room, ThreadPoolExecutor(os.cpu_count()) as pool:
        corpus = Corpus(histar, room)
        ended = list(pool.map(lambda it: Trial(it, corpus, histar, auditor, show).run(room), range(count)))
    wrong = [number for number, (_, is_well) in enumerate(ended) if not is_well]
    for number in wrong[:1]:
        with open("out/broken-text", "wb") as it:
            it.write(Trial(number, corpus, histar, auditor, show).text)
        report.say(f"text {number}, kept as out/broken-text, ended otherwise than it may: {ended[number][0]}")
    counts = collections.Counter(how for how, _ in ended)
    told = ", ".join(f"{many} {how}" for how, many in sorted(counts.items()))
    report.counts(not wrong and len(counts) == 5, f"{count} changed scripts and dumps, seed {SEED}: {told}")
