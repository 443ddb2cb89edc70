"""Each system call by which a program saves a file refused in turn (gate/calls.c): the Nth of a run, N from 1 until a run meets no Nth.
The file has what it had before or the whole new content each time. The status is 0 only where it has the new one.

And the calls of a save that goes well, in their order: the new file beside it is opened, written whole, synced and renamed; then the folder is
opened and synced. So with a file elsewhere, by its whole path, in a folder that a link leads to, and for texts longer than a buffer. What is
no plain file, such as a link, is written itself."""
import os
import subprocess
import tempfile

from gate.memory import library
from gate.plays import text

OLD = b"what was there before\n"
# (What is saved of them is longer than a buffer, but for names.)
LINES = "".join(f"name_{it} = boot: cat_create\n" for it in range(300))
SCRIPT = f"c = boot: cat_create\n{LINES}"
DIALOGUE = SCRIPT.replace("boot: ", "").encode() + b"save file\n"
DUMP = "examples/dumps/two_categories.dump"
MORE = "".join(f"event 2 {it} segment_write #1 #2 0 00 => refused 4 WrongType\n" for it in range(3, 203))


class Save:
    """A command that saves `file`: the program, its words, what it reads, and how many bytes it saves at least."""

    def __init__(self, program, words, given=b"", least=5_000):
        self.program, self.words, self.given, self.least = program, words, given, least

    def ended(self, tree, folder, refusing, number):
        """How it ended with a call refused, what the file has then, and whether there was a call to refuse."""
        with tempfile.TemporaryFile() as mark:
            environment = {**os.environ, "LD_PRELOAD": refusing, "REFUSE": str(number), "REFUSED": str(mark.fileno())}
            words = [os.path.abspath(f"{tree}/crates/{self.program}/out/{self.program}"), *self.words]
            how = {"cwd": folder, "env": environment, "input": self.given, "stdout": subprocess.PIPE, "stderr": subprocess.PIPE, "pass_fds": [mark.fileno()]}
            done = subprocess.run(words, timeout=60, **how)
            with open(f"{folder}/file", "rb") as it:
                content = it.read()
            mark.seek(0)
            return done, content, bool(mark.read())


SAVES = [
    Save("histar", ["run", "script", "--dump", "file"]),
    Save("histar", ["run", "script", "--names", "file"], least=100),
    Save("histar", ["try"], DIALOGUE),
    Save("histar_audit", ["dump", "--migrate", "file"]),
    Save("histar", ["show", "page", "dump", "--out", "file"]),
]


def lay(folder):
    for name in os.listdir(folder):
        os.remove(f"{folder}/{name}")
    made = {"file": OLD, "script": SCRIPT.encode(), "dump": text(DUMP).replace("live 1\n", f"{MORE}live 1\n", 1).encode()}
    for name, content in made.items():
        with open(f"{folder}/{name}", "wb") as it:
            it.write(content)


def is_told(save, done):
    """Whether a save that failed was told: by the status, or of a dialogue by its answer."""
    return done.returncode != 0 or b"saved" not in done.stdout if save.words == ["try"] else done.returncode != 0


def try_save(report, save, tree, refusing):
    with tempfile.TemporaryDirectory(prefix="save-") as folder:
        lay(folder)
        _, whole, _ = save.ended(tree, folder, refusing, 0)
        number, wrong, were_old = 0, [], 0
        while True:
            number += 1
            lay(folder)
            done, content, was_refused = save.ended(tree, folder, refusing, number)
            if content not in (OLD, whole) or (content == OLD and not is_told(save, done)):
                wrong.append(number)
            were_old += content == OLD
            if not was_refused:
                break
        is_well = not wrong and were_old > 2 and number > 4 and content == whole != OLD
        report.counts(is_well, f"{save.program} {' '.join(save.words)}: {number - 1} system calls refused in turn, {were_old} leave the old file {wrong}".rstrip(" []"))


# Where a file is saved, with the folder that is synced: FOLDER stands for the whole path of where the command runs.
PLACES = (("file", "."), ("below/file", "below"), ("FOLDER/below/file", "FOLDER/below"), ("led/file", "led"))


def recorded(save, tree, folder, calls, path):
    """The calls that a save makes of the file's new name on, each with the path that its descriptor stands for."""
    with tempfile.TemporaryFile() as told:
        environment = {**os.environ, "LD_PRELOAD": calls, "RECORD": str(told.fileno())}
        given = save.given.replace(b"save file", f"save {path}".encode())
        words = [os.path.abspath(f"{tree}/crates/{save.program}/out/{save.program}"), *(path if it == "file" else it for it in save.words)]
        how = {"cwd": folder, "env": environment, "input": given, "stdout": subprocess.PIPE, "stderr": subprocess.PIPE, "pass_fds": [told.fileno()]}
        subprocess.run(words, timeout=60, **how)
        told.seek(0)
        return named(told.read().decode().splitlines())


def named(lines):
    """Calls by the paths of their descriptors. What stands for no opened path, as standard output, is left out."""
    paths, found = {}, []
    for call, *rest in map(str.split, lines):
        if call == "open":
            paths[rest[1]] = rest[0]
        shown = rest[:1] if call == "open" else rest if call == "rename" else [paths[rest[0]]] if rest[0] in paths else None
        if shown is not None:
            found.append([call, *shown])
    return [" ".join(it) for it in found]


def wanted(path, synced):
    """The calls of a save, in their order."""
    new = f"{path}.histar-new"
    return [f"open {new}", f"write {new}", f"fsync {new}", f"rename {new} {path}", f"open {synced}", f"fsync {synced}"]


def folded(calls):
    """Calls with each run of equal ones as one: a long text is written piece by piece."""
    return [it for at, it in enumerate(calls) if at == 0 or it != calls[at - 1]]


def try_order(report, save, tree, calls):
    """A save's calls at each place, and its whole content, to its last byte."""
    for path, synced in PLACES:
        with tempfile.TemporaryDirectory(prefix="order-") as folder:
            lay(folder)
            os.mkdir(f"{folder}/below")
            os.symlink("below", f"{folder}/led")
            path, synced = path.replace("FOLDER", folder), synced.replace("FOLDER", folder)
            made = folded(recorded(save, tree, folder, calls, path))
            at = next((place for place, it in enumerate(made) if it == f"open {path}.histar-new"), len(made))
            size = os.path.getsize(os.path.join(folder, path)) if os.path.isfile(os.path.join(folder, path)) else 0
            is_well = made[at : at + 6] == wanted(path, synced) and size > save.least
            report.counts(is_well, f"{save.program} {' '.join(save.words)}: {size} bytes saved at {path.replace(folder, 'FOLDER')}, synced with its folder" + ("" if is_well else f": {made}"))


def try_link(report, save, tree, calls):
    """A link is written through, and stays."""
    with tempfile.TemporaryDirectory(prefix="order-") as folder:
        lay(folder)
        os.rename(f"{folder}/file", f"{folder}/behind")
        os.symlink("behind", f"{folder}/file")
        recorded(save, tree, folder, calls, "file")
        size = os.path.getsize(f"{folder}/behind")
        report.counts(os.path.islink(f"{folder}/file") and size > save.least, f"{save.program} {' '.join(save.words)}: {size} bytes saved through a link")


def save_all(report, tree):
    with tempfile.TemporaryDirectory(prefix="saves-") as room:
        calls = library(room, "calls")
        for it in SAVES:
            try_save(report, it, tree, calls)
            try_order(report, it, tree, calls)
            try_link(report, it, tree, calls)
