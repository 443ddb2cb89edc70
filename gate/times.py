"""The processor's seconds that the prover takes for each crate, read twice a second off the processes that run.

What a process does after the last look at it is not counted: half a second at most."""
import os
import threading

TICK = os.sysconf("SC_CLK_TCK")
KINDS = ("check", "tests", "edits")


def running():
    """Each process with the one that started it, its ticks of processor so far, and when it was started."""
    found = {}
    for name in filter(str.isdigit, os.listdir("/proc")):
        try:
            with open(f"/proc/{name}/stat", encoding="utf-8", errors="replace") as it:
                fields = it.read().rpartition(")")[2].split()
        except OSError:
            continue
        found[int(name)] = int(fields[1]), int(fields[11]) + int(fields[12]), int(fields[19])
    return found


def is_below(process, top, found):
    while process in found and process != top:
        process = found[process][0]
    return process == top


def crate_and_kind(process):
    """What a process of the prover works on, or None where it is none."""
    try:
        with open(f"/proc/{process}/cmdline", "rb") as it:
            words = it.read().decode(errors="replace").split("\0")
    except OSError:
        return None
    if not words[0].endswith("/rattle") or "--crate-name" not in words:
        return None
    kind = "tests" if "--test" in words else "edits" if "--incremental" in words else "check"
    return words[words.index("--crate-name") + 1], kind


class Times:
    """Looks at the prover's processes below this one, as long as it is entered."""

    def __init__(self):
        self.seen = {}
        self.ended = threading.Event()
        self.watcher = threading.Thread(target=self.watch, daemon=True)

    def __enter__(self):
        self.watcher.start()
        return self

    def __exit__(self, *_):
        self.ended.set()
        self.watcher.join()

    def watch(self):
        while not self.ended.wait(0.5):
            self.look()

    def look(self):
        found = running()
        for process, (_, ticks, start) in found.items():
            # (a number is given again in a long run: a process is told by its start too)
            known = self.seen.get((process, start)) or is_below(process, os.getpid(), found) and crate_and_kind(process)
            if known:
                self.seen[process, start] = (*known[:2], ticks)

    def seconds(self):
        """For each crate and kind of check the seconds of processor."""
        sums = {}
        for crate, kind, ticks in self.seen.values():
            sums[crate, kind] = sums.get((crate, kind), 0) + ticks / TICK
        return sums

    def keep(self, file):
        """Writes what was timed to a file; what was not stays as it stands there."""
        add(file, {key: round(seconds) for key, seconds in self.seconds().items()})


def add(file, seconds):
    """Writes a line 'CRATE KIND SECONDS' for each crate and kind, those that stand in the file already among them."""
    made = {**read(file), **seconds}
    with open(file, "w", encoding="utf-8") as it:
        it.writelines(f"{crate} {kind} {taken}\n" for (crate, kind), taken in sorted(made.items()))


def read(file):
    """The seconds of each crate and kind that a file has; none where there is no file."""
    if not os.path.isfile(file):
        return {}
    with open(file, encoding="utf-8") as it:
        return {(crate, kind): int(seconds) for crate, kind, seconds in map(str.split, it)}
