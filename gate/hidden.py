"""What hidden threads told, as the auditor finds it in dumps, against two plays compared naively: one of all calls and reads of a dump, one
without those of hidden threads. The dumps are of drawn scripts, each of a stated seed, in which two threads hold secrets of a
category each, a third holds none, and a gate lends the first category. Both plays name objects by the ids of the dump, and ask
each thread for its label before it asks."""
import collections
import os
import re
import subprocess
import tempfile
from concurrent.futures import ThreadPoolExecutor

from gate.plays import ran, text
from gate.scripts import Writer

SEED = 1979
FEW, MANY = 40, 1_000
OBSERVERS = ("{1}", "{#1:3,1}", "{#2:3,1}")
CHANNELS = ("next id", "next category", "untold", "not open", "shown", "owner")
FIRST = (
    "c = boot: cat_create",
    "d = boot: cat_create",
    "h = boot: thread_create root {c:3,1} 1 {c:3,2} 0",
    "u = boot: thread_create root {d:3,1} 1 {d:3,2} 0",
    "t = boot: thread_create root {1} 1 {c:3,d:3,1} 0",
    "k = boot: container_create root {c:3,1} 16 -",
    "l = boot: container_create root {d:3,1} 10 -",
    "a = boot: container_create root {1} 16 -",
    "o = boot: segment_create root {c:3,1} 1 0",
    "s = boot: segment_create root {1} 2 1",
    "f = boot: segment_create root {1} 1 0",
    "g = boot: gate_create root {c:*,1} 1 {c:3,2} #0 #0 8 9",
    "boot: set_fixed root f",
)
NAMED = {"category": "cd", "thread": "hut", "container": "kla", "segment": "osf", "gate": "g"}
# Where each worker makes most of its objects.
HOMES = {"h": "k", "u": "l", "t": "a", "boot": "root"}
# A seat answers who is no thread in a word of its own.
NO_THREAD = {"refused 42 NoThread": "refused 1 Halted"}
LEVELS = {"*": 0, "0": 1, "1": 2, "2": 3, "3": 4}
# As high as its owner needs.
HIGH = 5


class Parted(Writer):
    """Writes a script of threads that are hidden from each other."""

    def __init__(self, seed):
        super().__init__(seed, is_small=True)
        for kind, names in NAMED.items():
            self.names[kind] += names

    def arguments(self, call):
        if call == "self_set_label":
            return self.one_of("{1}", "{2}", "{c:3,1}", "{c:3,2}", "{d:3,1}", "{c:*,1}")
        if call == "gate_enter":
            return f"root g {self.one_of('{1}', '{c:*,1}', '{c:3,1}')} {self.one_of('{2}', '{c:3,2}')} {{3}}"
        return super().arguments(call)

    def call(self, worker):
        line = self.line(worker)
        return re.sub(r"\broot\b", HOMES[worker], line) if self.is_rare(0.6) else line

    def script(self, calls):
        return "\n--\n".join(["\n".join(FIRST)] + [self.call(self.one_of(*"hhutt", "boot")) for _ in range(calls)]) + "\n"


class Item:
    """A write call or a read of a dump, with who asked and what was answered. It has the beginning of the line that the auditor tells
    where it is answered otherwise: the place of a call's event, or of a read among those after an event."""

    def __init__(self, line, where=""):
        self.is_call = line.startswith("event ")
        _, thread, *numbers, told = line.split(" ", 3 if self.is_call else 2)
        self.thread, self.where = int(thread), where
        self.call, self.reply = told.split(" => ")
        self.makes_thread = self.call.startswith("thread_create") and self.reply.startswith("id ")

    def worker(self):
        return "boot" if self.thread == 2 else f"t{self.thread}"

    def line(self):
        """What is asked as a line of a script. A thread that it made has a name by its id in the dump."""
        return f"{f't{self.reply[4:]} = ' if self.makes_thread else ''}{self.worker()}: {self.call}"


def items_of(dump):
    """The calls and the reads of a dump's text, in order. (No event is a batch.)"""
    found, events, reads = [], 0, 0
    for line in dump.split("\n"):
        if line.startswith("event "):
            events, reads = events + 1, 0
            found.append(Item(line, f"differs at event {events}, call 1"))
        elif line.startswith("read "):
            reads += 1
            found.append(Item(line, f"differs after event {events}, read {reads}"))
    return found


class Play:
    """A play of those items of a dump that are kept: each one's label before it and reply, by place. The reply of one that is left out
    is None."""

    def __init__(self, histar, file, items, kept):
        lines, worker = [], ""
        for item, is_kept in zip(items, kept):
            lines += ["--"] * bool(lines and item.worker() != worker)
            worker = item.worker()
            lines += [f"{worker}: self_get", item.line() if is_kept else f"{worker}: self_get"]
        with open(file, "w", encoding="utf-8") as it:
            it.write("\n".join(lines) + "\n")
        status, said = ran(*histar, "run", file, "--dump", f"{file}.dump")
        told = [it.partition(": ")[2] for it in sorted(said.split("\n")[:-1], key=self.place)]
        if status or len(told) != 2 * len(items):
            raise RuntimeError(f"{file}: status {status}, {said[-200:]}")
        # What a thread was told stands in the dump in its own order.
        self.made = collections.defaultdict(list)
        for it in items_of(text(f"{file}.dump")):
            self.made[it.thread].append(it.reply)
        self.before = told[::2]
        self.replies = []
        for item, is_kept, before, printed in zip(items, kept, told[::2], told[1::2]):
            self.reply(item, before)
            reply = self.reply(item, printed)
            self.replies.append(reply if is_kept else None)

    @staticmethod
    def place(line):
        """The number of the script's line that a printed line answers."""
        return int(line.partition(":")[0].split(" ")[1])

    def reply(self, item, printed):
        """The reply of the thread's next line, with ids for names as the dump has it. What the dump does not have is printed alone."""
        if printed.startswith(("unbound", "refused 42")):
            return printed
        told = self.made[item.thread]
        return told.pop(0) if told else printed

    def is_seen(self, at, observer):
        """Whether a label observes the thread of an item before it."""
        found = re.match(r"self (\{[^}]*\})", self.before[at])
        return bool(found) and observes(observer, found[1])


def levels(label):
    """A label's default and its other levels by category."""
    pairs = [it.split(":") for it in label[1:-1].split(",")]
    return LEVELS[pairs[-1][0]], {it[0]: LEVELS[it[1]] for it in pairs[:-1]}


def observes(observer, label):
    (ours, own), (theirs, other) = levels(observer), levels(label)
    pairs = [(own.get(it, ours), other.get(it, theirs)) for it in {*own, *other}] + [(ours, theirs)]
    return all(it <= (high or HIGH) for high, it in pairs)


class Two:
    """The play of a whole dump, and the one without hidden calls, up to where names would no longer tell the same threads."""

    def __init__(self, histar, room, items):
        self.histar, self.room, self.items = histar, room, items
        self.whole = Play(histar, f"{room}/whole", items, [True] * len(items))

    def part(self, observer):
        """Finds what is hidden: what threads ask that are seen in neither play. A play tells it of the first that was taken wrongly
        before, so the plays are as many as such items, and one."""
        kept = [self.whole.is_seen(at, observer) for at in range(len(self.items))]
        while True:
            purged = Play(self.histar, f"{self.room}/purged", self.items, kept)
            right = [self.whole.is_seen(at, observer) or purged.is_seen(at, observer) for at in range(len(self.items))]
            wrong = [at for at, it in enumerate(kept) if it != right[at]]
            if not wrong:
                return kept, purged
            kept[wrong[0]] = right[wrong[0]]

    def end(self, kept, purged):
        """The place of the first item at which a name stands for two threads, or for none where an id may stand for another."""
        drawn = 3
        for at, item in enumerate(self.items):
            made = re.match(r"id #(\d+)", purged.replies[at]) if kept[at] else None
            drawn = int(made[1]) if made else drawn
            is_lost = purged.before[at].startswith("unbound") and (kept[at] or item.thread <= drawn)
            if is_lost or item.makes_thread and kept[at] and purged.replies[at] != item.reply:
                return at
        return len(self.items)

    def differing(self, observer):
        """How many items were compared, how many of these are hidden, and the lines of those that differ, up to the channel."""
        kept, purged = self.part(observer)
        end = self.end(kept, purged)
        lines = [
            f"{item.where}, thread #{item.thread}: {item.reply}, else {NO_THREAD.get(purged.replies[at], purged.replies[at])}"
            for at, item in enumerate(self.items[:end])
            if kept[at] and purged.replies[at] != item.reply
        ]
        return end, end - sum(kept[:end]), lines


# What the auditor says where no reply differs.
NO_REPLY = "no reply differs"


class Case:
    """A drawn script."""

    def __init__(self, seed):
        self.seed = seed

    def told(self, auditor, dump, observer, compared):
        """The lines that the auditor prints of these items, without their channels, and whether each line has one."""
        done = subprocess.run([*auditor, dump, "--hidden", observer], stdout=subprocess.PIPE, text=True)
        verdict, *lines = done.stdout.rstrip("\n").split("\n")
        lines = [] if lines == [NO_REPLY] else lines
        known = {it.where for it in compared}
        told = [it.rpartition(", by ") for it in lines if it.partition(", thread #")[0] in known]
        return [it[0] for it in told], (done.returncode, verdict) == (0, "clean") and "\n" in done.stdout.rstrip("\n") and all(it[2] in CHANNELS for it in told)

    def tried(self, histar, auditor):
        """How many calls and reads were compared for all observers, how many of them are hidden, how many differ, and the first fault."""
        compared = hidden = differ = 0
        with tempfile.TemporaryDirectory(prefix="hidden-") as room:
            with open(f"{room}/script", "w", encoding="utf-8") as it:
                it.write(Parted(self.seed).script(calls=30))
            subprocess.run([*histar, "run", f"{room}/script", "--dump", f"{room}/dump"], check=True, stdout=subprocess.DEVNULL)
            items = items_of(text(f"{room}/dump"))
            two = Two(histar, room, items)
            if two.whole.replies != [it.reply for it in items]:
                return 0, 0, 0, f"seed {self.seed}: the play by ids is another one"
            for observer in OBSERVERS:
                end, unseen, wanted = two.differing(observer)
                told, is_well = self.told(auditor, f"{room}/dump", observer, items[:end])
                compared, hidden, differ = compared + end, hidden + unseen, differ + len(wanted)
                if not is_well or told != wanted:
                    return compared, hidden, differ, f"seed {self.seed}, hidden from {observer}: told {told}, wanted {wanted}"
        return compared, hidden, differ, None


def compare(report, count, histar=("./histar",), auditor=("./histar-audit",)):
    """Compares what the auditor tells of so many drawn scripts, for each observer."""
    with ThreadPoolExecutor(os.cpu_count()) as pool:
        told = list(pool.map(lambda at: Case(SEED * 1_000_003 + at).tried(histar, auditor), range(count)))
    compared, hidden, differ = (sum(it[place] for it in told) for place in range(3))
    for wrong in [it[3] for it in told if it[3]][:3]:
        report.say(wrong)
    is_well = not any(it[3] for it in told) and 0 < hidden < compared and 0 < differ
    said = f"{compared} calls and reads of {count} drawn scripts and {len(OBSERVERS)} observers, seed {SEED}: {hidden} hidden, {differ} answered otherwise"
    report.counts(is_well, said)
