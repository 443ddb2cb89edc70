"""What flows reach, as the auditor tells it of dumps, against the definition read naively: all chains of hand-overs, by the rows of
docs/CALLS.md. The dumps are those of the scripts of examples/ and of drawn ones, each of a stated seed."""
import glob
import os
import random
import re
import subprocess
import tempfile
from concurrent.futures import ThreadPoolExecutor

from gate.plays import FROM_CHECKPOINT, text
from gate.scripts import script

SEED = 2011
FEW, MANY = 60, 1_000
CATEGORIES = 3
# Of a drawn script's objects, how many are traced in each category; of a stored one's all are.
STARTS = 4
# Of each call by its words: what it observes and what it modifies, by their places among its arguments. What a call makes is
# modified too. A space that isn't named, as #0 #0, is observed by nobody.
ROWS = {
    "cat_create": ((), ()),
    "self_set_label": ((), ()),
    "self_set_clearance": ((), ()),
    "self_set_as": ((0,), ()),
    "container_create": ((0,), (0,)),
    "segment_create": ((0,), (0,)),
    "segment_copy": ((0, 3, 4), (0,)),
    "as_create": ((0,), (0,)),
    "thread_create": ((0,), (0,)),
    "gate_create": ((0, 4), (0,)),
    "link": ((0, 1), (0,)),
    "unref": ((0,), (0,)),
    "quota_move": ((0,), (0, 1)),
    "set_fixed": ((0, 1), (1,)),
    "set_immutable": ((0, 1), (1,)),
    "meta_set": ((0, 1), (1,)),
    "segment_resize": ((0, 1), (1,)),
    "segment_write": ((0, 1), (1,)),
    "as_map": ((0, 1, 4), (1,)),
    "as_unmap": ((0, 1), (1,)),
    "gate_enter": ((0, 1), ()),
    "dev_send": ((0, 1), (1,)),
    "dev_recv": ((0, 1), (1,)),
}
# The same of each query, which modifies nothing. A label of a thread is looked at by who asks for it, that of another object isn't.
QUERIES = {
    "self_get": (),
    "obj_label": (0,),
    "obj_quota": (0, 1),
    "container_list": (0,),
    "container_parent": (0,),
    "segment_len": (0, 1),
    "segment_read": (0, 1),
    "meta_get": (0, 1),
    "as_get": (0, 1),
}


# How many words stand before the call in a line of each kind.
BEFORE_CALL = {"event": 3, "call": 1, "read": 2}


def number(word):
    return int(word.removeprefix("#"))


def owned(label):
    """The categories that a label has star in."""
    return {int(it) for it in re.findall(r"#(\d+):\*", label)}


class Event:
    """One call that was answered: its thread, what it observed and modified, each thread's categories before it, and those of the
    gate that it entered."""

    def __init__(self, thread, owners, observed, modified, gate):
        self.thread, self.owners, self.observed, self.modified, self.gate = thread, owners, observed, modified, gate


class Dump:
    """The calls and the reads of a dump that begins at a boot, as events."""

    def __init__(self, lines):
        self.owners, self.gates, self.spaces, self.slots, self.events = {2: set()}, {}, {2: (0, 0)}, {}, []
        thread = 0
        for line in lines:
            words = line.split(" ")
            if words[0] in ("event", "batch", "read"):
                thread = int(words[1])
            if words[0] in BEFORE_CALL:
                told = line.split(" ", BEFORE_CALL[words[0]])[-1]
                call, reply = told.split(" => ")
                self.take(thread, call.split(" "), reply)

    def take(self, thread, words, reply):
        if reply.startswith("refused"):
            self.events.append(Event(thread, dict(self.owners), set(), set(), set()))
            return
        call, args = words[0], words[1:]
        observed, modified = self.touched(thread, call, args)
        made = number(reply.split(" ")[1]) if reply.startswith("id ") else 0
        gate = self.gates[number(args[1])][0] if call == "gate_enter" else set()
        kept = {who: set(which) for who, which in self.owners.items()}
        self.events.append(Event(thread, kept, observed, modified | ({made} if made else set()), gate))
        self.change(thread, call, args, reply, made)

    def touched(self, thread, call, args):
        if call in ("store", "load"):
            container, space = self.spaces[thread]
            page = int(args[0]) // 256
            first = min(slot for slot, it in self.slots[space].items() if it[0] <= page < it[0] + it[3])
            _, listed, segment, _ = self.slots[space][first]
            return {container, space, listed, segment}, {segment} if call == "store" else set()
        if call in QUERIES:
            observed = {number(args[it]) for it in QUERIES[call]}
            if call == "obj_label" and number(args[1]) in self.owners:
                observed.add(number(args[1]))
            return observed, set()
        observes, modifies = ROWS[call]
        observed = {number(args[it]) for it in observes} - {0}
        if call == "quota_move" and args[2].startswith("-"):
            observed.add(number(args[1]))
        return observed, {number(args[it]) for it in modifies}

    def change(self, thread, call, args, reply, made):
        if call == "cat_create":
            self.owners[thread] = self.owners[thread] | {number(reply.split(" ")[1])}
        elif call == "self_set_label":
            self.owners[thread] = owned(args[0])
        elif call == "self_set_as":
            self.spaces[thread] = (number(args[0]), number(args[1]))
        elif call == "as_create":
            self.slots[made] = {}
        elif call == "thread_create":
            self.owners[made], self.spaces[made] = owned(args[1]), (0, 0)
        elif call == "gate_create":
            self.gates[made] = (owned(args[1]), (number(args[4]), number(args[5])))
        elif call == "as_map":
            self.slots[number(args[1])][int(args[2])] = (int(args[3]), number(args[4]), number(args[5]), int(args[7]))
        elif call == "as_unmap":
            del self.slots[number(args[1])][int(args[2])]
        elif call == "gate_enter":
            self.owners[thread], self.spaces[thread] = owned(args[2]), self.gates[number(args[1])][1]

    def stays_outside(self, who, category, at):
        """Whether it is no thread that owns the category before the event, and enters no gate there that owns it."""
        event = self.events[at]
        return category not in event.owners.get(who, ()) and not (event.thread == who and category in event.gate)

    def reached(self, start, category):
        """The ends of all chains of hand-overs from an object outside a category. Who was handed something, in which event, and
        whether by observing, is all that the rest of a chain hangs on."""
        left = [(it.thread, at, True) for at, it in enumerate(self.events) if start in it.observed]
        seen, found = set(left), set()
        while left:
            who, at, has_observed = left.pop()
            for later in range(at, len(self.events)):
                if not self.stays_outside(who, category, later):
                    break
                event, further = self.events[later], []
                if later == at and not has_observed:
                    continue
                if event.thread == who:
                    found |= event.modified
                    further += [(it, later, False) for it in event.modified]
                if who in event.observed:
                    further.append((event.thread, later, True))
                left += [it for it in further if it not in seen]
                seen.update(further)
        return sorted(found)


class Case:
    """A script whose dump is traced, and which of its objects are."""

    def __init__(self, file, words, draw):
        self.file, self.words, self.draw = file, words, draw

    def made(self, room, histar):
        """The dump of the script's run."""
        dump = f"{room}/{os.path.basename(self.file)}.dump"
        subprocess.run([*histar, "run", self.file, *self.words, "--dump", dump], check=True, stdout=subprocess.DEVNULL)
        return dump

    def tried(self, room, histar, auditor):
        """How many questions were asked, how many of them had an answer with objects in it, and the first that was answered otherwise."""
        dump = self.made(room, histar)
        told = Dump(text(dump).split("\n"))
        starts = sorted({1, 2, 3}.union(*(it.observed | it.modified for it in told.events)))
        asked = flowing = 0
        for category in range(1, CATEGORIES + 1):
            for start in self.draw.sample(starts, min(STARTS, len(starts))) if self.draw else starts:
                wanted = told.reached(start, category)
                done = subprocess.run([*auditor, dump, "--from", str(start), "--category", str(category)], stdout=subprocess.PIPE, text=True)
                asked, flowing = asked + 1, flowing + bool(wanted)
                said = done.stdout.replace(f"{FROM_CHECKPOINT}\n", "", 1)
                if (done.returncode, said) != (0, "".join(["clean\n", *(f"reaches {it}\n" for it in wanted or ["nothing"])])):
                    return asked, flowing, f"{self.file}, from {start} in category {category}: {done.stdout.split()}, wanted {wanted}"
        return asked, flowing, None


class Stored(Case):
    """A stored dump, of which all objects are traced."""

    def __init__(self, file):
        super().__init__(file, [], None)

    def made(self, room, histar):
        return self.file


def drawn(room, count):
    """Drawn scripts, every other one small."""
    for place in range(count):
        seed = SEED * 1_000_003 + place
        file = f"{room}/{seed}"
        with open(file, "w", encoding="utf-8") as it:
            it.write(script(seed, phases=6, is_small=place % 2 == 0))
        yield Case(file, [], random.Random(seed))


def trace(report, count, histar=("./histar",), auditor=("./histar-audit",)):
    """Traces the dumps of all stored scripts, and of so many drawn ones."""
    with tempfile.TemporaryDirectory(prefix="flows-") as room, ThreadPoolExecutor(os.cpu_count()) as pool:
        stored = [Case(it, text(f"{it.removesuffix('.histar')}.words").split(), None) for it in sorted(glob.glob("examples/*.histar"))]
        dumps = [Stored(it) for it in sorted(glob.glob("examples/dumps/read*.dump")) if text(f"{it.removesuffix('.dump')}.verdict") == "clean\n"]
        for name, cases in (("the scripts of examples/", stored), ("stored dumps with reads", dumps), (f"{count} drawn scripts, seed {SEED}", list(drawn(room, count)))):
            told = list(pool.map(lambda it: it.tried(room, histar, auditor), cases))
            asked, flowing = sum(it[0] for it in told), sum(it[1] for it in told)
            for wrong in [it[2] for it in told if it[2]][:3]:
                report.say(wrong)
            is_well = not any(it[2] for it in told) and 0 < flowing < asked
            report.counts(is_well, f"flows of {name}: {asked} traces, {flowing} of them reach something")
