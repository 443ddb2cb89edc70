"""Hostile use of the real programs: texts at their limits, threads that are killed while they call, and storms of calls by
several threads at once. What a worker is told is compared with the journal of its thread, and the journal is audited.

All is drawn from stated seeds. How the threads take turns is the system's, so what is compared holds for any turns."""
import os
import random
import re
import subprocess
import tempfile
import time

from gate.plays import audit, ran

SEED = 2006
WORKERS = 8
# Lines of a storm; a script has at most 65,536.
LINES = 30_000
KILLED = 60
LONG, SHORT = 60, 2
READS = ("self_get", "obj_label", "obj_quota", "container_list", "container_parent", "segment_len", "segment_read", "meta_get", "as_get", "load")


def put(file, text):
    with open(file, "w", encoding="utf-8") as it:
        it.write(text)


class Worker:
    """A worker's calls, drawn one after another: it makes objects, uses those that it made, and takes them out again. Some calls
    name any id, so that workers meet. A name whose call was refused stays unbound, and the lines that use it are left out."""

    def __init__(self, name, draw):
        self.name, self.draw, self.made, self.count = name, draw, {}, 0

    def any_of(self, kind):
        """An object of a kind that it made, or any id where it has none, or now and then."""
        if not self.made.get(kind) or self.draw.randrange(20) == 0:
            return f"#{self.draw.randrange(1, 400)}"
        return self.draw.choice(self.made[kind])

    def make(self, kind, call):
        """The line of a create: the name is the object's from then on."""
        self.count += 1
        name = f"{self.name}n{self.count}"
        self.made.setdefault(kind, []).append(name)
        return f"{name} = {self.name}: {call}"

    def drop(self, kind):
        """The line that takes out the oldest of a kind."""
        gone = self.made[kind].pop(0)
        return f"{self.name}: unref root {gone}"

    def line(self):
        draw = self.draw
        kinds = {
            "s": f"segment_create root {{1}} {draw.randrange(2, 4)} {draw.randrange(0, 2)}",
            "c": "container_create root {1} 6 -",
            "a": "as_create root {1} 1",
            "t": "thread_create root {1} 1 {2} 0",
            "g": "gate_create root {1} 1 {2} #0 #0 7 9",
        }
        kind = draw.choice("scatg")
        turn = draw.randrange(4)
        if turn == 0:
            return self.make(kind, kinds[kind]) if len(self.made.get(kind, [])) < 2 else self.drop(kind)
        return f"{self.name}: {self.use(self.any_of('s'), self.any_of('c'), self.any_of('a'))}"

    def use(self, segment, container, space):
        draw, page = self.draw, self.draw.randrange(0, 4)
        return draw.choice(
            [
                f"segment_create {container} {{1}} 2 1",
                f"set_fixed root {segment}",
                f"link {container} root {segment}",
                f"unref {container} {segment}",
                f"quota_move root {segment} {draw.choice([-1, 1])}",
                f"segment_resize root {segment} {draw.randrange(0, 3)}",
                f"segment_write root {segment} {draw.randrange(0, 300)} 0102",
                f"segment_read root {segment} {draw.randrange(0, 300)} 2",
                f"meta_set root {container} ff",
                f"as_map root {space} {page} {page} root {segment} 0 1 rw",
                f"as_unmap root {space} {page}",
                f"self_set_as root {space}",
                f"store {256 * page} 05",
                f"load {256 * page} 1",
                f"gate_enter root {self.any_of('g')} {{1}} {{2}} {{3}}",
                f"unref root #{draw.randrange(4 + WORKERS, 400)}",
                "self_set_label {1}",
                "dev_send root dev 01",
                "dev_recv root dev",
                f"obj_quota root {segment}",
            ]
        )


def storm_script(seed):
    """A script in which so many workers call at once, and of each of their lines the worker and whether it writes."""
    draw = random.Random(seed)
    workers = [Worker(f"w{it}", draw) for it in range(WORKERS)]
    lines = [f"{it.name} = boot: thread_create root {{1}} 1 {{2}} 0" for it in workers] + ["--"]
    told = {}
    for _ in range(LINES):
        worker = draw.choice(workers)
        lines.append(worker.line())
        told[len(lines)] = worker.name, lines[-1].split(": ")[1].split()[0] not in READS
    return "\n".join(lines) + "\n", told, {it.name: 4 + number for number, it in enumerate(workers)}


def as_kept(reply):
    """A reply without the name or number of what was made: a worker is told the name, the journal has the number."""
    return "id" if reply.startswith("id ") else reply


def replies_told(out, told):
    """The replies to each worker's writes, in the order of its lines."""
    replies = {}
    for number, reply in re.findall(r"^\w+ (\d+): (.*)$", out, re.M):
        worker, is_write = told.get(int(number), (None, False))
        if is_write and not reply.startswith("unbound "):
            replies.setdefault(worker, []).append(as_kept(reply))
    return replies


def replies_kept(dump):
    """The replies to each thread's events, in the order of the journal."""
    replies = {}
    for thread, reply in re.findall(r"^event (\d+) \d+ .* => (.*)$", dump, re.M):
        replies.setdefault(int(thread), []).append(as_kept(reply))
    return replies


def storm(report, seed, room):
    """One storm: what each worker is told is what the journal has of its thread, and the journal is clean."""
    text, told, threads = storm_script(seed)
    put(f"{room}/storm", text)
    status, out = ran("./histar", "run", f"{room}/storm", "--pages", "512", "--dump", f"{room}/storm.dump")
    with open(f"{room}/storm.dump", encoding="utf-8") as it:
        dump = it.read()
    kept, said = replies_kept(dump), replies_told(out, told)
    is_same = all(said[name] == kept.get(thread, []) for name, thread in threads.items())
    accepted = sum(not reply.startswith("refused") for replies in said.values() for reply in replies)
    verdict = ran("./histar-audit", f"{room}/storm.dump")
    is_well = status == 0 and is_same and verdict == (0, "clean\n") and accepted > LINES // 10
    return is_well, f"storm of {WORKERS} workers, seed {seed}: {sum(map(len, said.values()))} writes told as kept, {accepted} of them accepted, {verdict[1].strip()}"


def storms(report, seconds, room):
    """Storms with one seed after another, for so many seconds; those that end wrong are told, and all are counted as one."""
    until, seed, wrong, last = time.monotonic() + seconds, SEED, [], ""
    while time.monotonic() < until:
        is_well, last = storm(report, seed, room)
        wrong += [] if is_well else [last]
        seed += 1
    for it in wrong:
        report.say(it)
    report.counts(not wrong and seed > SEED, f"{seed - SEED} storms; the last: {last}")


def kill_script():
    """A script in which the boot thread kills workers while they call, one a phase."""
    lines = []
    for number in range(KILLED):
        lines += [f"t{number} = boot: thread_create root {{1}} 1 {{2}} 0", "--"]
        lines += [f"boot: unref root t{number}", *[f"t{number}: self_get"] * 20, "--"]
    return "\n".join(lines[:-1]) + "\n"


def is_killed_rightly(out):
    """Whether each worker is told its own values up to some line, and from there on that it is halted."""
    for number in range(KILLED):
        replies = re.findall(rf"^t{number} \d+: (.*)$", out, re.M)
        alive = [it for it in replies if it.startswith("self ")]
        if len(replies) != 20 or replies != alive + ["refused 1 Halted"] * (20 - len(alive)):
            return False
    return True


def kills(report, rounds, room):
    """Workers that are killed while they call, round after round."""
    put(f"{room}/kills", kill_script())
    wrong, cut_within = 0, 0
    for _ in range(rounds):
        status, out = ran("./histar", "run", f"{room}/kills", "--dump", f"{room}/kills.dump")
        clean = ran("./histar-audit", f"{room}/kills.dump")
        wrong += (status, clean) != (0, (0, "clean\n")) or not is_killed_rightly(out)
        cut_within += "refused 1 Halted" in out and "self " in out
    report.counts(wrong == 0, f"{rounds * KILLED} workers killed while they call: told rightly, and each journal is clean")


def texts(report, room):
    """Texts at their limits, and a thread that is dead before its phase."""
    put(f"{room}/full", "--\n" * 65_536)
    report.counts(ran("./histar", "run", f"{room}/full") == (0, ""), "a script of 65,536 lines that say nothing")
    put(f"{room}/over", "--\n" * 65_537)
    told = f"histar: line 65537: script fault\n{room}/over:65537:1: error: a script has at most 65,536 lines\n"
    report.counts(ran("./histar", "run", f"{room}/over") == (1, told), "one line more is a fault at that line")
    dead = "a = boot: container_create root {1} 4 -\nt = boot: thread_create a {1} 1 {2} 0\nboot: unref root a\n--\nt: self_get\n"
    put(f"{room}/dead", dead)
    status, out = ran("./histar", "run", f"{room}/dead")
    report.counts((status, out.split("\n")[-2]) == (0, "t 5: refused 42 NoThread"), "a worker that is dead before its phase has no seat")
    put(f"{room}/nothing", "")
    ran("./histar", "run", f"{room}/nothing", "--pages", "8", "--dump", f"{room}/nothing.dump")
    with open(f"{room}/nothing.dump", encoding="utf-8") as it:
        lines = it.read().splitlines(keepends=True)
    changes = {
        "without a line": ([*lines[:19], *lines[20:]], "false at line 20"),
        "with an end too many": ([*lines, "end\n"], f"unreadable at line {len(lines) + 1}"),
        "with a zero before a number": ([it.replace("use 1 4", "use 1 04") for it in lines], "unreadable at line 12"),
    }
    for name, (changed, verdict) in changes.items():
        put(f"{room}/changed", "".join(changed))
        audit(report, ("./histar-audit",), f"{room}/changed", verdict, f"a dump {name}")


def beginnings(report, room):
    """Each beginning of a dump is unreadable in the line that it ends in."""
    with open("examples/dumps/boot.dump", "rb") as it:
        whole = it.read()
    wrong = []
    for length in range(len(whole)):
        with open(f"{room}/cut", "wb") as it:
            it.write(whole[:length])
        line = whole.count(b"\n", 0, length) + 1
        if ran("./histar-audit", f"{room}/cut") != (2, f"unreadable at line {line}\n"):
            wrong.append(length)
    said = f", but not of {wrong[:5]} bytes" if wrong else ""
    report.counts(bool(whole) and not wrong, f"each of {len(whole)} beginnings of a dump is unreadable where it ends{said}")


def closed_pipe(report, room):
    """Standard output that nobody reads any more ends a run without a word, and no dump is left."""
    put(f"{room}/script", "boot: cat_create\n")
    read, write = os.pipe()
    os.close(read)
    how = {"stdin": subprocess.DEVNULL, "stdout": write, "stderr": subprocess.PIPE, "text": True}
    done = subprocess.run(["./histar", "run", f"{room}/script", "--dump", f"{room}/unwritten"], **how)
    os.close(write)
    is_well = (done.returncode, done.stderr, os.path.exists(f"{room}/unwritten")) == (3, "", False)
    report.counts(is_well, f"a closed pipe: status {done.returncode}, {done.stderr.strip()}")


def use(report, is_long):
    """All of it; the long way is for `./test all`."""
    with tempfile.TemporaryDirectory(prefix="hostile-") as room:
        texts(report, room)
        beginnings(report, room)
        closed_pipe(report, room)
        kills(report, 17 if is_long else 1, room)
        storms(report, LONG if is_long else SHORT, room)
