"""Checkpoints that can't be restored: each breaks one condition of a dump that is clean, and the auditor finds line 3 false. And large
ones, made to keep a machine busy, of which it is told as quickly."""
import tempfile
import time

from gate.plays import CLEAN_LATER, audit, ran

# Objects of all kinds, two mappings, a waiting packet, and two threads with events.
SCRIPT = """c = boot: cat_create
a = boot: container_create root {1} 8 s
b = boot: container_create a {1} 2 s
s = boot: segment_create root {1} 2 1
m = boot: as_create root {1} 1
boot: as_map root m 0 0 root s 0 1 rw
boot: as_map root m 1 4 root s 0 1 r
boot: self_set_as root m
g = boot: gate_create root {c:*,1} 1 {2} root m 8 9
t = boot: thread_create root {1} 1 {2} 0
boot: dev_send root dev 0102
--
t: cat_create
"""
META = "0" * 128
SECONDS = 20
# The thread t at the end, with its space.
THREAD = "object 9 thread 1 0 {{#2:*,1}} {{#2:3,2}} {{3}} {} 0 0"
# What is broken, the line that stands in the dump, and those that take its place.
BROKEN = (
    ("a counter below the limits'", "state 10 3", ["state 3 3"]),
    ("a counter past 2^61", "state 10 3", ["state 2305843009213693953 3"]),
    ("a category counter past 2^61", "state 10 3", ["state 10 2305843009213693953"]),
    ("a category past the next one", "state 10 3", ["state 10 1"]),
    ("an id past the next one", "state 10 3", ["state 9 3"]),
    ("a root of another quota", f"object 1 container 64 0 0 {{1}} - {META}", [f"object 1 container 63 0 0 {{1}} - {META}"]),
    ("a use above the quota", f"object 4 container 8 0 0 {{1}} s {META}", [f"object 4 container 2 0 0 {{1}} s {META}"]),
    ("a device that uses more than its quota", f"object 3 device 2 0 {{1}} {META}", [f"object 3 device 1 0 {{1}} {META}"]),
    ("ids that fall", f"object 7 as 1 0 0 {{1}} {META}", [f"object 5 as 1 0 0 {{1}} {META}"]),
    ("a thread's space that is a device", THREAD.format("0 0"), [THREAD.format("1 3")]),
    ("a thread's space past the next id", THREAD.format("0 0"), [THREAD.format("1 10")]),
    ("a thread's space in what was never given", THREAD.format("0 0"), [THREAD.format("10 1")]),
    ("half an entry of a thread", THREAD.format("0 0"), [THREAD.format("1 0")]),
    ("a container that avoids less than its parent", f"object 5 container 2 0 0 {{1}} s {META}", [f"object 5 container 2 0 0 {{1}} - {META}"]),
    ("a container that avoids what it lists", f"object 4 container 8 0 0 {{1}} s {META}", [f"object 4 container 8 0 0 {{1}} cs {META}"]),
    ("an object that is listed twice", "entry 5", ["entry 5", "entry 5"]),
    ("an object that nothing lists", "entry 5", []),
    ("a star in a container's label", f"object 5 container 2 0 0 {{1}} s {META}", [f"object 5 container 2 0 0 {{#1:*,1}} s {META}"]),
    ("a star in a segment's label", f"object 6 segment 2 0 0 {{1}} 1 {META}", [f"object 6 segment 2 0 0 {{#1:*,1}} 1 {META}"]),
    ("a star in an address space's label", f"object 7 as 1 0 0 {{1}} {META}", [f"object 7 as 1 0 0 {{#1:*,1}} {META}"]),
    ("a star in a device's label", f"object 3 device 2 0 {{1}} {META}", [f"object 3 device 2 0 {{#1:*,1}} {META}"]),
    ("a label with a pair of its default", f"object 6 segment 2 0 0 {{1}} 1 {META}", [f"object 6 segment 2 0 0 {{#1:1,1}} 1 {META}"]),
    ("a category of a gate past the next one", f"object 8 gate 1 0 0 {{#1:*,1}} {{2}} 1 7 8 9 {META}", [f"object 8 gate 1 0 0 {{#3:*,1}} {{2}} 1 7 8 9 {META}"]),
    ("a gate's space that is a segment", f"object 8 gate 1 0 0 {{#1:*,1}} {{2}} 1 7 8 9 {META}", [f"object 8 gate 1 0 0 {{#1:*,1}} {{2}} 1 6 8 9 {META}"]),
    ("half an entry of a gate", f"object 8 gate 1 0 0 {{#1:*,1}} {{2}} 1 7 8 9 {META}", [f"object 8 gate 1 0 0 {{#1:*,1}} {{2}} 0 7 8 9 {META}"]),
    ("a mapping of no page", "slot 0 0 1 6 0 1 rw", ["slot 0 0 1 6 0 0 rw"]),
    ("a mapping past the last page of addresses", "slot 0 0 1 6 0 1 rw", ["slot 0 65536 1 6 0 1 rw"]),
    ("a mapping of 17 pages", "slot 0 0 1 6 0 1 rw", ["slot 0 0 1 6 0 17 rw"]),
    ("a mapping past a segment's last page", "slot 0 0 1 6 0 1 rw", ["slot 0 0 1 6 16 1 rw"]),
    ("a mapping without rights", "slot 0 0 1 6 0 1 rw", ["slot 0 0 1 6 0 1 -"]),
    ("mappings that meet", "slot 1 4 1 6 0 1 r", ["slot 1 0 1 6 0 1 r"]),
    ("a mapping of what is no segment", "slot 0 0 1 6 0 1 rw", ["slot 0 0 1 7 0 1 rw"]),
    ("a mapping of an id past the next one", "slot 0 0 1 6 0 1 rw", ["slot 0 0 1 10 0 1 rw"]),
    ("a slot twice", "slot 1 4 1 6 0 1 r", ["slot 0 4 1 6 0 1 r"]),
    ("slots that fall", "slot 0 0 1 6 0 1 rw", ["slot 2 0 1 6 0 1 rw"]),
    ("a slot past the last one", "slot 1 4 1 6 0 1 r", ["slot 16 4 1 6 0 1 r"]),
    ("a packet without a byte", "packet 0102", ["packet -"]),
    ("five packets", "packet 0102", ["packet 01"] * 5),
    ("a next number of 1", "next 9 2", ["next 9 1"]),
    ("a next number of 0", "next 9 2", ["next 9 0"]),
    ("a thread twice", "next 9 2", ["next 9 2", "next 9 2"]),
    ("threads that fall", "next 9 2", ["next 1 2"]),
    ("the thread 10, which was never given", "next 9 2", ["next 9 2", "next 10 2"]),
)


def container(number, quota, listed):
    """The lines of a container with its list."""
    return [f"object {number} container {quota} 0 0 {{1}} - {META}", *(f"entry {it}" for it in listed)]


def large(pages, listed, objects):
    """A dump of a checkpoint alone, of a boot with further objects, some of them in the root's list. Its tables are left out, so where it
    can be restored its last line is false."""
    boot = ["object 2 thread 1 0 {1} {2} {3} 0 0 0 0", f"object 3 device 2 0 {{1}} {META}"]
    root = container(1, pages, [2, 3, *listed])
    return ["histar-dump 2", f"limits {pages} 1 4 1", "state 1000000 1", *root, *boot, *objects, "end"]


def busy():
    """Large checkpoints, each with whether it can be restored."""
    many = range(4, 304)
    yield "two containers that list each other", False, large(64, [], container(4, 8, [5]) + container(5, 8, [4]))
    mesh = [line for it in many for line in container(it, 4_000_000, [other for other in many if other != it])]
    yield "300 containers, each in the lists of all others", False, large(64, [], mesh)
    chain = [line for it in range(4, 1_003) for line in container(it, 1_100, [it + 1])]
    yield "a chain of a thousand containers", False, large(64, [4], chain + container(1_003, 1, []))
    short = [line for it in range(4, 403) for line in container(it, 512 - it, [it + 1])]
    yield "a chain of four hundred containers in a root of 512 pages", True, large(512, [4], short + container(403, 109, []))
    yield "a segment that is listed a thousand times", False, large(64, [4] * 1_000, [f"object 4 segment 1 0 0 {{1}} 0 {META}"])
    yield "20,000 ids in a list, none of them recorded", False, large(64, range(4, 20_004), [])
    yield "20,000 containers", False, large(64, range(4, 20_004), [line for it in range(4, 20_004) for line in container(it, 1, [])])


def refuse_busy(report, auditor, dump):
    """Audits the large ones: each within seconds."""
    for name, is_restored, lines in busy():
        with open(dump, "w", encoding="utf-8") as it:
            it.write("\n".join([*lines, ""]))
        began = time.monotonic()
        audit(report, auditor, dump, f"false at line {len(lines) if is_restored else 3}", name)
        report.counts(time.monotonic() - began < SECONDS, f"{name}: told within {SECONDS} seconds")


def without(lines, old, new):
    """The lines with one of them changed; None where it isn't there, or not once."""
    at = [place for place, it in enumerate(lines) if it == old]
    return lines[: at[0]] + new + lines[at[0] + 1 :] if len(at) == 1 else None


def refuse(report, histar=("./histar",), auditor=("./histar-audit",)):
    with tempfile.TemporaryDirectory(prefix="checkpoints-") as room:
        script, dump = f"{room}/script", f"{room}/dump"
        with open(script, "w", encoding="utf-8") as it:
            it.write(SCRIPT)
        ran(*histar, "run", script, "--dump", dump, "--checkpoint", "100")
        audit(report, auditor, dump, CLEAN_LATER, "a dump that is a checkpoint alone")
        with open(dump, encoding="utf-8") as it:
            lines = it.read().split("\n")
        for name, old, new in BROKEN:
            changed = without(lines, old, new)
            if changed is None:
                report.counts(False, f"{name}: the dump has no line {old}")
                continue
            with open(dump, "w", encoding="utf-8") as it:
                it.write("\n".join(changed))
            audit(report, auditor, dump, "false at line 3", name)
        refuse_busy(report, auditor, dump)
