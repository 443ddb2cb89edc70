"""Random scripts, each of a stated seed, in which all 34 calls stand: large ones for many pages, and small ones that a kernel of 8
pages has room for. A phase has lines of one worker, so what is printed does not hang on a schedule."""
import random

MAKES = ("container_create", "segment_create", "segment_copy", "as_create", "thread_create", "gate_create")
READS = ("segment_read", "obj_label", "obj_quota", "meta_get", "segment_len", "as_get", "container_list", "container_parent", "self_get", "load")
CHANGES = ("cat_create", "self_set_label", "self_set_clearance", "self_set_as", "link", "unref", "quota_move", "set_fixed",
           "set_immutable", "meta_set", "segment_resize", "segment_write", "as_map", "as_unmap", "store", "gate_enter", "dev_send", "dev_recv")
# (what each script begins with, so that later calls have something to name)
FIRST = (
    "c = boot: cat_create",
    "d = boot: cat_create",
    "a = boot: container_create root {1} 40 -",
    "s = boot: segment_create root {c:3,1} 4 2",
    "m = boot: as_create root {1} 1",
    "t = boot: thread_create root {c:*,1} 1 {c:3,2} 7",
    "g = boot: gate_create root {c:*,d:*,1} 1 {2} root m 8 9",
    "f = boot: segment_create root {1} 1 0",
    "boot: as_map root m 0 0 root s 0 2 rw",
    "boot: self_set_as root m",
    "boot: set_fixed root f",
)
# (a part of it that 8 pages have room for, and what is named beside)
SMALL = (
    ("s = boot: segment_create root {c:3,1} 2 1", "m = boot: as_create root {1} 1", "boot: as_map root m 0 0 root s 0 1 rw", "boot: self_set_as root m"),
    ("a = boot: container_create root {1} 2 -", "f = boot: segment_create root {1} 1 0", "boot: set_fixed root f", "boot: link a root f"),
    ("t = boot: thread_create root {c:*,1} 1 {c:3,2} 7", "m = boot: as_create root {1} 1", "g = boot: gate_create root {c:*,d:*,1} 1 {2} root m 8 9"),
    ("s = boot: segment_create root {1} 3 2", "boot: segment_write root s 300 7061727473"),
)
NAMED = (("category", "c"), ("category", "d"), ("container", "a"), ("segment", "s"), ("segment", "f"), ("as", "m"), ("thread", "t"), ("gate", "g"))


class Writer:
    """Writes a script. Names are bound in it, but a line that binds one may be refused when it is played."""

    def __init__(self, seed, is_small):
        self.drawn = random.Random(seed)
        self.is_small = is_small
        self.names = {kind: [] for kind in ("container", "segment", "as", "thread", "gate", "category")}
        self.names["container"].append("root")
        self.count = 0

    def one_of(self, *words):
        return self.drawn.choice(words)

    def is_rare(self, share):
        return self.drawn.random() < share

    def object(self, kind):
        """An object, mostly of a kind; now and then any id that may have been given."""
        if self.is_rare(0.2):
            return f"#{self.drawn.randrange(5 + self.count)}"
        if self.is_rare(0.08):
            return self.one_of("root", "boot", "dev", *(it for names in self.names.values() for it in names[-3:]))
        return self.drawn.choice(self.names[kind][:2] + self.names[kind][-2:]) if self.names[kind] else "#9"

    def entry(self, kind):
        return f"{'root' if self.is_rare(0.85) else self.object('container')} {self.object(kind)}"

    def any(self):
        return self.entry(self.one_of("container", "segment", "as", "thread", "gate"))

    def label(self, levels="0123*", default="1"):
        if self.is_rare(0.03):
            default = self.one_of(*"0123*")
        pairs = [f"{it}:{self.one_of(*levels)}," for it in ("c", "d") if self.is_rare(0.3)]
        return "{" + "".join(pairs) + default + "}"

    def bytes(self):
        return "".join(f"{self.drawn.randrange(256):02x}" for _ in range(self.one_of(0, 1, 3, 16, 63, 64))) or "-"

    def below(self, limit):
        return self.drawn.randrange(limit) if not self.is_rare(0.05) else self.drawn.randrange(2**32)

    def space(self):
        return "#0 #0" if self.is_rare(0.3) else self.entry("as")

    def arguments(self, call):
        quota = self.one_of(1, 2) if self.is_small else self.one_of(1, 2, 3, 5)
        new = f"{'root' if self.is_rare(0.8) else self.object('container')} {self.label('0123*' if call in MAKES[4:] else '0123')} {quota}"
        page = self.below(4)
        return {
            "container_create": f"{new} {self.one_of('-', 's', 'ct', 'g', 'csatgd')}",
            "segment_create": f"{new} {self.below(3)}",
            "segment_copy": f"{new} {self.entry('segment')}",
            "as_create": new,
            "thread_create": f"{new} {self.label('23', '2')} {self.below(99)}",
            "gate_create": f"{new} {self.label('23', '2')} {self.space()} {self.below(99)} {self.below(99)}",
            "self_set_label": "{c:*,d:*,1}" if self.is_rare(0.9) else self.label("123*"),
            "self_set_clearance": "{c:3,d:3,2}" if self.is_rare(0.7) else self.label("23", "2"),
            "self_set_as": self.space(),
            "link": "a root f" if self.is_rare(0.7) else f"{self.object('container')} {self.any()}",
            "unref": self.unref(),
            "quota_move": f"{self.any()} {self.drawn.randrange(-3, 5)}",
            "set_fixed": self.any(),
            "set_immutable": self.any() if self.is_rare(0.3) else "root dev",
            "meta_set": f"{self.any()} {self.bytes()}",
            "segment_resize": f"{self.entry('segment')} {self.below(4)}",
            "segment_write": f"{self.entry('segment')} {self.below(256)} {self.bytes()}",
            "as_map": f"{self.entry('as')} {self.below(3)} {page} {self.entry('segment')} {page % 2} {self.one_of(1, 2)} {self.one_of('r', 'w', 'rw', '-')}",
            "as_unmap": f"{self.entry('as')} {self.below(3)}",
            "store": f"{page * 256 + self.below(200)} {self.bytes()}",
            "gate_enter": f"{self.entry('gate')} {{c:*,d:*,1}} {{c:3,d:3,2}} {self.label('3', '3')}",
            "dev_send": f"root dev {self.bytes()}",
            "dev_recv": "root dev",
            "obj_label": self.any(),
            "obj_quota": self.any(),
            "container_list": f"{self.object('container')} {self.below(3)}",
            "container_parent": self.object("container"),
            "segment_len": self.entry("segment"),
            "segment_read": f"{self.entry('segment')} {self.below(256)} {self.one_of(1, 16, 64, 65)}",
            "meta_get": self.any(),
            "as_get": f"{self.entry('as')} {self.below(3)}",
            "load": f"{page * 256 + self.below(200)} {self.one_of(1, 16, 64)}",
        }.get(call, "")

    def unref(self):
        """What is unreferenced: the second link that there may be, something, or nothing."""
        if self.is_rare(0.3):
            return "a f"
        kind = self.one_of("segment", "as", "gate", "container")
        return self.entry(kind) if self.is_rare(0.5 if self.is_small else 0.3) else "root #99"

    def bind(self, call):
        """A new name for what the call makes, to be used by later lines."""
        self.count += 1
        name = f"n{self.count}"
        kind = "category" if call == "cat_create" else "as" if call == "as_create" else call.split("_", maxsplit=1)[0]
        self.names["segment" if call == "segment_copy" else kind].append(name)
        return f"{name} = "

    def line(self, worker):
        further = ("unref", "link", "link", "segment_copy", "load", "gate_enter", "as_map") * 2 if self.is_small else ("link", "link", "as_unmap", "store")
        call = self.one_of(*MAKES, *MAKES, *READS, *READS, *CHANGES, *further)
        words = f"{call} {self.arguments(call)}".rstrip()
        return f"{self.bind(call) if call in MAKES or call == 'cat_create' else ''}{worker}: {words}"


def script(seed, phases=30, is_small=False):
    """The text of a script of so many phases."""
    writer = Writer(seed, is_small)
    lines = [*FIRST[:2], *writer.drawn.choice(SMALL)] if is_small else list(FIRST)
    for kind, name in NAMED:
        writer.names[kind].append(name)
    for _ in range(phases):
        worker = "boot" if writer.is_rare(0.7) or not writer.names["thread"] else writer.one_of(*writer.names["thread"][-3:])
        lines += ["--"] + [writer.line(worker) for _ in range(writer.drawn.randrange(1, 25))]
    return "\n".join(lines) + "\n"
