"""Plays a script by the methods of the package and prints what ./histar run prints of it. Lines are played one after another, so what a
script asks must not hang on the schedule of its workers. A test: a faulty script raises.

play.py SCRIPT [--pages N] [--device L] [--next-id N] [--next-category N] [--tables yes] [--dump FILE]

With `--tables yes` the tables of what the kernel keeps follow, as a dump has them. With `--dump FILE` calls are kept, and their dump is
written to a file. The lines of a batch are calls like others, so a dump has no batch."""
import sys
import typing
from dataclasses import dataclass, field

import histar
from histar import STAR, Category, Entry, Kinds, Label, Level, Mapping, Object, Refused, Rights
from histar.trusted import session_of

LEVELS = {**{str(it): Level(it) for it in range(4)}, "*": STAR}
SETS = {Kinds: "csatgd", Rights: "rw"}


@dataclass
class Name:
    """What a name stands for, and who knows it: who bound it, and all from a phase on."""

    text: str
    worker: str
    phase: int
    value: object


@dataclass
class Line:
    """A line of a script, and what is printed of it."""

    number: int
    phase: int
    worker: str
    call: str
    bound: str = ""
    told: str = ""
    answer: object = None
    is_done: bool = False


@dataclass
class Play:
    """A script that is being played."""

    kernel: histar.Kernel
    lines: list[Line]
    names: list[Name] = field(default_factory=list)
    seated: set[str] = field(default_factory=set)
    away: set[str] = field(default_factory=set)

    def known(self, text, worker, phase):
        return next((it.value for it in self.names if it.text == text and (it.worker == worker or it.phase <= phase)), None)

    def value(self, text, kind, line):
        """What a word names, and notes the first that is not known."""
        if text.startswith("#"):
            return kind(int(text[1:]))
        found = self.known(text, line.worker, line.phase)
        if type(found) is not kind:
            line.told = line.told or f"unbound {text}"
            return kind(0)
        return found

    def label(self, text, line):
        *pairs, default = text[1:-1].split(",")
        split = [it.rsplit(":", 1) for it in pairs]
        return Label(LEVELS[default], [(self.value(it, Category, line), LEVELS[level]) for it, level in split])

    def argument(self, kind, words, line):
        if kind in (Object, int):
            return self.value(next(words), Object, line) if kind is Object else int(next(words))
        if kind is Entry:
            return Entry(self.value(next(words), Object, line), self.value(next(words), Object, line))
        text = next(words)
        if kind is Label:
            return self.label(text, line)
        if kind in SETS:
            return kind(sum(1 << place for place, letter in enumerate(SETS[kind]) if letter in text))
        return bytes.fromhex("" if text == "-" else text)

    def open_seats(self, phase):
        """Who has a thread to call by in this phase, and who is turned away."""
        self.away = set()
        for line in self.lines:
            thread = self.known(line.worker, "", phase)
            if line.phase != phase or type(thread) is not Object or line.worker in self.seated | self.away:
                continue
            try:
                session_of(self.kernel, thread).self_get()
                self.seated.add(line.worker)
            except histar.Halted:
                self.away.add(line.worker)

    def line(self, line):
        thread = self.known(line.worker, "", line.phase)
        if type(thread) is not Object:
            line.told = f"unbound {line.worker}"
        elif line.worker in self.away:
            line.told = "refused 42 NoThread"
        else:
            self.call(line, session_of(self.kernel, thread))

    def call(self, line, session):
        call, *words = line.call.split()
        method, words = getattr(session, call), iter(words)
        kinds = typing.get_type_hints(getattr(histar.calls, call))
        given = [self.argument(kind, words, line) for name, kind in kinds.items() if name != "return"]
        if line.told:
            return
        try:
            line.answer = method(*given)
        except Refused as refused:
            line.told = f"refused {refused.number} {refused.name}"
            return
        line.is_done = True
        if isinstance(line.answer, histar.Session):
            line.answer = line.answer.id
        if line.bound:
            self.names.append(Name(line.bound, line.worker, line.phase + 1, line.answer))

    # ---- What is printed ----

    def name(self, it):
        return next((name.text for name in self.names if name.value == it), str(it))

    def spelled(self, label):
        return "{" + "".join(f"{self.name(it)}:{level}," for it, level in label.pairs) + f"{label.default}}}"

    def entry(self, it):
        return f"{self.name(it.container)} {self.name(it.object)}"

    def said(self, line):
        it, call = line.answer, line.call.split()[0]
        kind = type(it)
        if it is None:
            return "mapping none" if call == "as_get" else "ok"
        if kind is Category:
            return f"cat {self.name(it)}"
        if kind is Object:
            return f"{'parent' if call == 'container_parent' else 'id'} {self.name(it)}"
        if kind is bytes:
            return f"data {it.hex()}"
        if kind is int:
            return f"pages {it}"
        if kind is Label:
            return f"label {self.spelled(it)}"
        if kind is Mapping:
            return f"mapping {it.page} {self.entry(it.segment)} {it.first} {it.count} {letters(it.rights)}"
        if kind is histar.Quota:
            return f"quota {it.quota} {it.used} {int(it.fixed)} {int(it.immutable)}"
        if kind is histar.Listed:
            return " ".join(["list", str(it.length), *map(self.name, it.objects)])
        if kind is histar.Entered:
            return f"entered {it.entry_point} {it.closure}"
        labels = " ".join(self.spelled(label) for label in (it.label, it.clearance, it.verify))
        return f"self {labels} {self.entry(it.space)} {it.entry_point} {it.closure}"

    def print_all(self):
        for worker in dict.fromkeys(it.worker for it in self.lines):
            for line in self.lines:
                if line.worker == worker:
                    print(f"{worker} {line.number}: {line.told or self.said(line)}")


def letters(rights):
    return "".join(letter for place, letter in enumerate("rw") if rights & 1 << place) or "-"


def labels_and_orders(kernel):
    """By the defaults, and then by the pairs, place by place."""
    found = [(kernel.kept_label(it), it) for it in range(1 << 16)]
    kept = sorted(((label, it) for label, it in found if label is not None), key=lambda it: (it[0].default._rank(), [(c, level._rank()) for c, level in it[0].pairs]))
    for place, (label, _) in enumerate(kept):
        print(f"label {place} {label}")
    for place, (_, first) in enumerate(kept):
        for other, (_, second) in enumerate(kept):
            order = kernel.kept_order(first, second)
            print(f"order {place} {other} {order.at_most + 2 * order.at_most_raised + 4 * order.raised_at_most_raised}")


def tables(kernel):
    """Prints what the kernel keeps, as a dump has it."""
    live = []
    while (it := kernel.kept_live(len(live))) is not None:
        live.append(it)
    for it in live:
        print(f"live {it.id}")
    for it in live:
        print(f"use {it.id} {kernel.kept_use(it)}")
    for it in live:
        for slot in range(16):
            if found := kernel.kept_translation(it, slot):
                print(f"map {it.id} {slot} {found[0].id} {letters(found[1])}")
    labels_and_orders(kernel)


def read(path):
    phase = 0
    with open(path, encoding="ascii") as script:
        for number, text in enumerate(script.read().splitlines(), 1):
            if text == "--":
                phase += 1
                continue
            head, call = text.split(":", 1)
            bound, worker = head.split(" = ") if " = " in head else ("", head)
            yield Line(number, phase, worker, call.removeprefix("+").strip(), bound)


def main(path, *words):
    given = dict(zip(words[::2], words[1::2]))
    limits = histar.Limits(int(given.get("--pages", 64)), Level(int(given.get("--device", 1))), int(given.get("--next-id", 4)), int(given.get("--next-category", 1)))
    with histar.Kernel(limits) as kernel:
        if "--dump" in given:
            kernel.log_on(keep=histar.Keep.ALL)
        play = Play(kernel, list(read(path)), [Name(name, "", 0, it) for name, it in (("root", Object.ROOT), ("boot", Object.BOOT), ("dev", Object.DEVICE))])
        phase = None
        for line in play.lines:
            if line.phase != phase:
                phase = line.phase
                play.open_seats(phase)
            play.line(line)
        play.print_all()
        if "--tables" in given:
            tables(kernel)
        if "--dump" in given:
            with open(given["--dump"], "wb") as file:
                kernel.dump_to(file)


if __name__ == "__main__":
    main(*sys.argv[1:])
