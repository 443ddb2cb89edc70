"""Must-fail edits, which the prover has to refuse: crates/NAME/must-fail/*.edit, tried many in one check.

A check costs its start more than what it looks for. So a round puts one edit into each function that has some left, and
checks the crate once. An edit is refused there where the check tells an open goal of that very function: that a function
it calls is not proved says nothing of it. What a round proves all the same, or can't tell, is tried alone, as rt
must-fail does. Rounds keep their work, and last the crate as it is has to be proved over it; else each is tried alone.

What is refused only because a proof names what the edit took away fails as well, and so does what is refused with no open
goal told: that says nothing of the contract."""
import glob
import os
import re
import shutil
import tempfile

from gate.proofs import TIMES
from gate.times import Times
from gate.toolchain import FLAGS, library_task, toolchain

HEAD = re.compile(r"^([ \t]*)(?:pub(?:\([^)]*\))?\s+)?(?:const\s+|unsafe\s+)*fn\s+(\w+)", re.M)
# (Of a proof that rattle makes itself, what its search left open stands behind these words.)
MADE = "note: what antt said of a `search` in the proof that rattle made: "
PLACE = re.compile(rf"(?:{MADE}|note: )?(?:\./)?(\S+?):(\d+):\d+: ")
OPEN = r": it is not proved that |: error"
GONE = r"has no field|is not in scope|has no `|was not admitted"
NO_CONTRACT = "NOT REFUSED by a contract: a proof names what the edit takes away"


def messages(said):
    """What a check said, one message a line: a line that tells no place and no verdict goes on with the message before it."""
    told = []
    for line in said.rstrip("\n").split("\n"):
        if told and not (PLACE.match(line) or re.match(r"fn |logic=", line)):
            told[-1] += f" {line.strip()}"
        else:
            told.append(line)
    return told


def is_open_goal(message):
    """Whether a message tells an open goal, and not of a name that is gone."""
    return bool(PLACE.match(message) and re.search(OPEN, message) and not re.search(GONE, message))


def function_around(text, at):
    """The function that a place of a file lies in: its name, and its first and last line; None where it lies in none."""
    heads = [it for it in HEAD.finditer(text) if it.start() <= at]
    if not heads:
        return None
    end = re.compile(rf"^{heads[-1][1]}\}}", re.M).search(text, heads[-1].end())
    if not end or end.start() < at:
        return None
    return heads[-1][2], text.count("\n", 0, heads[-1].start()) + 1, text.count("\n", 0, end.start()) + 1


def proves(path, name, proof):
    """Whether a file of proofs/ is of this function of a source file: it stands below its module, or there below a type."""
    module = path[len("src/") : -len(".rt")]
    below = "proofs/" if module == "lib" else f"proofs/{module}/"
    return bool(re.match(rf"{below}([A-Z]\w*/)?{name}/", proof))


class Edit:
    """One edit: its file, its name, and the one function of src/ that it changes, where it changes just one."""

    def __init__(self, file, folder):
        self.file = file
        self.name = os.path.basename(file).removesuffix(".edit")
        places = set(self.places(folder))
        self.place = places.pop() if len(places) == 1 else None

    def places(self, folder):
        path = ""
        with open(self.file, encoding="utf-8") as it:
            lines = it.read().split("\n")
        for line in lines:
            if line.startswith("file: "):
                path = line[len("file: ") :].strip()
            if line.startswith("old: "):
                found = None
                if path.startswith("src/") and os.path.isfile(f"{folder}/{path}"):
                    with open(f"{folder}/{path}", encoding="utf-8") as it:
                        text = it.read()
                    at = text.find(line[len("old: ") :])
                    found = function_around(text, at) if at >= 0 else None
                yield found and (path, *found)


class Batch:
    """Edits of different functions, put into a copy of a crate's sources and checked at once."""

    def __init__(self, rt, crate, edits):
        self.taken, self.texts = [], {}
        with tempfile.TemporaryDirectory(prefix="batch-") as room:
            shutil.copytree(f"{crate.folder}/src", f"{room}/src")
            for edit in edits:
                changed = rt.read_edit(edit.file, room)[0]
                if changed and edit.place not in [it.place for it in self.taken]:
                    self.taken.append(edit)
                    self.texts.update(changed)
                    for path, text in changed.items():
                        with open(f"{room}/{path}", "w", encoding="utf-8") as it:
                            it.write(text)

    def check(self, rt, crate, kept):
        """What the check says, or None where it judged no contract, as where a text can't be read."""
        ran = rt.checked(crate, self.texts, FLAGS, kept)
        told = messages(ran.stdout)
        is_judged = ran.returncode == 1 and told[-1].startswith("logic=not-proved")
        return told if is_judged and not any(rt.unread(it, self.texts) for it in told) else None

    def verdict(self, edit, told):
        """'refused', 'proved', or 'hidden' where the check can't tell of this edit."""
        if any(self.is_own_goal(edit, it) for it in told):
            return "refused"
        path, name = edit.place[:2]
        module = "::".join(path[len("src/") : -len(".rt")].split("/"))
        said = [it for it in told if re.match(rf"fn \S+::{name}: ", it)]
        near = [it for it in said if f"::{module}::" in it] if len(said) > 1 else said
        return "proved" if len(near) == 1 and near[0].endswith(": proved") else "hidden"

    def is_own_goal(self, edit, message):
        """Whether a message tells a goal that is open in the edit's function itself."""
        if not is_open_goal(message):
            return False
        path, name = edit.place[:2]
        at = PLACE.match(message)
        if at[1] == path:
            return self.function_at(path, int(at[2])) == edit.place[1:]
        named = [it[2] for it in HEAD.finditer(self.texts[path])]
        return proves(path, name, at[1]) and named.count(name) == 1

    def function_at(self, path, line):
        """The function around a line, or the one that an attribute there stands above. (An edit changes no count of lines.)"""
        text = self.texts[path]
        before = text.split("\n")[:line]
        at = len("\n".join(before))
        if before[-1].lstrip().startswith("#["):
            head = HEAD.search(text, at)
            at = head.end() if head else at
        return function_around(text, at)


class Trial:
    """All edits of one crate, each with its verdict once it was tried."""

    def __init__(self, rt, crate, files, report):
        self.rt, self.crate, self.report = rt, crate, report
        self.edits = [Edit(it, crate.folder) for it in files]

    def rounds(self, kept):
        """The edits that were refused beside others, and those that are left to be tried alone."""
        left = [it for it in self.edits if it.place]
        refused, alone, count = [], [it for it in self.edits if not it.place], 0
        while len(left) > 1:
            batch = Batch(self.rt, self.crate, left)
            told = batch.check(self.rt, self.crate, kept)
            if told is None:
                break
            verdicts = {it: batch.verdict(it, told) for it in batch.taken}
            own = [it for it in batch.taken if verdicts[it] == "refused"]
            refused += own
            alone += [it for it in batch.taken if verdicts[it] == "proved"]
            left = [it for it in left if verdicts.get(it, "hidden") == "hidden"]
            count += 1
            self.report.say(f"  {self.crate.name}, check {count}: {len(own)} of {len(batch.taken)} edits refused, {len(left)} left")
            if not own:
                break
        return refused, alone + left

    def alone(self, edit, kept):
        """An edit tried by itself: over kept work first, and from nothing where it isn't refused so."""
        is_refused, text = self.tried(edit, kept)
        return (is_refused, text) if is_refused or not kept else self.tried(edit, None)

    def tried(self, edit, kept):
        """Whether one check refuses an edit, with an open goal that speaks of no name that is gone, and what it says."""
        texts, why = self.rt.read_edit(edit.file, self.crate.folder)
        if why:
            return False, f"BAD EDIT: {why}"
        ran = self.rt.checked(self.crate, texts, FLAGS, kept)
        told = messages(ran.stdout)
        if ran.returncode == 0:
            return False, "NOT REFUSED: the crate is still proved with it"
        if ran.returncode != 1 or not told[-1].startswith("logic=not-proved") or any(self.rt.unread(it, texts) for it in told):
            return False, f"BAD EDIT: no contract was tried: {told[0][:200]}"
        goals = [it for it in told if is_open_goal(it)]
        if goals:
            return True, f"refused: {goals[0][:160]}"
        return False, NO_CONTRACT if any(re.search(GONE, it) for it in told) else "BAD EDIT: refused with no open goal told"

    def over_kept(self, kept):
        """Each edit's verdict, all over one another's work."""
        refused, alone = self.rounds(kept)
        return {**{it: (True, "refused") for it in refused}, **{it: self.alone(it, kept) for it in alone}}

    def is_proved(self, kept):
        return self.rt.checked(self.crate, {}, FLAGS, kept).returncode == 0

    def run(self):
        with tempfile.TemporaryDirectory(prefix="kept-") as kept:
            found = self.over_kept(kept) if len(self.edits) > 1 else {}
            if not found or not self.is_proved(kept):
                found = {it: self.alone(it, None) for it in self.edits}
        for edit in self.edits:
            self.report.counts(found[edit][0], f"edit {self.crate.name}/{edit.name}: {found[edit][1]}")


def tasks_of(rt, crates, wanted, is_built, report):
    """For rt's scheduler: the libraries that are needed, each after those below it, and then each crate's edits."""
    tasks = {}
    for crate in crates:
        files = sorted(glob.glob(f"crates/{crate.name}/must-fail/*.edit"))
        below = [(it.name, "library") for it in crate.below()] if not is_built else []
        needed = any(crate in it.below() for it in crates if it.name in wanted)
        if needed and not is_built:
            key, task = library_task(rt, crate, crate.count(rb"\n"), lambda given, jobs, it=crate: it.build_rlib(FLAGS, anew=False))
            tasks[key] = task
        if files and crate.name in wanted:
            trial = Trial(rt, crate, [os.path.abspath(it) for it in files], report)
            tasks[crate.name, "edits"] = (below, 50 * len(files), rt.need(crate), lambda given, jobs, it=trial: it.run())
    return tasks


def try_all(report, names, tree):
    """Tries the edits of these crates, or of all: in a tree in which all is proved, or here, over what is kept."""
    rt, is_built = toolchain(), tree != "."
    rt.rtlib.Crate.cuts_libraries = is_built
    rt.rtlib.guarded()
    crates = rt.rtlib.crates_below(os.path.realpath(tree))
    known = {it.name for it in crates}
    for name in names:
        if name not in known:
            report.fails(f"{name}: crates.txt names no such crate")
    wanted = known & set(names) if names else known
    with Times() as times:
        rt.in_lanes(tasks_of(rt, crates, wanted, is_built, report))
    times.keep(TIMES)
