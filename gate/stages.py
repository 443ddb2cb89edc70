"""The stages of ./test. Each is a process of its own, so whatever becomes of it, the run goes on to its last line: a stage that
raises fails, and so does one that takes longer than its limit, which is ended with all that it started. What it counted before
stays counted."""
import contextlib
import json
import os
import select
import signal
import tempfile
import time
import traceback

from gate.report import Report, processor_seconds

MINUTE, HOUR = 60, 3600


class Stage:
    """A stage: its name, the seconds that it may take, what it looks at, what does so, and the programs that have to be built. What does
    so takes the report and what the run was given."""

    def __init__(self, name, limit, what, act, needs=()):
        self.name, self.limit, self.what, self.act, self.needs = name, limit, what, act, needs

    def missing(self, tree):
        """The programs that it needs and that are not built in a tree."""
        return [it for it in self.needs if not os.path.isfile(f"{tree}/crates/{it}/out/{it}")]


class Given:
    """What a run works on: the tree with what is built, whether it takes its time, and the crates that were named."""

    def __init__(self, tree=".", is_long=False, crates=()):
        self.tree, self.is_long, self.crates = tree, is_long, list(crates)

    def count_of(self, module):
        """How many of what a module draws are tried."""
        return module.MANY if self.is_long else module.FEW


class Sent(Report):
    """The report of a stage in its own process: what it counts is sent to the process that runs the stages."""

    def __init__(self, report, pipe):
        super().__init__(report.is_silent)
        self.began, self.spent, self.pipe = report.began, processor_seconds(), pipe

    def send(self, **told):
        with self.printing:
            self.pipe.write(json.dumps(told) + "\n")
            self.pipe.flush()

    def count_passed(self, count):
        self.send(passed=count)

    def count_failed(self, text):
        self.send(failed=text)


def act_alone(report, stage, given, pipe, room):
    """Acts as the stage's own process: it leads a session, by which all that it starts is found."""
    os.setsid()
    for it in (signal.SIGINT, signal.SIGTERM, signal.SIGHUP):
        signal.signal(it, signal.SIG_DFL)
    tempfile.tempdir = room
    with os.fdopen(pipe, "w", encoding="utf-8") as told:
        sent = Sent(report, told)
        try:
            stage.act(sent, given)
        except BaseException as fault:  # a stage that raises is a stage that failed, whatever it raised
            traceback.print_exc()
            sent.fails(f"stage {stage.name}: {type(fault).__name__}: {fault}")
        sent.send(ended=True)


def end_session(leader):
    """Ends the leader of a session and each process of it, until none is left."""
    with contextlib.suppress(ProcessLookupError):
        os.kill(leader, signal.SIGKILL)
    while True:
        found = []
        for it in filter(str.isdigit, os.listdir("/proc")):
            with contextlib.suppress(ProcessLookupError):
                if os.getsid(int(it)) == leader and not is_gone(it):
                    found.append(int(it))
        if not found:
            return
        for it in found:
            with contextlib.suppress(ProcessLookupError):
                os.kill(it, signal.SIGKILL)
        time.sleep(0.05)


def is_gone(process):
    """Whether a process has ended, and is only waited for."""
    try:
        with open(f"/proc/{process}/stat", encoding="utf-8", errors="replace") as it:
            return it.read().rpartition(")")[2].split()[0] in "ZX"
    except OSError:
        return True


def follow(report, pipe, limit):
    """Counts what a stage sends, until it ends: what is wrong with how it did, if anything."""
    until, left = time.monotonic() + limit, b""
    while True:
        ready, _, _ = select.select([pipe], [], [], max(0, until - time.monotonic()))
        if not ready:
            return f"stopped after {limit} seconds"
        more = os.read(pipe, 65_536)
        if not more:
            return "its process died"
        *lines, left = (left + more).split(b"\n")
        for told in map(json.loads, lines):
            if "ended" in told:
                return None
            report.count_passed(told.get("passed", 0))
            if "failed" in told:
                report.count_failed(told["failed"])


def play(report, stage, given):
    """Plays a stage, and counts what it counts, and a failure with its name where it doesn't end as it should."""
    report.heading(f"{stage.name}: {stage.what}")
    missing = stage.missing(given.tree)
    if missing:
        report.fails(f"stage {stage.name}: not built: {' '.join(missing)}; ./prove {' '.join(missing)} builds it")
        return
    with tempfile.TemporaryDirectory(prefix=f"test-{stage.name}-", ignore_cleanup_errors=True) as room:
        ours, theirs = os.pipe()
        process = os.fork()
        if process == 0:
            try:
                os.close(ours)
                act_alone(report, stage, given, theirs, room)
            finally:
                os._exit(0)
        os.close(theirs)
        try:
            fault = follow(report, ours, stage.limit)
        finally:
            end_session(process)
            os.waitpid(process, 0)
            os.close(ours)
    if fault:
        report.fails(f"stage {stage.name}: {fault}")
