"""The crates for many machines. The protocol is played against a simulated engine from seeds, and each wrong rule of
bindings/rust/histar-cluster/wrong has to be caught by several; a wrong rule that doesn't compile is not caught. Over etcd, where its
client's packages are: a member is killed and paused, roles hold a node to its keys, faults are done to three members and nodes, and what an
operator types is typed."""
import glob
import os
import re
import shutil
import subprocess

from gate import cluster_operator
from gate.cluster_faults import DROPPED, LOGS, Faults
from gate.plays import is_clean, ran, text

ETCD = "bindings/rust/histar-etcd"
# Where Debian puts the sources of packages.
PACKAGES = "/usr/share/cargo/registry"
SECONDS, SEED = int(os.environ.get("CLUSTER_SECONDS", "60")), 1
CRATE = "bindings/rust/histar-cluster"
# So many runs, and so many steps each: over 10,000 faults are done in a minute.
RUNS, STEPS = "600", "6000"
# So many of these seeds have to catch a wrong rule.
SEEDS = 5
# A wrong rule is mostly caught by one of the first seeds, so that it is compiled quickly tells most.
QUICKLY = {"CARGO_PROFILE_DEV_OPT_LEVEL": "1", "CARGO_PROFILE_DEV_DEBUG": "0"}
EDIT = re.compile(r"file: (\S+)\nold: (.*?)\nnew: (.*)\n", re.S)


def edited(edit):
    """The file of a wrong rule, and what it has by it; none where what it replaces doesn't stand there once."""
    found = EDIT.fullmatch(text(edit))
    if not found or text(f"{CRATE}/{found[1]}").count(found[2]) != 1:
        return None
    return found[1], text(f"{CRATE}/{found[1]}").replace(found[2], found[3])


def told(words, env):
    done = subprocess.run(words, env=env, stdin=subprocess.DEVNULL, stdout=subprocess.PIPE, stderr=subprocess.STDOUT, text=True)
    return done.returncode, done.stdout


class Cluster:
    """The crate in a room, where it may be edited."""

    def __init__(self, report, library, room):
        self.report = report
        self.tree = f"{room}/cluster"
        shutil.copytree("bindings/rust", self.tree, ignore=shutil.ignore_patterns("target"))
        self.env = {**os.environ, "HISTAR_LIB": os.path.realpath(library), "CARGO_TARGET_DIR": f"{room}/cluster-target", **QUICKLY}
        cargo = ["cargo", "test", "--offline", "--quiet", "--manifest-path", f"{self.tree}/Cargo.toml", "--package", "histar-cluster"]
        self.build = [*cargo, "--test", "simulation", "--no-run"]
        self.play = [*cargo, "--test", "simulation", "--", RUNS, STEPS, "1"]

    def try_protocol(self):
        status, said = told(self.play, self.env)
        if status != 0:
            self.report.say(said[-3000:])
        summary = "; ".join(re.findall(r"^(\d+ runs of .*? faults);", said, re.M))
        self.report.counts(status == 0, f"the cluster's protocol: {summary}")

    def is_caught(self, edit):
        """Whether so many seeds catch a wrong rule, and what was said."""
        change = edited(edit)
        if not change:
            return False, "what it replaces stands there not once"
        file, written = change
        place = f"{self.tree}/histar-cluster/{file}"
        right = text(place)
        try:
            with open(place, "w", encoding="utf-8") as it:
                it.write(written)
            if told(self.build, self.env)[0] != 0:
                return False, "it does not compile"
            status, said = told([*self.play, str(SEEDS)], self.env)
            return status != 0 and len(re.findall(r"^seed \d+ of ", said, re.M)) >= SEEDS, said
        finally:
            with open(place, "w", encoding="utf-8") as it:
                it.write(right)

    def try_wrong_rules(self):
        edits = sorted(glob.glob(f"{CRATE}/wrong/*.edit"))
        missed = []
        for edit in edits:
            is_caught, said = self.is_caught(edit)
            if not is_caught:
                self.report.say(f"{edit}: {said[-300:]}")
                missed.append(os.path.basename(edit))
        self.report.counts(bool(edits) and not missed, f"{SEEDS} of {RUNS} seeds or more catch each of {len(edits)} wrong rules of the cluster" + "".join(f", but not {it}" for it in missed))


def try_engine(report, library, room, auditor):
    """The crate for etcd, as far as the machine has its packages and its programs."""
    if not glob.glob(f"{PACKAGES}/h2-*"):
        report.say(f"left out: the cluster over etcd: {PACKAGES} has no h2")
        return
    env = {**os.environ, "HISTAR_LIB": os.path.realpath(library), "CARGO_TARGET_DIR": f"{room}/cluster-target"}
    tested = subprocess.run(["cargo", "test", "--offline", "--quiet"], cwd=ETCD, env=env, stdout=subprocess.PIPE, stderr=subprocess.STDOUT, text=True)
    report.say("" if tested.returncode == 0 else tested.stdout[-3000:])
    report.counts(tested.returncode == 0, "cargo test: the crate histar-etcd")
    if not all(shutil.which(it) for it in ("etcd", "etcdctl", "openssl")):
        report.say("left out: faults on etcd: etcd, etcdctl or openssl is not on the path")
        return
    built = subprocess.run(["cargo", "build", "--release", "--offline", "--quiet", "--bins", "--examples"], cwd=ETCD, env=env, check=False)
    if built.returncode != 0:
        report.counts(False, "cargo build: the crate histar-etcd")
        return
    faults = Faults(f"{room}/faults", SEED, f"{room}/cluster-target/release")
    is_well, said = faults.play(SECONDS)
    report.counts(is_well, f"faults on etcd: {said}")
    report.counts(faults.counts[DROPPED] > 0, "the log was dropped beneath a node that slept")
    if auditor:
        are_clean = all(is_clean(ran(auditor, f"{room}/faults/{it}")) for it in LOGS)
        report.counts(are_clean, "./histar-audit finds clean the log of the faults, and what is left of it")


    cluster_operator.try_all(report, f"{room}/operator", f"{room}/cluster-target/release", auditor)


def try_all(report, library, room, auditor):
    cluster = Cluster(report, library, room)
    cluster.try_protocol()
    cluster.try_wrong_rules()
    try_engine(report, library, room, auditor)
