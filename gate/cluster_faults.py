"""Faults from a seed on the real engine: three members of etcd and three nodes, each on a host of its own (gate/hosts.py), which are
killed, paused or cut off; a member is replaced by one that has nothing; the log is dropped beneath a node that sleeps. All connect by TLS, with the
roles of docs/CLUSTER.md, and a fourth node lies within its role (gate/liar.py). The log is kept as it is put: each call that was answered is there
once with that answer, and none that was told never to be made; and histar-audit finds clean the whole log, and what is left of it. Alone: python3 -m gate.cluster_faults FOLDER SECONDS SEED [AUDITOR]"""
import glob
import os
import random
import shutil
import signal
import subprocess
import sys
import time

from gate.hosts import hosts_for
from gate.liar import Liar, answered, certify, configured, give_roles

CRATE = "bindings/rust/histar-etcd"
BASE = 23790
CALLERS = "12"
# What is done to one thing, or to two at once.
FAULTS = ("kill node", "kill member", "pause member", "pause node", "kill both", "pause two members", "replace member", "node sleeps")
CUTS = ("cut off node", "cut off member", "cut off both")
# A node sleeps until it has lost its lease and the others dropped what it had not played: for so many seconds at least, and at most.
ASLEEP, LONGEST = 12, 60
DROPPED = "log dropped beneath a sleeping node"
# The dumps of what is left of the log, and of the whole of it.
LOGS = ("audit", "whole")


class Faults:
    """Members and nodes in a folder, from a seed."""

    def __init__(self, folder, seed, programs):
        self.folder, self.programs = folder, programs
        self.random = random.Random(seed)
        self.hosts = hosts_for([f"{kind}{it}" for kind in "mn" for it in range(3)])
        self.faults = FAULTS + (CUTS if self.hosts.can_cut else ())
        # (the last one is reached by its address)
        addresses = [self.hosts.address(f"m{it}") for it in range(3)]
        self.members = [f"{self.hosts.named(f'm{it}') if it < 2 else addresses[it]}:{BASE + 10 * it}" for it in range(3)]
        self.listen = [f"https://{self.hosts.address(f'm{it}')}:{BASE + 10 * it}" for it in range(3)]
        self.peers = [f"http://{self.hosts.address(f'm{it}')}:{BASE + 10 * it + 1}" for it in range(3)]
        self.starts = [0] * 3
        self.counts = {DROPPED: 0}
        shutil.rmtree(folder, ignore_errors=True)
        os.makedirs(folder)
        self.tls = f"{folder}/tls"
        certify(self.tls, [f"m{it}" for it in range(3)], ["root", "operator", "check", "evil", "n0", "n1", "n2"], addresses)
        self.liar = Liar(self, self.random.randrange(1 << 32))

    def log(self, name):
        return open(f"{self.folder}/{name}.log", "a", encoding="utf-8")

    def member(self, it, state):
        peer = self.peers
        words = [*self.hosts.on(f"m{it}"), "etcd", "--name", f"m{it}", "--data-dir", f"{self.folder}/m{it}", "--initial-cluster-state", state, "--log-level", "error",
                 "--initial-cluster", ",".join(f"m{at}={peer[at]}" for at in range(3)), "--listen-peer-urls", peer[it], "--initial-advertise-peer-urls", peer[it],
                 "--listen-client-urls", self.listen[it], "--advertise-client-urls", f"https://{self.members[it]}",
                 "--client-cert-auth", "--trusted-ca-file", f"{self.tls}/ca.pem", "--cert-file", f"{self.tls}/member.pem", "--key-file", f"{self.tls}/member.key"]
        with self.log(f"m{it}") as out:
            return subprocess.Popen(words, stdout=out, stderr=out)

    def environment(self, user):
        """What a program finds its certificates by; etcdctl, the user's."""
        files = {"ETCDCTL_CACERT": "ca.pem", "ETCDCTL_CERT": f"{user}.pem", "ETCDCTL_KEY": f"{user}.key"}
        return {**os.environ, "ETCDCTL_API": "3", "HISTAR_TLS": self.tls, **{name: f"{self.tls}/{file}" for name, file in files.items()}}

    def call(self, *words, user="root", said=""):
        done = subprocess.run([*self.hosts.on("hub"), *words], env=self.environment(user), input=said, stdout=subprocess.PIPE, stderr=subprocess.STDOUT, text=True)
        return done.returncode, done.stdout

    def operator(self, what, *words):
        """Asks for something of the cluster as its operator."""
        config = f"{self.folder}/operator.toml"
        with open(config, "w", encoding="utf-8") as it:
            it.write(configured("faults", self.members, "operator", pages=1024, interval=1000))
        return self.call(f"{self.programs}/histar-cluster", what, config, *words)

    def node(self, it, left):
        self.starts[it] += 1
        turned = ",".join(self.members[it:] + self.members[:it])
        file = f"{self.folder}/calls-{it}.{self.starts[it]}"
        words = [*self.hosts.on(f"n{it}"), f"{self.programs}/examples/caller", "run", "faults", turned, f"n{it}", self.threads[it], file, CALLERS, str(max(left, 1))]
        with self.log(f"n{it}") as out:
            return subprocess.Popen(words, env=self.environment("root"), stdout=out, stderr=out)

    def following(self):
        """Who keeps the log, once it does."""
        words = [*self.hosts.on("hub"), f"{self.programs}/examples/caller", "check", "faults", ",".join(self.members), f"{self.folder}/whole"]
        started = subprocess.Popen(words, env=self.environment("root"), stdin=subprocess.PIPE, stdout=subprocess.PIPE, stderr=subprocess.STDOUT, text=True)
        started.stdout.readline()
        return started

    def revision(self):
        """The engine's revision; 0 where no member says it."""
        told = answered(*self.call("etcdctl", "--endpoints", ",".join(self.members), "get", "/faults/boot", "-w", "json"))
        return told.get("header", {}).get("revision", 0)

    def is_dropped(self, revision):
        """Whether the log was dropped beyond a revision: what was there then is forgotten."""
        at = ["--endpoints", ",".join(self.members)]
        return revision > 0 and "compacted" in self.call("etcdctl", *at, "get", "/faults/boot", "--keys-only", "--rev", str(revision))[1]

    def sleeps(self, left):
        """The time passes in which a node sleeps, which ends where the run has so many seconds left."""
        began, before = time.time(), self.revision()
        time.sleep(ASLEEP)
        while not self.is_dropped(before) and time.time() < began + min(LONGEST, left):
            time.sleep(1)
            before = before or self.revision()
        self.counts[DROPPED] += self.is_dropped(before)

    def hurt(self, nodes, members, what, left):
        """One thing is killed or replaced, or some are paused or cut off for a while, of so many seconds. What has to be started anew."""
        self.counts[what] = self.counts.get(what, 0) + 1
        first, second = self.random.sample(range(3), 2)
        killed = [nodes[first]] * (what in ("kill node", "kill both")) + [members[second]] * (what in ("kill member", "kill both", "replace member"))
        paused = {"pause member": [members[first]], "pause node": [nodes[first]], "node sleeps": [nodes[first]], "pause two members": [members[first], members[second]]}.get(what, [])
        cut = {"cut off node": [f"n{first}"], "cut off member": [f"m{second}"], "cut off both": [f"n{first}", f"m{second}"]}.get(what, [])
        for it in killed:
            it.kill()
            it.wait()
        for it in paused:
            it.send_signal(signal.SIGSTOP)
        for it in cut:
            self.hosts.cut(it, True)
        if what == "node sleeps":
            self.sleeps(left)
        else:
            time.sleep(self.random.uniform(0.1, 5))
        for it in paused:
            it.send_signal(signal.SIGCONT)
        for it in cut:
            self.hosts.cut(it, False)
        if what == "replace member":
            self.replace(second)
        return (first if nodes[first] in killed else None), (second if members[second] in killed else None)

    def replace(self, it):
        """Another member takes the place of one that is gone with its disk."""
        at = ["--endpoints", ",".join(self.members[:it] + self.members[it + 1 :]), "member"]
        gone = next(line for line in self.called("etcdctl", *at, "list").splitlines() if self.peers[it] in line)
        self.called("etcdctl", *at, "remove", gone.split(",")[0], done="member not found")
        self.called("etcdctl", *at, "add", f"m{it}", "--peer-urls", self.peers[it], done="Peer URLs already exists")
        shutil.rmtree(f"{self.folder}/m{it}")

    def called(self, *words, done=None):
        """What a command said, which is tried until it ends well, for half a minute: a cluster that chooses a leader answers none, and one that did
        what was asked without an answer says so the next time."""
        for _ in range(30):
            status, said = self.call(*words)
            if status == 0 or (done and done in said):
                return said
            time.sleep(1)
        raise RuntimeError(f"{' '.join(words)}: {said}")

    def play(self, seconds):
        """Plays for so many seconds. Whether all that was told holds, and what was said."""
        members = [self.member(it, "new") for it in range(3)]
        nodes, following = [], []
        try:
            time.sleep(3)
            give_roles(self, "n0 n1 n2 check evil")
            status, said = self.operator("begin", "n0")
            if status != 0:
                return False, said
            status, said = self.call(f"{self.programs}/examples/caller", "prepare", "faults", ",".join(self.members), "n0", "n1", "n2")
            if status != 0:
                return False, said
            self.threads = [line.split()[1] for line in said.splitlines()]
            following = [self.following()]
            end = time.time() + seconds
            left = lambda: int(end - time.time())
            nodes = [self.node(it, left()) for it in range(3)]
            time.sleep(1)
            self.liar.start()
            while left() > ASLEEP + 3:
                node, member = self.hurt(nodes, members, self.next_fault(), left() - 3)
                if node is not None:
                    nodes[node] = self.node(node, left())
                if member is not None:
                    members[member] = self.member(member, "existing")
                time.sleep(self.random.uniform(0.2, 1.5))
            self.liar.stop()
            stopped = [it.wait() for it in nodes]
            is_well, said = self.check(following[0])
            is_told = self.is_told_of()
            return is_well and is_told and not any(stopped), f"{said}, {self.liar.count} lies, {'one' if is_told else 'NONE'} taken back and told of"
        finally:
            self.liar.stop()
            for it in nodes + members + following:
                it.kill()
                it.wait()
            self.hosts.end()

    def next_fault(self):
        """Each fault once, the longest first, and then any."""
        undone = [it for it in reversed(self.faults) if it not in self.counts]
        return "node sleeps" if "node sleeps" in undone else undone[0] if undone else self.random.choice(self.faults)

    def is_told_of(self):
        """Whether a node stops that starts once an entry was taken back which another has played."""
        node = self.node(0, 8)
        time.sleep(4)
        self.liar.puts_entries()
        if node.wait() != 0:
            return False
        self.liar.takes_back()
        return self.node(1, 5).wait() != 0

    def check(self, following):
        files = [f"{self.threads[it]} {file}\n" for it in range(3) for file in sorted(glob.glob(f"{self.folder}/calls-{it}.*"))]
        said = following.communicate("".join(files))[0]
        status = following.returncode
        for what in ("status", "audit"):
            done, told = self.operator(what)
            with open(f"{self.folder}/{what}", "w", encoding="utf-8") as it:
                it.write(told)
            # (a member that was just replaced may not answer yet, which status ends with 1 for)
            is_well = "NODES DIFFER" not in told if what == "status" and "\nMEMBER " in told else done == 0
            status = status or not is_well
        return status == 0, f"{said.strip()}, by {self.counts}"


if __name__ == "__main__":
    faults = Faults(sys.argv[1], int(sys.argv[3]), f"{CRATE}/target/release")
    is_well, told = faults.play(int(sys.argv[2]))
    print("well" if is_well else "NOT WELL", told)
    print(open(f"{sys.argv[1]}/status", encoding="utf-8").read() if os.path.exists(f"{sys.argv[1]}/status") else "")
    for dump in LOGS if len(sys.argv) > 4 and is_well else ():
        print(dump, subprocess.run([sys.argv[4], f"{sys.argv[1]}/{dump}"], stdout=subprocess.PIPE, text=True).stdout)
    sys.exit(not is_well)
