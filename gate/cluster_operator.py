"""What docs/CLUSTER.md has an operator type, typed over a real etcd with TLS, whose member is reached by its address: each block of commands in its
order, where nodes run as programs and one calls. And what an operator does wrong is told. Alone: python3 -m gate.cluster_operator FOLDER PROGRAMS [AUDITOR]"""
import os
import random
import re
import shutil
import signal
import socket
import subprocess
import sys
import time
import urllib.error
import urllib.request

from gate.liar import certify, configured
from gate.plays import text
from gate.report import Report

PORT, HEALTH = 23890, 23900
NODES = ("north", "south", "east")
# etcd takes so many bytes; the clutter fills it.
QUOTA, CLUTTER = 24 << 20, 1_000_000
# So often a node is told to end at some moment of its start.
ENDS = int(os.environ.get("CLUSTER_ENDS", "12"))
# What stands for systemd and apt: a node is a process, whose number and end are kept.
FUNCTIONS = """set -e
histar-cluster() { "$PROGRAMS/histar-cluster" "$@"; }
histar-audit() { if [ -n "$AUDITOR" ]; then "$AUDITOR" "$@" > audited; fi; }
apt() { :; }
systemctl() {
    for unit; do :; done
    node=${unit#histar-cluster@}
    case $1 in
        stop) kill -TERM "$(cat "$node.pid")"; while kill -0 "$(cat "$node.pid")" 2> /dev/null; do sleep 0.05; done ;;
        *) setsid "$PROGRAMS/histar-cluster" run "$node.toml" >> "$node.log" 2>&1 < /dev/null & echo $! > "$node.pid" ;;
    esac
}
"""


class Operator:
    """An etcd and nodes in a folder."""

    def __init__(self, report, folder, programs, auditor):
        self.report, self.folder, self.programs, self.auditor = report, os.path.abspath(folder), os.path.abspath(programs), auditor
        self.blocks = [it.split("```")[0] for it in text("docs/CLUSTER.md").split("```sh\n")[1:]]
        self.etcd, self.caller, self.data = None, None, "data"
        shutil.rmtree(self.folder, ignore_errors=True)
        os.makedirs(self.folder)
        certify(f"{self.folder}/tls", [], ["root", "operator", "check", "west", *NODES])
        for cluster, name, pages in (("files", "operator", 1024), ("restored", "restored", 900)):
            self.write(name, configured(cluster, [f"127.0.0.1:{PORT}"], "operator", pages=pages, interval=1000))
        for at, name in enumerate(NODES):
            self.write_node("files", name, name, 1024, at)
        self.write_node("restored", "north", "again", 900, 5)

    def write(self, name, written):
        with open(f"{self.folder}/{name}.toml", "w", encoding="utf-8") as it:
            it.write(written)

    def write_node(self, cluster, node, file, pages, at):
        self.write(file, configured(cluster, [f"127.0.0.1:{PORT}"], node, node=node, pages=pages, interval=1000, listen=f"127.0.0.1:{HEALTH + at}"))

    def counts(self, is_well, what, said=""):
        self.report.counts(bool(is_well), f"an operator: {what}" + ("" if is_well else f": {said}"))

    def environment(self, user="root"):
        files = {"ETCDCTL_CACERT": "ca.pem", "ETCDCTL_CERT": f"{user}.pem", "ETCDCTL_KEY": f"{user}.key"}
        files = {name: f"{self.folder}/tls/{file}" for name, file in files.items()}
        return {**os.environ, **files, "ETCDCTL_API": "3", "ETCDCTL_ENDPOINTS": f"https://127.0.0.1:{PORT}", "HISTAR_TLS": f"{self.folder}/tls",
                "PROGRAMS": self.programs, "AUDITOR": os.path.abspath(self.auditor) if self.auditor else ""}

    def start_etcd(self):
        url, peer = f"https://127.0.0.1:{PORT}", f"http://127.0.0.1:{PORT + 1}"
        words = ["etcd", "--name", "m", "--data-dir", self.data, "--log-level", "error", "--quota-backend-bytes", str(QUOTA), "--listen-client-urls", url,
                 "--advertise-client-urls", url, "--listen-peer-urls", peer, "--initial-advertise-peer-urls", peer, "--initial-cluster", f"m={peer}",
                 "--client-cert-auth", "--trusted-ca-file", "tls/ca.pem", "--cert-file", "tls/member.pem", "--key-file", "tls/member.key"]
        with open(f"{self.folder}/etcd.log", "a", encoding="utf-8") as out:
            self.etcd = subprocess.Popen(words, cwd=self.folder, stdout=out, stderr=out)
        time.sleep(2)

    def typed(self, commands, seconds=120):
        """How commands end, and what they say."""
        words = ["timeout", str(seconds), "bash", "-c", FUNCTIONS + commands]
        done = subprocess.run(words, cwd=self.folder, env=self.environment(), stdin=subprocess.DEVNULL, stdout=subprocess.PIPE, stderr=subprocess.STDOUT, text=True)
        return done.returncode, done.stdout

    def block(self, at, **replaced):
        commands = self.blocks[at].replace("127.0.0.1:9464", f"127.0.0.1:{HEALTH}")
        for old, new in replaced.items():
            commands = commands.replace(old, new)
        return commands

    def told(self, *words):
        return self.typed(f"histar-cluster {' '.join(words)}")

    def health(self, at, path="readyz"):
        """The status and the text that a node's port answers; 0 where it does not."""
        try:
            with urllib.request.urlopen(f"http://127.0.0.1:{HEALTH + at}/{path}", timeout=6) as it:
                return it.status, it.read().decode()
        except urllib.error.HTTPError as answered:
            return answered.code, answered.read().decode()
        except OSError as why:
            return 0, str(why)

    def until(self, holds, seconds=60):
        end = time.time() + seconds
        while not holds():
            if time.time() > end:
                return False
            time.sleep(0.2)
        return True

    def is_ready(self, at, seconds=60):
        return self.until(lambda: self.health(at)[0] == 200, seconds)

    def entries(self, at):
        found = re.search(r"^histar_cluster_entries\{.*\} (\d+)$", self.health(at, "metrics")[1], re.M)
        return int(found[1]) if found else 0

    def fences(self, node, cluster="files"):
        return self.typed(f"etcdctl get --prefix /{cluster}/fence/{node}/ --keys-only")[1].split()

    def play(self):
        try:
            self.start_etcd()
            for row in (self.sets_up, self.calls, self.has_no_space, self.exports, self.upgrades, self.ends_at_any_moment, self.types_wrong, self.floods, self.revokes, self.restores):
                row()
        finally:
            self.end()

    def sets_up(self):
        ended = self.typed(self.block(0).replace("north south east", "north south east west check"))
        self.counts(ended[0] == 0, "roles, by the block of the page", ended)
        begin, rest = self.block(1).split("\n", 1)
        ended = self.typed(begin)
        self.counts(ended == (0, ""), "begins the cluster", ended)
        ended = self.told("begin", "operator.toml", "south")
        self.counts(ended == (1, "histar-cluster: files has begun\n"), "can't begin it twice", ended)
        ended = self.typed(f'"$PROGRAMS/examples/caller" prepare files 127.0.0.1:{PORT} north west')
        self.thread = ended[1].split()[-1] if ended[0] == 0 else "0"
        ended = self.typed(rest.replace("curl", "sleep 2; curl --retry 60 --retry-delay 1 --retry-all-errors"))
        self.counts(ended[0] == 0 and "node north incarnation" in ended[1] and "member 127.0.0.1" in ended[1], "runs a node, and asks for its health, the cluster's status and an audit", ended)
        for node in NODES[1:]:
            self.typed(f"systemctl enable --now histar-cluster@{node}")
        self.counts(all(self.is_ready(at) for at in range(3)), "three nodes are ready", [self.health(at) for at in range(3)])

    def calls(self):
        words = [f"{self.programs}/examples/caller", "run", "files", f"127.0.0.1:{PORT}", "west", self.thread, f"{self.folder}/calls", "4", "3600"]
        with open(f"{self.folder}/caller.log", "a", encoding="utf-8") as out:
            self.caller = subprocess.Popen(words, env=self.environment(), stdout=out, stderr=out)
        self.counts(self.until(lambda: "agreed_entries" in self.health(0, "metrics")[1]), "nodes agree, and their metrics tell it", self.health(0, "metrics"))
        ended = self.told("status", "operator.toml")
        self.counts(ended[0] == 0 and "nodes agree after" in ended[1], "status tells agreement", ended)

    def has_no_space(self):
        for at in range(40):
            if self.typed(f"head -c {CLUTTER} /dev/zero | tr '\\0' x | etcdctl put /clutter/{at}")[0] != 0:
                break
        is_told = self.until(lambda: "space" in self.health(0)[1] + self.health(1)[1] + self.health(2)[1], 30)
        ended = self.told("status", "operator.toml")
        self.counts(is_told and ended[0] == 1 and "ALARM" in ended[1], "nodes and status tell that etcd has no space", (ended, self.health(0)))
        ended = self.typed(f"etcdctl del --prefix /clutter/\n{self.block(2)}")
        self.counts(ended[0] == 0, "gives etcd space, by the block of the page", ended)
        before = self.entries(0)
        is_well = all(self.is_ready(at) for at in range(3)) and self.until(lambda: self.entries(0) > before + 20, 30)
        self.counts(is_well and self.told("status", "operator.toml")[0] == 0, "then all go on", (self.health(0), before))

    def exports(self):
        grants = "\n".join(line for line in self.block(0).splitlines() if "grant-permission" in line or line[:3] in ("for", "don") or "for k" in line)
        ended = self.typed(grants.replace("/files/", "/restored/"))
        self.counts(ended[0] == 0, "gives another cluster of the same etcd its roles", ended)
        before = self.entries(0)
        ended = self.typed(self.block(3))
        self.counts(ended == (0, ""), "exports while others write, and begins another cluster at it, with fewer pages", ended)
        ended = self.told("begin", "restored.toml", "north", "--from", "files.state")
        self.counts(ended == (1, "histar-cluster: restored has begun\n"), "begins no cluster that stands", ended)
        ended = self.typed("head -c 300 files.state > part.state; histar-cluster begin restored.toml north --from part.state")
        self.counts(ended == (1, "histar-cluster: part.state: this is no exported state, or it was changed\n"), "begins none at a part of a state", ended)
        ended = self.typed("sed s/900/4/ restored.toml > few.toml; histar-cluster begin few.toml north --from files.state")
        self.counts(ended == (1, "histar-cluster: files.state: the state needs more pages, or is of no kernel\n"), "begins none with too few pages", ended)
        self.typed("systemctl start histar-cluster@again")
        self.counts(self.is_ready(5) and before > 0, "a node runs on what was exported", self.health(5))
        self.typed("systemctl stop histar-cluster@again")

    def upgrades(self):
        before = self.entries(1)
        stops, rest = self.block(4).split("\n", 1)
        ended = self.typed(f"{stops}\netcdctl get --prefix /files/fence/north/ --keys-only")
        self.counts(ended == (0, ""), "a node that is stopped gives its fence back", ended)
        ended = self.typed(rest)
        self.counts(ended[0] == 0 and self.until(lambda: self.entries(1) > before, 20), "upgrades it, by the block of the page, while another calls", ended)

    def ends_at_any_moment(self):
        told, moments = [], random.Random(1)
        for _ in range(ENDS):
            started = subprocess.Popen([f"{self.programs}/histar-cluster", "run", "again.toml"], cwd=self.folder, stdout=subprocess.DEVNULL, stderr=subprocess.PIPE, text=True)
            time.sleep(moments.uniform(0.02, 2))
            started.send_signal(signal.SIGTERM)
            said = started.communicate(timeout=30)[1]
            told.append((started.returncode, said, self.fences("north", "restored")))
        is_well = all(status in (0, -signal.SIGTERM) and not fences for status, _, fences in told)
        self.counts(is_well, f"a node that is told to end at {ENDS} moments of its start leaves no fence", told)

    def types_wrong(self):
        ended = self.typed("timeout 5 $PROGRAMS/histar-cluster run north.toml")
        self.counts(ended == (78, f"histar-cluster: 127.0.0.1:{HEALTH}: Address already in use (os error 98)\n"), "a port in use is told", ended)
        self.write("gone", configured("files", ["127.0.0.1:1"], "north", node="north", pages=1024, listen=f"127.0.0.1:{HEALTH + 6}"))
        started = subprocess.Popen([f"{self.programs}/histar-cluster", "run", "gone.toml"], cwd=self.folder, stderr=subprocess.DEVNULL)
        is_told = self.until(lambda: "127.0.0.1:1: Connection refused" in self.health(6)[1], 15)
        self.counts(is_told and self.health(6)[0] == 503 and self.health(6, "healthz")[0] == 200, "a node without its etcd says so, and runs", self.health(6))
        started.send_signal(signal.SIGTERM)
        self.counts(started.wait(timeout=20) == 0, "and ends when it is told to", started.returncode)
        for user, why in (("south", "permission denied"), ("nobody", "No such file")):
            self.write("wrong", configured("files", [f"127.0.0.1:{PORT}"], user, node="north", pages=1024, listen=f"127.0.0.1:{HEALTH + 6}"))
            self.typed("rm -f wrong.log; systemctl start histar-cluster@wrong")
            is_told = self.until(lambda: why in text(f"{self.folder}/wrong.log"), 30)
            self.counts(is_told, f"another's certificate, or none, is told: {why}", text(f"{self.folder}/wrong.log"))
            self.typed("kill $(cat wrong.pid) 2> /dev/null || :")
        self.typed("cp -r tls other && cd other && openssl req -x509 -newkey rsa:2048 -nodes -keyout x.key -out ca.pem -subj /CN=x 2>/dev/null")
        self.write("other", configured("files", [f"127.0.0.1:{PORT}"], "north", pages=1024).replace("tls/", "other/"))
        ended = self.told("status", "other.toml")
        self.counts(ended[0] == 69 and "certificate of 127.0.0.1 is not taken" in ended[1], "a member whose certificate another authority signed is refused", ended)
        ended = self.told("retire", "operator.toml", "nobody")
        self.counts(ended == (1, "histar-cluster: files has no node nobody\n"), "a node that is none can't be retired", ended)
        ended = self.told("retire", "operator.toml", "south")
        self.counts(ended[0] == 1 and "south runs" in ended[1] and self.is_ready(1), "nor one that runs, which goes on", ended)
        self.typed(f"sed s/:{HEALTH}/:{HEALTH + 6}/ north.toml > twin.toml; systemctl start histar-cluster@twin")
        is_told = self.until(lambda: re.search(r"^histar_cluster_namesakes\{.*\} 1$", self.health(0, "metrics")[1], re.M), 20)
        self.counts(is_told and self.is_ready(0) and self.is_ready(6), "two nodes of one name run, and say so", self.health(0, "metrics"))
        self.typed("systemctl stop histar-cluster@twin")

    def floods(self):
        before = self.entries(1)
        opened = []
        for at in range(300):
            try:
                it = socket.create_connection(("127.0.0.1", HEALTH), timeout=0.2)
                it.sendall(b"GET /metrics HTTP/1.1\r\n" if at % 2 else b"GET /metrics HTTP/1.1\r\nhost: x\r\n\r\n")
                opened.append(it)
            except OSError:
                pass
        goes_on = self.until(lambda: self.entries(1) > before + 20, 20)
        answers = self.is_ready(0, 40)
        self.counts(len(opened) > 100 and goes_on and answers, f"a port of health with {len(opened)} connections that nobody reads holds up no node", self.health(0))
        for it in opened:
            it.close()

    def revokes(self):
        ended = self.typed(self.block(5))
        told = self.told("status", "operator.toml")
        self.counts(ended[0] == 0 and "node east incarnation" not in told[1] and not self.fences("east"), "revokes a node that runs, by the block of the page", (ended, told))
        self.counts(self.until(lambda: self.health(2)[0] == 503, 20), "which is ready no more", self.health(2))
        before = self.entries(0)
        self.counts(self.until(lambda: self.entries(0) > before + 20, 30), "the others go on", before)

    def restores(self):
        """A snapshot of etcd is restored to another one, and all nodes are started anew."""
        self.caller.kill()
        self.caller.wait()
        self.until(lambda: not self.fences("west"))
        time.sleep(3)  # (its incarnation is closed)
        before = self.entries(0)
        ended = self.typed("etcdctl snapshot save files.db && etcdctl put /files/later x && " + f"etcdctl snapshot restore files.db --name m --data-dir again --initial-cluster m=http://127.0.0.1:{PORT + 1} --initial-cluster-token again --initial-advertise-peer-urls http://127.0.0.1:{PORT + 1}")
        self.etcd.kill()
        self.etcd.wait()
        self.data = "again"
        self.start_etcd()
        is_told = self.until(lambda: all("the engine is another one" in text(f"{self.folder}/{node}.log") for node in NODES[:2]), 60)
        self.counts(ended[0] == 0 and is_told, "a node that runs does not take a restored etcd for its own", (ended, self.health(0)))
        for node in NODES[:2]:
            self.typed(f"kill $(cat {node}.pid) 2> /dev/null && sleep 1; systemctl start histar-cluster@{node}")
        is_well = all(self.is_ready(at) for at in range(2)) and self.until(lambda: self.entries(0) >= before, 20)
        self.counts(is_well, "nodes that are started anew go on at it", (self.health(0), before))

    def end(self):
        if self.caller:
            self.caller.kill()
        for node in (*NODES, "again", "twin", "wrong"):
            self.typed(f"[ ! -f {node}.pid ] || kill -9 $(cat {node}.pid) 2> /dev/null || :")
        if self.etcd:
            self.etcd.kill()
            self.etcd.wait()


def try_all(report, folder, programs, auditor):
    Operator(report, folder, programs, auditor).play()


if __name__ == "__main__":
    REPORT = Report()
    try_all(REPORT, sys.argv[1], sys.argv[2], sys.argv[3] if len(sys.argv) > 3 else None)
    sys.exit(REPORT.finish())
