"""A node of a cluster that lies within its role of etcd, and what it takes to have roles: certificates, and the commands of docs/CLUSTER.md."""
import json
import os
import random
import re
import subprocess
import threading

from gate.plays import text

CERTIFICATE = """set -e
openssl req -newkey rsa:2048 -nodes -keyout {0}.key -out {0}.csr -subj /CN={0}
openssl x509 -req -in {0}.csr -CA ca.pem -CAkey ca.key -CAcreateserial -out {0}.pem -days 2 -extfile names
"""


def certify(folder, hosts, users, addresses=("127.0.0.1",)):
    """An authority, a certificate for the members on these hosts, and one for each user."""
    os.makedirs(folder)
    named = [*(f"DNS:{host}" for host in ["localhost", *hosts]), *(f"IP:{it}" for it in addresses)]
    with open(f"{folder}/names", "w", encoding="utf-8") as it:
        it.write(f"subjectAltName={','.join(named)}\n")
    steps = ["openssl req -x509 -newkey rsa:2048 -nodes -keyout ca.key -out ca.pem -subj /CN=ca -days 2"]
    for step in steps + [CERTIFICATE.format(name) for name in ["member", *users]]:
        subprocess.run(["sh", "-c", step], cwd=folder, stdout=subprocess.DEVNULL, stderr=subprocess.DEVNULL, check=True)


def configured(cluster, members, user, **fields):
    """A configuration, beside whose file the folder tls stands."""
    lines = [f'cluster = "{cluster}"', f"members = {json.dumps(members)}"]
    lines += [f"{name} = {json.dumps(value)}" for name, value in fields.items()]
    lines += ["[tls]", 'authority = "tls/ca.pem"', f'certificate = "tls/{user}.pem"', f'key = "tls/{user}.key"']
    return "\n".join(lines) + "\n"


def give_roles(faults, nodes):
    """Does what docs/CLUSTER.md has done, for these nodes."""
    block = text("docs/CLUSTER.md").split("```sh\n")[1].split("```")[0]
    commands = "\n".join(line for line in block.splitlines() if not line.startswith("histar-cluster"))
    commands = commands.replace("north south east", nodes).replace("/files/", "/faults/")
    status, said = faults.call("sh", "-ec", f"export ETCDCTL_ENDPOINTS={','.join(faults.members)}\n{commands}")
    if status != 0:
        raise RuntimeError(said)


def spelled(number):
    """A number as keys have it."""
    digits = f"{number:x}"
    return f"{len(digits) - 1:x}{digits}"


def answered(status, said):
    """What etcd answered a command of etcdctl; nothing where it did not. (etcdctl writes warnings of its own as such lines, too)"""
    documents = [json.loads(line) for line in said.splitlines() if status == 0 and line.startswith("{")]
    return next((it for it in documents if "header" in it), {})


class Liar:
    """It puts first entries of several lanes by one transaction, ends others' incarnations, and keeps the log by a fence without a lease."""

    def __init__(self, faults, seed):
        self.faults, self.random, self.count, self.place = faults, random.Random(seed), 0, 0
        self.is_over = threading.Event()
        self.thread = threading.Thread(target=self.lie_on, daemon=True)

    def call(self, *words, said=""):
        return self.faults.call("timeout", "5", "etcdctl", "--endpoints", ",".join(self.faults.members), *words, user="evil", said=said)

    def start(self):
        self.thread.start()

    def stop(self):
        self.is_over.set()
        if self.thread.is_alive():
            self.thread.join()

    def lie_on(self):
        while not self.is_over.wait(self.random.uniform(0.2, 2)):
            self.random.choice((self.puts_entries, self.puts_entries, self.ends_another, self.keeps_the_log))()

    def transaction(self, pairs):
        puts = "".join(f"put {key} {value}\n" for key, value in pairs)
        status, said = self.call("txn", said=f"\n{puts}\n\n")
        self.count += status == 0 and "SUCCESS" in said

    def puts_entries(self):
        revision = self.revision()
        if revision <= self.place:
            return  # (a transaction that arrives late would change what another has put)
        self.place = revision
        place = spelled(revision)
        pairs = [(f"/faults/log/e/evil/{place}.{spelled(lane)}/01", "x" * self.random.randrange(1, 300)) for lane in range(self.random.randrange(1, 5))]
        self.random.shuffle(pairs)
        self.transaction(pairs)

    def read(self, *words):
        return answered(*self.call("get", *words, "-w", "json"))

    def ends_another(self):
        fences = self.read("/faults/fence/", "--prefix").get("kvs", [])
        if fences:
            self.transaction([(f"/faults/log/c/evil/{spelled(self.random.choice(fences)['create_revision'])}", "x")])

    def keeps_the_log(self):
        self.transaction([("/faults/fence/evil/0", "x")])

    def revision(self):
        return self.read("/faults/boot").get("header", {}).get("revision", 0)

    def takes_back(self):
        """Deletes what it put last."""
        said = self.call("get", "/faults/log/e/evil/", "--prefix", "--keys-only", "--sort-by", "CREATE", "--order", "DESCEND", "--limit", "1")[1]
        for key in re.findall(r"^/\S+", said, re.M):
            self.call("del", key)
