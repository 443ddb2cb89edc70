#!/usr/bin/env python3
"""What a cluster costs beside bare puts that as many watchers read as it has nodes: members of etcd, three nodes, kinds in turn, some
rounds; medians of rates and of the engine's processor time for each put or call. Then the bytes of key and value that an entry of one
write has; how long a node that lacks 100,000 calls, an entry each, takes until it has seen all; reads by one thread and by four at once; and
their instructions, where valgrind is on the path. To be run once ./lib stands, on a machine with nothing else to do:
benches/cluster.py [MEMBERS [ROUNDS [SECONDS]]]. It tests nothing."""
import base64
import json
import os
import shutil
import statistics
import subprocess
import sys
import tempfile
import time

TOP = os.path.dirname(os.path.dirname(os.path.realpath(__file__)))
CRATE = f"{TOP}/bindings/rust/histar-etcd"
BASE = 23990
TICK = os.sysconf("SC_CLK_TCK")
KINDS = {
    "bare puts, 64 callers": ("puts", "3", "64"),
    "a call an entry, 64 callers": ("calls", "3", "64", "64", "1"),
    "16 calls an entry, 64 callers": ("calls", "3", "64", "64", "16"),
    "group commit, 64 callers": ("calls", "3", "4", "64", "1"),
    "group commit, 64 tasks": ("tasks", "3", "4", "64", "1"),
    "group commit, 1,024 callers": ("calls", "3", "4", "1024", "1"),
    "group commit, 1,024 tasks": ("tasks", "3", "4", "1024", "1"),
}
BEHIND = 100_000
COUNTED = ["valgrind", "--tool=callgrind", "--callgrind-out-file=/dev/null", "--collect-atstart=no", "--toggle-collect=*read_many*"]


def ticks(process):
    with open(f"/proc/{process}/stat", encoding="utf-8") as it:
        fields = it.read().rpartition(")")[2].split()
    return int(fields[11]) + int(fields[12])


def built():
    env = {**os.environ, "HISTAR_LIB": os.environ.get("HISTAR_LIB", f"{TOP}/out/lib")}
    subprocess.run(["cargo", "build", "--release", "--offline", "--quiet", "--examples"], cwd=CRATE, env=env, check=True)
    return f"{os.environ.get('CARGO_TARGET_DIR', f'{CRATE}/target')}/release/examples/costs"


def bytes_of_entries(member):
    """Of each entry of one write the bytes of its key and its value. (One of two is longer.)"""
    said = subprocess.run(["etcdctl", "--endpoints", member, "get", "/costs-", "--prefix", "--limit", "20000", "-w", "json"], stdout=subprocess.PIPE, check=True).stdout
    pairs = [(base64.b64decode(it["key"]), base64.b64decode(it.get("value", ""))) for it in json.loads(said).get("kvs", [])]
    return [len(key) + len(value) for key, value in pairs if b"/log/e/" in key and 64 < len(value) < 128]


def told(*words):
    """Two numbers that a program prints."""
    return [int(it) for it in subprocess.run(words, stdout=subprocess.PIPE, text=True, check=True).stdout.split()]


class Engine:
    """So many members of etcd, in a folder."""

    def __init__(self, room, count):
        self.addresses = [f"127.0.0.1:{BASE + 2 * it}" for it in range(count)]
        peers = [f"http://127.0.0.1:{BASE + 2 * it + 1}" for it in range(count)]
        cluster = ",".join(f"m{it}={peer}" for it, peer in enumerate(peers))
        self.members = []
        for it, (address, peer) in enumerate(zip(self.addresses, peers)):
            words = ["etcd", "--name", f"m{it}", "--data-dir", f"{room}/m{it}", "--log-level", "error", "--quota-backend-bytes", "8000000000", "--initial-cluster", cluster,
                     "--listen-client-urls", f"http://{address}", "--advertise-client-urls", f"http://{address}", "--listen-peer-urls", peer, "--initial-advertise-peer-urls", peer]
            self.members.append(subprocess.Popen(words, stdout=subprocess.DEVNULL, stderr=subprocess.DEVNULL))
        time.sleep(3)

    def ticks(self):
        return sum(ticks(it.pid) for it in self.members)

    def end(self):
        for it in self.members:
            it.kill()
            it.wait()


def rates(costs, engine, rounds, seconds):
    found = {it: [] for it in KINDS}
    for _ in range(rounds):
        for kind, (what, *asked) in KINDS.items():
            before = engine.ticks()
            done, taken = told(costs, what, ",".join(engine.addresses), *asked, str(seconds))
            found[kind].append((1000 * done / taken, (engine.ticks() - before) / TICK * 1e6 / done))
    bare = [statistics.median(it) for it in zip(*found["bare puts, 64 callers"])]
    for kind, all_of in found.items():
        rate, cost = (statistics.median(it) for it in zip(*all_of))
        print(f"{kind:<32} {rate:>9.0f} a second, {rate / bare[0]:>5.2f} of bare; {cost:>6.1f} us of the engine each, {cost / bare[1]:>4.2f}", flush=True)


def instructions(costs, kind):
    said = subprocess.run([*COUNTED, costs, "reads", kind, "1", "0"], stdout=subprocess.DEVNULL, stderr=subprocess.PIPE, text=True, check=True).stderr
    return int(said.split("Collected :")[1].split()[0]) / 100_000


def reads(costs, seconds):
    for kind in ("node", "reader"):
        one, four = ((lambda it: it[0] / it[1])(told(costs, "reads", kind, threads, str(seconds))) for threads in "14")
        print(f"reads by a {kind}: {1e6 / one:.0f} ns by one thread, {four / one:.2f} times as many by four", flush=True)
    if shutil.which("valgrind"):
        alone = instructions(costs, "kernel")
        for kind in ("node", "reader"):
            print(f"a read by a {kind}: {instructions(costs, kind) / alone:.3f} of the {alone:.0f} instructions of a kernel alone", flush=True)


def main(members, rounds, seconds):
    costs = built()
    room = tempfile.mkdtemp(prefix="cluster-")
    engine = Engine(room, members)
    try:
        rates(costs, engine, rounds, seconds)
        sizes = bytes_of_entries(engine.addresses[0])
        print(f"bytes of key and value of an entry of one write: {max(sizes)} at most" if sizes else "no entry was found", flush=True)
        entries, taken = told(costs, "behind", ",".join(engine.addresses), str(BEHIND))
        print(f"a node that lacks {entries} entries has seen all after {taken / 1000:.2f} s", flush=True)
        reads(costs, seconds)
    finally:
        engine.end()
        shutil.rmtree(room, ignore_errors=True)


if __name__ == "__main__":
    main(*(map(int, sys.argv[1:] + ["1", "5", "2"][len(sys.argv) - 1 :])))
