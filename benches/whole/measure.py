#!/usr/bin/env python3
"""Plays scripts on two programs in turn: measure.py TWIN OURS FOLDER [--rounds N] [-- WORKLOAD..]

FOLDER has a folder for each number of lines, with the scripts that workloads.py made. For each script it prints the user
time of a call on both, net of an empty script's, their ratio (of the sums over all rounds, since the system tells user
time in coarse ticks), the greatest resident memory of both and its ratio. Last it prints what a call takes of ours at each
number of lines, as a ratio to the least number: 1 where the time grows with the lines. Before a script is timed, it is
played once on both, and what they print has to be the same."""
import argparse
import os
import statistics
import subprocess
import sys
import tempfile


class Run:
    """One run of a program: its user seconds and its greatest resident memory in megabytes."""

    def __init__(self, program, script, words):
        with open(os.devnull, "wb") as nowhere:
            child = subprocess.Popen([program, "run", script, *words], stdout=nowhere)
            _, status, used = os.wait4(child.pid, 0)
            child.returncode = os.waitstatus_to_exitcode(status)
        if child.returncode != 0:
            sys.exit(f"{program} run {script}: status {child.returncode}")
        self.seconds, self.megabytes = used.ru_utime, used.ru_maxrss / 1024


class Workload:
    """A script of a folder, with the further words of its command line."""

    def __init__(self, folder, name):
        self.name, self.script = name, f"{folder}/{name}.script"
        with open(f"{folder}/{name}.args", encoding="utf-8") as it:
            self.words = it.read().split()
        with open(self.script, encoding="utf-8") as it:
            self.calls = sum(line != "--\n" for line in it)

    def printed(self, program):
        return subprocess.run([program, "run", self.script, *self.words], stdout=subprocess.PIPE, check=True).stdout

    def compare(self, programs):
        if self.printed(programs[0]) != self.printed(programs[1]):
            sys.exit(f"{self.script}: the two programs print different replies")

    def time(self, programs, empty, rounds):
        """Of each program: nanoseconds of a call, and megabytes."""
        runs, idle = ([], []), ([], [])
        for _ in range(rounds):
            for place, program in enumerate(programs):
                idle[place].append(Run(program, empty, self.words))
                runs[place].append(Run(program, self.script, self.words))
        found = []
        for place in (0, 1):
            base = statistics.median(it.seconds for it in idle[place])
            net = statistics.mean(max(it.seconds - base, 1e-9) for it in runs[place])
            found.append((net / self.calls * 1e9, max(it.megabytes for it in runs[place])))
        return found


def measure(folder, programs, names, rounds, empty):
    """Prints the table of one number of lines, and answers the nanoseconds of a call of ours by workload."""
    print(f"{'':4}{'calls':>7}{'twin ns':>9}{'ours ns':>9}{'ratio':>7}{'twin MB':>9}{'ours MB':>9}{'ratio':>7}")
    taken = {}
    for name in names:
        it = Workload(folder, name)
        it.compare(programs)
        (twin, twin_room), (ours, room) = it.time(programs, empty, rounds)
        print(f"{name:4}{it.calls:7}{twin:9.0f}{ours:9.0f}{ours / twin:7.2f}{twin_room:9.1f}{room:9.1f}{room / twin_room:7.2f}", flush=True)
        taken[name] = ours
    return taken


def main():
    parser = argparse.ArgumentParser(description=__doc__, formatter_class=argparse.RawDescriptionHelpFormatter)
    parser.add_argument("twin")
    parser.add_argument("ours")
    parser.add_argument("folder")
    parser.add_argument("--rounds", type=int, default=7)
    parser.add_argument("workloads", nargs="*")
    options = parser.parse_args()
    sizes = sorted(os.listdir(options.folder), key=int)
    programs = (options.twin, options.ours)
    taken = {}
    with tempfile.NamedTemporaryFile(suffix=".script") as empty:
        for size in sizes:
            folder = f"{options.folder}/{size}"
            made = sorted(it.removesuffix(".script") for it in os.listdir(folder) if it.endswith(".script"))
            names = options.workloads or made
            # A short script is played more often, since user time is told in ticks.
            rounds = options.rounds * max(1, int(sizes[-1]) // int(size))
            taken[size] = measure(folder, programs, names, rounds, empty.name)
    print("\nA call of ours, as a ratio to one at the least number of lines:")
    for name in names:
        print(f"{name:4}" + "".join(f"{size:>8}: {taken[size][name] / taken[sizes[0]][name]:.2f}" for size in sizes))


if __name__ == "__main__":
    main()
