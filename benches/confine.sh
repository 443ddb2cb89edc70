#!/usr/bin/env bash
# How long a program takes by itself, in bubblewrap and in confine, in one run, in turn: the least of fifteen times, in milliseconds. It
# needs out/confine (bindings/confine/build.sh), bubblewrap, git and a C compiler. The files are made anew: a thousand texts of 8 KB
# and of 64 KB, a repository and an archive of those of 8 KB, and one of C with a hundred functions. Where other programs are at
# work, run it as "chrt -r 1 benches/confine.sh".
set -eu
top=$(cd "$(dirname "$0")/.." && pwd)
. "$top/gate/answer.sh"
answer "$@"
cd "$top"
[ -x out/confine ] || { echo 'benches/confine.sh: out/confine is missing: run ./lib and bindings/confine/build.sh' >&2; exit 69; }
command -v bwrap >/dev/null || { echo 'benches/confine.sh: bubblewrap is missing' >&2; exit 69; }
room=$(mktemp -d /var/tmp/bench-confine-XXXXXX)
trap 'rm -rf "$room" /dev/shm/bench-confine-*' EXIT
python3 - "$room" <<'PROGRAM'
import os
import random
import shutil
import subprocess
import sys
import time

room = sys.argv[1]
drawn = random.Random(7)
words = ["".join(drawn.choice("abcdefghijklmnopqrstuvwxyz") for _ in range(drawn.randrange(2, 9))) for _ in range(2_000)]


def make_texts(folder, size):
    os.makedirs(folder)
    for name in range(1_000):
        text = " ".join(drawn.choice(words) for _ in range(size // 5))[:size]
        with open(f"{folder}/{name:04}", "w", encoding="utf-8") as it:
            it.write("\n".join(text[at : at + 80] for at in range(0, len(text), 80)))


make_texts(f"{room}/texts", 64 << 10)
make_texts(f"{room}/small", 8 << 10)
shutil.copytree(f"{room}/small", f"{room}/kept")
os.makedirs(f"{room}/packed")
subprocess.run(["tar", "cf", f"{room}/packed/small.tar", "-C", room, "small"], check=True)
for it in (["init", "-q"], ["add", "."], ["-c", "user.name=a", "-c", "user.email=a@b", "commit", "-qm", "one"], ["status"]):
    subprocess.run(["git", "-C", f"{room}/kept", *it], check=True, stdout=subprocess.DEVNULL)
os.makedirs(f"{room}/source")
with open(f"{room}/source/many.c", "w", encoding="utf-8") as it:
    it.writelines(f"int f{at}(int a, int b)\n{{\n    int c = a * {at} + b;\n    for (int i = 0; i < c; i++) c += i ^ b;\n    return c;\n}}\n" for at in range(100))

BWRAP = ["bwrap", "--ro-bind", "/usr", "/usr", "--symlink", "usr/bin", "/bin", "--symlink", "usr/lib", "/lib", "--symlink", "usr/lib64", "/lib64",
         "--ro-bind", "/etc/alternatives", "/etc/alternatives", "--dev", "/dev", "--tmpfs", "/tmp", "--unshare-all", "--bind", room, room]
SECRETS = [it for name in ("texts", "source", "small", "packed", "kept") for it in ("--secret", f"{room}/{name}")]
CONFINE = ["out/confine", *SECRETS, "--report", f"{room}/found", "--"]
ROWS = (
    ("a start", "true"),
    ("grep -r in a thousand files of 8 KB", f"grep -rl zymurgy {room}/small"),
    ("git status of a thousand files", f"git -C {room}/kept status"),
    ("untar of a thousand files", f"d=$(mktemp -d {{own}}/bench-confine-XXXXXX) && tar xf {room}/packed/small.tar -C $d"),
    ("grep -r for a word in files of 64 KB", f"grep -rl zymurgy {room}/texts"),
    ("grep -riE for two words", f"grep -riE 'zymurgy|quixotry' {room}/texts"),
    ("gcc -O2 of a hundred functions", f"gcc -O2 -c {room}/source/many.c -o /tmp/many.o"),
)


def took(words):
    begin = time.monotonic()
    subprocess.run(words, stdout=subprocess.DEVNULL, stderr=subprocess.DEVNULL)
    return 1_000 * (time.monotonic() - begin)


print("| Program | By itself, ms | In bubblewrap | In confine | Of bubblewrap's | Of its own | Of its own, past the starts |")
print("|---|---|---|---|---|---|---|")
starts = None
for name, command in ROWS:
    kinds = (([], "/dev/shm"), (BWRAP, "/tmp"), (CONFINE, "/tmp"))
    times = [[took([*it, "sh", "-c", command.replace("{own}", own)]) for it, own in kinds] for _ in range(15)]
    alone, walled, confined = least = [min(it[kind] for it in times) for kind in range(3)]
    past = f"{(confined - starts[2]) / (alone - starts[0]):.2f}" if starts else ""
    starts = starts or least
    print(f"| {name} | {alone:.1f} | {walled:.1f} | {confined:.1f} | {confined / walled:.2f} | {confined / alone:.2f} | {past} |", flush=True)
PROGRAM
