#!/bin/sh
# A start of the installed program, and of a program in C that is linked with the archive, the least of twenty in milliseconds, and what that
# one weighs.
set -eu
top=$(cd "$(dirname "$0")/.." && pwd)
. "$top/gate/answer.sh"
answer "$@"
cd "$top"
[ -d out/packages ] || { echo 'benches/packages.sh: out/packages is missing: run ./package' >&2; exit 69; }
room=$(mktemp -d)
trap 'rm -rf "$room"' EXIT
kb() { echo "$(($(stat -c %s "$1") / 1000)) KB"; }
dpkg-deb -x out/packages/koalaingot_*.deb "$room/koalaingot"
cc -O2 -Iinclude bindings/c/first_refusal.c out/lib/libhistar.a -Wl,--gc-sections -s -o "$room/linked"
echo "| a program in C, linked | $(kb "$room/linked") |"
python3 - "$room" <<'PROGRAM'
import subprocess
import sys
import time


def took(words):
    begin = time.monotonic()
    subprocess.run(words, stdout=subprocess.DEVNULL, check=True)
    return 1_000 * (time.monotonic() - begin)


room = sys.argv[1]
for what, words in (("histar run first.histar", [f"{room}/koalaingot/usr/bin/histar", "run", "examples/first.histar"]), ("that program in C", [f"{room}/linked"])):
    print(f"| a start of {what} | {min(took(words) for _ in range(20)):.1f} ms |")
PROGRAM
