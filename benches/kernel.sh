#!/usr/bin/env bash
# Times calls of the arena kernel by one thread, beside positional reads and writes of a file in memory and beside a file
# that is made and goes, beside a simple kernel in plain Rust (benches/simple) and beside the tuned one of the twin
# (benches/twin), and prints ratios, each of one run, how long a boot takes, and the bytes of an event and of a call: at 8, 64
# and 512 pages as full as they get, with plain labels, and at 64 pages with 4, 8 and 16 categories in each label, which is as
# many as a label has room for. The twin's bench has plain labels at 64 and 512 pages, and 16 categories at 64. A machine's clock is not
# steady, so each is played many times for a short while, and of each row the least time is told. Not a test: it ends zero whatever the
# times are. It needs cargo and python3 beside the toolchain.
#
# kernel.sh   RUNS=30 and ROUNDS=1000 may be set
set -eu
top=$(cd "$(dirname "$0")/.." && pwd)
. "$top/gate/answer.sh"
answer "$@"
bench=$top/crates/benches/out/benches
simple=$top/benches/simple/target/release/simple
command -v cargo >/dev/null || { echo "kernel.sh: cargo is not on the path, and the simple kernel is built with it" >&2; exit 2; }
twin=$top/benches/twin/target/release/twin-bench
for yardstick in simple twin; do
    cargo build --quiet --release --offline --manifest-path "$top/benches/$yardstick/Cargo.toml"
done
built=$(cd "$top/crates/benches" && rt run --jobs 1 2>&1) || { echo "$built" >&2; exit 1; }
folder=$(mktemp -d -p /dev/shm)
trap 'rm -rf "$folder"' EXIT

# plays a program many times, and prints its rows as they stood in the run in which each took the least time
least() {
    for ((run = 0; run < ${RUNS:-30}; run++)); do
        "$@"
    done | python3 -c '
import re, sys

least = {}
for line in sys.stdin:
    row = re.match(r"([^:]+): (\d+) ", line)
    if row and int(row[2]) < least.get(row[1], (sys.maxsize,))[0]:
        least[row[1]] = int(row[2]), line
print(*(line for _, line in least.values()), sep="", end="")
'
}

# prints a table of the rows that both have, each with the ratio of ours to the simple kernel's
compare() {
    python3 - "$1" "$2" <<'PYTHON'
import re, sys

def rows(path):
    found = (re.match(r"([^:]+): (\d+) (ns|us)", line) for line in open(path))
    return {row[1]: (int(row[2]), row[3]) for row in found if row}

ours, simple = rows(sys.argv[1]), rows(sys.argv[2])
for name, (time, unit) in ours.items():
    if name in simple:
        other = simple[name][0]
        print(f"{name}: {time} {unit}, simple {other} {unit}, ratio {time / max(other, 1):.2f}")
PYTHON
}

# prints the least times of the twin's rows, each with the ratio of ours to it
compare_twin() {
    python3 - "$1" "$2" <<'PYTHON'
import re, sys

for line in open(sys.argv[1]):
    row = re.match(r"(.+?) +(64|512) +(0|16) +([\d.]+) +[\d.]+ +[\d.]+$", line)
    if row:
        name = row[1].removesuffix(" 64").replace("+", " with ")
        ours = re.search(rf"^{name}: (\d+) ns", open(f"{sys.argv[2]}/ours-{row[2]}-{row[3]}").read(), re.M)
        where = f"{row[2]} pages, {row[3]} categories"
        print(f"{name}, {where}: {ours[1]} ns, twin {row[4]} ns, ratio {int(ours[1]) / float(row[4]):.2f}")
PYTHON
}

# (seven pages are the boot's, the segment's and the space's, and one is left for what is made and goes)
for size in "8 0" "64 0" "512 0" "64 4" "64 8" "64 16"; do
    read -r pages categories <<<"$size"
    words=("$pages" $((pages - 8)) "$categories" "${ROUNDS:-1000}")
    echo "== $pages pages, $categories categories"
    least "$bench" calls "${words[@]}" "$folder/file" | tee "$folder/ours-$pages-$categories"
    least "$simple" "${words[@]}" >"$folder/simple"
    echo "-- beside the simple kernel"
    compare "$folder/ours-$pages-$categories" "$folder/simple"
done
echo "== beside the twin's kernel"
"$twin" >"$folder/twin"
compare_twin "$folder/twin" "$folder"
