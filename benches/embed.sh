#!/usr/bin/env bash
# Times calls of the kernel through C, Rust and Python, beside positional reads and writes of 64 bytes of a file in memory, and beside
# a simple kernel in plain Rust (benches/simple). Of each row the least time of many short runs is told. Not a test: it ends zero
# whatever the times are. It needs the library that ./lib builds, a C compiler, cargo, and Python.
#
# embed.sh   RUNS=400 may be set
set -eu
top=$(cd "$(dirname "$0")/.." && pwd)
. "$top/gate/answer.sh"
answer "$@"
runs=${RUNS:-400}
library=$top/out/lib
[ -f "$library/libhistar.a" ] || { echo "embed.sh: $library has no library: run ./lib" >&2; exit 2; }
folder=$(mktemp -d)
trap 'rm -rf "$folder"' EXIT
cc -std=gnu11 -O2 -I"$top/include" "$top/bindings/c/bench.c" "$library/libhistar.a" -o "$folder/bench"
cargo build --quiet --release --offline --manifest-path "$top/benches/simple/Cargo.toml"
echo "== through C"
"$folder/bench" 64 56 1 "$runs"
cc -std=gnu11 -O2 -pthread -I"$top/include" "$top/bindings/c/shared_bench.c" "$library/libhistar.a" -o "$folder/shared"
echo "== through seats of a shared kernel"
"$folder/shared"
echo "== through Rust"
RUNS=$runs HISTAR_LIB=$library cargo bench --quiet --offline --manifest-path "$top/bindings/rust/Cargo.toml" | grep ' ns$'
echo 'local: *; };' | sed '1i { global: histar_*;' > "$folder/names"
cc -shared -o "$folder/libhistar.so.0" "-Wl,--version-script=$folder/names,--whole-archive" "$library/libhistar.a" -Wl,--no-whole-archive,-z,now
echo "== through Python, in microseconds"
HISTAR_LIB=$folder PYTHONPATH=$top/bindings/python/src python3 -B "$top/bindings/python/tests/bench.py"
echo "== the simple kernel, of 64 pages"
for ((run = 0; run < 30; run++)); do
    "$top/benches/simple/target/release/simple" 64 56 1 1000
done | awk -F': ' '{ split($2, time, " "); if (!($1 in least) || time[1] < least[$1]) { least[$1] = time[1]; unit[$1] = time[2] } } END { for (row in least) print row ": " least[row] " " unit[row] }' | sort
