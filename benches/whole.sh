#!/usr/bin/env bash
# Times whole runs of histar, from script text to printed replies, beside an unverified twin of it in plain Rust (benches/twin),
# which plays the same scripts in turn, and prints ratios, each of one run. Not a test of time: it ends zero whatever the times
# are, and non-zero where the two print different replies. It needs cargo and python3 beside the toolchain.
#
# whole.sh [WORKLOAD..]   these workloads, or all; ROUNDS=7 and LINES="4096 16384 65536" may be set
set -eu
top=$(cd "$(dirname "$0")/.." && pwd)
. "$top/gate/answer.sh"
answer "$@"
command -v cargo >/dev/null || { echo "whole.sh: cargo is not on the path, and the twin is built with it" >&2; exit 2; }
cargo build --quiet --release --offline --manifest-path "$top/benches/twin/Cargo.toml"
"$top/histar" run "$top/examples/first.histar" >/dev/null
room=$(mktemp -d)
trap 'rm -rf "$room"' EXIT

for lines in ${LINES:-4096 16384 65536}; do
    "$top/benches/whole/workloads.py" "$room/$lines" --lines "$lines"
done
"$top/benches/whole/measure.py" "$top/benches/twin/target/release/twin" "$top/crates/histar/out/histar" "$room" \
    --rounds "${ROUNDS:-7}" "$@"
