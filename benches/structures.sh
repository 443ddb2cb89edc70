#!/usr/bin/env bash
# Times the structures under the arena kernel beside std's maps, and prints ratios, each of one run. Not a test: it ends
# zero whatever the times are.
set -eu
top=$(cd "$(dirname "$0")/.." && pwd)
. "$top/gate/answer.sh"
answer "$@"
bench=$top/crates/benches/out/benches
built=$(cd "$top/crates/benches" && rt run --jobs 1 2>&1) || { echo "$built" >&2; exit 1; }

for objects in 8 64 512 1024; do
    "$bench" find "$objects" $((4000000 / objects)) | grep ratio
done
for objects in 10 100 1000; do
    "$bench" unref "$objects" $((40000 / objects))
done
for stored in 100 1500; do
    "$bench" intern "$stored" 2000 | grep ratio
done
