#!/usr/bin/env bash
# Times check_flows over steps of one thread, which reads segments and writes others in turn. Not a test: it ends zero whatever the
# times are.
set -eu
top=$(cd "$(dirname "$0")/.." && pwd)
. "$top/gate/answer.sh"
answer "$@"
bench=$top/crates/benches/out/benches
built=$(cd "$top/crates/benches" && rt run --jobs 1 2>&1) || { echo "$built" >&2; exit 1; }

for segments in 16 100; do
    for steps in 2500 5000 10000; do
        "$bench" flows "$segments" "$steps"
    done
done
