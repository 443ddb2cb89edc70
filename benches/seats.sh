#!/usr/bin/env bash
# Times writes and reads of 64 bytes through seats, by 1, 2 and 4 threads at once, beside a file's positional writes and
# reads, and reads of a kernel under a lock that readers share; how reads grow from one
# thread to four while another writes; and a write beside 0 to 63 threads that read. It prints ratios, each of one run.
# Not a test: it ends zero whatever the times are. It takes some minutes; ROUNDS=400000 may be set, and fewer than some 100,000 tell
# little of four threads, which then read for a few milliseconds.
set -eu
top=$(cd "$(dirname "$0")/.." && pwd)
. "$top/gate/answer.sh"
answer "$@"
bench=$top/crates/benches/out/benches
built=$(cd "$top/crates/benches" && rt run --jobs 1 2>&1) || { echo "$built" >&2; exit 1; }
file=$(mktemp)
trap 'rm -f "$file"' EXIT

"$bench" seats "${ROUNDS:-400000}" "$file"
