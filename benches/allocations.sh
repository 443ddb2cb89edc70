#!/usr/bin/env bash
# Shows that after boot no call of containers, or of interned labels, takes memory: plays ROUNDS rounds (1,000 where none
# is said) with every allocation counted, and compares the count after boot with the count after the rounds. Ends non-zero
# where they differ, where nothing was counted, or where nothing was played.
set -eu
top=$(cd "$(dirname "$0")/.." && pwd)
. "$top/gate/answer.sh"
answer "$@"
rounds=${1:-1000}
bench=$top/crates/benches/out/benches
folder=$(mktemp -d)
trap 'rm -rf "$folder"' EXIT
built=$(cd "$top/crates/benches" && rt run --jobs 1 2>&1) || { echo "$built" >&2; exit 1; }
${CC:-cc} -O1 -shared -fPIC -w -o "$folder/count.so" "$top/gate/count.c"

LD_PRELOAD=$folder/count.so "$bench" count "$rounds" >"$folder/told"
cat "$folder/told"
booted=$(sed -n 's/^requests \([0-9]*\): booted$/\1/p' "$folder/told")
played=$(sed -n 's/^requests \([0-9]*\): played: [1-9].*$/\1/p' "$folder/told")
if [ -z "$booted" ] || [ -z "$played" ] || [ "$booted" = 0 ]; then
    echo 'allocations: nothing was counted or played' >&2
    exit 1
fi
if [ "$booted" != "$played" ]; then
    echo "allocations: $booted after boot, $played after $rounds rounds" >&2
    exit 1
fi
echo "allocations: $booted after boot and after $rounds rounds"
