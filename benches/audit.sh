#!/usr/bin/env bash
# Times the audit of dumps of 1,000, 10,000 and 100,000 events at 64 pages, and prints how the time grows, as ratios of one
# run. The same of an audit that tells what flows from the root reach: it plays the calls once more, with what each observes and
# modifies. Not a test: it ends zero whatever the times are, but not where a dump isn't clean.
set -eu
top=$(cd "$(dirname "$0")/.." && pwd)
. "$top/gate/answer.sh"
answer "$@"
program=$top/crates/histar_audit/out/histar_audit
folder=$(mktemp -d)
trap 'rm -rf "$folder"' EXIT

data=000102030405060708090a0b0c0d0e0f101112131415161718191a1b1c1d1e1f202122232425262728292a2b2c2d2e2f303132333435363738393a3b3c3d3e3f
cat >"$folder/short.histar" <<END
boot: cat_create
s = boot: segment_create root {1} 2 1
boot: segment_write root s 0 $data
boot: meta_set root s $data
END

# The dump on standard input with further events, up to so many, each of which leaves all tables as they are.
lengthen() {
    awk -v events="$1" -v data="$data" '
        BEGIN {
            said[0] = "segment_write #1 #4 0 " data " => ok"
            said[1] = "meta_set #1 #4 " data " => ok"
            said[2] = "segment_write #1 #4 250 " data " => refused 18 Bounds"
            said[3] = "unref #1 #1 => refused 16 RootKept"
        }
        $1 == "event" { number = $3 }
        $1 == "live" { while (number < events) { number++; print "event 2 " number " " said[number % 4] } }
        { print }'
}

# The microseconds of the fastest of three audits of a dump, which is clean, with further words.
fastest() {
    local best='' began took
    for _ in 1 2 3; do
        began=${EPOCHREALTIME/[.,]/}
        "$program" "$@" >"$folder/said" || { echo "audit: $1: $(cat "$folder/said")" >&2; exit 1; }
        took=$((${EPOCHREALTIME/[.,]/} - began))
        if [ -z "$best" ] || [ "$took" -lt "$best" ]; then best=$took; fi
    done
    echo "$best"
}

"$top/histar" run "$folder/short.histar" --dump "$folder/short.dump" >/dev/null
"$top/histar-audit" "$folder/short.dump" >/dev/null
before=''
for events in 4 1000 10000 100000; do
    lengthen "$events" <"$folder/short.dump" >"$folder/long.dump"
    took=$(fastest "$folder/long.dump")
    traced=$(fastest "$folder/long.dump" --from 1 --category 2)
    awk -v events="$events" -v took="$took" -v traced="$traced" -v before="$before" 'BEGIN {
        printf "audit of %d events: %.1f ms, %.2f us an event", events, took / 1000, took / events
        printf "; with flows %.1f ms, %.2f times that", traced / 1000, traced / took
        if (before != "") printf ", ratio %.2f to the one before", took / before
        print ""
    }'
    before=$took
done
