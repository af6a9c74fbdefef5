#!/bin/sh
# Times the ticketed mailbox beside an `ArrayQueue` of the kit's crossbeam_queue and a channel of std::sync::mpsc,
# each with one poster and 1, 2 and 4 takers. ITEMS is how many items there are in each run.
set -eu
cd "$(dirname "$0")/../.."
items=${ITEMS:-400000}
for tool in rustc rt; do
    if ! command -v "$tool" >/dev/null; then
        echo "skipped: there is no $tool"
        exit 0
    fi
done
mkdir -p bench/out/mbox
rustc -O --edition 2021 -o bench/out/mbox/channel bench/mbox/channel.rs
(cd crates/bench_mbox && rt run) >bench/out/mbox/build.log 2>&1 || {
    cat bench/out/mbox/build.log
    exit 1
}
for takers in 1 2 4; do
    both=$(crates/bench_mbox/out/bench_mbox "$takers" "$items")
    channel=$(bench/out/mbox/channel "$takers" "$items")
    echo "$takers $items $both $channel" | awk '{
        printf "%d takers: lw_mbox %.0f items a second, ArrayQueue %.0f, mpsc %.0f; ratio to ArrayQueue %.2f, to mpsc %.2f\n",
            $1, $2 * 1e9 / $3, $2 * 1e9 / $4, $2 * 1e9 / $5, $4 / $3, $5 / $3
    }'
done
