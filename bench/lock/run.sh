#!/bin/sh
# Times the lock with a history beside a `std::sync::Mutex` round the same counter and history, each with 1, 2, 4 and 18 threads.
# CALLS is how many calls there are in each run, over all threads; ROUNDS how often each is run, in turn. It prints the median, and the least and the most.
# Where more is ready to run than there are processors, the times are those of the queue for a processor, and say little of either lock.
set -eu
cd "$(dirname "$0")/../.."
calls=${CALLS:-400000}
rounds=${ROUNDS:-5}
out=bench/out/lock
for tool in rustc rt; do
    if ! command -v "$tool" >/dev/null; then
        echo "skipped: there is no $tool"
        exit 0
    fi
done
mkdir -p $out
rustc -O --edition 2021 -o $out/mutex bench/lock/mutex.rs
(cd crates/bench_lock && rt run) >$out/build.log 2>&1 || {
    cat $out/build.log
    exit 1
}

# Prints the median, the least and the most calls a second of a file of nanoseconds, of which each is for $2 calls.
rates() {
    sort -n "$1" | awk -v n="$2" '{ t[NR] = $1 } END {
        printf "%.0f %.0f %.0f", n * 1e9 / t[int((NR + 1) / 2)], n * 1e9 / t[NR], n * 1e9 / t[1]
    }'
}

for threads in 1 2 4 18; do
    each=$((calls / threads))
    load=$(cut -d ' ' -f 1 /proc/loadavg)
    : >$out/ours
    : >$out/theirs
    for _ in $(seq "$rounds"); do
        crates/bench_lock/out/bench_lock "$threads" "$each" >>$out/ours
        $out/mutex "$threads" "$each" >>$out/theirs
    done
    if grep -q '[^0-9]' $out/ours; then
        echo "$threads threads: $(grep -m 1 '[^0-9]' $out/ours)"
        exit 1
    fi
    echo "$threads $load $(nproc) $(rates $out/ours $((each * threads))) $(rates $out/theirs $((each * threads)))" | awk '{
        printf "%d threads (load %s on %d processors), calls a second: hist_lock %d (%d to %d), Mutex %d (%d to %d), ratio %.3f\n", $1, $2, $3, $4, $5, $6, $7, $8, $9, $4 / $7
    }'
done
