#!/bin/sh
# Times the internet checksum of bodies of 20, 64 and 1,480 octets beside a loop over 16-bit words in plain Rust, and prints octets a nanosecond and
# the ratio. OCTETS is about how many octets each run sums; ROUNDS is how often each is run, in turn: the quickest counts.
set -eu
cd "$(dirname "$0")/../.."
octets=${OCTETS:-20000000}
rounds=${ROUNDS:-15}
out=bench/out/sum
for tool in rustc rt; do
    if ! command -v "$tool" >/dev/null; then
        echo "skipped: there is no $tool"
        exit 0
    fi
done
mkdir -p $out
rustc -O --edition 2021 -o $out/words bench/sum/words.rs
(cd crates/bench_sum && rt run) >$out/build.log 2>&1 || {
    cat $out/build.log
    exit 1
}
for len in 20 64 1480; do
    bodies=$((octets / len))
    : >$out/ours
    : >$out/theirs
    for _ in $(seq "$rounds"); do
        crates/bench_sum/out/bench_sum $len $bodies >>$out/ours
        $out/words $len $bodies >>$out/theirs
    done
    if [ "$(cut -d ' ' -f 2 $out/ours $out/theirs | sort -u | wc -l)" != 1 ]; then
        echo "$len octets: the sums differ"
        exit 1
    fi
    echo "$len $((len * bodies)) $(sort -n $out/ours | head -n 1) $(sort -n $out/theirs | head -n 1)" | awk '{
        printf "bodies of %d octets: lw_wire %.2f octets a nanosecond, words one by one %.2f; ratio %.2f\n", $1, $2 / $3, $2 / $5, $5 / $3
    }'
done
