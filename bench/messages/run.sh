#!/bin/sh
# Times round trips by message with 1, 2, 4 and 16 callers: each sends an amount to one thread, which adds it, keeps the history and answers. Beside them the
# same over channels of std::sync::mpsc in plain Rust, and over lwIP's own tcpip thread where its source is given: LWIP_SOURCE is a folder with
# src/api/tcpip.c and port/sys_arch.c, as `apt-get source lwip` makes it. CALLS is how many calls there are in each run, over all callers; ROUNDS how often
# each is run, in turn. It prints the median, and the least and the most.
# Where more is ready to run than there are processors, the times are those of the queue for a processor, and say little of any of the three.
set -eu
cd "$(dirname "$0")/../.."
calls=${CALLS:-200000}
rounds=${ROUNDS:-5}
source=${LWIP_SOURCE:-}
out=bench/out/messages
for tool in rustc rt; do
    if ! command -v "$tool" >/dev/null; then
        echo "skipped: there is no $tool"
        exit 0
    fi
done
mkdir -p $out
rustc -O --edition 2021 -o $out/channels bench/messages/channels.rs
(cd crates/bench_messages && rt run) >$out/build.log 2>&1 || {
    cat $out/build.log
    exit 1
}
lwip=
if [ -f "$source/port/sys_arch.c" ] && command -v cc >/dev/null; then
    lwip=$out/lwip
    core=$source/src/core
    set --
    for name in def inet_chksum init ip mem memp netif pbuf sys timeouts ipv4/ip4 ipv4/ip4_addr; do
        set -- "$@" "$core/$name.c"
    done
    cc -O2 -Ibench/messages/lwip -I"$source/src/include" -I"$source/port/include" -o $lwip bench/messages/lwip/trips.c "$@" \
        "$source/src/api/tcpip.c" "$source/src/api/err.c" "$source/port/sys_arch.c" -lpthread
else
    echo "skipped lwIP: LWIP_SOURCE names no source with a port, or there is no cc"
fi

# Prints the median, the least and the most round trips a second of a file of nanoseconds, of which each is for $2 calls.
rates() {
    sort -n "$1" | awk -v n="$2" '{ t[NR] = $1 } END {
        printf "%.0f %.0f %.0f", n * 1e9 / t[int((NR + 1) / 2)], n * 1e9 / t[NR], n * 1e9 / t[1]
    }'
}

for callers in 1 2 4 16; do
    each=$((calls / callers))
    load=$(cut -d ' ' -f 1 /proc/loadavg)
    for name in ours channels lwip; do
        : >$out/$name.times
    done
    for _ in $(seq "$rounds"); do
        crates/bench_messages/out/bench_messages "$callers" "$each" >>$out/ours.times
        $out/channels "$callers" "$each" >>$out/channels.times
        [ -z "$lwip" ] || $lwip "$callers" "$each" >>$out/lwip.times
    done
    if grep -q '[^0-9]' $out/ours.times; then
        echo "$callers callers: $(grep -m 1 '[^0-9]' $out/ours.times)"
        exit 1
    fi
    all=$((each * callers))
    theirs=
    [ -z "$lwip" ] || theirs=$(rates $out/lwip.times $all)
    echo "$callers $load $(nproc) $(rates $out/ours.times $all) $(rates $out/channels.times $all) $theirs" | awk '{
        printf "%d callers (load %s on %d processors), round trips a second: lw_tcpip %d (%d to %d); mpsc %d (%d to %d), ratio %.2f", $1, $2, $3, $4, $5, $6, $7, $8, $9, $4 / $7
        if (NF > 9) printf "; lwIP %d (%d to %d), ratio %.2f", $10, $11, $12, $4 / $10
        print ""
    }'
done
