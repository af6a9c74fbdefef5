#!/bin/sh
# Times chains of three pbufs of POOL, 1,500 octets each: made, shared, cut by 40 octets and given up. Beside them lwIP does the same with its own pbufs,
# where its source is given: LWIP_SOURCE is a folder with src/core/pbuf.c, as `apt-get source lwip` makes it. Kept counts, which one seat has alone, stand
# beside lwIP without locks; atomic ones, which threads share, beside lwIP with the locks of its port, port/sys_arch.c, where that is there. CHAINS is how
# many chains each run makes; ROUNDS is how often each is run, in turn: the quickest counts.
set -eu
cd "$(dirname "$0")/../.."
chains=${CHAINS:-100000}
rounds=${ROUNDS:-15}
source=${LWIP_SOURCE:-}
out=bench/out/pbuf
if ! command -v rt >/dev/null; then
    echo "skipped: there is no rt"
    exit 0
fi
mkdir -p $out
(cd crates/bench_pbuf && rt run) >$out/build.log 2>&1 || {
    cat $out/build.log
    exit 1
}
alone=
shared=
if [ -n "$source" ] && command -v cc >/dev/null; then
    core=$source/src/core
    set -- bench/pbuf/lwip/rounds.c "$core/pbuf.c" "$core/memp.c" "$core/mem.c" "$core/def.c"
    alone=$out/lwip_alone
    cc -O2 -Ibench/pbuf/lwip -Ibench/pbuf/lwip/alone -I"$source/src/include" -o $alone "$@"
    if [ -f "$source/port/sys_arch.c" ]; then
        shared=$out/lwip_shared
        cc -O2 -DTHREADS -Ibench/pbuf/lwip -I"$source/src/include" -I"$source/port/include" -o $shared "$@" "$core/sys.c" "$source/port/sys_arch.c" -lpthread
    fi
else
    echo "skipped lwIP: LWIP_SOURCE names no source, or there is no cc"
fi
for name in kept atomic alone shared; do
    : >$out/$name
done
for _ in $(seq "$rounds"); do
    for counts in kept atomic; do
        crates/bench_pbuf/out/bench_pbuf $counts "$chains" >>$out/$counts
    done
    [ -z "$alone" ] || $alone "$chains" >>$out/alone
    [ -z "$shared" ] || $shared "$chains" >>$out/shared
done
best() { sort -n "$out/$1" | head -n 1 | cut -d ' ' -f 1; }
line() {
    echo "$chains $(best "$2") $(best "$3")" | awk -v name="$1" -v peer="$4" '{
        printf "a chain with %s counts: %.0f ns", name, $2 / $1
        if (NF > 2) printf "; lwIP %s: %.0f ns, %.2f times as long", peer, $3 / $1, $2 / $3
        print ""
    }'
}
line kept kept alone "without locks"
line atomic atomic shared "with its port's locks"
