#!/usr/bin/env python3
"""Runs `bench_core`, which feeds the frames of a capture to the stack alone, on captures of ARP requests and of ICMP echo requests
with 56 and 1,472 octets of data, over octet lists and over chains of pbufs, and prints the nanoseconds a frame.

Where the environment variable LWIP_BENCH names a program that feeds a capture to real lwIP's raw path and prints the words
`ns_min N`, the nanoseconds a frame, it is run on the same captures between the runs of ours, and the ratios to it are printed too.

usage: bench/core/run.py [PROGRAM]      (crates/bench_core/out/bench_core, where none is named)
"""
import os
import pathlib
import subprocess
import sys
import tempfile

TOP = pathlib.Path(__file__).resolve().parents[2]
sys.path.insert(0, str(TOP / "bench"))
sys.dont_write_bytecode = True
from frames import PEER_IP, PEER_MAC, arp_request, arp_requests, echo_requests, write_capture
from yardstick import real

TURNS = 7
# so many frames are fed in one run
FED = 400_000

# what is measured: a name, and the frames of its capture
KINDS = [
    ("ARP requests of one sender", lambda: [arp_request(PEER_IP, PEER_MAC)] * 1_000),
    ("ARP requests of many senders", lambda: arp_requests(1_000)),
    ("echo requests, 56 octets", lambda: echo_requests(1_000, 56)),
    ("echo requests, 1,472 octets", lambda: echo_requests(1_000, 1_472)),
]


def ours(program, payloads, capture):
    """The nanoseconds a frame; each frame has to be answered."""
    done = subprocess.run([program, payloads, capture, str(FED)], capture_output=True, text=True, check=True)
    nanos, sent = (int(word) for word in done.stdout.split())
    if sent != FED:
        sys.exit(f"{sent} of {FED} frames were answered")
    return nanos / FED


def best(found):
    """The least of what was found, or None."""
    found = [one for one in found if one is not None]
    return min(found) if found else None


def main():
    program = pathlib.Path(sys.argv[1] if len(sys.argv) > 1 else TOP / "crates/bench_core/out/bench_core").resolve()
    if not os.access(program, os.X_OK):
        print(f"skipped: {program} isn't built")
        return
    load = " ".join(f"{x:.2f}" for x in os.getloadavg())
    print(f"{os.cpu_count()} processors, load {load}; the best of {TURNS} runs of {FED} frames each")
    print(f"{'nanoseconds a frame':<30} {'octets':>8} {'chains':>8} {'real':>8} {'octets/real':>12} {'chains/real':>12}")
    with tempfile.TemporaryDirectory() as room:
        capture = pathlib.Path(room) / "capture"
        for name, frames in KINDS:
            write_capture(capture, frames())
            runs = [(ours(program, "octets", capture), ours(program, "chains", capture), real(capture, "-K", "-n", "5")) for _ in range(TURNS)]
            octets, chains, yardstick = (best(column) for column in zip(*runs))
            beside = f"{yardstick:>8.1f} {octets / yardstick:>12.2f} {chains / yardstick:>12.2f}" if yardstick else f"{'-':>8} {'-':>12} {'-':>12}"
            print(f"{name:<30} {octets:>8.1f} {chains:>8.1f} {beside}", flush=True)


main()
