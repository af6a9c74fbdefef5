#!/usr/bin/env python3
"""Runs `lwip serial` on captures of ARP requests, each from a sender of its own, of ICMP echo requests with 56 and
1,472 octets of data, of echo requests with 3,000 octets in three fragments each, and of datagrams in fragments of
eight octets that come in order, in reverse and in no order, and prints for each the seconds, the nanoseconds a frame,
the ratio to the run of half as many frames, the peak memory in octets and its ratio to the octets of capture and
transcript.

Where the environment variable LWIP_BENCH names a program that feeds a capture to real lwIP and prints the words
`ns_min N`, the nanoseconds a frame, it is run on the same captures, and the ratio to it is printed too.

usage: bench/serial/run.py [PROGRAM]      (crates/lwip/out/lwip, where none is named)
"""
import os
import pathlib
import random
import struct
import subprocess
import sys
import tempfile
import time

TOP = pathlib.Path(__file__).resolve().parents[2]
sys.path.insert(0, str(TOP / "bench"))
sys.dont_write_bytecode = True
from frames import MORE, PEER_IP, PEER_MAC, arp_request, arp_requests, echo_message, echo_requests, packet, write_capture
from yardstick import real

TURNS = 3
SCRIPT = b"lwip 1\nnet 10.0.0.1 255.0.0.0 10.255.255.254 020000000001\nlimits default\n"
# so many datagrams come in small fragments
DATAGRAMS = 4


def echo_fragments(count):
    """An ARP request of the peer, then echo requests with 3,000 octets of data in three fragments each."""
    message = echo_message(3000)
    yield arp_request(PEER_IP, PEER_MAC)
    for number in range((count - 1) // 3):
        yield packet(message[:1480], number, MORE)
        yield packet(message[1480:2960], number, MORE | 1480 // 8)
        yield packet(message[2960:], number, 2960 // 8)


def in_order(count):
    return range(count)


def in_reverse(count):
    return range(count - 1, -1, -1)


def in_no_order(count):
    places = list(range(count))
    random.Random(1).shuffle(places)
    return places


def small_fragments(count, order):
    """An ARP request of the peer, then datagrams of a protocol that nobody knows, in fragments of eight octets each."""
    each = (count - 1) // DATAGRAMS
    yield arp_request(PEER_IP, PEER_MAC)
    for number in range(DATAGRAMS):
        for place in order(each):
            more = MORE if place + 1 < each else 0
            yield packet(struct.pack(">Q", place), number, more | place, protocol=253)


def answers(count):
    """An answer to each frame."""
    return count


def small_answers(_):
    """An answer to the ARP request, and one to each datagram."""
    return 1 + DATAGRAMS


SMALL = [1 + DATAGRAMS * 2_047, 1 + DATAGRAMS * 4_094, 1 + DATAGRAMS * 8_188]

# what is measured: a name, how the frames are made, how many, and how many frames they bring
KINDS = [
    ("ARP requests", arp_requests, [25_000, 50_000, 100_000, 200_000], answers),
    ("echo requests, 56 octets", lambda count: echo_requests(count, 56), [25_000, 50_000, 100_000], answers),
    ("echo requests, 1,472 octets", lambda count: echo_requests(count, 1472), [2_500, 5_000, 10_000], answers),
    ("fragments of echo requests, 3,000 octets", echo_fragments, [1 + 3 * 833, 1 + 3 * 1_666, 1 + 3 * 3_332], answers),
    ("fragments of 8 octets, in order", lambda count: small_fragments(count, in_order), SMALL, small_answers),
    ("fragments of 8 octets, in reverse", lambda count: small_fragments(count, in_reverse), SMALL, small_answers),
    ("fragments of 8 octets, in no order", lambda count: small_fragments(count, in_no_order), SMALL, small_answers),
]


def run(program, folder):
    """The seconds that one run took, and its peak memory in octets."""
    with open(folder / "transcript", "wb") as out:
        start = time.perf_counter()
        child = subprocess.Popen([program, "serial", "script", "capture"], cwd=folder, stdout=out)
        _, status, used = os.wait4(child.pid, 0)
        seconds = time.perf_counter() - start
    child.returncode = os.waitstatus_to_exitcode(status)
    if child.returncode != 0:
        sys.exit(f"the program ended with status {child.returncode}")
    return seconds, used.ru_maxrss * 1024


def check(path, count, out):
    """Stops where the transcript's last line doesn't tell of so many frames that came and went out."""
    with open(path, "rb") as it:
        it.seek(-100, os.SEEK_END)
        last = it.read().splitlines()[-1].decode()
    if not f"{last} ".startswith(f"end core {count + 1} out {out} "):
        sys.exit(f"the transcript of {count} frames ends with: {last}")


def main():
    program = pathlib.Path(sys.argv[1] if len(sys.argv) > 1 else TOP / "crates/lwip/out/lwip").resolve()
    if not os.access(program, os.X_OK):
        print(f"skipped: {program} isn't built")
        return
    load = " ".join(f"{x:.2f}" for x in os.getloadavg())
    print(f"{os.cpu_count()} processors, load {load}; the best of {TURNS} runs")
    with tempfile.TemporaryDirectory() as room:
        folder = pathlib.Path(room)
        (folder / "script").write_bytes(SCRIPT)
        for name, frames, counts, brought in KINDS:
            measure(program, folder, name, frames, counts, brought)


def measure(program, folder, name, frames, counts, brought):
    """Prints a line for each number of frames."""
    print(name)
    print(f"{'frames':>8} {'seconds':>9} {'ns/frame':>9} {'doubling':>9} {'peak':>12} {'peak/octets':>12} {'real ns':>9} {'ratio':>7}")
    before = None
    for count in counts:
        write_capture(folder / "capture", frames(count))
        runs = [run(program, folder) for _ in range(TURNS)]
        check(folder / "transcript", count, brought(count))
        seconds, peak = min(s for s, _ in runs), max(p for _, p in runs)
        octets = (folder / "capture").stat().st_size + (folder / "transcript").stat().st_size
        ratio = f"{seconds / before:.2f}" if before else "-"
        each = seconds / count * 1e9
        yardstick = real(folder / "capture")
        beside = f"{yardstick:>9.1f} {each / yardstick:>7.1f}" if yardstick else f"{'-':>9} {'-':>7}"
        print(f"{count:>8} {seconds:>9.3f} {each:>9.0f} {ratio:>9} {peak:>12} {peak / octets:>12.2f} {beside}", flush=True)
        before = seconds


main()
