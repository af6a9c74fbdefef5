"""Real lwIP as a yardstick."""
import os
import subprocess


def real(capture, *options):
    """The nanoseconds that real lwIP takes a frame of this capture, or None where no program for it is named."""
    program = os.environ.get("LWIP_BENCH")
    if not program:
        return None
    done = subprocess.run([program, *options, capture], capture_output=True, text=True, check=False)
    words = done.stdout.split()
    return float(words[words.index("ns_min") + 1]) if "ns_min" in words else None
