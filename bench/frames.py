#!/usr/bin/env python3
"""How fast packet keys are read and frames are edited, how fast a stream is cut into messages, and how fast
frames of applications are read, and how fast a simulated switch forwards.

bench/frames.py [PROGRAM]: PROGRAM is lego_bench as bench/build leaves it. Prints, for frames of 64 and of 1,500 bytes,
keys and edits a second (an edit writes the network destination and the destination port, with both
checksums, and sends the frame out); and, for one stream that comes in pieces of 1, 64 and 65,536 bytes,
the seconds for each 64 MiB, MiB a second, and how much longer twice as long a stream takes, which is
about 2 where the work is linear. For frames of applications (a Save of 5 bytes, a message of 80, a Done with
a checkpoint of 64 KiB and of 1 MiB, and the last but for its last byte) it prints frames a second. A switch forwards frames of 64 bytes that hit one entry of 10, 1,000 and 4,096.
"""

import argparse
import os
import subprocess
import sys
import time

HERE = os.path.dirname(os.path.abspath(__file__))
PROGRAM = os.path.join(HERE, "out", "lego_bench")
ROUNDS = {"key": 20_000_000, "edit": 1_000_000}
MEBIBYTES = {"1": 64, "64": 640, "65536": 1280}
SAID = {"save": 20_000_000, "message": 5_000_000, "64k": 20_000, "1m": 1_000, "part": 20_000_000}
ENTRIES = {"10": 1_000_000, "1000": 40_000, "4096": 10_000}


def timed(program, operation, over, rounds):
    start = time.monotonic()
    done = subprocess.run([program, operation, over, str(rounds)], stdout=subprocess.PIPE, check=True)
    out = done.stdout.split()
    return time.monotonic() - start, int(out[1]), int(out[3])


def busy(program, operation, over, rounds):
    """Seconds, frames and bytes, the start of the program left out; the best of three."""
    runs = []
    for _ in range(3):
        idle = timed(program, operation, over, 0)[0]
        seconds, frames, size = timed(program, operation, over, rounds)
        runs.append((max(seconds - idle, 1e-6), frames, size))
    return min(runs)


def main():
    parser = argparse.ArgumentParser(description=__doc__, formatter_class=argparse.RawDescriptionHelpFormatter)
    parser.add_argument("program", nargs="?", default=PROGRAM, metavar="PROGRAM")
    program = parser.parse_args().program
    for operation in ("key", "edit"):
        for size in ("64", "1500"):
            seconds, frames, octets = busy(program, operation, size, ROUNDS[operation])
            print("%-5s %6s bytes %14.0f frames/s %10.1f MiB/s" % (
                operation, size, frames / seconds, octets / 2**20 / seconds))
    for piece, length in MEBIBYTES.items():
        one, _, octets = busy(program, "cut", piece, length)
        two = busy(program, "cut", piece, 2 * length)[0]
        print("%-5s %6s bytes %8.3f s for 64 MiB %10.1f MiB/s, twice the stream %.2f times as long" % (
            "cut", piece, one * 64 / length, octets / 2**20 / one, two / one))
    for said, rounds in SAID.items():
        seconds, frames, octets = busy(program, "hear", said, rounds)
        print("%-5s %7s %20.0f frames/s %10.1f MiB/s" % ("hear", said, frames / seconds, octets / 2**20 / seconds))
    for entries, rounds in ENTRIES.items():
        seconds, frames, _ = busy(program, "forward", entries, rounds)
        print("%-7s %5s entries %14.0f frames/s" % ("forward", entries, frames / seconds))
    return 0


sys.exit(main())
