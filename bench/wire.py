#!/usr/bin/env python3
"""How fast of_wire reads, checks and writes messages, beside a plain Rust codec of the same messages.

bench/wire.py [PROGRAM]: PROGRAM is lego_bench as bench/build leaves it. Builds bench/wire.rs with rustc into a temporary
folder. Prints, for each operation and corpus, messages and MiB a second of both, and the part of the
plain codec's rate that of_wire reaches.
"""

import argparse
import os
import subprocess
import sys
import tempfile
import time

HERE = os.path.dirname(os.path.abspath(__file__))
PROGRAM = os.path.join(HERE, "out", "lego_bench")
CORPORA = ("small", "large", "actions")


def rounds(operation, corpus):
    """A check of a large message reads its front alone, so it takes many more rounds."""
    return 300_000 if (operation, corpus) == ("check", "large") else 1_000


def timed(words):
    start = time.monotonic()
    done = subprocess.run(words, stdout=subprocess.PIPE, check=True)
    return time.monotonic() - start, done.stdout.split()


def rate(program, operation, corpus):
    """Messages and bytes a second, the start of the program left out; the best of three."""
    best = None
    for _ in range(3):
        idle, _ = timed([program, operation, corpus, "0"])
        busy, out = timed([program, operation, corpus, str(rounds(operation, corpus))])
        seconds = max(busy - idle, 1e-6)
        if best is None or seconds < best[0]:
            best = seconds, int(out[1]), int(out[3])
    return best[1] / best[0], best[2] / best[0]


def main():
    parser = argparse.ArgumentParser(description=__doc__, formatter_class=argparse.RawDescriptionHelpFormatter)
    parser.add_argument("program", nargs="?", default=PROGRAM, metavar="PROGRAM")
    program = parser.parse_args().program
    with tempfile.TemporaryDirectory() as folder:
        plain = os.path.join(folder, "wire")
        subprocess.run(["rustc", "--edition=2021", "-O", "-o", plain, os.path.join(HERE, "wire.rs")], check=True,
                       stderr=subprocess.DEVNULL)
        print("%-8s %-8s %14s %10s %14s %10s %6s" % ("", "", "messages/s", "MiB/s", "plain msgs/s", "MiB/s", "part"))
        for corpus in CORPORA:
            for operation in ("decode", "check", "encode"):
                ours = rate(program, operation, corpus)
                theirs = rate(plain, operation, corpus)
                print("%-8s %-8s %14.0f %10.1f %14.0f %10.1f %6.2f" % (
                    operation, corpus, ours[0], ours[1] / 2**20, theirs[0], theirs[1] / 2**20,
                    ours[0] / theirs[0]))
    return 0


sys.exit(main())
