#!/usr/bin/env python3
"""Time and peak memory of reading a session text into a simulated world: bench/session.py [PROGRAM WORD ..]

The program reads a session text from standard input into a simulated world, and prints a line of what it found. Prints a line for
each input: its name, its size in bytes, seconds, the peak of memory in MiB, and the program's line.
"""

import argparse
import os
import resource
import subprocess
import sys
import tempfile
import time

HERE = os.path.dirname(os.path.abspath(__file__))
PROGRAM = [os.path.join(HERE, "out", "lego_bench"), "session"]

HEAD = b"session 1\nswitch 1 8 -\n"
SWITCHES = b"session 1\n" + b"".join(b"switch %d 1 -\n" % dpid for dpid in range(1, 65))


def inputs():
    """Names, inputs and the line that each has to give."""
    yield "100,000 moments", HEAD + b"at 1\n" * 100_000, "session"
    yield "1,000,000 moments", HEAD + b"at 1\n" * 1_000_000, "session"
    yield "one moment more", HEAD + b"at 1\n" * 1_000_001, "line 1000004"
    yield "1,000,000 frames, 64 switches", SWITCHES + b"frame 64 1 0102030405060708090a0b0c0d0e\n" * 1_000_000, "session"
    yield "1,000,000 raw messages", HEAD + b"raw 1 0100000800000002\n" * 1_000_000, "session"
    yield "64 MiB of line ends", b"\n" * 67_108_864, "session"
    yield "64 MiB of comments of 4 MiB", (b"#" * 4_194_303 + b"\n") * 16, "session"
    yield "4 MiB of spaces in a line", b"session 1\n" + b" " * 4_194_304, "line 3"
    yield "4 MiB of digits in a number", HEAD + b"at " + b"9" * 4_194_301, "line 4"
    yield "700,000 ports", b"session 1\nswitch 1 1 " + b",".join(b"%d" % (i % 65280 + 1) for i in range(700_000)), "line 3"
    yield "800,000 steps", b"session 1\nreply app" + b" x:00" * 800_000, "session"
    yield "12,800,000 steps in 16 lines", b"session 1\n" + (b"reply app" + b" x:00" * 800_000 + b"\n") * 16, "session"
    yield "64 MiB of digits in 16 steps", b"session 1\n" + (b"reply app x:" + b"0a" * 2_097_000 + b"\n") * 16, "session"


def one(path, program):
    """Runs the program over a file; prints seconds, the peak in MiB and its line."""
    with open(path, "rb") as stdin:
        start = time.monotonic()
        done = subprocess.run(program, stdin=stdin, stdout=subprocess.PIPE)
        seconds = time.monotonic() - start
    peak = resource.getrusage(resource.RUSAGE_CHILDREN).ru_maxrss / 1024
    print(seconds, peak, done.stdout.decode().strip())


def run(program, data):
    """The same in a small process of its own, so that the peak is the program's."""
    with tempfile.NamedTemporaryFile() as file:
        file.write(data)
        file.flush()
        done = subprocess.run([sys.executable, __file__, "--one", file.name] + program, stdout=subprocess.PIPE)
    seconds, mebibytes, line = done.stdout.decode().strip().split(" ", 2)
    return float(seconds), float(mebibytes), line


def main():
    if sys.argv[1:2] == ["--one"]:
        one(sys.argv[2], sys.argv[3:])
        return
    parser = argparse.ArgumentParser(description=__doc__, formatter_class=argparse.RawDescriptionHelpFormatter)
    parser.add_argument("words", nargs="*", default=PROGRAM, metavar="PROGRAM WORD ..")
    program = parser.parse_args().words
    wrong = 0
    for name, data, wanted in inputs():
        seconds, mebibytes, line = run(program, data)
        wrong += line != wanted
        print("%-32s %10d bytes %7.2f s %6.0f MiB  %s%s" % (name, len(data), seconds, mebibytes, line, "" if line == wanted else "  WRONG"))
    sys.exit(1 if wrong else 0)


if __name__ == "__main__":
    main()
