#!/usr/bin/env python3
"""Time of reading policies: bench/policy.py [PROGRAM]

The program (bench/out/policy_time, which bench/build makes) reads a policy from standard input once, or a thousand times if it is given
a word. Prints a line for each text: its name, its size in bytes, and the seconds of a processor for one reading. A text stands twice,
once half as long: the line behind it says how much longer the whole takes, which is to be at most 2.2 times. Ends with status 1 where
that is more, where 32 applications take a millisecond or more, or where a text that is a policy is refused.
"""

import argparse
import os
import resource
import subprocess
import sys

HERE = os.path.dirname(os.path.abspath(__file__))
PROGRAM = os.path.join(HERE, "out", "policy_time")
MOST = 67_108_864
GROWTH = 2.2
ONE = b'[[app]]\nname = "a"\n'


def application(number):
    """A table of an application in which each key stands."""
    return (
        '[[app]]\nname = "app%d"\ncommand = ["/usr/bin/app%d", "--port", "6653"]\npolicy = "none"\nevents = ["join", "packet_in"]\n'
        'budget = 3000\n[app.rules]\njoin = "absolute"\nleave = "equivalence"\n' % (number, number)
    ).encode()


def texts(size):
    """Names, texts of about so many bytes, and whether each is a policy."""
    comment = b"#" + b"x" * 98 + b"\n"
    yield "comments", ONE + comment * ((size - len(ONE)) // len(comment)), True
    yield "one long text", ONE + b'command = ["' + b"y" * (size - len(ONE) - 15) + b'"]\n', True
    yield "one long array", ONE + b"events = [" + b'"join",' * ((size - len(ONE) - 13) // 7) + b"]\n", False
    yield "unknown keys", b"".join(b"k%06d = 1\n" % i for i in range(min(size // 12, 400_000))), False


def seconds(program, text, many, policy):
    """The seconds of a processor for one run, or None where the answer is not the due one."""
    before = resource.getrusage(resource.RUSAGE_CHILDREN)
    status = subprocess.run([program] + (["many"] if many else []), input=text).returncode
    after = resource.getrusage(resource.RUSAGE_CHILDREN)
    right = status == (0 if policy else 1)
    return after.ru_utime + after.ru_stime - before.ru_utime - before.ru_stime if right else None


def main():
    parser = argparse.ArgumentParser(description=__doc__, formatter_class=argparse.RawDescriptionHelpFormatter)
    parser.add_argument("program", nargs="?", default=PROGRAM, metavar="PROGRAM")
    program = parser.parse_args().program
    wrong = 0
    text = b"".join(application(number) for number in range(32))
    taken = seconds(program, text, True, True)
    wrong += taken is None or taken >= 1.0
    print("%-20s %10d bytes %10.6f s" % ("32 applications", len(text), (taken or 0) / 1000))
    for (name, half, policy), (_, whole, _) in zip(texts(MOST // 8), texts(MOST // 4)):
        times = [seconds(program, text, False, policy) for text in (half, whole)]
        if None in times:
            wrong += 1
            print("%-20s %10d bytes  WRONG" % (name, len(whole)))
            continue
        slow = times[1] > GROWTH * times[0] and times[1] > 0.5
        wrong += slow
        print("%-20s %10d bytes %10.3f s, %.2f times the half's%s" % (name, len(whole), times[1], times[1] / times[0], "  TOO SLOW" if slow else ""))
    return 1 if wrong else 0


sys.exit(main())
