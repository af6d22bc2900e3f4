#!/usr/bin/env python3
"""What the judge against loops takes for one question: bench/guard.py [PROGRAM]

The program (bench/out/guard_time, which bench/build makes) is asked about networks whose switches each have an entry for each of 16 to
4,096 learned addresses, towards the address by the shortest way. Prints milliseconds of a processor a question, the least of three
runs, for a tree of 16 switches; a ring of 16 of which one link is left unused, as by a spanning tree; the same ring with all links
used; and 8 switches with a link between each two. The last two lead in a circle over all rows together, so that each address is looked
at by itself. Behind a size that took a question longer than `--patience` seconds comes no larger one.

Due is a tree with 4,096 addresses within 50 milliseconds: ends with status 1 where it took longer, or where what was found is wrong.
"""

import argparse
import os
import resource
import subprocess
import sys

import guard_input
from guard_input import Row

HERE = os.path.dirname(os.path.abspath(__file__))
PROGRAM = os.path.join(HERE, "out", "guard_time")
SIZES = (16, 64, 256, 1_024, 4_096)
DUE = 0.050
SWITCHES = range(1, 17)
HOSTS = 48  # the port behind which a switch's own addresses are
RUNS = 3


def tree():
    """Each switch but the first has half its number above it."""
    links = [((n // 2, 2 + n % 2), (n, 1)) for n in SWITCHES[1:]]

    def way(at, to):
        while to > at and to // 2 != at:
            to //= 2
        return HOSTS if to == at else 2 + to % 2 if to > at else 1

    return links, SWITCHES, way


def ring(is_whole):
    """Each switch has the next one behind its port 1."""
    links = [((n, 1), (n % 16 + 1, 2)) for n in SWITCHES]

    def way(at, to):
        ahead = (to - at) % 16 <= 8 if is_whole else to > at
        return HOSTS if to == at else 1 if ahead else 2

    return links, SWITCHES, way


def mesh():
    """Each switch has each other one behind the port of its number."""
    switches = SWITCHES[:8]
    links = [((one, other), (other, one)) for one in switches for other in switches if one < other]
    return links, switches, lambda at, to: HOSTS if to == at else to


NETWORKS = {"tree of 16": tree(), "ring of 16, one unused": ring(False), "ring of 16": ring(True), "mesh of 8": mesh()}


def learned(number, field, port):
    """The entry for a learned address."""
    if field == guard_input.DL_DST:
        return Row(priority=100, dl_dst=0x020000000000 + number, ports=(port,))
    return Row(priority=100, dl_type=guard_input.IPV4, nw_dst=(0x0A000000 + number, 32), ports=(port,))


def network(name, field, size):
    """The input: the links, and a table for each switch."""
    links, switches, way = NETWORKS[name]
    homes = [(number, switches[number % len(switches)]) for number in range(size)]
    tables = {at: [learned(number, field, way(at, to)) for number, to in homes] for at in switches}
    return guard_input.rule(field, links) + guard_input.tables(tables)


def used(program, rounds, text):
    """Seconds of a processor of one run."""
    before = resource.getrusage(resource.RUSAGE_CHILDREN)
    done = subprocess.run([program, "again", str(rounds)], input=text, capture_output=True, check=True)
    after = resource.getrusage(resource.RUSAGE_CHILDREN)
    if done.stdout.decode() != f"allowed {rounds} of {rounds}; found .\n":
        raise SystemExit(f"wrong: {done.stdout.decode()}")
    return after.ru_utime + after.ru_stime - before.ru_utime - before.ru_stime


def a_question(program, text):
    """Seconds of a processor for one question: the reading and the one question that each run begins and ends with are left out."""
    nothing = min(used(program, 0, text) for _ in range(RUNS))
    once = used(program, 1, text) - nothing
    rounds = max(1, min(10_000, int(0.3 / max(once, 1e-6))))
    if rounds == 1:
        return once
    return (min(used(program, rounds, text) for _ in range(RUNS)) - nothing) / rounds


def main():
    parser = argparse.ArgumentParser(description=__doc__, formatter_class=argparse.RawDescriptionHelpFormatter)
    parser.add_argument("program", nargs="?", default=PROGRAM, metavar="PROGRAM")
    parser.add_argument("--field", choices=("dl_dst", "nw_dst"), default="dl_dst", help="the guarded field (dl_dst)")
    parser.add_argument("--only", default="", metavar="WORD", help="the networks alone whose name has this word")
    parser.add_argument("--patience", type=float, default=2.0, metavar="SECONDS", help="the longest question behind which a larger one comes (2)")
    asked = parser.parse_args()
    field = guard_input.DL_DST if asked.field == "dl_dst" else guard_input.NW_DST
    print("%-24s" % "ms a question" + "".join("%12d" % size for size in SIZES) + "   load %.1f" % os.getloadavg()[0])
    late = False
    for name in (name for name in NETWORKS if asked.only in name):
        print("%-24s" % name, end="", flush=True)
        for size in SIZES:
            took = a_question(asked.program, network(name, field, size))
            late |= name.startswith("tree") and took > DUE
            print("%12.3f" % (took * 1e3), end="", flush=True)
            if took > asked.patience:
                break
        print()
    if late:
        print("a tree took longer than %d milliseconds" % (DUE * 1e3))
    return 1 if late else 0


sys.exit(main())
