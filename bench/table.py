#!/usr/bin/env python3
"""What a call on a flow table of 100, 1,000 and 4,096 entries takes, and what plans and undos of as many cost.

bench/table.py [PROGRAM [NETLOG [GROUPS]]]: the programs are lego_bench, netlog_time and group_time as bench/build leaves them; `-`
leaves one out.
Prints microseconds a call: of a change that puts an entry in over one with its key, of a lookup and a hit, each entry in
turn, of an expiry at which no entry goes, and of one DELETE that removes all entries; behind each from 1,000 entries on,
how many times that of the size before it.

Then, at 1,024, 2,048 and 4,096 entries, milliseconds of: the plan of a DELETE of all; that plan logged; its undo, that is
all images taken out and played; an ADD of each entry planned and logged by itself under one mark. Then the bytes that the
log holds for each key, with 1,024 to 65,536 keys. Then what a row of a cache of 4,096 takes that is put in, in key order
and in a scattered one, and that is found and taken out in that: kept in key order as the cache has it, and in maps of the kit.

Then, at 1,000, 4,000 and 60,000 entries in 1, 8 and 40 groups of equal wildcards, microseconds of: a hit; a strict DELETE of an entry
and the ADD of it again. Both are of the plain table, of the one by groups, and of a switch, where the hit is by a frame of 64 bytes.

All of it is processor time of the program, the least of five runs.
"""

import argparse
import os
import subprocess
import sys

HERE = os.path.dirname(os.path.abspath(__file__))
PROGRAM = os.path.join(HERE, "out", "lego_bench")
SIZES = (100, 1_000, 4_096)
NETLOG = os.path.join(HERE, "out", "netlog_time")
PLANNED = (1_024, 2_048, 4_096)
GROUPED = os.path.join(HERE, "out", "group_time")
LARGE = (1_000, 4_000, 60_000)
GROUPS = (1, 8, 40)
CALLS = {"change": 400_000, "lookup": 40_000, "hit": 40_000, "expire": 20_000_000}


def used_words(program, *words):
    """What one run takes, by the system's account of it."""
    child = subprocess.Popen([program, *map(str, words)], stdout=subprocess.DEVNULL)
    _, status, account = os.wait4(child.pid, 0)
    child.returncode = os.waitstatus_to_exitcode(status)
    if child.returncode:
        raise SystemExit("%s %s ended with %d" % (program, " ".join(map(str, words)), child.returncode))
    return account


def used(program, operation, size, rounds):
    return used_words(program, operation, size, rounds)


def seconds(program, operation, size, rounds):
    """Seconds of a processor, the least of five runs."""
    accounts = [used(program, operation, size, rounds) for _ in range(5)]
    return min(account.ru_utime + account.ru_stime for account in accounts)


def a_call(program, operation, size):
    """Microseconds a call, the start of the program and the filling of its table left out."""
    if operation == "delete":
        rounds = max(40_000 // size, 1) * 10
        spent = seconds(program, "delete", size, rounds) - seconds(program, "fill", size, rounds)
        return spent / rounds * 1e6
    # A round of an expiry is one call that reads all entries; of the others it is a call for each entry.
    rounds = max(CALLS[operation] // size, 1)
    calls = rounds if operation == "expire" else rounds * size
    spent = seconds(program, operation, size, rounds) - seconds(program, operation, size, 0)
    return spent / calls * 1e6


def a_round(program, operation, size, rounds):
    """Milliseconds of a round."""
    spent = seconds(program, operation, size, rounds) - seconds(program, operation, size, 0)
    return spent / rounds * 1e3


def most(program, size, switches):
    """KiB that the program has at its most. A child of Python begins with what Python has, so `time` starts it."""
    words = ["/usr/bin/time", "-f", "%M", program, "hold", str(size), str(switches)]
    done = subprocess.run(words, stdout=subprocess.DEVNULL, stderr=subprocess.PIPE, check=True)
    return int(done.stderr.split()[-1])


def held(program, size, switches):
    """Bytes for each key of so many switches' logs, at the most, beyond what the program has with one key."""
    return (most(program, size, switches) - most(program, 1, 1)) * 1024 / (size * switches)


def netlog(program):
    print("%-8s" % "ms" + "".join("%12d %7s" % (size, "") for size in PLANNED))
    for operation, rounds in (("plan", 100), ("log", 100), ("undo", 100), ("singly", 50)):
        line, before = "%-8s" % operation, None
        for size in PLANNED:
            took = a_round(program, operation, size, rounds)
            line += "%12.3f %7s" % (took, "" if before is None else "x%.2f" % (took / before))
            before = took
        print(line)
    for size, switches in ((1_024, 1), (4_096, 1), (4_096, 4), (4_096, 16)):
        print("bytes a logged key, %d keys: %.0f" % (size * switches, held(program, size, switches)))
    print("%-8s%12s%12s%12s%12s" % ("us a row", "put in order", "put", "get", "remove"))
    for kind in ("rows", "tree", "hashed", "indexed"):
        line, before = "%-8s%12.3f" % (kind, a_round(program, kind + "-ascend", 4_096, 50) * 1e3 / 4_096), 0.0
        for until in ("put", "get", "remove"):
            took = a_round(program, "%s-%s" % (kind, until), 4_096, 50) * 1e3 / 4_096
            line += "%12.3f" % (took - before)
            before = took
        print(line)


def calls(program):
    print("%-8s" % "us/call" + "".join("%12d %7s" % (size, "") for size in SIZES))
    for operation in ("change", "lookup", "hit", "expire", "delete"):
        line, before = "%-8s" % operation, None
        for size in SIZES:
            took = a_call(program, operation, size)
            line += "%12.3f %7s" % (took, "" if before is None else "x%.1f" % (took / before))
            before = took
        print(line)


def by_groups(program, what, operation, size, groups):
    """Microseconds of a hit, or of a deletion and an addition, in a table of so many entries and groups."""
    rounds = 2_000 if what == "plain" and operation == "hit" or size > 4_096 and operation == "swap" else 100_000

    def spent(done):
        accounts = [used_words(program, what, operation, size, groups, done) for _ in range(3)]
        return min(account.ru_utime + account.ru_stime for account in accounts)

    return (spent(rounds) - spent(0)) / rounds * 1e6


def grouped(program):
    print("%-24s" % "us" + "".join("%12s" % ("%d in %d" % (size, groups)) for size in LARGE for groups in GROUPS))
    for operation, name in (("hit", "hit"), ("swap", "delete and add")):
        for what in ("plain", "groups", "switch"):
            took = [by_groups(program, what, operation, size, groups) for size in LARGE for groups in GROUPS]
            print("%-24s" % (name + ", " + what) + "".join("%12.2f" % it for it in took))


def main():
    parser = argparse.ArgumentParser(description=__doc__, formatter_class=argparse.RawDescriptionHelpFormatter)
    parser.add_argument("program", nargs="?", default=PROGRAM, metavar="PROGRAM")
    parser.add_argument("netlog", nargs="?", default=NETLOG, metavar="NETLOG")
    parser.add_argument("groups", nargs="?", default=GROUPED, metavar="GROUPS")
    asked = parser.parse_args()
    program, logs, groups = asked.program, asked.netlog, asked.groups
    if program != "-":
        calls(program)
    if logs != "-" and not os.path.exists(logs):
        print("there is no %s: bench/build builds it last" % logs)
        return 1
    if logs != "-":
        netlog(logs)
    if groups != "-":
        grouped(groups)
    return 0


sys.exit(main())
