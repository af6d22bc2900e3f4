#!/usr/bin/env python3
"""Sessions that a start and a count draw: bench/gen.py START COUNT [PROGRAM]

Without PROGRAM it writes the input of `replay` for the session that session_gen draws of that start and count: two switches, one
application, and COUNT rounds. With PROGRAM (as ./legosdn) it replays that input, and prints one line:

    gen START COUNT events E done D failed F flows N packets P

E events were dispatched, D turns were done and F failed, and N flows stand at the end, which P packets hit. Ends with the status of
the program where that is not 0. With --compare N it looks at N starts, from START on: the program's own `gen` has to print the line
that is made here of the session that is drawn here. The status is then 1 where a line differs.
"""

import argparse
import re
import subprocess
import sys

FRAME = "ffffffffffff02000000000188b5"
WORD = 2**64


class Draws:
    """Numbers of a linear congruential generator, of whose states the 31 high bits count."""

    def __init__(self, state):
        self.state = state

    def draw(self, below):
        self.state = (self.state * 6364136223846793005 + 1442695040888963407) % WORD
        return (self.state >> 33) % below


def flow_mod(in_port, command, priority, idle, hard, out):
    """The bytes of a FLOW_MOD with one output, which wants a FLOW_REMOVED (OpenFlow 1.0.0, 5.3.3)."""
    wildcards = 0x3820FF if in_port is None else 0x3820FE
    match = wildcards.to_bytes(4, "big") + (in_port or 0).to_bytes(2, "big") + bytes(34)
    numbers = [(0, 8), (command, 2), (idle, 2), (hard, 2), (priority, 2), (0xFFFFFFFF, 4), (0xFFFF, 2), (1, 2)]
    body = b"".join(number.to_bytes(width, "big") for number, width in numbers)
    action = b"\x00\x00\x00\x08" + out.to_bytes(2, "big") + b"\x00\x00"
    return b"\x01\x0e\x00\x50" + bytes(4) + match + body + action


def change(draws):
    """A step that asks for a change."""
    dpid = 1 + draws.draw(2)
    command = draws.draw(5)
    in_port = 1 + draws.draw(4)
    if draws.draw(3) == 0:
        in_port = None
    priority = 1 + draws.draw(3)
    idle = 10 * draws.draw(3)
    hard = 20 * draws.draw(3)
    out = 1 + draws.draw(4)
    return "m:%d:%s" % (dpid, flow_mod(in_port, command, priority, idle, hard, out).hex())


def session(start, count):
    """The lines of the session."""
    draws = Draws(start)
    moment = 0
    lines = ["session 1", "switch 1 64 1,2,3,4", "switch 2 64 1,2,3,4"]
    lines += ["reply app done", "reply app done", "join 1", "join 2"]
    for _ in range(count):
        steps = [change(draws), change(draws)]
        steps.append("closed" if draws.draw(4) == 0 else "done")
        lines.append("reply app " + " ".join(steps))
        kind = draws.draw(4)
        if kind == 1:
            moment += draws.draw(5)
            lines.append("at %d" % moment)
            continue
        dpid = 1 + draws.draw(2)
        port = 1 + draws.draw(4)
        if kind == 2:
            lines.append("port %d %d %s" % (dpid, port, "down" if draws.draw(2) == 0 else "up"))
        else:
            lines.append("frame %d %d %s" % (dpid, port, FRAME))
    return lines


def summary(report):
    """The numbers of a report."""
    flows = re.findall(r"^flow .* packets=(\d+) ", report, re.M)
    done, failed = re.search(r"^app app \w+ done (\d+) failed (\d+)$", report, re.M).groups()
    events = re.search(r"^end \d+ events (\d+)$", report, re.M).group(1)
    return "events %s done %s failed %s flows %d packets %d" % (events, done, failed, len(flows), sum(map(int, flows)) % WORD)


def run(program, words, text=b""):
    """What the program writes, and its status."""
    done = subprocess.run([program] + words, input=text, stdout=subprocess.PIPE)
    return done.stdout.decode(), done.returncode


def summed(program, start, count):
    """The line of a session that is drawn here, as the program replays it; else what the program writes, and its status."""
    report, status = run(program, ["replay"], ("---\n" + "\n".join(session(start, count)) + "\n").encode())
    return ("gen %d %d %s\n" % (start, count, summary(report)) if status == 0 else report), status


def compare(program, start, count, starts):
    """Compares the program's own lines; the number of those that differ."""
    wrong = 0
    for at in range(start, start + starts):
        due, own = summed(program, at % WORD, count), run(program, ["gen", str(at % WORD), str(count)])
        if own != due:
            wrong += 1
            print("gen %d %d: wrote %r, status %d; due %r, status %d" % (at % WORD, count, *own, *due))
    print("starts compared: %d, of %d rounds each, differing: %d" % (starts, count, wrong))
    return wrong


def main():
    parser = argparse.ArgumentParser(description=__doc__, formatter_class=argparse.RawDescriptionHelpFormatter)
    parser.add_argument("start", type=int, metavar="START")
    parser.add_argument("count", type=int, metavar="COUNT")
    parser.add_argument("program", nargs="?", metavar="PROGRAM")
    parser.add_argument("--compare", type=int, metavar="N", help="compare the program's own lines for N starts")
    words = parser.parse_args()
    if not 0 <= words.start < WORD or not 0 <= words.count <= 100_000:
        parser.error("START is below 2^64, and COUNT at most 100,000")
    if words.program is None:
        sys.stdout.write("---\n" + "\n".join(session(words.start, words.count)) + "\n")
        return 0
    if words.compare is not None:
        return 1 if compare(words.program, words.start, words.count, words.compare) else 0
    line, status = summed(words.program, words.start, words.count)
    sys.stdout.write(line)
    return status


sys.exit(main())
