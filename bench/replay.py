#!/usr/bin/env python3
"""Time and peak memory of `legosdn replay` over large inputs: bench/replay.py [PROGRAM [SHARE]]

Prints a line for each input: its name, its size in bytes, the least seconds of a processor in three runs, and the peak of memory in MiB.
A peak below 16 MiB is that of the process that measures. A session takes at most four times its input beyond those. A long one stands
twice, once half as long: the line behind it says how much longer the whole takes than the half, which is to be at most 2.2 times, and
how many stimuli it had a second, at least 200,000 where they are small (100,000 where they are frames in a table of eight groups of
equal wildcards). Ends with status 1 where a report or a status is wrong or a
session takes longer or more. SHARE, as 0.01, makes all sessions shorter, for a trial.
"""

import argparse
import os
import resource
import subprocess
import sys
import tempfile

HERE = os.path.dirname(os.path.abspath(__file__))
PROGRAM = os.path.join(HERE, "..", "crates", "legosdn", "out", "legosdn")
MOST = 67_108_864
GROWTH = 2.2
RATE = 200_000
TIMES = 4
FIXED = 16
FRAME = "ffffffffffff02000000000188b5"


def addition(priority, hard=0, flags=0):
    """A FLOW_MOD that adds in_port=1 at a priority, with an output to port 2."""
    head = "010e005000000000003820fe0001" + "00" * 34 + "00" * 8
    return head + "00000000%04x%04xffffffffffff%04x0000000800020000" % (hard, priority, flags)


def big_turn(count, end):
    """One turn of so many messages, and how it ends."""
    steps = " ".join("m:1:" + addition(p) for p in range(count))
    flows = count if end == "done" else 0
    text = "---\nsession 1\nswitch 1 4096 1,2\nreply app %s %s\njoin 1\n" % (steps, end)
    return text.encode(), b"end 0 events 1\n", b"switch 1 flows %d\n" % flows


def busy(stimuli):
    """A session with so many stimuli: frames that meet no entry and become events, turns that add an entry, of which each tenth
    closes in its middle and is undone, frames that meet an entry, counts, and moments at which the entry expires."""
    add = "reply app m:1:%s " % addition(5, hard=2, flags=1)
    lines = ["---", "session 1", "switch 1 8 1,2", "reply app done", "join 1"]
    moment, events, given, cycle = 0, 1, 1, 0
    while given + 4 <= stimuli:
        cycle += 1
        moment += 2
        if cycle % 10 == 0:
            lines += [add + "closed", add + "done", "reply app done"]
            events += 3
        else:
            lines += [add + "done", "reply app done"]
            events += 2
        lines += ["frame 1 1 " + FRAME, "frame 1 1 " + FRAME, "count 1 5 3 300", "at %d" % moment]
        given += 4
    return ("\n".join(lines) + "\n").encode(), b"end %d events %d\n" % (moment, events), b"switch 1 flows 0\n"


def one_of(i, groups):
    """A FLOW_MOD that adds the i-th entry: a dl_dst of its own, and dl_src, dl_type and in_port or not, so that there are so many groups."""
    kind = i % groups
    word = 0x003820F7 & ~(kind & 1) & ~((kind & 2) << 1) & ~((kind & 4) << 2)
    source = 0x020000000001 if kind & 2 else 0
    match = "%08x%04x%012x%012x00000000%04x" % (word, kind & 1, source, i, 0x88B5 if kind & 4 else 0) + "00" * 16
    return "010e005000000000" + match + "00" * 16 + "ffffffffffff" + "0000" + "0000000800020000"


def hits(entries, groups, frames):
    """A session with so many frames, each of which hits one of so many entries. Turns of at most 999 messages put these in; each but
    the first is that of a frame which hits none."""
    head, body, turns = ["---", "session 1", "switch 1 4096 1,2"], [], 0
    for first in range(0, entries, 999):
        adds = " ".join("m:1:" + one_of(i, groups) for i in range(first, min(first + 999, entries)))
        head.append("reply app %s done" % adds)
        body.append("frame 1 1 " + FRAME if turns else "join 1")
        turns += 1
    body += ["frame 1 1 %012x02000000000188b5" % (7919 * k % entries) for k in range(frames)]
    return ("\n".join(head + body) + "\n").encode(), b"end 0 events %d\n" % turns, b"switch 1 flows %d\n" % entries


def long_frames(size):
    """A session of so many bytes: frames of 9,216 bytes, each of which becomes an event and a turn."""
    head = b"---\nsession 1\nswitch 1 8 1,2\njoin 1\n"
    line = b"frame 1 1 " + FRAME.encode() + b"00" * (9216 - 14) + b"\n"
    count = (size - len(head)) // len(line)
    rest = size - len(head) - count * len(line)
    return head + line * count + b"#" * (rest - 1) + b"\n" * (rest > 0), b"end 0 events %d\n" % (count + 1), b"switch 1 flows 0\n"


def many_apps(stimuli, listeners):
    """A session with 32 applications and so many frames, each of which becomes an event that so many of them are given."""
    app = '[[app]]\nname = "a%02d"\nevents = ["%s"]\n'
    policy = "".join(app % (i, "packet_in" if i < listeners else "error") for i in range(32))
    text = policy + "---\nsession 1\nswitch 1 8 1,2\njoin 1\n" + ("frame 1 1 %s\n" % FRAME) * stimuli
    return text.encode(), b"end 0 events %d\n" % (stimuli + 1), b"app a%02d alive done %d failed 0\n" % (listeners - 1, stimuli)


def refused():
    """Names, inputs and the line that refuses them."""
    yield "64 MiB of zero bytes", bytes(MOST), b"bad separator\n"
    yield "64 MiB in one line behind the separator", b"---\n" + b"x" * (MOST - 4), b"bad session 2 long\n"
    yield "64 MiB of line ends before a policy's end", b"\n" * (MOST - 4) + b"---\n", b"bad policy missing app\n"
    yield "64 MiB of spaces in lines of 4 MiB", b"---\nsession 1\n" + (b" " * 4_194_303 + b"\n") * 15, b"bad session 3 word\n"
    yield "one byte more than 64 MiB", bytes(MOST + 1), b"bad size\n"


def sessions(share):
    """Names, how many small stimuli they have, how many of these a second are due, and sessions with the last line and one more line
    of their reports; the half first, where there is one."""
    for count, end in ((1, "done"), (250, "done"), (500, "done"), (999, "done"), (999, "closed")):
        yield "%d messages, %s" % (count, end), 0, 0, [big_turn(count, end)]
    n = int(100_000 * share)
    yield "%d stimuli: turns, frames, expiries" % n, n, RATE, [busy(n // 2), busy(n)]
    for entries in (64, 1_024, 4_000):
        for groups in (1, 8):
            name = "%d frames, %d entries in %d groups" % (n, entries, groups)
            rate = RATE if groups == 1 else RATE // 2
            yield name, n, rate, [hits(entries, groups, n // 2), hits(entries, groups, n)]
    for listeners in (1, 32):
        n = int(100_000 * share) // listeners
        yield "%d events, each for %d of 32 applications" % (n, listeners), 0, 0, [many_apps(n // 2, listeners), many_apps(n, listeners)]
    n = int(MOST * share)
    yield "%.3g MiB: long frames" % (n / 2**20), 0, 0, [long_frames(n // 2), long_frames(n)]
    n = int(1_000_000 * share)
    yield "%d moments" % n, n, RATE, [(b"---\nsession 1\nswitch 1 8 1\njoin 1\n" + b"at 1\n" * k, b"end 1 events 1\n", b"") for k in (n // 2, n - 1)]


def processor_seconds():
    """What the processes that this one has waited for took of a processor."""
    used = resource.getrusage(resource.RUSAGE_CHILDREN)
    return used.ru_utime + used.ru_stime


def one(program, path, report):
    """Runs the program three times over a file; prints the least seconds of a processor, the peak in MiB and the status."""
    seconds = []
    for _ in range(3):
        with open(path, "rb") as stdin, open(report, "wb") as stdout:
            start = processor_seconds()
            status = subprocess.run([program, "replay"], stdin=stdin, stdout=stdout).returncode
            seconds.append(processor_seconds() - start)
    print(min(seconds), resource.getrusage(resource.RUSAGE_CHILDREN).ru_maxrss / 1024, status)


def run(program, name, data, status, last, within):
    """Runs the program in a small process of its own, so that the peak is the program's; prints a line. Gives the seconds, and
    whether the status and the report are as they are to be and the peak is no higher."""
    with tempfile.TemporaryDirectory() as room:
        path, report = os.path.join(room, "input"), os.path.join(room, "report")
        with open(path, "wb") as file:
            file.write(data)
        done = subprocess.run([sys.executable, __file__, "--one", program, path, report], stdout=subprocess.PIPE)
        with open(report, "rb") as file:
            text = file.read()
    seconds, mebibytes, got = done.stdout.split()
    right = int(got) == status and text.endswith(last) and within in text
    large = float(mebibytes) > FIXED + TIMES * len(data) / 2**20
    fault = "" if right else "  WRONG"
    print("%-44s %10d bytes %8.3f s %8.1f MiB%s%s" % (name, len(data), float(seconds), float(mebibytes), fault, "  TOO LARGE" * large))
    return float(seconds), right and not large


def main():
    if sys.argv[1:2] == ["--one"]:
        one(*sys.argv[2:])
        return 0
    parser = argparse.ArgumentParser(description=__doc__, formatter_class=argparse.RawDescriptionHelpFormatter)
    parser.add_argument("program", nargs="?", default=PROGRAM, metavar="PROGRAM")
    parser.add_argument("share", nargs="?", type=float, default=1.0, metavar="SHARE")
    asked = parser.parse_args()
    program, share = asked.program, asked.share
    wrong = 0
    for name, data, line in refused() if share == 1.0 else ():
        wrong += not run(program, name, data, 3, line, line)[1]
    for name, stimuli, rate, cases in sessions(share):
        times = []
        for case, (data, last, within) in enumerate(cases):
            half = len(cases) == 2 and case == 0
            seconds, right = run(program, name + (", half" if half else ""), data, 0, last, within)
            wrong += not right
            times.append(seconds)
        if len(times) == 2:
            slow = times[1] > GROWTH * times[0] and times[1] > 0.5 or rate * times[1] > stimuli > 0
            wrong += slow
            reached = ", %d stimuli a second" % (stimuli / times[1]) if stimuli else ""
            print("%-44s %.2f times the half's time%s%s" % ("", times[1] / times[0], reached, "  TOO SLOW" if slow else ""))
    return 1 if wrong else 0


sys.exit(main())
