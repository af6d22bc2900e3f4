#!/usr/bin/env python3
"""Plays switches to `legosdn run`: one that keeps the rules, and some that break them or are lost: live/smoke.py [PROGRAM]

Needs Python alone. After each of those the good one sends a frame, and its change has to come: so nobody else
was harmed. Takes about a minute and a half. PROGRAM is the built controller, by default crates/legosdn/out/legosdn; its application
is live/pairs.py. Prints what each switch met and the report of the run. Ends with status 1 where something was not as it is to be.
"""

import argparse
import os
import re
import socket
import struct
import subprocess
import sys
import threading
import time

TOP = os.path.dirname(os.path.dirname(os.path.abspath(__file__)))
PROGRAM = os.path.join(TOP, "crates", "legosdn", "out", "legosdn")
POLICY = f'[[app]]\nname = "app"\ncommand = ["/usr/bin/python3", "{TOP}/live/pairs.py"]\n'
HELLO, ERROR, ECHO_REQUEST, ECHO_REPLY, FEATURES_REQUEST, FEATURES_REPLY = 0, 1, 2, 3, 5, 6
PACKET_IN, FLOW_MOD, BARRIER_REQUEST, BARRIER_REPLY = 10, 14, 18, 19

CUTS = 5

failed = 0


def tell(what, holds, rest=""):
    global failed
    failed += not holds
    print(f"{'ok' if holds else 'NOT OK'}: {what}{rest}", flush=True)


def message(kind, body=b"", xid=0, version=1):
    return struct.pack(">BBHI", version, kind, 8 + len(body), xid) + body


def features(dpid):
    port = struct.pack(">H6s16sIIIIII", 1, bytes(6), b"one", 0, 0, 0, 0, 0, 0)
    return message(FEATURES_REPLY, struct.pack(">QIB3xII", dpid, 0, 1, 0, 0xFFF) + port)


class Peer:
    """A connection that says what it is told to, in order or not; the switch of live/played.py answers by itself."""

    def __init__(self, port):
        self.link = socket.create_connection(("127.0.0.1", port), 10)
        self.link.settimeout(20)
        self.frames = 0

    def send(self, *messages):
        self.link.sendall(b"".join(messages))

    def bytes(self, size):
        data = b""
        while len(data) < size:
            piece = self.link.recv(size - len(data))
            if not piece:
                raise EOFError
            data += piece
        return data

    def one(self):
        header = self.bytes(8)
        return header + self.bytes(struct.unpack(">H", header[2:4])[0] - 8)

    def until(self, kind):
        """The next message of this kind; the others are passed over."""
        while True:
            data = self.one()
            if data[1] == kind:
                return data

    def greeted(self):
        assert self.one() == message(HELLO), "a HELLO"
        assert self.one() == message(FEATURES_REQUEST), "a FEATURES_REQUEST"

    def confirms(self):
        """Answers the next barrier."""
        self.send(b"\x01\x13" + self.until(BARRIER_REQUEST)[2:])

    def joins(self, dpid):
        self.greeted()
        self.send(message(HELLO), features(dpid))
        self.confirms()
        return self

    def is_closed(self):
        """Whether the controller closes the connection, and after how many seconds."""
        before = time.monotonic()
        try:
            while True:
                self.one()
        except (EOFError, ConnectionError):
            return True, time.monotonic() - before
        except socket.timeout:
            return False, time.monotonic() - before

    def frame(self, size=60):
        """A PACKET_IN with a frame from an address that is new."""
        self.frames += 1
        data = b"\xff" * 6 + bytes([2]) + struct.pack(">IB", self.frames, 0) + b"\x88\xb5" + bytes(size - 14)
        return message(PACKET_IN, struct.pack(">IHHBx", 0xFFFFFFFF, size, 1, 0) + data)

    def is_served(self):
        """Whether a frame gives two changes; after how many milliseconds the first came."""
        before = time.monotonic()
        self.send(self.frame())
        return self.changes(before)

    def changes(self, before):
        for place in range(2):
            self.until(FLOW_MOD)
            if place == 0:
                after = (time.monotonic() - before) * 1000
            self.confirms()
        return after


class Run:
    """A run of the controller, and its report so far."""

    def __init__(self, program):
        with socket.create_server(("127.0.0.1", 0)) as link:
            self.port = link.getsockname()[1]
        self.lines = []
        words = [program, "run", str(self.port), "1000000000"]
        self.process = subprocess.Popen(words, stdin=subprocess.PIPE, stdout=subprocess.PIPE, text=True)
        self.process.stdin.write(POLICY)
        self.process.stdin.close()
        self.reader = threading.Thread(target=lambda: self.lines.extend(it.rstrip() for it in self.process.stdout))
        self.reader.start()
        self.has("start app ready")

    def connects(self):
        return Peer(self.port)

    def has(self, line, times=1):
        """Waits until so many lines of the report end so."""
        for _ in range(200):
            if sum(it.endswith(line) for it in self.lines) >= times:
                return True
            time.sleep(0.05)
        return False

    def ends(self):
        """Ends it, and tells the report. Whether it had gone on up to then."""
        went_on = self.process.poll() is None
        self.process.kill()
        self.process.wait()
        self.reader.join()
        print(f"the report has {len(self.lines)} lines; without the frames of the good one, and the switches 100 to 162:")
        calm = ("start app ready", "turn app done")
        for line in self.lines:
            if line not in calm and not re.search(r" packet_in | (join|leave) 1\d\d$", line):
                print(f"    {line}")
        return went_on


def strangers(run, good):
    """Peers that do not say who they are, or not well."""
    for what, data in (
        ("one that names a switch that is there", features(7)),
        ("garbage", b"GET / HTTP/1.1\r\n\r\n"),
        ("a length below that of a header", b"\x01\x00\x00\x07\x00\x00\x00\x00"),
        ("half a message, and no more", features(8)[:20]),
        ("nothing", b""),
    ):
        peer = run.connects()
        peer.greeted()
        peer.send(data)
        closed, seconds = peer.is_closed()
        tell(f"{what}: closed", closed, f" after {seconds:.0f} s")
        tell("    the good one is served", good.is_served() < 1000)


def crowd(run, good):
    """64 that say nothing. The next one has to wait for a place."""
    silent = [run.connects() for _ in range(64)]
    time.sleep(0.5)
    before = time.monotonic()
    tell("64 that say nothing: the good one is served", good.is_served() < 1000)
    run.connects().joins(20)
    tell("    another one joins once there is a place", run.has("join 20"), f", after {time.monotonic() - before:.0f} s")
    tell("    all of them are closed", all(it.is_closed()[0] for it in silent))
    tell("    the good one is served", good.is_served() < 1000)


def full(run, good):
    """As many switches as there may be, and one more."""
    others = [run.connects().joins(100 + it) for it in range(63)]
    tell("63 more switches join", run.has("join 162"))
    more = run.connects()
    more.greeted()
    more.send(features(200))
    tell("    one more is closed", more.is_closed()[0])
    tell("    the good one is served", good.is_served() < 1000)
    for other in others:
        other.link.close()
    tell("    they leave", all(run.has(f"leave {100 + it}") for it in range(63)))
    tell("    the good one is served", good.is_served() < 1000)


def members(run, good):
    """Switches that have joined, and then break the rules."""
    before = time.monotonic()
    good.send(good.frame(65535 - 18))
    tell("a message of 65,535 bytes: its change came", good.changes(before) < 1000)
    good.send(message(ECHO_REQUEST, b"abc", 5))
    tell("an ECHO_REQUEST is answered", good.until(ECHO_REPLY) == message(ECHO_REPLY, b"abc", 5))
    other = run.connects().joins(9)
    other.send(message(200))
    tell("a type that there is not: closed", other.is_closed()[0])
    tell("    it has left", run.has("leave 9"))
    tell("    the good one is served", good.is_served() < 1000)


def silence(run, good):
    """A switch that says nothing is asked, answers once, and is closed when it does not answer."""
    other = run.connects().joins(11)
    asked = []

    def answers():
        before = time.monotonic()
        assert other.until(ECHO_REQUEST) == message(ECHO_REQUEST)
        asked.append(time.monotonic() - before)
        other.send(message(ECHO_REPLY))
        assert other.until(ECHO_REQUEST) == message(ECHO_REQUEST)
        asked.append(time.monotonic() - before)
        asked.append(time.monotonic() - before + other.is_closed()[1])

    thread = threading.Thread(target=answers)
    thread.start()
    longest = 0
    while thread.is_alive():
        longest = max(longest, good.is_served())
        time.sleep(0.5)
    words = ", ".join(f"{it:.0f}" for it in asked)
    tell("a silent one is asked, asked again and closed", len(asked) == 3, f" after {words} s")
    tell("    it has left", run.has("leave 11"))
    tell("    the good one is served meanwhile", longest < 1000, f", within {longest:.0f} ms")


def rules(run):
    good = run.connects()
    good.greeted()
    # A HELLO of a later version, and everything in pieces.
    said = message(HELLO, version=4) + features(7)
    for place in range(0, len(said), 5):
        good.send(said[place : place + 5])
        time.sleep(0.002)
    good.confirms()
    tell("the good one joins", run.has("join 7"))
    tell("    it is served", good.is_served() < 1000)
    for part in (strangers, crowd, full, members, silence, mute):
        part(run, good)
    tell("    the run has gone on", run.ends())


def mute(run, good):
    """A switch that does not answer the barrier of its join is lost, without an event. It may join at the next try."""
    other = run.connects()
    other.greeted()
    other.send(features(10))
    other.until(BARRIER_REQUEST)
    closed, seconds = other.is_closed()
    tell("one that does not answer a barrier: closed", closed, f" after {seconds:.0f} s")
    tell("    it is lost, and has not joined", run.has("lost 10") and not any(it.endswith("join 10") for it in run.lines))
    tell("    the good one is served", good.is_served() < 1000)
    again = run.connects().joins(10)
    tell("    it joins at the next try", run.has("join 10"))
    tell("        it is served", again.is_served() < 1000)


def cut_off(run):
    """A switch that is cut off in the middle of a change, again and again: it is lost each time, and the run goes on."""
    other = run.connects().joins(2)
    tell("a switch joins", run.has("join 2"))
    for count in range(1, CUTS + 1):
        lone = run.connects().joins(1)
        tell(f"another one joins, for time {count}", run.has("join 1", count))
        lone.send(lone.frame())
        lone.until(FLOW_MOD)
        lone.confirms()
        lone.until(FLOW_MOD)
        lone.link.close()
        tell("    it is cut off in the middle of a change, is lost and leaves", run.has("lost 1", count) and run.has("leave 1", count))
        tell("    the other one is served", other.is_served() < 1000)
    again = run.connects().joins(1)
    tell("it joins once more", run.has("join 1", CUTS + 1))
    tell("    it is served", again.is_served() < 1000)
    tell("    the run has gone on", run.ends())
    # The application gives up where its switch is unknown: the turn has failed, and what it had changed is gone with the switch.
    ends = [run.lines[at : at + 3] for at, line in enumerate(run.lines) if line.startswith("turn app failed")]
    tell("    each time a turn failed", ends == [["turn app failed closed", "lost 1", "start app ready"]] * CUTS)


def main():
    parser = argparse.ArgumentParser(description=__doc__, formatter_class=argparse.RawDescriptionHelpFormatter)
    parser.add_argument("program", nargs="?", default=PROGRAM, metavar="PROGRAM", help="the built controller")
    program = parser.parse_args().program
    if not os.access(program, os.X_OK):
        parser.error(f"there is no program {program}")
    for part in (rules, cut_off):
        run = Run(program)
        try:
            part(run)
        except (EOFError, OSError, AssertionError) as fault:
            tell(f"{part.__name__}: {fault!r}", False)
        finally:
            run.process.kill()
    print(f"{failed} not as they are to be")
    return 1 if failed else 0


if __name__ == "__main__":
    sys.exit(main())
