"""Cases of live/check with what real networks have: notices that come late, entries that other hands delete, and peers that hang, say
little, flood, refuse, or start late. Whatever one of them does, the others are served.
"""

import os
import re
import socket
import sys
import threading
import time

sys.path.insert(0, os.path.dirname(os.path.abspath(__file__)))
from harness import SECONDS, Case, Match, Switch, application, entry, frame, misbehaving, python, same, until, within
from keys import ENDS, STAYS, frame_of, match_of
from legosdn import messages
from legosdn.codes import NO_BUFFER, FlowCommand

# How many seconds a loaded machine may be late.
SLACK = 1.8
MOST_ROUNDS = 1_000_000_000
TURN_SECONDS, BARRIER_SECONDS = 10, 5
MEBIBYTES_PUT_OFF = 16
# In which a switch that floods has buffers of a connection besides.
MEBIBYTES_OF_BUFFERS = 1
FLOW_MOD_FAILED, EPERM = 3, 2
JOINED_KEYS = 100
# Of the entries of keys.py.
PRIORITY = 20


def keys_join(run, count, times, kind=Switch, **how):
    """Switch 1 joins, and has ARP and so many entries of keys.py; so many turns are done then."""
    switch = kind(run.port, 1, **how)
    switch.wait(lambda s: s.barriers >= count + 2, "the entries of its join")
    run.awaits("turn app done", times)
    return switch


def removals(run):
    return [line for line in run.lines() if "flow_removed" in line]


def no_false_event(run):
    same(removals(run), [], "events of entries that nobody else deleted")


def stand_as_before(run, switch, many, first):
    """These entries stand. They are added again in a turn that fails: they stand as before, and no event says that they went."""
    before = switch.entries()
    same({match_of(it) for it in range(first, first + many)} - {match for _, match in before}, set(), "entries that do not stand")
    failed = run.lines().count("turn app failed closed")
    switch.miss(2, frame_of(ENDS, many, first))
    run.awaits("turn app failed closed", failed + 1)
    same(switch.entries(), before, "the table after the failed turn")
    switch.miss(2, frame_of(STAYS, 1, 0xFFFF))
    switch.wait(lambda s: len(s.table) == len(before) + 1, "an entry of the next turn")
    no_false_event(run)


def added_again(run, switch, many, first):
    stand_as_before(run, switch, many, first)
    run.end()
    no_false_event(run)


class Late(Switch):
    """Tells its notices behind its reply to this barrier."""

    tells_at = 0

    def confirm(self, xid):
        super().confirm(xid)
        if self.barriers == self.tells_at:
            self.tell_notices()


class InATurn(Late):
    tells_at = JOINED_KEYS // 2


class BehindTheEmptying(Late):
    tells_at = 1


def late_in_a_join(run, kind):
    """A switch joins again with entries of before. The notices of their removal come when they stand again."""
    first = keys_join(run, JOINED_KEYS, 1)
    first.leave()
    run.awaits("turn app done", 2)
    again = keys_join(run, JOINED_KEYS, 3, kind, table=first.table, notices=[])
    if again.notices:
        again.tell_notices()
    added_again(run, again, 1, 0)


def late_behind_a_turn(run):
    late_in_a_join(run, Switch)


def late_within_a_turn(run):
    late_in_a_join(run, InATurn)


def late_behind_the_emptying(run):
    late_in_a_join(run, BehindTheEmptying)


def late_of_an_undo(run):
    """A turn that adds five entries fails. Three of them are added in the next one, and then the notices of the undo come."""
    switch = keys_join(run, 0, 1, notices=[])
    switch.miss(2, frame_of(ENDS, 5, 1))
    run.awaits("turn app failed closed")
    same(len(switch.notices), 5, "the notices of the undo")
    switch.miss(2, frame_of(STAYS, 3, 1))
    run.awaits("turn app done", 2)
    switch.tell_notices()
    added_again(run, switch, 3, 1)


def questions(switch):
    return switch.said.count(("STATS", None))


def told_of_an_entry_that_stands(run):
    """A switch says that an entry was deleted which stands, and which nobody has deleted: its owner is told nothing, and an undo leaves it
    alone. Then somebody else deletes it: its owner is told once, and it can be added again."""
    switch = keys_join(run, 0, 1)
    key = (PRIORITY, match_of(0))
    switch.deny(key)
    stand_as_before(run, switch, 1, 0)
    asked = questions(switch)
    switch.delete(key)
    until(lambda: removals(run), "the event of the deletion")
    same(questions(switch) - asked, 2, "questions for the rows of a key, by the live world and by the controller")
    switch.miss(2, frame_of(STAYS, 1, 0))
    switch.wait(lambda s: key in s.table, "the entry again")
    run.end()
    same(len(removals(run)), 1, "events of entries that went")


def deleted_at(run, at, last, turn):
    """Somebody else deletes the entry for address 1 in the turn of this frame, when the switch is sent that. The turn ends so; then its
    owner is told, and the entry can be added again."""
    switch = run.switch(1, others={at: entry(1)})
    switch.miss(2, frame(1))
    switch.wait(lambda s: entry(1) in s.table and ("PACKET_OUT", frame(1)) in s.said, "an entry")
    switch.miss(2, frame(last))
    switch.wait(lambda s: entry(1) not in s.table, "its deletion")
    run.awaits("event 4 flow_removed 1")
    switch.miss(2, frame(1))
    switch.wait(lambda s: entry(1) in s.table, "the entry again")
    due = ["event 3 packet_in 1", *turn, "event 4 flow_removed 1", "turn app done", "event 5 packet_in 1", "turn app done", "out 1 14"]
    same(run.end()[6 : 6 + len(due)], due, "the report")


FAILED = ["turn app failed closed", "start app ready"]


def deleted_in_a_change(run):
    deleted_at(run, ("ADD", entry(0x11)), 0x11, ["turn app done", "out 1 14"])


def deleted_in_a_failed_change(run):
    deleted_at(run, ("ADD", entry(2)), 2, FAILED)


def deleted_in_an_undo(run):
    deleted_at(run, ("DELETE_STRICT", entry(2)), 2, FAILED)


def deleted_in_a_release(run):
    deleted_at(run, ("PACKET_OUT", frame(0x11)), 0x11, ["turn app done", "out 1 14"])


def is_served(switch, most):
    """A frame of a switch gives its entry, within so many seconds."""
    began = time.monotonic()
    switch.miss(2, frame(1))
    switch.wait(lambda s: entry(1) in s.table, "the entry of another switch")
    within(time.monotonic() - began, most, "seconds until another switch was served")


def hung_application(run):
    """The application sleeps at each of three frames. Another switch asks whether the controller is there as Open vSwitch does."""
    other = run.switch(2, probe=5)
    before = other.entries()
    one = run.switch(1)
    for _ in range(3):
        one.miss(2, frame(4))
    run.awaits("turn app failed silent", 3, 2 * SECONDS)
    within(max(other.waits, default=0), 1, "seconds until another switch had its answer")
    same(len(other.waits) > 1, True, "the other switch has asked")
    same((other.closed, other.entries()), (False, before), "the other switch, closed, and its table")
    report = run.end()
    same([line for line in report if re.fullmatch("event .* (leave .*|join 2)|lost .*", line)], ["event 1 join 2"], "who came and went")


def said_now_and_then(run, last):
    """The application says little, again and again. Its turn ends in time, and another switch is served."""
    other = run.switch(2)
    one = run.switch(1)
    before = one.entries()
    began = time.monotonic()
    one.miss(2, frame(last))
    ends = until(lambda: [line for line in run.lines() if line.startswith("turn app")][2:], "the end of the turn", 2 * SECONDS)
    within(time.monotonic() - began, TURN_SECONDS + SLACK, "seconds of the turn")
    same(ends[0].startswith("turn app failed"), True, "the turn has failed")
    is_served(other, SLACK)
    same(one.entries(), before, "the table after the turn")
    run.end()


def bytes_now_and_then(run):
    said_now_and_then(run, 0x0C)


def frames_now_and_then(run):
    said_now_and_then(run, 0x0D)


class Owing(Switch):
    """Does not answer this barrier and those behind it: does something else."""

    owes_from = 2

    def confirm(self, xid):
        if self.barriers < self.owes_from:
            super().confirm(xid)
        else:
            self.said.append("OWED")
            threading.Thread(target=self.instead, daemon=True).start()

    def instead(self):
        with_what = [
            messages.EchoRequest(b"there?"),
            messages.PacketIn(NO_BUFFER, 14, 2, 0, frame(1)),
            messages.Error(1, 1, bytes(64)),
            messages.BarrierReply(),
        ]
        try:
            for place in range(8):
                time.sleep(4)
                self.send(with_what[place % 4], 0xFFFF_0000)
        except OSError:
            pass


class OwingInItsJoin(Owing):
    owes_from = 0


def owed(run, kind, lost=True):
    """A switch owes a barrier's reply. It is lost in time, and another switch is served."""
    other = run.switch(2)
    one = kind(run.port, 1)
    if kind.owes_from > 0:
        one.wait(lambda s: s.barriers > 1, "the first entry")
        one.miss(2, frame(1))
    one.wait(lambda s: "OWED" in s.said, "the barrier that it owes")
    began = time.monotonic()
    threading.Timer(0.5, lambda: other.miss(2, frame(1))).start()
    run.awaits("lost 1", seconds=2 * SECONDS)
    within(time.monotonic() - began, BARRIER_SECONDS + SLACK, "seconds until it was lost")
    other.wait(lambda s: entry(1) in s.table, "the entry of another switch")
    within(time.monotonic() - began, BARRIER_SECONDS + 2 * SLACK, "seconds until another switch was served")
    report = run.end()
    same(report.count("lost 1"), 1, "how often it is lost")
    same([line for line in report if line.startswith("switch")], ["switch 2 flows 2"], "the switches at the end")


def owed_in_a_change(run):
    owed(run, Owing)


def owed_in_a_join(run):
    owed(run, OwingInItsJoin)


class FloodOfFrames(Owing):
    def instead(self):
        self.flood(messages.encode(messages.PacketIn(NO_BUFFER, 14, 2, 0, frame(1))), 66_000)

    has_flooded = False

    def flood(self, message, count):
        try:
            for _ in range(count // 100):
                self.link.sendall(message * 100)
        except OSError:
            pass
        self.has_flooded = True


class FloodOfErrors(FloodOfFrames):
    def instead(self):
        self.flood(messages.encode(messages.Error(1, 1, bytes(64)), 0xFFFF_0000), 66_000)


class FloodOfReplies(FloodOfFrames):
    def instead(self):
        self.flood(messages.encode(messages.BarrierReply(), 0xFFFF_0000), 66_000)


class FloodOfBytes(FloodOfFrames):
    """30,000 of the longest messages."""

    def instead(self):
        self.flood(messages.encode(messages.PacketIn(NO_BUFFER, 65_517, 2, 0, bytes(65_517))), 30_000)


def flood_of_frames(run):
    owed(run, FloodOfFrames)


def flood_of_errors(run):
    owed(run, FloodOfErrors)


def flood_of_replies(run):
    owed(run, FloodOfReplies)


def flood_of_bytes(run):
    """What a switch says in a wait is kept up to a bound."""
    other = run.switch(2)
    one = run.switch(1, FloodOfBytes)
    base = run.peak()
    one.miss(2, frame(1))
    until(lambda: one.has_flooded or "lost 1" in run.lines(), "the end of the flood", 2 * SECONDS)
    within(run.peak() - base, MEBIBYTES_PUT_OFF + MEBIBYTES_OF_BUFFERS, "MiB for a switch that floods")
    run.awaits("lost 1")
    is_served(other, SLACK)
    run.end()


class FloodBeside(Switch):
    """Says 16 MiB and more as soon as it is told to, while another switch is awaited, and stays."""

    def flood(self):
        message = messages.encode(messages.PacketIn(NO_BUFFER, 65_517, 2, 0, bytes(65_517)))
        try:
            for _ in range(600):
                self.link.sendall(message)
        except OSError:
            pass


def flood_beside(run):
    """Another switch than the awaited one says more than is kept: it is not read further meanwhile, and it is not lost."""
    one, loud = run.switch(1, cut_at=("ADD", 2), cut_by="silence"), run.switch(2, FloodBeside)
    one.wait(lambda s: s.barriers > 1, "the first entry")
    base = run.peak()
    one.miss(2, frame(1))
    one.wait(lambda s: ("ADD", entry(1)) in s.said, "the change that is awaited")
    threading.Thread(target=loud.flood, daemon=True).start()
    run.awaits("lost 1", seconds=2 * SECONDS)
    within(run.peak() - base, 2 * (MEBIBYTES_PUT_OFF + MEBIBYTES_OF_BUFFERS), "MiB for a switch that floods beside another one")
    same(loud.closed, False, "whether the switch that floods is closed")


class Refusing(Switch):
    """Refuses to remove an entry."""

    def change(self, xid, change):
        super().change(xid, change)
        if change.command == FlowCommand.DELETE_STRICT:
            self.send(messages.Error(FLOW_MOD_FAILED, EPERM, messages.encode(change, xid)[:64]), xid)


class OddRows(Switch):
    """Tells rows that are none."""

    def statistics(self, kind, data):
        return [bytes(7)]


def refused_undo(run):
    """A switch refuses what an undo sends: it is lost, and another one is served."""
    other = run.switch(2)
    one = run.switch(1, Refusing)
    one.miss(2, frame(2))
    run.awaits("lost 1")
    is_served(other, SLACK)
    due = ["event 3 packet_in 1", "turn app failed closed", "lost 1", "start app ready", "event 4 leave 1", "turn app done"]
    same(run.end()[5 : 5 + len(due)], due, "the report")


def odd_rows(run):
    """At the end a switch tells rows that are none: it is lost, and the rows of the other one are told."""
    run.switch(1, OddRows)
    run.switch(2)
    report = run.end()
    same([line for line in report if line.startswith(("lost", "switch"))], ["lost 1", "switch 2 flows 1"], "the report")


def starts_late(run):
    """The program of an application is there after three quarters of a second: the third attempt starts it."""
    time.sleep(0.75)
    put_program(run, 0o755)
    run.switch(1)
    same(run.lines()[:3], ["start app refused", "start app refused", "start app ready"], "the attempts")
    run.end()


def put_program(run, mode):
    """Writes the program that the policy names."""
    words = " ".join(python("misbehaving.py", run.path("pid")))
    with open(run.path("new"), "w", encoding="ascii") as file:
        file.write(f"#!/bin/sh\nexec {words}\n")
    os.chmod(run.path("new"), mode)
    os.rename(run.path("new"), run.path("program"))


def starts_never(run):
    """The attempts at a program that is not there are half a second apart, and what is wrong stands on standard error."""
    run.awaits("gone app")
    same(time.monotonic() - run.began >= 1, True, "a second lies between the first and the third attempt")
    said = "\n".join(run.written("errors"))
    same(bool(re.search(r"(?i)not found|no such file", said)), True, f"why it cannot start, in {said!r}")
    run.end()


def starts_never_for_want_of_permission(run):
    run.awaits("gone app")
    said = "\n".join(run.written("errors"))
    same(bool(re.search("(?i)permission", said)), True, f"why it cannot start, in {said!r}")
    run.end()


def starts_too_often(run):
    """An application that fails at once is not started again before half a second is over."""
    switch = run.switch(1)
    for _ in range(2):
        switch.miss(2, frame(2))
    run.awaits("start app ready", 2)
    began = time.monotonic()
    run.awaits("start app ready", 3)
    same(time.monotonic() - began >= 0.4, True, "half a second lies between two starts")
    run.end()


def own_errors(run):
    """What an application writes to its standard error stands on that of the controller."""
    switch = run.switch(1)
    switch.miss(2, frame(7))
    run.awaits("turn app failed closed")
    same([line for line in run.written("errors") if "on purpose" in line][-1:], ["RuntimeError: on purpose"], "its standard error")
    run.end()


def stranger(run, said, most=SECONDS):
    """A connection that says this and is closed; the trace has its port, and these are the words beside it."""
    link = socket.create_connection(("127.0.0.1", run.port), SECONDS)
    link.settimeout(most)
    own = f"127.0.0.1:{link.getsockname()[1]}"
    try:
        link.sendall(said)
        while link.recv(4096):
            pass
    except ConnectionError:
        pass
    lines = until(lambda: [line for line in run.written("errors") if own in line], f"a line of the trace with {own}", 2)
    return lines[-1].lower()


def features(dpid):
    return messages.encode(messages.Hello()) + messages.encode(messages.FeaturesReply(dpid), 0)


def strangers_are_traced(run):
    """Connections that are refused or closed before their join are lines of the trace, with the peer and the reason."""
    run.switch(1)
    same(any("listening at 127.0.0.1" in line and str(run.port) in line for line in run.written("errors")), True, "where it listens")
    for words, said in (
        ("version 4", b"\x04\x00\x00\x08\x00\x00\x00\x01" + b"\x04\x06\x00\x08\x00\x00\x00\x01"),
        ("taken", features(1)),
        ("garbage", b"\x01\x00\x00\x07\x00\x00\x00\x00"),
        ("late", b"GET / HTTP/1.1\r\n\r\n"),
        ("late", b""),
    ):
        line = stranger(run, said)
        same(words in line, True, f"{words!r} in {line!r}")


def one_too_many_is_traced(run):
    """So is the 65th switch."""
    switches = [run.switch(it) for it in range(1, 65)]
    line = stranger(run, features(65))
    same(bool(re.search("64|65|many|full", line)), True, f"the reason, in {line!r}")
    same([it.dpid for it in switches if it.closed], [], "switches that are closed")


def keys(count):
    return application("app", python("keys.py", str(count)))


TRACED = {"LEGOSDN_TRACE": "1"}
# A program that is built without proof keeps the memory that it has freed, unless it is told not to.
NOT_KEPT = {"ASAN_OPTIONS": "quarantine_size_mb=0"}

CASES = {
    "notices of a join that come behind its turn": Case(late_behind_a_turn, keys(JOINED_KEYS), 30),
    "notices of a join that come in its turn": Case(late_within_a_turn, keys(JOINED_KEYS), 30),
    "notices of a join that come behind its barrier": Case(late_behind_the_emptying, keys(JOINED_KEYS), 30),
    "notices of an undo that come late": Case(late_of_an_undo, keys(0), 30),
    "a notice of an entry that stands, and then somebody else deletes it": Case(told_of_an_entry_that_stands, keys(0), 30),
    "an entry that somebody else deletes in a change": Case(deleted_in_a_change, rounds=60),
    "an entry that somebody else deletes in a change that is undone": Case(deleted_in_a_failed_change, rounds=60),
    "an entry that somebody else deletes in an undo": Case(deleted_in_an_undo, rounds=60),
    "an entry that somebody else deletes in a release": Case(deleted_in_a_release, rounds=60),
    "an application that hangs": Case(hung_application, rounds=30),
    "an application that says bytes now and then": Case(bytes_now_and_then, rounds=30),
    "an application that says frames now and then": Case(frames_now_and_then, rounds=30),
    "a switch that says something now and then in place of a barrier's reply": Case(owed_in_a_change, rounds=30),
    "a switch that says something now and then in its join": Case(owed_in_a_join, rounds=30),
    "a flood of frames in place of a barrier's reply": Case(flood_of_frames, rounds=30),
    "a flood of errors in place of a barrier's reply": Case(flood_of_errors, rounds=30),
    "a flood of other replies in place of a barrier's reply": Case(flood_of_replies, rounds=30),
    "a flood of bytes in place of a barrier's reply": Case(flood_of_bytes, rounds=30, variables=NOT_KEPT),
    "a flood of bytes while another switch is awaited": Case(flood_beside, rounds=30, variables=NOT_KEPT),
    "a switch that refuses an undo": Case(refused_undo, rounds=30),
    "a switch that tells odd rows at the end": Case(odd_rows, rounds=30),
    "an application that starts late": Case(starts_late, application("app", ["ROOM/program"]), 60),
    "an application that is not there": Case(starts_never, application("app", ["/nowhere/program"]), 20),
    "an application that may not run": Case(starts_never_for_want_of_permission, application("app", ["/etc/passwd"]), 20),
    "an application that fails again and again": Case(starts_too_often, rounds=30),
    "what an application writes to its standard error": Case(own_errors, rounds=30),
    "strangers in the trace": Case(strangers_are_traced, rounds=MOST_ROUNDS, variables=TRACED),
    "one switch too many in the trace": Case(one_too_many_is_traced, rounds=MOST_ROUNDS, variables=TRACED),
}

# What the program does not pass yet.
NOT_YET = set()
